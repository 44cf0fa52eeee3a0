"""The C library instead of the program: called in this process, by the Python package of
bindings/python."""
import os
import sys

from engines import NOT_ASKED, TOP, Fault, Missing, Program, Refused, Told

# the library's error, by the name that the program has for it
FAULTS = {"checked add": "Arithmetic.Add", "checked sub": "Arithmetic.Sub", "checked mul": "Arithmetic.Mul", "checked div": "Arithmetic.Div"}


def as_csv(value):
    """A value as the program writes it."""
    if isinstance(value, bool):
        return "true" if value else "false"
    return str(value) if isinstance(value, int) else value


class Library(Program):
    """Expressions of the library over the columns of a table, without a file."""

    def __init__(self, prefix):
        os.environ["YURKIJE_PREFIX"] = os.path.abspath(prefix)
        sys.path.insert(0, TOP + "/bindings/python")
        try:
            import yurkije
        except ImportError as why:
            raise Missing(f"{why}: install python3-numpy, say tools/install {prefix}, and run this by Debian's Python, /usr/bin/python3") from None
        self.module, self.runs, self.version = yurkije, 0, yurkije.version() + " (the C library)"

    def read(self, texts, table):
        self.runs += 1
        types = {column.name: column.type + "?" * column.nullable for column in table.columns}
        try:
            return self.module.Expression(self.list_of(texts), types)
        except self.module.ExpressionError as refusal:
            raise Refused(4, f"rowfn_stream: {refusal.message}") from None

    @staticmethod
    def columns(table, rows):
        return {column.name: [row[place] for row in table.rows[:rows]] for place, column in enumerate(table.columns)}

    def ran(self, expression, table, rows):
        """The answers over the first rows of a table, each a list of values."""
        found = expression.run(self.columns(table, rows), rows)
        return [found.column(number).tolist() for number in range(len(found.answers))]

    def fault_of(self, refusal):
        """The name of a fault in a row, None for another error."""
        if isinstance(refusal, self.module.ArithmeticRefusal):
            return next((name for words, name in FAULTS.items() if refusal.message.endswith(words)), refusal.message)
        # E10: which answer, and the fault's own words
        return refusal.message.rpartition("): ")[2] if refusal.number == 10 else None

    def answers(self, texts, table, types):
        expression, rows = self.read(texts, table), len(table.rows)
        try:
            found = self.ran(expression, table, rows)
        except self.module.Error as refusal:
            name = self.fault_of(refusal)
            if name is None:
                raise Refused(1, f"rowfn_stream: {refusal.message}") from None
            after = [Fault(name)] + [NOT_ASKED] * (rows - refusal.row - 1)
            found = [column + after for column in self.ran(expression, table, refusal.row)]
        return [list(map(as_csv, column)) if name == "utf8" else column for name, column in zip(types, found)]

    def differ_in_picked(self, condition, true, other, values, table):
        """How select returns other rows than the true ones, and where another text differs in
        these."""
        try:
            numbers = self.read([condition], table).select(self.columns(table, None), rows=len(table.rows)).tolist()
            rows = table.only({column.name for column in table.columns}, numbers)
            found = self.ran(self.read([other], rows), rows, len(rows.rows))[0]
        except (Refused, self.module.Error) as refusal:
            yield 0, "the rows in which the text is true, by select", refusal, true
            return
        wanted = [values[row] for row in true]
        if numbers != true:
            yield 0, "the rows in which the text is true, by select", numbers, true
        elif found != wanted:
            yield 0, f"what {other!r} answers in the whole table, beside that in the rows of select", found, wanted

    def explained(self, texts, table):
        """The text and the type of each answer, as read and as run. The library does not print
        trees otherwise."""
        expression = self.read(texts, table)
        by_rules = [expression.text_of_answer(number, True) for number in range(len(texts))]
        return [Told(expression.text_of_answer(number, False), None, answer.type, text, None, answer.type)
                for number, (answer, text) in enumerate(zip(expression.answers, by_rules))]
