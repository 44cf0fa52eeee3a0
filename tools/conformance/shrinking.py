"""A difference made small: less in the tree, and one row."""
from judging import Case


def smaller_trees(tree):
    """Trees like this one with less in them, the smallest first: a part of it, or a part instead of
    a larger one."""
    for operand in tree.operands:
        yield operand
    for place, operand in enumerate(tree.operands):
        for part in operand.operands:
            if part.type == operand.type:
                yield with_operand(tree, place, part)
        for smaller in smaller_trees(operand):
            if smaller.type == operand.type:
                yield with_operand(tree, place, smaller)
    if tree.kind == "literal":
        simple = {"bool": [True], "utf8": ["", "a"]}.get(tree.type, [0, 1])
        for value in simple:
            if tree.value not in (*simple[:simple.index(value) + 1], None):
                yield type(tree)("literal", tree.type, (), value, tree.form)
        if tree.type == "utf8" and tree.value:
            for place in range(len(tree.value)):
                yield type(tree)("literal", tree.type, (), tree.value[:place] + tree.value[place + 1:], tree.form)


def with_operand(tree, place, operand):
    operands = list(tree.operands)
    operands[place] = operand
    return type(tree)(tree.kind, tree.type, tuple(operands), tree.value, tree.form)


def shrunk(ask, tree, table, write):
    """A smaller tree over one row of a table that still differs, and that table. `ask` returns the
    differences of a case, `write` the text of a tree."""
    def differs(tree, table):
        found = ask(Case(0, tree, write(tree)), table)
        return min((one.row for one in found), default=None)
    row = differs(tree, table)
    if row is None:
        return tree, table
    if len(table.rows) > 100:
        alone = table.only(tree.columns() or {table.columns[0].name}, [row])
        if differs(tree, alone) is None:
            # the difference depends on the rows before it, and running all of them takes long
            return tree, table
        table = alone
    for steps in range(400):
        alone = table.only(tree.columns() or {table.columns[0].name}, [row])
        if len(alone.rows) < len(table.rows) and differs(tree, alone) is not None:
            table, row = alone, 0
        for smaller in smaller_trees(tree):
            again = differs(smaller, table)
            if again is not None:
                tree, row = smaller, again
                break
        else:
            break
    return tree, table.only(tree.columns() or {table.columns[0].name})
