"""Functions and forms of docs/EXPRESSIONS.md over values of kinds, drawn for `types`: roundings of floats, quotients of decimals,
parts, names, formats and differences of dates and timestamps, intervals with their unit behind, casts without digits."""

PLACES = (0, 1, 2, 2, 2, 3, 5)
# the parts by the names of functions; each is also extract's and date_part's, but for the last three
PART_FUNCTIONS = ("year", "quarter", "month", "week", "day", "dow", "isodow", "doy", "hour", "minute", "second", "milliseconds",
                  "microseconds", "epoch", "dayofmonth", "dayofyear", "weekofyear")
UNITS = ("year", "month", "week", "day", "hour", "minute", "second")
# Items of formats; those of the second row are read by to_date and to_timestamp too.
WRITTEN = ("YY", "Month", "FMMonth", "MONTH", "month", "Day", "FMDay", "DAY", "Dy", "dy", "DDD", "FMDDD", "Q", "D", "ID", "IW", "IYYY", "FMDD",
           "FMMM", "HH24", "MI", "SS", "MS", "US", "HH12", "HH", "AM", "pm", "FMHH12", '"T"', '"of the year"')
READ = ("DD/MM/YYYY", "YYYY-MM-DD", "YYYYMMDD", "DD-Mon-YYYY", "FMMonth DD, YYYY", "DD.MM.YYYY", "YYYY/MM/DD", "MON DD YYYY")
TIMES = (" HH24:MI:SS.US", '"T"HH24:MI:SS.MS', " HH12:MI:SS AM", " HH24MISS", " HH:MI PM")


class KindCalls:
    """Draws texts; a part of the Maker of `types`, which has rng, call and the other kinds."""

    def rounded_float(self, depth):
        """A float that is rounded, with places or without, or whose sign or root is taken."""
        rng = self.rng
        inner = rng.choice((lambda: self.float(depth - 1), lambda: self.float(0), lambda: rng.choice("nk")))()
        name = rng.choice(("round", "round", "trunc", "floor", "ceil", "ceiling", "sqrt", "sign", "abs"))
        if inner in ("n", "k") and name in ("sign", "abs"):
            name = "sqrt"
        if name in ("round", "trunc") and rng.random() < 0.5:
            return self.call(f"{name}({inner}, {rng.choice(PLACES)})")
        return self.call(f"{name}({inner})")

    def other_float(self, depth):
        """A float that is a quotient of decimals, comes of a decimal or of a text, or is cast by another name of its type."""
        rng = self.rng
        decimal = lambda: self.decimal(depth - 1)[0]
        divisor = lambda: rng.choice((decimal, self.number_literal, lambda: rng.choice("nk")))()
        return self.call(rng.choice((
            lambda: f"({decimal()} / {divisor()})", lambda: f"({decimal()} / {divisor()})", lambda: f"({rng.choice('nk')} / {decimal()})",
            lambda: f"{rng.choice(('sqrt', 'sign'))}({decimal()})",
            lambda: f"({self.float(depth - 1)}::text::{rng.choice(('f64', 'float8'))})",
            lambda: f"cast({rng.choice(('n', 'k', decimal()))} as {rng.choice(('f64', 'double', 'float'))})",
            lambda: f"(extract(epoch from {self.elapsed()}) / {rng.choice(('60', '3600.0', 'k'))})"))())

    def numeric_rounding(self):
        """A float that is rounded as a numeric, whose digits PostgreSQL keeps to 15; or a text that is a numeric without digits."""
        rng = self.rng
        word = rng.choice(("round", "trunc"))
        return self.call(rng.choice((f"{word}({self.float(rng.choice((0, 0, 1)))}::numeric, {rng.choice(PLACES)})",) * 4 + ("(said::numeric)",)))

    def whole_decimal(self, depth):
        """A decimal of a cast without digits, and its scale."""
        inner, scale = self.decimal(depth - 1)
        return self.rng.choice((("(n::numeric)", 0), ("cast(k as decimal)", 0), (f"({inner}::numeric)", scale), (f"cast({inner} as numeric)", scale)))

    def float_as_decimal(self):
        """A decimal that a cast makes of a float, and its scale."""
        places = self.rng.randrange(5)
        if self.rng.random() < 0.3:
            return f"try_cast({self.rng.choice('xy')} as decimal({self.rng.randrange(6, 19)},{places}))", places
        return f"({self.float(self.rng.choice((0, 1)))}::decimal({self.rng.randrange(9, 19)},{places}))", places

    def moment(self, depth=1):
        return self.rng.choice((self.date, self.timestamp))(depth)

    def months(self):
        rng = self.rng
        return rng.choice((f"'{rng.randrange(1, 40)} months'", "'1 year 6 months'", f"'-{rng.randrange(1, 9)} years'", f"'{rng.randrange(1, 30)}' {rng.choice(('month', 'year', 'months'))}",
                           f"{rng.randrange(1, 30)} {rng.choice(('month', 'years'))}"))

    def unit_behind(self, units=UNITS[2:]):
        rng = self.rng
        number, unit = rng.randrange(1, 100), rng.choice(units)
        return rng.choice((f"'{number}' {unit}", f"'{number}' {unit}s", f"{number} {unit}", f"{number} {unit}s"))

    def fractions(self):
        """An interval of parts of hours, minutes and seconds, or one that is negative by its last word."""
        rng = self.rng
        return rng.choice((f"{rng.randrange(40)}.{rng.choice((5, 25, 75))} {rng.choice(('hours', 'minutes'))}", f"{rng.randrange(99)}.{rng.randrange(1000):03} seconds",
                           f"{rng.randrange(1, 9)} days {rng.randrange(60)} minutes ago", f"{rng.randrange(1, 30)} days ago", "1 day 02:30:00"))

    def other_date(self, depth):
        rng = self.rng
        written = rng.choice(READ)
        return self.call(rng.choice((
            lambda: f"last_day({self.moment(depth - 1)})",
            lambda: f"({self.date(depth - 1)} {rng.choice('+-')} interval {self.months()})::date",
            lambda: f"({self.date(depth - 1)} {rng.choice('+-')} interval {self.unit_behind(('week', 'day'))})::date",
            lambda: f"{rng.choice(('to_date', 'try_to_date'))}(to_char({rng.choice(('day', 'other', 'at'))}, '{written}'), '{written}')",
            lambda: f"{rng.choice(('to_date', 'try_to_date'))}(dated, 'YYYY-MM-DD')",
            lambda: f"{rng.choice(('ifnull', 'nvl'))}({self.date(depth - 1)}, {self.date(0)})",
            lambda: f"{rng.choice(('if', 'iif'))}(n > k, {self.date(depth - 1)}, {rng.choice((self.date(0), 'null::date'))})"))())

    def other_timestamp(self, depth):
        rng = self.rng
        written = rng.choice(READ) + rng.choice(TIMES)
        return self.call(rng.choice((
            lambda: f"({self.timestamp(depth - 1)} {rng.choice('+-')} interval {self.months()})",
            lambda: f"({self.timestamp(depth - 1)} {rng.choice('+-')} interval {self.unit_behind()})",
            lambda: f"({self.timestamp(depth - 1)} {rng.choice('+-')} '{self.fractions()}'::interval)",
            lambda: f"{rng.choice(('to_timestamp', 'try_to_timestamp'))}(to_char({rng.choice(('at', 'since', 'day'))}, '{written}'), '{written}')",
            lambda: f"{rng.choice(('if', 'iif'))}(n > k, {self.timestamp(depth - 1)}, since)"))())

    def elapsed(self):
        """A difference of timestamps, which is no answer."""
        rng = self.rng
        other = rng.choice((lambda: self.timestamp(1), lambda: self.timestamp(0), lambda: self.date(0), lambda: "'2024-03-01'", lambda: "'2001-02-03 04:05'"))
        return f"{self.timestamp(rng.choice((0, 1)))} - {other()}"

    def seconds(self):
        """Of a difference its seconds, a decimal(18,6), or its days."""
        elapsed = self.elapsed()
        return self.call(self.rng.choice((f"extract(epoch from {elapsed})", f"epoch({elapsed})", f"extract(day from {elapsed})")))

    def elapsed_test(self):
        """A comparison of differences."""
        rng = self.rng
        right = rng.choice((lambda: f"interval '{self.length()}'", lambda: f"interval {self.unit_behind()}", self.elapsed))()
        pair = [self.elapsed(), right]
        rng.shuffle(pair)
        return f"({pair[0]} {rng.choice(('=', '<>', '<', '<=', '>', '>='))} {pair[1]})"

    def truth_cast(self):
        """A truth value that a cast makes of a literal or of a number."""
        return self.rng.choice(("(k::boolean)", "('t'::boolean)", "cast('no' as boolean)", "(1::boolean)"))

    def other_part(self):
        rng = self.rng
        name, moment = rng.choice(PART_FUNCTIONS), self.moment()
        if name in PART_FUNCTIONS[-3:] or rng.random() < 0.4:
            return f"{name}({moment})"
        if name in PART_FUNCTIONS[8:] and rng.random() < 0.5:
            moment = self.timestamp(1)
        if name == "epoch":
            # PostgreSQL's extract has its fraction
            return f"date_part('epoch', {moment})"
        return rng.choice((f"extract('{name}', {moment})", f"date_part('{name}', {moment})", f"extract({name} from {self.timestamp(1)})"))

    def difference_of_days(self):
        rng = self.rng
        name, a, b = rng.choice(("datediff", "date_diff")), self.moment(), self.moment()
        return self.call(f"{name}({rng.choice(('', chr(39) + 'day' + chr(39) + ', '))}{a}, {b})")

    def format(self):
        """A format for to_char: up to four items with signs between them."""
        rng = self.rng
        items = [rng.choice(WRITTEN) for _ in range(rng.randrange(1, 5))]
        return rng.choice((rng.choice("-/:., ").join(items), " ".join(items), rng.choice(READ)))

    def date_words(self):
        """A text that a date or a timestamp makes."""
        rng = self.rng
        moment = rng.choice(("day", "other", "at", "since"))
        return self.call(rng.choice((lambda: f"to_char({moment}, '{self.format()}')", lambda: f"to_char({moment}, '{self.format()}')",
                                     lambda: f"{rng.choice(('dayname', 'monthname'))}({self.moment()})"))())

    def cut_words(self):
        """A text that is cut to a size, or is tested or searched."""
        rng = self.rng
        value = rng.choice((lambda: self.words(1), lambda: rng.choice(("day", "price", "n", "word", "said"))))()
        size = rng.randrange(1, 9)
        return self.call(rng.choice((f"({value}::varchar({size}))", f"cast({value} as varchar({size}))")))

    def found(self):
        """Whether a text stands in another one, and where."""
        rng = self.rng
        s = rng.choice((self.words(1), "word", "word"))
        t = rng.choice((self.words(0), "'a'", "'t'", "''", f"left(word, {rng.randrange(1, 4)})", f"right(word, {rng.randrange(1, 4)})"))
        return self.call(rng.choice((f"contains({s}, {t})", f"ends_with({s}, {t})", f"startswith({s}, {t})", f"position({t} in {s})", f"locate({t}, {s})", f"len({s})")))

    def numeric_test(self):
        """A float that is rounded as a numeric, compared with what its halves become."""
        rng = self.rng
        return f"({self.numeric_rounding()} {rng.choice(('=', '<>', '<', '>='))} {rng.choice(('2.68', '1.01', '0.13', '12.35', '0.29', '1.12', '3', '0.1'))})"

    def number_sum(self):
        """A sum, a difference or a product of two numbers, one of them with a point: one number, exactly."""
        rng = self.rng
        one, other = f"{rng.randrange(100)}.{rng.randrange(100):02}", rng.choice((f"0.{rng.randrange(1000):03}", str(rng.randrange(100))))
        pair = [one, other]
        rng.shuffle(pair)
        return f"({pair[0]} {rng.choice('+-*')} {pair[1]})"
