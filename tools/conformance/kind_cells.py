"""The columns of `types`, and what their cells are."""
import math
from decimal import Decimal

# name, kind here, type there, and what makes a cell
DECIMALS = {"price": (12, 2), "rate": (9, 4), "units": (9, 0), "tiny": (9, 9)}


def decimal_cell(rng, precision, scale):
    digits = rng.choice((1, 2, precision - 1, precision))
    number = rng.choice((0, 1, -1, 10**min(scale, precision - 1), rng.randrange(10**digits), -rng.randrange(10**digits)))
    return f"{Decimal(number).scaleb(-scale):.{scale}f}"


def date_cell(rng):
    return rng.choice(("1970-01-01", "2000-02-29", "1900-02-28", "1999-12-31", "2024-02-29",
                       f"{rng.randrange(1, 9999):04}-{rng.randrange(1, 13):02}-{rng.randrange(1, 29):02}"))


def timestamp_cell(rng):
    micros = rng.choice(("", ".5", ".000001", f".{rng.randrange(10**6):06}"))
    return f"{date_cell(rng)}T{rng.randrange(24):02}:{rng.randrange(60):02}:{rng.randrange(60):02}{micros}"


# Floats that are halfway, by their digits, or nearly, and some at the ends of what has places
HALVES = (2.675, 1.005, 0.285, 1.115, 12.345, 0.125, 2.5, -2.5, 0.5, -0.5, 1.5, 0.29, 0.49999999999999994, 4503599627370497.5, 2251799813685249.25, 1234567890123.455, 0.005, 99999999999999.95)


def near_half(rng):
    """A float that is halfway between two whole numbers, or the next one on either side; its digits may be more than 15."""
    half = rng.choice((rng.randrange(-99, 99), rng.randrange(-10**6, 10**6), rng.randrange(10**13, 10**15))) + 0.5
    return rng.choice((half, math.nextafter(half, math.inf), math.nextafter(half, -math.inf)))


def float_cell(rng):
    number = rng.choice((0.0, 1.0, -1.0, 0.1, 1.5, 1e300, -1e300, 1e-300, 5e-324, 2.0**53, float(rng.randrange(-99, 99)), rng.gauss(0, 100), rng.choice(HALVES), rng.choice(HALVES), rng.choice(HALVES), near_half(rng), near_half(rng),
                         rng.randrange(-10**6, 10**6) / 1000 + 0.005, rng.randrange(-10**7, 10**7) / 10**rng.randrange(1, 6), rng.uniform(-1, 1) * 10**rng.randrange(-4, 19)))
    return rng.choice(("NaN", "inf", "-inf", repr(number), repr(number), repr(number)))


def integer_cell(rng):
    return str(rng.choice((0, 1, -1, 2, 7, rng.randrange(-1000, 1000))))


# Texts without blanks that casts read, among them some of no kind.
NUMBERS = ("0", "7", "-7", "12.5", "-0.05", "1e2", ".5", "5.", "+3", "007", "-0", "x", "1,5", "12.505", "--1", "99999999999", "9223372036854775808", "nan", "-inf", "1e308")
DAYS = ("2024/02/29", "2024-02-29", "2023-02-29", "1900-02-29", "1999-12-31", "0001-01-01", "9999-12-31", "2024-13-01", "2024-00-10", "x", "7")
TIMES = ("2024-02-29T12:34:56", "1969-12-31T23:59:59.999999", "2024-02-29T25:00:00", "2000-01-01T00:00:00.5", "2000-01-01T00:00:00Z", "x")
# No letters past ASCII that have a case: PostgreSQL leaves these as they are in the locale C.
WORDS = ("a", "nut", "Bolt", "ab-cd", "UPPER", "e", "x_y", "a1b", "日本", "1st-2ND")
# Texts that PostgreSQL's numeric takes: here a decimal has digits and a point alone.
NO_DECIMALS = ("nan", "1e2", "1e308")
# Texts that PostgreSQL reads by the format YYYY-MM-DD, and none here.
NO_FORMAT = ("7", "2024/02/29", "2024-00-10")


def text_cell(texts):
    return lambda rng: rng.choice(texts)


COLUMNS = {
    **{name: (f"decimal({p},{s})", f"numeric({p},{s})", lambda rng, p=p, s=s: decimal_cell(rng, p, s)) for name, (p, s) in DECIMALS.items()},
    "day": ("date", "date", date_cell), "other": ("date", "date", date_cell),
    "at": ("timestamp", "timestamp", timestamp_cell), "since": ("timestamp", "timestamp", timestamp_cell),
    "x": ("f64", "float8", float_cell), "y": ("f64", "float8", float_cell),
    "n": ("i64", "bigint", integer_cell), "k": ("i32", "integer", integer_cell),
    "said": ("utf8", "text", text_cell(NUMBERS)), "dated": ("utf8", "text", text_cell(DAYS)),
    "timed": ("utf8", "text", text_cell(TIMES)), "word": ("utf8", "text", text_cell(WORDS)),
}


UNITS = ("year", "quarter", "month", "week", "day")
PARTS = ("year", "quarter", "month", "week", "day", "dow", "isodow", "doy")
