"""Lines of the table of calls: questions about instants with their answers, computed apart with python's datetime.

Each line is the answer, the word time, and the question in four words between tabs: what is asked, the instant in milliseconds, a count
of units, and a name or a pattern. Boundaries are found by going from day to day, or from unit to unit, until one is there.
"""
import datetime
import math
import random
from fractions import Fraction

EPOCH = datetime.datetime(1970, 1, 1)
FIRST = -62135596800000
LAST = 253370764799999
UNITS = "millisecond second minute hour day week month quarter year".split()
PARTS = "year quarter month date day hours minutes seconds milliseconds".split()
STEP = {"second": 1000, "minute": 60000, "hour": 3600000, "day": 86400000, "week": 86400000}
# the names of time units: the parts they keep, the smallest unit, the pattern
TIME_UNITS = {
    "year": ("Y", "year", "%Y"),
    "yearquarter": ("YQ", "quarter", "%Y Q%q"),
    "quarter": ("Q", "quarter", "Q%q"),
    "yearmonth": ("YM", "month", "%b %Y"),
    "month": ("M", "month", "%b"),
    "yearmonthdate": ("YMD", "day", "%b %d, %Y"),
    "monthdate": ("MD", "day", "%b %d"),
    "date": ("D", "day", "%d"),
    "day": ("W", "day", "%a"),
    "yearmonthdatehours": ("YMDh", "hour", "%b %d, %Y %H:00"),
    "hours": ("h", "hour", "%H:00"),
    "yearmonthdatehoursminutes": ("YMDhm", "minute", "%b %d, %Y %H:%M"),
    "hoursminutes": ("hm", "minute", "%H:%M"),
    "minutes": ("m", "minute", "00:%M"),
    "yearmonthdatehoursminutesseconds": ("YMDhms", "second", "%b %d, %Y %H:%M:%S"),
    "seconds": ("s", "second", ":%S"),
}
NAMES = [prefix + name for prefix in ("", "utc") for name in TIME_UNITS]
LETTERS = "YmdHIMSLbaBpq%"


def moment(ms):
    return EPOCH + datetime.timedelta(milliseconds=ms)


def milliseconds(t):
    return (t - EPOCH) // datetime.timedelta(milliseconds=1)


def floored(at):
    """The instant of a number of milliseconds, None out of range."""
    return math.floor(at) if FIRST <= at <= LAST else None


def is_boundary(ms, unit, n):
    if unit == "millisecond":
        return ms % n == 0
    t = moment(ms)
    if unit == "second":
        return t.microsecond == 0 and t.second % n == 0
    if unit == "minute":
        return t.microsecond == 0 and t.second == 0 and t.minute % n == 0
    if unit == "hour":
        return t.microsecond == 0 and t.second == 0 and t.minute == 0 and t.hour % n == 0
    if t.time() != datetime.time():
        return False
    if unit == "day":
        return (t.day - 1) % n == 0
    if unit == "week":
        return t.isoweekday() == 7
    if unit == "month":
        return t.day == 1 and (t.month - 1) % n == 0
    if unit == "quarter":
        return t.day == 1 and t.month in (1, 4, 7, 10) and (t.month - 1) // 3 % n == 0
    return t.day == 1 and t.month == 1 and t.year % n == 0


def firsts(unit, year):
    """The instants of a year at which a month, a quarter or the year begins."""
    months = {"month": range(1, 13), "quarter": (1, 4, 7, 10), "year": (1,)}[unit]
    return [milliseconds(datetime.datetime(year, month, 1)) for month in months]


def candidates(ms, unit, n, back):
    """Instants at which a unit begins: up to ms and then earlier ones, or those after ms."""
    if unit == "millisecond":
        at = ms // n * n
        yield at if back else at + n
    elif unit in STEP:
        step = STEP[unit]
        at = ms // step * step if back else ms // step * step + step
        while FIRST <= at <= LAST + 1:
            yield at
            at += -step if back else step
    else:
        years = range(moment(ms).year, 0, -1) if back else range(moment(ms).year, 10000)
        for year in years:
            yield from (at for at in sorted(firsts(unit, year), reverse=back) if (at <= ms if back else ms < at <= LAST + 1))


def boundary(at, unit, n, back):
    ms = floored(at)
    if ms is None:
        return "none"
    for b in candidates(ms, unit, n, back):
        if FIRST <= b <= LAST + 1 and is_boundary(b, unit, n):
            return str(b)
    return str(FIRST) if back else "none"


def part(at, name):
    ms = floored(at)
    if ms is None:
        return "none"
    t = moment(ms)
    return str({
        "year": t.year, "quarter": (t.month + 2) // 3, "month": t.month - 1, "date": t.day, "day": t.isoweekday() % 7,
        "hours": t.hour, "minutes": t.minute, "seconds": t.second, "milliseconds": t.microsecond // 1000,
    }[name])


def span(at, name):
    ms = floored(at)
    if ms is None:
        return "none"
    t = moment(ms)
    kept, smallest, _ = TIME_UNITS[name.removeprefix("utc")]
    month = t.month if "M" in kept else {1: 1, 2: 4, 3: 7, 4: 10}[(t.month + 2) // 3] if "Q" in kept else 1
    day = t.day if "D" in kept else 1 + t.isoweekday() % 7 if "W" in kept else 1
    start = datetime.datetime(
        t.year if "Y" in kept else 2012, month, day,
        t.hour if "h" in kept else 0, t.minute if "m" in kept else 0, t.second if "s" in kept else 0,
    )
    return f"{milliseconds(start)} {boundary(milliseconds(start), smallest, 1, False)}"


def label(at, pattern):
    pieces = []
    letters = iter(pattern)
    for c in letters:
        if c == "%":
            c = next(letters, "")
            if not c or c not in LETTERS:
                return "no pattern"
            pieces.append("%" + c)
        else:
            pieces.append(c)
    ms = floored(at)
    if ms is None:
        return "no instant"
    t = moment(ms)
    own = {
        "%Y": f"{t.year:04}", "%L": f"{t.microsecond // 1000:03}", "%q": str((t.month + 2) // 3), "%%": "%",
        "%m": f"{t.month:02}", "%d": f"{t.day:02}", "%H": f"{t.hour:02}", "%M": f"{t.minute:02}", "%S": f"{t.second:02}",
        "%p": t.strftime("%p"), "%I": t.strftime("%I"), "%b": t.strftime("%b"), "%B": t.strftime("%B"), "%a": t.strftime("%a"),
    }
    return "".join(own.get(piece, piece) for piece in pieces)


def is_pattern(text):
    return "yes" if "%" in text and label(0, text) != "no pattern" else "no"


def decimal(at):
    whole, rest = divmod(abs(int(at * 10**6)), 10**6)
    return ("-" if at < 0 else "") + str(whole) + (f".{rest:06}".rstrip("0") if rest else "")


LINES = []


def ask(asked, at, n, name):
    answer = {
        "truncate": lambda: boundary(at, name, n, True),
        "next": lambda: boundary(at, name, n, False),
        "part": lambda: part(at, name),
        "span": lambda: span(at, name),
        "label": lambda: label(at, name),
        "pattern": lambda: is_pattern(name),
    }[asked]()
    LINES.append(f"{answer}\ttime\t{asked}\t{decimal(at)}\t{n}\t{name}")


def ask_all(at):
    """Every unit, part and time unit at an instant."""
    for unit in UNITS:
        ask("truncate", at, 1, unit)
        ask("next", at, 1, unit)
    for name in PARTS:
        ask("part", at, 1, name)
    for name in NAMES:
        ask("span", at, 1, name)


def at(*parts):
    return milliseconds(datetime.datetime(*parts))


HALF = Fraction(1, 2)
DAY = 86400000
EDGES = [
    FIRST - 1, FIRST - HALF, FIRST, FIRST + HALF, FIRST + 1, FIRST + 6 * DAY - 1, FIRST + 6 * DAY, FIRST + 31 * DAY - 1,
    LAST - DAY, LAST - 1, LAST - HALF, LAST, LAST + HALF, LAST + 1,
    -1, -HALF, 0, HALF, 1, 999, 1000, 59999, 60000, 3599999, 3600000, DAY - 1, DAY,
    at(2024, 2, 29), at(2024, 2, 29, 13), at(2024, 2, 28) + DAY - 1, at(2024, 3, 1), at(2024, 3, 1) - 1,
    at(2000, 2, 29, 23, 59, 59, 999000), at(1900, 2, 28, 23, 59, 59, 999000), at(2100, 3, 1), at(2023, 2, 28, 12),
    at(2024, 2, 25), at(2024, 2, 25) - 1, at(2024, 12, 29), at(2023, 12, 31), at(2024, 1, 7, 0, 0, 0, 1000),
    at(2012, 1, 1), at(2012, 1, 1) - 1, at(2024, 1, 31, 23, 59, 59, 999000), at(2024, 4, 1) - 1, at(2024, 12, 31, 23, 59, 59, 999000),
    at(2024, 5, 6, 7, 8, 9, 10000), at(9998, 12, 31), at(9998, 12, 27), at(9998, 12, 26), at(9998, 2, 28), at(1, 1, 7), at(1, 2, 1),
]
for edge in EDGES:
    ask_all(edge)
for edge in (FIRST, FIRST + 1, at(2024, 2, 29, 13, 47, 31, 123000), at(2023, 12, 31, 23, 59, 59, 999000), -1, LAST):
    for n in range(1, 13):
        for unit in UNITS:
            if unit != "week":
                ask("truncate", edge, n, unit)
                ask("next", edge, n, unit)
for n in (13, 24, 30, 31, 32, 59, 60, 61, 100, 400, 1000, 4999, 5000, 9999, 10000, 86400001, 4294967295):
    for unit in UNITS:
        if unit != "week":
            for edge in (FIRST, at(2024, 2, 29, 13, 47, 31, 123000), -1, LAST):
                ask("truncate", edge, n, unit)
                ask("next", edge, n, unit)

CLOCK = [at(2024, 3, 5, h, 4, 7, 9000) for h in range(24)]
MONTHS = [at(2023, m, m + 3) for m in range(1, 13)]
for edge in [FIRST, LAST, -1, 0, *CLOCK, at(2024, 2, 29), *MONTHS, *(at(2024, 2, d) for d in range(4, 11))]:
    for letter in LETTERS:
        ask("label", edge, 1, f"%{letter}")
for letter in map(chr, range(32, 127)):
    if letter not in LETTERS:
        for edge in (0, LAST + 1):
            ask("label", edge, 1, f"%Y %{letter}")
            ask("label", edge, 1, f"%{letter} %Y")
        ask("pattern", 0, 1, f"%Y%{letter}")
for pattern in [
    "", "%", "%%", "%%%", "%%%%", "100%", "%Y%", "%é", "é%Yé", "日本 %d", "%日", "%%Y", "%%%Y", "plain", "%Y-%m-%dT%H:%M:%S.%LZ",
    "%b %d, %Y", "%I:%M %p", "%a %B %q", "Q%q", "%Y Q%q", "%Q", "% Y", "%-d", *(rule[2] for rule in TIME_UNITS.values()),
]:
    for edge in (0, at(2024, 2, 29, 13), at(2024, 2, 29, 12), at(2024, 2, 29, 0, 30), LAST, LAST + HALF, FIRST - 1):
        ask("label", edge, 1, pattern)
    ask("pattern", 0, 1, pattern)

random.seed(20)
for _ in range(2000):
    edge = random.randint(FIRST, LAST) if random.random() < 0.5 else random.randint(at(1900, 1, 1), at(2100, 1, 1))
    if random.random() < 0.2:
        edge = edge // DAY * DAY
    if random.random() < 0.1:
        edge += Fraction(random.randint(0, 999999), 1000000)
    unit = random.choice(UNITS)
    n = 1 if unit == "week" else random.randint(1, 12)
    ask("truncate", edge, n, unit)
    ask("next", edge, n, unit)
    ask("span", edge, 1, random.choice(NAMES))
    ask("label", edge, 1, " ".join("%" + random.choice(LETTERS) for _ in range(4)))
