"""Lines of the table of calls: questions about steps, nice domains, ticks and labels, with their answers, computed apart.

Each line is the answer, the word tick, and the question in four words between tabs: what is asked, two numbers, and a count. Steps are
found with fractions from the power of ten below the spacing; boundaries by going over every unit of a domain with python's datetime.
"""
import datetime
import math
import random
from fractions import Fraction

LIMIT = 10**15
UNIT = Fraction(1, 10**6)
EPOCH = datetime.datetime(1970, 1, 1)
FIRST = -62135596800000
LAST = 253370764799999
SECOND, MINUTE, HOUR, DAY = 1000, 60000, 3600000, 86400000
YEAR = 365 * DAY
INTERVALS = (
    [(SECOND * n, "second", n) for n in (1, 5, 15, 30)]
    + [(MINUTE * n, "minute", n) for n in (1, 5, 15, 30)]
    + [(HOUR * n, "hour", n) for n in (1, 3, 6, 12)]
    + [(DAY, "day", 1), (2 * DAY, "day", 2), (7 * DAY, "week", 1), (30 * DAY, "month", 1), (90 * DAY, "month", 3), (YEAR, "year", 1)]
)


def step(span, count):
    """The step of a span, out of range or not."""
    e = Fraction(span) / count
    p = Fraction(1)
    while p * 10 <= e:
        p *= 10
    while p > e:
        p /= 10
    for times, least in ((10, "7.071068"), (5, "3.162278"), (2, "1.414214")):
        if e >= p * Fraction(least):
            return max(times * p, UNIT)
    return max(p, UNIT)


def step_of(lo, hi, count):
    s = step(hi - lo, count)
    return s if s <= LIMIT else None


def nice(lo, hi, count):
    if lo == hi:
        return lo, hi
    for _ in range(10):
        s = step_of(lo, hi, count)
        if s is None:
            return None
        wider = math.floor(lo / s) * s, math.ceil(hi / s) * s
        if not -LIMIT <= wider[0] <= wider[1] <= LIMIT:
            return None
        if wider == (lo, hi):
            break
        lo, hi = wider
    return lo, hi


def ticks(lo, hi, count):
    if lo == hi:
        return [lo]
    s = step_of(lo, hi, count)
    if s is None:
        return None
    return [k * s for k in range(math.ceil(lo / s), math.floor(hi / s) + 1)]


def interval(lo, hi, count):
    t = Fraction(hi - lo) / count
    if t < SECOND:
        return "millisecond", int(max(step(hi - lo, count), 1))
    if t >= YEAR:
        return "year", int(max(step(Fraction(hi - lo) / YEAR, count), 1))
    for a, b in zip(INTERVALS, INTERVALS[1:]):
        if a[0] <= t < b[0]:
            return (a if t * t < a[0] * b[0] else b)[1:]
    raise ValueError


def moment(ms):
    return EPOCH + datetime.timedelta(milliseconds=ms)


def milliseconds(t):
    return (t - EPOCH) // datetime.timedelta(milliseconds=1)


def boundaries(lo, hi, unit, n):
    """Every boundary from lo to hi."""
    low, high = math.ceil(lo), math.floor(hi)
    if unit in ("millisecond", "second", "minute", "hour"):
        length = {"millisecond": 1, "second": SECOND, "minute": MINUTE, "hour": HOUR}[unit]
        for at in range(-(-low // length) * length, high + 1, length):
            t = moment(at)
            field = {"millisecond": at, "second": t.second, "minute": t.minute, "hour": t.hour}[unit]
            if field % n == 0:
                yield at
    elif unit in ("day", "week"):
        for at in range(-(-low // DAY) * DAY, high + 1, DAY):
            t = moment(at)
            if (t.day - 1) % n == 0 if unit == "day" else t.isoweekday() == 7:
                yield at
    else:
        for year in range(moment(max(low, FIRST)).year, 10000):
            for month in range(1, 13) if unit == "month" else (1,):
                at = milliseconds(datetime.datetime(year, month, 1))
                if low <= at <= high and ((month - 1) if unit == "month" else year) % n == 0:
                    yield at


def times(lo, hi, count):
    return [lo] if lo == hi else list(boundaries(lo, hi, *interval(lo, hi, count)))


def time_label(at):
    t = moment(math.floor(at))
    if t.microsecond:
        return f".{t.microsecond // 1000:03}"
    if t.second:
        return f":{t.second:02}"
    if t.minute:
        return f"{(t.hour + 11) % 12 + 1:02}:{t.minute:02}"
    if t.hour:
        return f"{(t.hour + 11) % 12 + 1:02} {'AM' if t.hour < 12 else 'PM'}"
    if t.day != 1:
        return f"{t.strftime('%b' if t.isoweekday() == 7 else '%a')} {t.day:02}"
    return t.strftime("%B") if t.month != 1 else f"{t.year:04}"


def number_label(v, decimals):
    units = math.floor(Fraction(v) * 10**decimals + Fraction(1, 2))
    whole, rest = divmod(abs(units), 10**decimals)
    return ("\u2212" if units < 0 else "") + f"{whole:,}" + (f".{rest:0{decimals}}" if decimals else "")


def decimals(v):
    return next(d for d in range(7) if (Fraction(v) * 10**d).denominator == 1)


def decimal(v):
    count = int(v * 10**6)
    assert Fraction(v) * 10**6 == count
    whole, rest = divmod(abs(count), 10**6)
    return ("-" if count < 0 else "") + str(whole) + (f".{rest:06}".rstrip("0") if rest else "")


def said(numbers):
    return "[ " + "".join(decimal(v) + " " for v in numbers) + "]"


LINES = []


def ask(asked, first, second, count):
    first, second = Fraction(first), Fraction(second)
    if asked == "step":
        answer = step_of(first, second, count)
        answer = "none" if answer is None else decimal(answer)
    elif asked == "nice":
        answer = nice(first, second, count)
        answer = "none" if answer is None else " ".join(map(decimal, answer))
    elif asked == "ticks":
        answer = ticks(first, second, count)
        answer = "overflow" if answer is None else said(answer)
    elif asked == "times":
        answer = said(times(first, second, count))
    elif asked == "labels":
        answer = "[ " + "".join(time_label(at) + " | " for at in times(first, second, count)) + "]"
    elif asked == "label":
        answer = number_label(first, count)
    elif asked == "decimals":
        answer = str(decimals(first))
    else:
        answer = time_label(first)
    LINES.append(f"{answer}\ttick\t{asked}\t{decimal(first)}\t{decimal(second)}\t{count}")


def ask_domain(lo, hi, count):
    for asked in ("step", "nice", "ticks") if lo < hi else ("nice", "ticks"):
        ask(asked, lo, hi, count)


def at(*parts):
    return milliseconds(datetime.datetime(*parts))


random.seed(7)

ask("step", 0, 55, 10)
ask("nice", 0, 43, 10)
ask("ticks", 0, 12, 8)
ask("ticks", 0, 4, 2)
ask("label", 1234567, 0, 0)
ask("label", Fraction(-1, 2), 0, 1)
ask_domain(7, 7, 10)

# each threshold, and a millionth of the span below and above it, at every power of ten in range
for count in (1, 3, 10, 1000):
    for power in range(-6, 16):
        for threshold in (1414214, 3162278, 7071068):
            span = Fraction(threshold, 10**6) * Fraction(10) ** power * count
            for near in (span - UNIT, span, span + UNIT):
                near = Fraction(math.ceil(near * 10**6), 10**6)
                if 0 < near <= 2 * LIMIT:
                    lo = -near / 2 if near > LIMIT else 0
                    lo = Fraction(math.floor(lo * 10**6), 10**6)
                    ask("step", lo, lo + near, count)
for lo, hi in (
    (-LIMIT, LIMIT), (-LIMIT, 0), (0, LIMIT), (LIMIT - 1, LIMIT), (LIMIT - UNIT, LIMIT), (-LIMIT, -LIMIT + UNIT), (LIMIT, LIMIT),
    (-LIMIT, -LIMIT), (-LIMIT, LIMIT - UNIT), (-LIMIT + 3, LIMIT - 7), (0, UNIT), (-UNIT, UNIT), (Fraction(11, 10), Fraction(19, 10)),
    (Fraction(-19, 10), Fraction(-11, 10)), (Fraction(1, 3) // UNIT * UNIT, Fraction(2, 3) // UNIT * UNIT), (-1, 1), (-3, 3), (0, 0),
    (-707106781186547, 707106781186548), (Fraction(141421399999999, 1), LIMIT),
):
    for count in (1, 2, 5, 10):
        ask_domain(Fraction(lo), Fraction(hi), count)
    if lo < hi:
        ask("step", lo, hi, 1000)
        ask("nice", lo, hi, 1000)
ask("ticks", -7, 13, 1000)
ask("ticks", 0, UNIT * 999, 1000)
for _ in range(600):
    size = 10 ** random.randint(0, 21)
    lo = Fraction(random.randint(-size, size), 10**6)
    width = 10 ** random.randint(0, 21)
    hi = min(lo + Fraction(random.randint(0, width), 10**6), Fraction(LIMIT))
    ask_domain(lo, hi, random.choice([1, 2, 3, 5, 8, 10, 10, 10, 40]))

for v in (0, 1, -1, 9, 10, 99, 100, 999, 1000, 9999, 12345, 99999, 100000, 999999, 1000000, 10**9, LIMIT, -LIMIT, LIMIT - UNIT, UNIT, -UNIT):
    for d in range(7):
        ask("label", v, 0, d)
    ask("decimals", v, 0, 0)
for v in ("0.5", "-0.5", "0.4", "-0.6", "1.5", "-1.5", "999.5", "-999.5", "999999.95", "0.05", "-0.05", "-0.000001", "0.05", "123.456789", "1.005"):
    for d in range(7):
        ask("label", Fraction(v), 0, d)
    ask("decimals", Fraction(v), 0, 0)
for _ in range(500):
    size = 10 ** random.randint(0, 21)
    v = Fraction(random.randint(-size, size), 10 ** random.randint(0, 6))
    v = Fraction(math.floor(v * 10**6), 10**6)
    if abs(v) <= LIMIT:
        ask("label", v, 0, random.randint(0, 6))
        ask("decimals", v, 0, 0)

for asked in ("times", "labels"):
    ask(asked, 1706745600000, 1714521600000, 5)
    ask(asked, at(2024, 2, 28), at(2024, 3, 2), 3)
    ask(asked, 0, 1000, 5)
    ask(asked, 500, 500, 5)
    ask(asked, Fraction(1, 2), Fraction(1, 2), 5)
# each place where the choice changes, and around it
STARTS = [0, at(2024, 2, 27, 23, 59, 59, 999000), at(1999, 12, 31), FIRST]
EDGES = [a[0] for a in INTERVALS] + [math.isqrt(a[0] * b[0]) for a, b in zip(INTERVALS, INTERVALS[1:])]
for lo in STARTS:
    for length in EDGES:
        for count in (1, 3):
            for off in (-UNIT, 0, UNIT):
                ask("times", lo, lo + length * count + off, count)
for lo in (*STARTS, FIRST + UNIT, FIRST + 1):
    for count in (1, 5, 10):
        for span in (UNIT, Fraction(1, 2), 1, 5, 50, 999, 1000, 7000, MINUTE, HOUR, DAY, 40 * DAY, YEAR, 9 * YEAR, 95 * YEAR, 997 * YEAR):
            ask("times", lo, lo + span, count)
            ask("labels", lo, lo + span, count)
ask("times", FIRST, LAST, 1000)
for count in (1, 2, 3, 5, 10, 100):
    ask("times", FIRST, LAST, count)
    ask("labels", FIRST, LAST, count)
    ask("times", FIRST + UNIT, at(9001, 1, 1), count)
    ask("times", LAST - 5, LAST, count)
    ask("times", LAST - DAY, LAST, min(count, 10))
    ask("times", FIRST, FIRST, count)
    ask("times", LAST, LAST, count)
for _ in range(700):
    span = Fraction(random.randint(1, 10 ** random.randint(1, 20)), 10**6)
    lo = Fraction(random.randint(FIRST * 10**6, LAST * 10**6), 10**6)
    if random.random() < 0.5:
        lo = Fraction(math.floor(lo) // DAY * DAY)
    lo = max(lo, Fraction(FIRST))
    hi = min(lo + span, Fraction(LAST))
    ask(random.choice(["times", "labels"]), lo, hi, random.choice([1, 2, 3, 5, 5, 5, 8, 10]))
for _ in range(100):
    t = random.randint(FIRST, LAST)
    for unit in (1, SECOND, MINUTE, HOUR, DAY):
        ask("instant", max(t // unit * unit, FIRST), 0, 0)
for year in (1, 1000, 2024, 9998):
    for month in range(1, 13):
        ask("instant", at(year, month, 1), 0, 0)
for day in range(1, 30):
    ask("instant", at(2024, 2, day), 0, 0)
for hour in range(24):
    ask("instant", at(2024, 2, 1, hour), 0, 0)
    ask("instant", at(2024, 2, 1, hour, 30), 0, 0)
