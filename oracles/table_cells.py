"""Numbers and cells as the tables of rows spell them."""
from fractions import Fraction
from math import floor

MILLION = 10**6
LIMIT = 10**21
NULL = ("_",)


def rounded(value):
    return floor(value + Fraction(1, 2))


def decimal(m):
    whole, rest = divmod(abs(m), MILLION)
    digits = f".{rest:06}".rstrip("0") if rest else ""
    return ("-" if m < 0 else "") + str(whole) + digits


def spelled(cell):
    kind = cell[0]
    if kind == "n":
        return "n" + decimal(cell[1])
    if kind == "s":
        return "s" + cell[1]
    if kind == "p":
        return f"p{decimal(cell[1])}~{decimal(cell[2])}"
    return kind


def in_range(m):
    if abs(m) > LIMIT:
        raise OverflowError
    return m
