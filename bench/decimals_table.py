#!/usr/bin/env python3
"""The rows of crates/tests_base/src/arithmetic_rows.rt, worked out by Python's fractions.

Prints the file. Numbers are taken as exact fractions, and a result is written as `Dec::print` writes it, or as
`range` or `none`. Takes no words.
"""
import random
from fractions import Fraction

LIMIT = 10**38
random.seed(1)


def parts(text):
    """The mantissa and the exponent of a number's text in normal form."""
    mantissa, _, power = text.partition("e")
    whole, _, fraction = mantissa.partition(".")
    return normal(int(whole + fraction), int(power or "0") - len(fraction))


def normal(m, e):
    if m == 0:
        return 0, 0
    while m % 10 == 0:
        m, e = m // 10, e + 1
    return m, e


def number(text):
    m, e = parts(text)
    return Fraction(m) * Fraction(10) ** e


def exact(value):
    """The mantissa and the exponent of a fraction in normal form, None where it has no decimal form."""
    n, d, e = value.numerator, value.denominator, 0
    while d % 10 == 0:
        d, e = d // 10, e - 1
    while d % 2 == 0:
        n, d, e = n * 5, d // 2, e - 1
    while d % 5 == 0:
        n, d, e = n * 2, d // 5, e - 1
    assert d == 1
    return normal(n, e)


def written(m, e):
    """As formats of numbers go: plain where the first digit counts 10^-7 to 10^20, else with a power."""
    if m == 0:
        return "0"
    sign, digits = ("-" if m < 0 else ""), str(abs(m))
    p = len(digits) + e - 1
    if -7 <= p <= 20:
        if e >= 0:
            return sign + digits + "0" * e
        if p >= 0:
            return sign + digits[: p + 1] + "." + digits[p + 1 :]
        return sign + "0." + "0" * (-p - 1) + digits
    rest = "." + digits[1:] if len(digits) > 1 else ""
    return f"{sign}{digits[0]}{rest}e{'+' if p >= 0 else '-'}{abs(p)}"


def answer(value):
    m, e = exact(value)
    return written(m, e) if abs(m) < LIMIT and -1000 <= e <= 1000 else "range"


def is_scaled(a, more, b):
    """Whether the scaled dividend of a with `more` noughts by b has at most 38 digits."""
    (m, e), (_, f) = parts(a), parts(b)
    return abs(m) * 10 ** max(0, e + more - f) < LIMIT


def nearest(value):
    return Fraction(round(value))  # half to even


def result(op, a, b):
    x, y = number(a), number(b)
    if op == "+":
        return answer(x + y)
    if op == "-":
        return answer(x - y)
    if op == "*":
        return answer(x * y)
    if op == "<":
        return "less" if x < y else "equal" if x == y else "greater"
    if y == 0 and op in "%/":
        return "none"
    if op == "%":
        rest = abs(x) % abs(y)
        return answer(-rest if x < 0 else rest) if is_scaled(a, 0, b) else "range"
    if op == "/":
        return answer(nearest(x * 10**9 / y) / 10**9) if is_scaled(a, 9, b) else "range"
    if op == "round":
        return answer(nearest(x / y) * y) if is_scaled(a, 0, b) else "range"
    if op == "floor":
        return answer(Fraction(x // 1))
    if op == "ceil":
        return answer(Fraction(-(-x // 1)))
    raise ValueError(op)


FULL = "9" * 38
NAMED = [
    # sums and differences
    ("+", "0.1", "0.2"), ("+", "1e38", "0.5"), ("+", "5", "5"), ("+", "0", "1e1000"), ("+", "1e1000", "0"),
    ("+", FULL, "1"), ("+", FULL, "0.1"), ("+", FULL, "-0.1"), ("+", FULL, FULL), ("+", "1e37", "1"), ("+", "1e38", "1"),
    ("+", "1e38", "-1"), ("+", "2e38", "-1"), ("+", "1e39", "-1"), ("+", "1.2e38", "-21e36"), ("+", "1e1000", "1e963"),
    ("+", "1e1000", "1e962"), ("+", "1e-1000", "1e-963"), ("+", "5e1000", "5e1000"), ("+", "1e-1000", "1e-1000"),
    ("+", "9e-1000", "1e-1000"), ("+", FULL + "e1000", "1e1000"), ("+", "3.4e38", "1"), ("+", "-1e38", "-0.5"),
    ("+", "123456.789", "-123456.789"), ("+", "-7", "7"), ("+", "1e1000", "-1e-1000"), ("+", "99e36", "1e36"),
    ("-", "0.3", "0.1"), ("-", "1", "1"), ("-", "0", "5"), ("-", "-5", "-5"), ("-", "1e1000", "1e1000"), ("-", "1", "1e-38"),
    ("-", "1", "1e-37"), ("-", "0.5", "1e1000"), ("-", "-1e38", "0.5"), ("-", "2", "-0.75"), ("-", FULL, "-" + FULL),
    # products
    ("*", "1125899906842624", "88817841970012523233890533447265625"), ("*", "0", "1e1000"), ("*", "1e1000", "0"),
    ("*", "1e1000", "10"), ("*", "1e500", "1e500"), ("*", "1e501", "1e500"), ("*", "1e-500", "1e-500"),
    ("*", "1e-501", "1e-500"), ("*", "5e-1000", "2"), ("*", "5e-1000", "0.2"), ("*", "5e-1000", "4"), ("*", "0.5e-999", "0.5"),
    ("*", FULL, "1"), ("*", FULL, "-1"), ("*", FULL, "2"), ("*", FULL, "10"), ("*", "9999999999999999999", "10000000000000000001"),
    ("*", "9999999999999999999", "9999999999999999999"), ("*", "18446744073709551616", "18446744073709551616"),
    ("*", "42535295865117307932921825928971026432", "2.3509887016445750159374730744444913556e-38"),
    ("*", "0.5", "2"), ("*", "-4", "0.25"), ("*", "-0.125", "-8"), ("*", "1.1", "1.1"), ("*", "2e1000", "5e-1"),
    ("*", "2e1000", "5"), ("*", "50", "2"), ("*", "1953125", "512"), ("*", "3", "33333333333333333333333333333333333333"),
    ("*", "3", "33333333333333333333333333333333333334"),
    # remainders
    ("%", "-7", "2"), ("%", "7", "-2"), ("%", "-7", "-2"), ("%", "7", "2"), ("%", "3", "1e1000"), ("%", "-3", "1e1000"),
    ("%", "1e1000", "3"), ("%", "21e1000", "11e1000"), ("%", "1", "0"), ("%", "0", "0"), ("%", "0", "5"), ("%", "1e1000", "0"),
    ("%", "5.5", "0.3"), ("%", "1e38", "3"), ("%", "1e37", "3"), ("%", "1e-1000", "3"), ("%", "7", "7"), ("%", "0.1", "0.03"),
    ("%", "99e36", "7"), ("%", "100e36", "7"), ("%", FULL, "1e38"), ("%", FULL, "1e-1"), ("%", "12e1000", "7e1000"),
    ("%", "1", "3e-37"), ("%", "1", "3e-38"), ("%", "-0.5", "1"), ("%", "1e40", "3e2"), ("%", "5", "4e40"),
    # quotients
    ("/", "1", "3"), ("/", "2", "3"), ("/", "-2", "3"), ("/", "0.0000000005", "1"), ("/", "0.0000000015", "1"),
    ("/", "-0.0000000005", "1"), ("/", "-0.0000000015", "1"), ("/", "0.0000000025", "1"), ("/", "0.00000000051", "1"),
    ("/", "1", "0"), ("/", "0", "0"), ("/", "0", "7"), ("/", "0", "-7"), ("/", "1e1000", "0"), ("/", "1e28", "1"),
    ("/", "1e29", "1"), ("/", "-1e28", "1"), ("/", "1", "1e1000"), ("/", "1e-1000", "1e1000"), ("/", "1e1000", "1e1000"),
    ("/", "1e1000", "1e-1000"), ("/", "7e1000", "2e1000"), ("/", "1e28", "3"), ("/", "99999999999999999999999999999", "1"),
    ("/", "999999999999999999999999999999", "1"), ("/", "1", "7"), ("/", "1", "-7"), ("/", "1", "128"), ("/", "1", "1024"),
    ("/", "3", "1024"), ("/", "5", "1024"), ("/", "1e-9", "2"), ("/", "3e-9", "2"), ("/", "1e-10", "2"), ("/", FULL, "1e9"),
    ("/", FULL, "1e8"), ("/", FULL, FULL), ("/", "1e-1000", "1"), ("/", "123456.789", "0.001"), ("/", "1", "3e-28"),
    # multiples
    ("round", "2.5", "1"), ("round", "3.5", "1"), ("round", "-2.5", "1"), ("round", "-3.5", "1"), ("round", "7", "1e1000"),
    ("round", "1e38", "3"), ("round", "1e37", "3"), ("round", "0", "1e-1000"), ("round", "1.25", "0.5"), ("round", "1.75", "0.5"),
    ("round", "12345", "100"), ("round", "12350", "100"), ("round", "12450", "100"), ("round", "0.005", "0.01"),
    ("round", "0.015", "0.01"), ("round", "-0.015", "0.01"), ("round", "5", "10"), ("round", "15", "10"), ("round", FULL, "2"),
    ("round", FULL, "1e38"), ("round", "1e-1000", "1"), ("round", "1e1000", "1e-1000"), ("round", "99e36", "100e36"),
    ("round", "3", "5e40"), ("round", "9999999999999999999999999999999999999.5", "1"), ("round", "9e1000", "5e1000"), ("round", "11e1000", "3e1000"),
    ("round", "19e1000", "7e1000"), ("round", "0.7", "0.3"), ("round", "1e-500", "3e-501"),
    # whole numbers
    ("floor", "2.5", "0"), ("floor", "-2.5", "0"), ("floor", "7", "0"), ("floor", "-7", "0"), ("floor", "0", "0"),
    ("floor", "1e-1000", "0"), ("floor", "-1e-1000", "0"), ("floor", "1e1000", "0"), ("floor", "0.999", "0"),
    ("floor", "-0.999", "0"), ("floor", "-" + FULL + "e-37", "0"), ("floor", FULL + "e-1", "0"), ("floor", "-" + FULL + "e-1", "0"),
    ("floor", FULL + "e-38", "0"), ("floor", "-" + FULL + "e-38", "0"), ("floor", "-9.5", "0"), ("floor", "-99.01", "0"),
    ("ceil", "2.5", "0"), ("ceil", "-2.5", "0"), ("ceil", "7", "0"), ("ceil", "-7", "0"), ("ceil", "0", "0"),
    ("ceil", "1e-1000", "0"), ("ceil", "-1e-1000", "0"), ("ceil", "-1e1000", "0"), ("ceil", "0.001", "0"),
    ("ceil", "-0.001", "0"), ("ceil", FULL + "e-1", "0"), ("ceil", "-" + FULL + "e-1", "0"), ("ceil", FULL + "e-38", "0"),
    ("ceil", "9.5", "0"), ("ceil", "99.01", "0"),
    # order
    ("<", "1", "2"), ("<", "2", "1"), ("<", "1", "1.0"), ("<", "-1", "1"), ("<", "-1", "-2"), ("<", "0", "-1e-1000"),
    ("<", "1e1000", "1e999"), ("<", "0.1", "0.09999999999999999999999999999999999999"), ("<", FULL, "1e38"), ("<", "0", "1e-1000"),
    ("<", "-1e1000", "-1e-1000"), ("<", "123456.789", "123456.79"), ("<", "1e38", FULL), ("<", "3e40", FULL + "e2"),
]


def chance(digits, low, high):
    """A number of up to so many digits with an exponent from low to high."""
    m = random.randrange(1, 10 ** random.randint(1, digits))
    return written(*normal(random.choice([m, -m]), random.randint(low, high)))


def rows():
    yield from NAMED
    for op in ["+", "-", "*", "%", "/", "<"]:
        for _ in range(8):
            yield op, chance(6, -3, 0), chance(6, -3, 0)
        for _ in range(6):
            yield op, chance(38, -20, 20), chance(38, -20, 20)
    for _ in range(10):
        yield "round", chance(12, -6, 3), chance(4, -4, 2).lstrip("-")
    for _ in range(8):
        yield "floor", chance(20, -12, 1), "0"
        yield "ceil", chance(20, -12, 1), "0"


print("//! Calculations and their results, as `bench/decimals_table.py` works them out with Python's `fractions`.")
print()
print("/// A number, what is done with it, another number, and the text of the result, a row a line.")
print('pub(crate) const CALCULATIONS: &str = "\\')
for op, a, b in rows():
    assert answer(number(a)) != "range" and answer(number(b)) != "range", (a, b)
    print(f"{a} {op} {b} = {result(op, a, b)}")
print('";')
