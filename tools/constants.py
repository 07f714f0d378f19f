#!/usr/bin/env python3
"""Works out the constants of the whole-number definitions from the rules (docs/RULES.md) and compares them with those in crates/*/specs/Ours.antt;
compares the rules' list of leap seconds with crates/utc/specs/Table.antt.
The proofs do not rest on this: they show the distances for the constants as they stand. It says where the numbers come from."""

import math
import re
import sys
from fractions import Fraction
from pathlib import Path

ROOT = Path(__file__).resolve().parent.parent
CRATES = ROOT / "crates"
DAY = 86_400_000_000
CENTURY = 36_525 * DAY
TURN = 3_600_000_000_000
EPOCH = 5  # centuries from the start of the moment's count to J2000.0
ANGLE = 41  # an angle is in units of 2^-41 turn
FINER = 10  # further binary places of the coefficients from the second degree on
QUARTER = Fraction(6283185307179586476925287, 4 * 10**24)  # radians


def nearest(x):
    return math.floor(x + Fraction(1, 2))


def read(crate):
    return (CRATES / crate / "specs" / "Ours.antt").read_text(encoding="utf-8")


def named(text, name):
    """The numbers on the right of NAME = .."""
    line = re.search(rf"^{name} = (.*)$", text, re.M).group(1)
    return [int(n.replace("_", "")) for n in re.findall(r"\d[\d_]*", line)]


def polynomials():
    """F1 to F5 as the exact definition has them: coefficients times 10^10, from degree 0 on."""
    text = (CRATES / "arguments" / "specs" / "Exact.antt").read_text(encoding="utf-8")
    for i in range(1, 6):
        line = re.search(rf"^F{i} = polynomial (.*)$", text, re.M).group(1)
        yield [int(n) if s == "+" else -int(n) for s, n in re.findall(r"([+−]) (\d+)", line)]


def from_epoch(c):
    """The same polynomial in s = t + EPOCH."""
    return [sum(c[j] * math.comb(j, i) * (-EPOCH) ** (j - i) for j in range(i, 5)) for i in range(5)]


def half(c):
    """Constants of a half from its coefficients, none negative: a0, g, k2, k3, k4."""
    a0 = Fraction(c[0] * 2**ANGLE, TURN)
    g = Fraction(c[1] * 2 ** (ANGLE + 64), TURN * CENTURY)
    return [nearest(x) for x in [a0, g] + [Fraction(k * 2 ** (ANGLE + FINER), TURN) for k in c[2:]]]


def leap_seconds():
    """The rows of the definition and those of the rules: year, month, day, seconds."""
    table = (CRATES / "utc" / "specs" / "Table.antt").read_text(encoding="utf-8")
    rules = (ROOT / "docs" / "RULES.md").read_text(encoding="utf-8")
    first = re.search(r"(\d+) from (\d{4})-(\d\d)-(\d\d) on \(`first_step`\)", rules).groups()
    later = re.findall(r"\| (\d{4})-(\d\d)-(\d\d) \| (\d\d) (?=\|)", rules)
    stands = re.findall(r"\bstep (\d+) (\d+) (\d+) (\d+)", table)
    return ([tuple(map(int, row)) for row in rows] for rows in (stands, sorted([(*first[1:], first[0]), *later])))


def expected():
    yield "leap seconds", *leap_seconds()
    sine, arguments, nutation = read("sine"), read("arguments"), read("nutation")
    terms = [nearest(QUARTER ** (2 * k + 1) / math.factorial(2 * k + 1) * 2**31) for k in range(8)]
    yield "sine, first constant", named(sine, "first_constant"), terms[:1]
    yield "sine, other constants", named(sine, "other_constants"), terms[1:]
    yield "centuries", named(arguments, "per_century"), [nearest(Fraction(2**88, CENTURY))]
    for i, polynomial in enumerate(polynomials()):
        shifted, sign = from_epoch(polynomial), "₁₂₃₄₅"[i]
        yield f"argument {i + 1}, up", named(arguments, "up" + sign), half([max(c, 0) for c in shifted])
        yield f"argument {i + 1}, down", named(arguments, "down" + sign), half([max(-c, 0) for c in shifted])
    start = Fraction(EPOCH * 36_525 * 100, 43_021) + 400
    yield "nutation, start", named(nutation, "start_angle"), [nearest(start * 2**ANGLE)]
    yield "nutation, rate", named(nutation, "angle_rate"), [nearest(Fraction(100 * 2 ** (ANGLE + 64), 43_021 * DAY))]


def main():
    wrong = count = 0
    for name, stands, right in expected():
        count += len(right)
        if stands != right:
            wrong += 1
            print(f"constants: {name}: {stands} should be {right}")
    if wrong:
        sys.exit(1)
    print(f"constants: {count} worked out, as they stand")


main()
