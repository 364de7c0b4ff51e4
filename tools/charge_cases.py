#!/usr/bin/env python3
"""Writes the cases of crates/charge_cases and the answers expected: run in the repository's root. Reads vectors/slip-1/charge.txt.

The answers are those of document 02, Slip 1. Where a vector gives a charge, they must be the same.
"""
from collections import Counter

from records import agree, lines, little, write

WHO = ("bench", "controller")
STOPS = ("value", "uncaught", "spent", "deep")
MOST = 2 ** 64 - 1
cases = []


def cents(steps):
    """Each thousand steps above 5,000 is counted by its first step."""
    return 250 + sum(3 if first <= 100000 else 2 for first in range(5001, steps + 1, 1000))


def priced(steps):
    """The same, for any number of steps."""
    return cents(steps) if steps <= 100000 else cents(100000) + 2 * -(-(steps - 100000) // 1000)


def expected(who, refused, stop, steps, extras):
    counted = steps + extras if who == "bench" else steps
    if refused or stop not in ("value", "uncaught") or counted > MOST:
        return "refused 18 at 0"
    return f"cents {priced(counted)}"


def add(who, refused, stop, steps, extras):
    cases.append((who, refused, stop, steps, extras))


for line, given in lines("slip-1/charge.txt"):
    who, stop, *counts = line.split()
    numbers = dict(zip(counts[::2], map(int, counts[1::2])))
    # A refused answer that says it ended; extras that would pass 64 bits, were they a controller's.
    add(who, stop == "refused", "value" if stop == "refused" else stop, numbers["steps"], numbers.get("extras", MOST))
    agree(line, given, expected(*cases[-1]))

# The examples, and both sides of each started thousand near the borders.
borders = [n + d for n in (5000, 6000, 7000, 99000, 100000, 101000, 102000, 999000, 1000000) for d in (-1, 0, 1)]
for n in (0, 1, 999, 1000, *borders, 2 ** 32 - 1, 2 ** 32, MOST - 1, MOST):
    assert n > 1000000 or priced(n) == cents(n)
    add("controller", False, "value", n, 1000)
    add("bench", False, "uncaught", n, 0)
    add("bench", False, "value", n - n // 3, n // 3)
# Steps and extras that together are the largest number of 64 bits, and one more.
for steps, extras in ((MOST, 0), (MOST, 1), (1, MOST), (0, MOST), (2 ** 63, 2 ** 63 - 1), (2 ** 63, 2 ** 63), (MOST, MOST), (MOST - 5000, 5000), (MOST - 5000, 5001)):
    for stop in STOPS:
        add("bench", False, stop, steps, extras)
# Answers that no run gave among them: refused, with every stop.
for who in WHO:
    for refused in (False, True):
        for stop in STOPS:
            for steps in (0, 5001, 100001):
                add(who, refused, stop, steps, 7)

write(
    "charge_cases",
    (bytes([WHO.index(who), refused, STOPS.index(stop)]) + little(steps, 8) + little(extras, 8) for who, refused, stop, steps, extras in cases),
    (expected(*case) + "\n" for case in cases))
print(len(cases), Counter(expected(*case).split()[0] for case in cases))
