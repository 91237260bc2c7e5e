#!/usr/bin/env python3
"""Writes the cases of this crate: `stdin`, and the lines that they must give, `stdout`.

The answers come from the rules as docs/RULES.md states them: the costs of every count at every moment, the smallest
and the greatest count that is allowed, and the ends of each window by looking at every slot. The lines of the
formulas are these windows too wherever no moment is blocked, and the formulas' own numbers elsewhere. Nothing is shared
with the Rattle code (tools/rules.py). A case has the penalty (1 byte: 0 for the absolute deviation, 1 for the two-sided, else
the distance from a centre), the bound (8), the centres of slots 0 to 7 (1 each), the number of places (2), the number
of channels (1), and for each its number (1) and its readings (2), numbers with the high byte first.
"""

import random
import sys
from fractions import Fraction
from itertools import product
from math import ceil, floor
from pathlib import Path

sys.path.insert(0, str(Path(__file__).parents[2] / "tools"))
from rules import TOP, bottom_cost, centred_cost, windows
from storing import store

MOST_PLACES = 4096


def cost_of(penalty, centres):
    """The cost of a penalty."""
    if penalty < 2:
        return lambda S, c, d, x, k: bottom_cost(penalty == 1, S, c, d, x, k)
    return lambda S, c, d, x, k: centred_cost(centres, x, k)


def formula(slots, d, j, bound):
    """The ends by Steiner and Yeomans' formulas, in exact fractions."""
    return max(1, ceil(Fraction(j * slots - bound, d))), min(slots, floor(Fraction((j - 1) * slots + bound, d)) + 1)


def listed(found):
    return "".join(f" {c}:{j}:{e}-{l}" for c, j, e, l in found)


def answers(penalty, centres, bound, places, table):
    """The lines of a case."""
    slots = sum(table.values())
    if any(n > 4096 for n in table.values()) or slots > 4096:
        return ["NO TABLE"]
    found = windows(cost_of(penalty, centres), bound, table)
    blocked = isinstance(found, tuple)
    shut = [] if blocked else [w for w in found if w[2] > w[3]]
    if min(places, MOST_PLACES) < slots:
        lines = ["REFUSED PLACES"]
    elif blocked:
        lines = ["MOMENT {1} {2}".format(*found)]
    elif shut:
        lines = ["SHUT {} {} {} {} 0".format(*shut[0])]
    else:
        lines = ["WINDOWS" + listed(found)]
    if penalty == 0:
        ends = [(c, j, *formula(slots, table[c], j, bound)) for c in sorted(table) for j in range(1, table[c] + 1)]
        assert blocked or ends == found
        lines.append("FORMULAS" + listed(ends))
    return lines


def cases():
    rng = random.Random(20261126)
    none = [0] * 8
    # every table of up to three channels and five readings
    small = [t for t in product(range(6), repeat=3) if 1 <= sum(t) <= 5]
    for t in small:
        table = {c: n for c, n in enumerate(t) if n}
        for bound in (0, 1, 2, 3, 4, 5, 6, 10, 25):
            yield 0, none, bound, MOST_PLACES, table
        for bound in (0, 31, 63, 80, 89, 160, 320, 1000):
            yield 1, none, bound, MOST_PLACES, table
    # centres that rise and fall
    for _ in range(600):
        table = {c: rng.randint(1, 4) for c in rng.sample(range(64), rng.randint(1, 3))}
        centres = [rng.randint(0, 4) for _ in range(8)]
        yield 2, centres, rng.choice((0, 0, 1, 1, 2)), MOST_PLACES, table
    for _ in range(300):
        d = rng.randint(1, 5)
        centres = [rng.randint(0, d) for _ in range(8)]
        yield 2, centres, 0, MOST_PLACES, {rng.randrange(64): d}
    # larger tables
    for _ in range(60):
        table = {c: rng.randint(1, 12) for c in rng.sample(range(64), rng.randint(1, 6))}
        slots = sum(table.values())
        bound = rng.choice((slots // 2, slots - 1, slots, 2 * slots, TOP - 1))
        yield rng.choice((0, 0, 1)), none, bound, MOST_PLACES, table
    yield 0, none, 479, MOST_PLACES, {c: 60 for c in range(0, 64, 8)}
    yield 1, none, 600, MOST_PLACES, {3: 1, 4: 2, 5: 40, 60: 200}
    # places that are too few, just enough, and no table
    for places in (0, 2, 3, 4, 63):
        yield 0, none, 1, places, {0: 2, 1: 1}
    yield 0, none, 0, 0, {}
    for bound in (TOP - 1, TOP, 2**64 - 1):
        yield 0, none, bound, MOST_PLACES, {7: 3, 63: 2}
        yield 2, [9] * 8, bound, MOST_PLACES, {7: 3, 63: 2}
    yield 0, none, 0, MOST_PLACES, {5: 4097}
    yield 1, none, 5, MOST_PLACES, {5: 4096, 6: 1}


# worked by hand in docs/RULES.md
WORKED = [
    (0, [], 1, {0: 2, 1: 1}, "WINDOWS 0:1:1-1 0:2:3-3 1:1:2-2"),
    (0, [], 1, {0: 1, 1: 1}, "WINDOWS 0:1:1-2 1:1:1-2"),
    (0, [], 0, {0: 1, 1: 1}, "MOMENT 1 0"),
    (0, [], 1, {0: 1, 1: 1, 2: 1}, "WINDOWS 0:1:2-2 1:1:2-2 2:1:2-2"),
    (0, [], 2, {0: 1, 1: 2, 2: 3}, "MOMENT 1 2"),
    (2, [0, 2, 0, 2], 1, {0: 2, 1: 1}, "WINDOWS 0:1:1-1 0:2:3-3 1:1:1-1"),
    (2, [0, 0], 0, {0: 1}, "SHUT 0 1 2 1 0"),
    (2, [1, 1], 0, {0: 1}, "SHUT 0 1 1 0 0"),
    (2, [0, 2, 1], 0, {0: 2}, "SHUT 0 2 3 1 0"),
]
for penalty, centres, bound, table, line in WORKED:
    assert answers(penalty, centres + [0] * (8 - len(centres)), bound, MOST_PLACES, table)[0] == line
assert formula(3, 2, 1, 1) == (1, 1) and formula(3, 2, 2, 1) == (3, 3) and formula(3, 1, 1, 1) == (2, 2)


def bytes_of(penalty, centres, bound, places, table):
    """The bytes of a case."""
    data = bytes([penalty]) + bound.to_bytes(8, "big") + bytes(centres) + places.to_bytes(2, "big") + bytes([len(table)])
    return data + b"".join(bytes([channel]) + readings.to_bytes(2, "big") for channel, readings in table.items())


def main():
    data, lines = bytearray(), []
    for case in cases():
        data += bytes_of(*case)
        lines += answers(*case)
    store(__file__, data, lines)


if __name__ == "__main__":
    main()
