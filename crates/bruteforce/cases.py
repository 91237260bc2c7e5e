#!/usr/bin/env python3
"""Writes the cases of this crate: `stdin`, and the lines that they must give, `stdout`.

What all complete lists of a roster cost at most is worked out here by trying every row of its channels, D long, and leaving out
those that are not complete: no window, no matching and no search takes part. Only the costs of moments come from tools/rules.py.
Nothing is shared with the Rattle code. A group has its bottom (1 byte: 0 absolute deviation, 1 two-sided, 2 own table), the lengths
of its name (1), of the rows of its table (2) and of its rosters (4), and then these; a number of a row has 4 bytes. A roster has
the tolerance and the limit (4 each), how many channels it has (1), and for each its number (1), readings (1) and weight (2).
Numbers have the high byte first.
"""

import random
import sys
from itertools import product
from pathlib import Path

sys.path.insert(0, str(Path(__file__).parents[2] / "tools"))
from rules import LARGEST, TOP, bottom_cost, own_cost, relax, stop, weigh
from storing import store

BOTTOMS = "ABSOLUTE", "TWOSIDED"
LAYERS = ["WEIGHTS"], ["BAND"], ["STOP"], ["WEIGHTS", "BAND", "STOP"]
COUNTS = "ROSTERS", "LISTS", "ASKED", "WITHIN", "OVER", "LEASTS", "SUM", "ZERO", "NONE", "DISAGREEMENTS"


def complete_lists(table):
    """Every complete list of a table."""
    for row in product(table, repeat=sum(table.values())):
        if all(row.count(c) == n for c, n in table.items()):
            yield row


def cost_of(bottom, *question):
    """The cost of a bottom, which is 0, 1, or the two rows of a table."""
    return bottom_cost(bottom, *question) if bottom in (0, 1) else own_cost(bottom, *question)


def costs_of(bottom, roster):
    """The cost of stop over band over weights over a bottom, by channel, count and slot."""
    table, weights, tolerance, limit = roster
    S = sum(table.values())
    costs = {}
    for c, d in table.items():
        for x, k in product(range(d + 1), range(S + 1)):
            cost = weigh(weights[c], cost_of(bottom, S, c, d, x, k))
            costs[c, x, k] = stop(limit, S, d, x, k, relax(tolerance, cost))
    return costs


def largest_costs(bottom, roster):
    """The largest cost of each complete list."""
    table, costs = roster[0], costs_of(bottom, roster)
    for row in complete_lists(table):
        yield max(costs[c, row[:k].count(c), k] for k in range(len(row) + 1) for c in table)


def counts_of(bottom, roster):
    """What must be counted of a roster, by the largest costs of all its complete lists."""
    largest = list(largest_costs(bottom, roster))
    smallest = min(largest)
    bounds = {0, TOP - 1} | {b for b in (smallest - 1, smallest, smallest + 1) if 0 <= b < TOP}
    within = sum(smallest <= bound for bound in bounds)
    none = smallest == TOP
    least = 0 if none else smallest
    return 1, len(largest), len(bounds), within, len(bounds) - within, int(not none), least, int(smallest == 0), int(none), 0


def plain(table):
    """A roster with no setting."""
    return table, dict.fromkeys(table, 1), 0, LARGEST


def every_roster(total):
    """Every roster of this total over the channel numbers 0 to 3."""
    for readings in product(range(total + 1), repeat=4):
        if sum(readings) == total:
            yield plain({c: n for c, n in enumerate(readings) if n})


def random_table(rng):
    """Up to four channels of any numbers, with 2 to 7 readings in all."""
    channels = rng.sample(range(64), rng.randint(1, 4))
    table = dict.fromkeys(sorted(channels), 1)
    for _ in range(rng.randint(max(0, 2 - len(table)), 7 - len(table))):
        table[rng.choice(channels)] += 1
    return table


def random_roster(rng, bottom, layers):
    """A roster with these layers: weights, a tolerance about as large as its costs, a limit about as large as its deviations."""
    table, weights, tolerance, limit = plain(random_table(rng))
    if "WEIGHTS" in layers:
        weights = {c: rng.choice((0, 1, 2, 3, 4, 5, rng.randint(6, 1000))) for c in table}
    if "BAND" in layers:
        costs = sorted(set(costs_of(bottom, (table, weights, 0, LARGEST)).values()))
        tolerance = min(max(0, rng.choice(costs[: 1 + len(costs) // 3]) + rng.randint(-1, 1)), LARGEST)
    if "STOP" in layers:
        limit = rng.randint(0, sum(table.values()))
    return table, weights, tolerance, limit


def random_row(rng):
    """A row that starts at 0, rises at some of the steps that small rosters have, and never falls."""
    rises = {rng.randint(1, 56): rng.choice([1, rng.randint(1, 100), rng.randint(1, 2**26)]) for _ in range(rng.randint(1, 30))}
    return [sum(rise for at, rise in rises.items() if at <= step) for step in range(256)]


def totals(name, bottoms):
    """Every roster of each total over the channel numbers 0 to 3, for each total over the next of the bottoms."""
    for total, bottom in zip(range(1, 8), bottoms):
        yield bottom, f"{name} TOTAL {total}", list(every_roster(total))


def layered(rng, name, bottoms):
    """Random rosters under each choice of layers, each over the next of the bottoms. By the layers 20 at least of a group change."""
    for layers, bottom in zip(LAYERS, bottoms):
        rosters = [random_roster(rng, bottom, layers) for _ in range(75)]
        assert sum(counts_of(bottom, roster) != counts_of(bottom, plain(roster[0])) for roster in rosters) >= 20
        yield bottom, " ".join([name, *layers]), rosters


def groups():
    """The groups: their bottom, their name and their rosters. An own table has other rows in each group."""
    for bottom, name in enumerate(BOTTOMS):
        yield from totals(name, [bottom] * 7)
    rng = random.Random(20261203)
    for bottom, name in enumerate(BOTTOMS):
        yield from layered(rng, name, [bottom] * len(LAYERS))
    rng = random.Random(256)
    tables = [(random_row(rng), random_row(rng)) for _ in range(7 + len(LAYERS))]
    yield from totals("OWNTABLE", tables[:7])
    yield from layered(rng, "OWNTABLE", tables[7:])


def bytes_of(bottom, name, rosters):
    """The bytes of a group."""
    code, rows = (bottom, ()) if bottom in (0, 1) else (2, bottom)
    numbers = b"".join(n.to_bytes(4, "big") for row in rows for n in row)
    data = b""
    for table, weights, tolerance, limit in rosters:
        data += tolerance.to_bytes(4, "big") + limit.to_bytes(4, "big") + bytes([len(table)])
        for c, n in table.items():
            data += bytes([c, n]) + weights[c].to_bytes(2, "big")
    lengths = bytes([len(name)]) + len(numbers).to_bytes(2, "big") + len(data).to_bytes(4, "big")
    return bytes([code]) + lengths + name.encode() + numbers + data


def line(name, counts):
    """The line of a group, or of all."""
    return " ".join([name, *(f"{word} {n}" for word, n in zip(COUNTS, counts))])


def total_of(counts):
    """The sums of counts."""
    return [sum(numbers) for numbers in zip(*counts)]


# worked by hand: readings 3 and 2 have ten complete lists; the best is 0 1 0 1 0 with the largest cost 2, and the bounds asked
# about are 0 to 3 and TOP - 1
assert counts_of(0, plain({0: 3, 1: 2})) == (1, 10, 5, 3, 2, 1, 2, 0, 0, 0)
# readings 1 and 1 under a stop of 0: the list 0 1 is forbidden for channel 0, and 1 0 for channel 1; asked are 0 and TOP - 1
assert counts_of(0, ({0: 1, 1: 1}, {0: 1, 1: 1}, 0, 0)) == (1, 2, 2, 0, 2, 0, 0, 0, 1, 0)


def main():
    data, lines, all_counts = bytearray(), [], []
    for bottom, name, rosters in groups():
        counts = [counts_of(bottom, roster) for roster in rosters]
        data += bytes_of(bottom, name, rosters)
        lines.append(line(name, total_of(counts)))
        all_counts += counts
    store(__file__, data, [*lines, line("ALL", total_of(all_counts))])


if __name__ == "__main__":
    main()
