#!/usr/bin/env python3
"""Writes the cases of this crate: `stdin`, and the lines that they must give, `stdout`.

Each case is a job file. The listings come from the rules as docs/RULES.md states them: here the records, the faults and
the lines, in tools/rules.py the costs, the windows, the slots and the leasts. Nothing is shared with the Rattle code.
Which crowded slots are shown is left open by the rules; the script shows those that its own placing comes to. A case has
the bottom (1 byte: 0 absolute deviation, 1 two-sided), the length of the job (2, with the high byte first), and the job.
"""

import random
import sys
from functools import lru_cache
from pathlib import Path

sys.path.insert(0, str(Path(__file__).parents[2] / "tools"))
from rules import LARGEST, LIMIT, TOP, bottom_cost, figure, largest_cost, least_of_all, list_at, relax, stop, weigh
from storing import store

ADD, WEIGHT, TOLERANCE, LIMIT_OF_STOP, LIST, BEST = b"CWTELB"
BODIES = {ADD: 3, WEIGHT: 3, TOLERANCE: 4, LIMIT_OF_STOP: 4, LIST: 8, BEST: 0}


class Fault(Exception):
    """Why a job is stopped: a number and a layer."""


class Held:
    """What a job holds between its records."""

    def __init__(self, two_sided):
        self.two_sided, self.table, self.weights = two_sided, {}, {}
        self.tolerance, self.limit = 0, LARGEST

    def cost(self):
        """The cost of stop over band over weights over the bottom, and which channels are alike."""
        two_sided, tolerance, limit = self.two_sided, self.tolerance, self.limit

        @lru_cache(maxsize=None)
        def below(S, d, x, k):
            return bottom_cost(two_sided, S, 0, d, x, k)

        def cost(S, c, d, x, k):
            return stop(limit, S, d, x, k, relax(tolerance, weigh(self.weights.get(c, 1), below(S, d, x, k))))

        first = {}
        for c in sorted(self.table):
            first.setdefault((self.table[c], self.weights.get(c, 1)), c)
        return cost, lambda c: first[self.table[c], self.weights.get(c, 1)]

    def take(self, kind, body):
        """The lines that a record is answered with."""
        if kind in (ADD, WEIGHT):
            c, n = body[0], int.from_bytes(body[1:], "big")
            refuse((1, c > 63))
            if kind == WEIGHT:
                refuse((9, n > 1000))
                self.weights[c] = n
            else:
                total = sum(self.table.values())
                refuse((2, not 1 <= n <= LIMIT), (3, c in self.table), (5, total + n > LIMIT))
                self.table[c] = n
            return []
        if kind in (TOLERANCE, LIMIT_OF_STOP):
            n = int.from_bytes(body, "big")
            refuse((10, n > LARGEST))
            if kind == TOLERANCE:
                self.tolerance = n
            else:
                self.limit = n
            return []
        refuse((6, not self.table))
        return self.best() if kind == BEST else self.list(int.from_bytes(body, "big"))

    def list(self, bound):
        """The lines of a list."""
        refuse((7, bound > TOP - 1))
        cost, like = self.cost()
        made = list_at(cost, bound, self.table, like)
        if made[0] != "WITHIN":
            return [f"OVER {bound}", line(made)]
        return [f"WITHIN {bound} LARGEST {largest_cost(cost, self.table, made[1])}", *rows(made)]

    def best(self):
        """The lines of a best: the least is found by halves among the costs."""
        cost, like = self.cost()
        slots = sum(self.table.values())
        alike = {like(c) for c in self.table}
        costs = {cost(slots, c, self.table[c], x, k) for c in alike for k in range(slots + 1) for x in range(self.table[c] + 1)}
        bounds = sorted(({0} | costs) - {TOP})
        low, high = 0, len(bounds)
        while low < high:
            middle = (low + high) // 2
            if list_at(cost, bounds[middle], self.table, like)[0] == "WITHIN":
                high = middle
            else:
                low = middle + 1
        if low == len(bounds):
            return ["NONE", line(list_at(cost, TOP - 1, self.table, like))]
        least = bounds[low]
        made = list_at(cost, least, self.table, like)
        assert largest_cost(cost, self.table, made[1]) == least
        if slots <= 6:
            assert least_of_all(cost, self.table) == least
        below = line(list_at(cost, least - 1, self.table, like)) if least else "NOTHING"
        return [f"LEAST {least} FIGURE {figure(least, slots)}", *rows(made), f"BELOW {below}"]


def refuse(*rules):
    """Stops the job by the first rule that fits."""
    for number, fits in rules:
        if fits:
            raise Fault(number, 3)


def line(block):
    """The line of a block."""
    return " ".join(str(part) for part in block)


def rows(made):
    """The lines of the readings, by slot."""
    return [line(row) for row in sorted(made[2], key=lambda row: row[4])]


def listing(two_sided, job):
    """The listing of a job."""
    lines, at, held = [], 0, Held(two_sided)
    try:
        if len(job) > 4096:
            raise Fault(13, 1)
        while at < len(job):
            if job[at] not in BODIES:
                raise Fault(11, 2)
            end = at + 1 + BODIES[job[at]]
            if end > len(job):
                raise Fault(12, 2)
            lines += held.take(job[at], job[at + 1 : end])
            at = end
    except Fault as fault:
        number, layer = fault.args
        lines.append(f"FAULT {number} {layer} {at}")
    return lines


def add(c, n):
    return bytes([ADD, c]) + n.to_bytes(2, "big")


def weight(c, w):
    return bytes([WEIGHT, c]) + w.to_bytes(2, "big")


def tolerance(n):
    return bytes([TOLERANCE]) + n.to_bytes(4, "big")


def limit(n):
    return bytes([LIMIT_OF_STOP]) + n.to_bytes(4, "big")


def ask(bound):
    return bytes([LIST]) + bound.to_bytes(8, "big")


BEST_RECORD = bytes([BEST])


def bridge(*readings):
    """Adds of channels 0, 1, .. with these readings."""
    return b"".join(add(c, n) for c, n in enumerate(readings))


# worked by hand, with the whole listing
WORKED = [
    (0, bridge(2, 1) + BEST_RECORD, ["LEAST 1 FIGURE 34", "0 1 1 1 1", "1 1 2 2 2", "0 2 3 3 3", "BELOW MOMENT 1 0"]),
    (0, bridge(1) + BEST_RECORD, ["LEAST 0 FIGURE 0", "0 1 1 1 1", "BELOW NOTHING"]),
    (0, bridge(1, 1) + ask(1) + ask(0), ["WITHIN 1 LARGEST 1", "0 1 1 2 1", "1 1 1 2 2", "OVER 0", "MOMENT 1 0"]),
    (0, bridge(1, 1, 1) + ask(1), ["OVER 1", "CROWD 2 3 3"]),
    (
        0,
        bridge(1, 1, 1) + BEST_RECORD,
        ["LEAST 2 FIGURE 67", "0 1 1 3 1", "1 1 1 3 2", "2 1 1 3 3", "BELOW CROWD 2 3 3"],
    ),
    (
        0,
        bridge(3, 2) + BEST_RECORD,
        ["LEAST 2 FIGURE 40", "0 1 1 1 1", "1 1 2 2 2", "0 2 3 3 3", "1 2 4 4 4", "0 3 5 5 5", "BELOW MOMENT 1 0"],
    ),
    (0, bridge(1, 1) + weight(0, 3) + BEST_RECORD, ["LEAST 3 FIGURE 150", "0 1 1 2 1", "1 1 1 2 2", "BELOW MOMENT 1 0"]),
    (0, bridge(1, 1) + tolerance(1) + BEST_RECORD, ["LEAST 0 FIGURE 0", "0 1 1 2 1", "1 1 1 2 2", "BELOW NOTHING"]),
    (0, bridge(1, 1) + limit(0) + BEST_RECORD, ["NONE", "CROWD 2 2 2"]),
    (0, bridge(1, 1) + limit(1) + BEST_RECORD, ["LEAST 1 FIGURE 50", "0 1 1 2 1", "1 1 1 2 2", "BELOW MOMENT 1 0"]),
    (1, bridge(1, 1) + BEST_RECORD, ["LEAST 160 FIGURE 8000", "0 1 1 2 1", "1 1 1 2 2", "BELOW CROWD 1 1 2"]),
    (0, bridge(1, 1) + ask(1), ["WITHIN 1 LARGEST 1", "0 1 1 2 1", "1 1 1 2 2"]),
    (0, bridge(1, 1) + ask(0), ["OVER 0", "MOMENT 1 0"]),
    (0, weight(0, 3) + bridge(1, 1) + BEST_RECORD, ["LEAST 3 FIGURE 150", "0 1 1 2 1", "1 1 1 2 2", "BELOW MOMENT 1 0"]),
    # weights of channels that are not there yet, and settings that last until they are given again
    (
        0,
        weight(0, 3) + BEST_RECORD,
        ["FAULT 6 3 4"],
    ),
    (
        0,
        weight(0, 3) + bridge(1, 1) + BEST_RECORD + tolerance(3) + BEST_RECORD + weight(0, 1) + tolerance(0) + BEST_RECORD,
        [
            *["LEAST 3 FIGURE 150", "0 1 1 2 1", "1 1 1 2 2", "BELOW MOMENT 1 0"],
            *["LEAST 0 FIGURE 0", "0 1 1 2 1", "1 1 1 2 2", "BELOW NOTHING"],
            *["LEAST 1 FIGURE 50", "0 1 1 2 1", "1 1 1 2 2", "BELOW MOMENT 1 0"],
        ],
    ),
    # nothing to print
    (0, b"", []),
    (1, bridge(2, 1) + tolerance(5), []),
    # each fault, and the last that is taken before it
    (0, add(64, 0) + BEST_RECORD, ["FAULT 1 3 0"]),
    (0, add(63, 1) + add(64, 1), ["FAULT 1 3 4"]),
    (0, weight(64, 1001), ["FAULT 1 3 0"]),
    (0, add(5, 0), ["FAULT 2 3 0"]),
    (0, add(5, 4097), ["FAULT 2 3 0"]),
    (0, add(5, 2) + add(5, 0), ["FAULT 2 3 4"]),
    (0, add(5, 2) + add(5, 4096), ["FAULT 3 3 4"]),
    (0, add(0, 4095) + add(1, 1) + add(2, 1), ["FAULT 5 3 8"]),
    (0, ask(TOP), ["FAULT 6 3 0"]),
    (0, add(0, 1) + ask(TOP - 1) + ask(TOP), [f"WITHIN {TOP - 1} LARGEST 0", "0 1 1 1 1", "FAULT 7 3 13"]),
    (0, weight(63, 1000) + weight(63, 1001), ["FAULT 9 3 4"]),
    (0, tolerance(LARGEST) + tolerance(LARGEST + 1), ["FAULT 10 3 5"]),
    (0, limit(LARGEST) + limit(LARGEST + 1), ["FAULT 10 3 5"]),
    (0, bridge(1) + b"\x00", ["FAULT 11 2 4"]),
    (0, b"\x44", ["FAULT 11 2 0"]),
    (0, bridge(1) + b"\x43\x01\x00", ["FAULT 12 2 4"]),
    (0, bridge(1) + BEST_RECORD + b"\x57", ["LEAST 0 FIGURE 0", "0 1 1 1 1", "BELOW NOTHING", "FAULT 12 2 5"]),
    (0, b"\x54\x00\x00\x00", ["FAULT 12 2 0"]),
    (0, b"\x45\x00\x00\x00", ["FAULT 12 2 0"]),
    (0, b"\x4c\x00\x00\x00\x00\x00\x00\x00", ["FAULT 12 2 0"]),
    (0, tolerance(0) * 819 + b"\x42", ["FAULT 6 3 4095"]),
    (0, tolerance(0) * 819 + b"\x00\x00", ["FAULT 13 1 0"]),
    *[
        (bottom, job, lines)
        for bottom in (0, 1)
        for job, lines in [
            (add(64, 0), ["FAULT 1 3 0"]),
            (add(5, 2) + add(5, 1), ["FAULT 3 3 4"]),
            (ask(2**64 - 1), ["FAULT 6 3 0"]),
            (bridge(1) + BEST_RECORD + b"\x57", ["LEAST 0 FIGURE 0", "0 1 1 1 1", "BELOW NOTHING", "FAULT 12 2 5"]),
            (bridge(1) + b"\x00", ["FAULT 11 2 4"]),
            (add(64, 0)[:2], ["FAULT 12 2 0"]),
            (b"\xff" * 4097, ["FAULT 13 1 0"]),
            (b"", []),
        ]
    ],
]


def scattered(rng):
    """A job of a few channels, settings and questions in any order, now and then with a fault."""
    job = b""
    for _ in range(rng.randrange(2, 14)):
        kind = rng.randrange(10)
        if kind < 4:
            job += add(rng.choice([0, 1, 2, 3, 7, 63]), rng.choice([1, 1, 1, 2, 2, 3, 5, 8]))
        elif kind == 4:
            job += weight(rng.choice([0, 1, 2, 3, 63]), rng.choice([0, 1, 2, 3, 10, 1000]))
        elif kind == 5:
            job += tolerance(rng.choice([0, 1, 2, 3, 50, LARGEST]))
        elif kind == 6:
            job += limit(rng.choice([0, 1, 2, 3, 5, 8, 100, LARGEST]))
        elif kind == 7:
            job += ask(rng.choice([0, 1, 2, 3, 4, 5, 7, 10, 50, 100, 160, 250, TOP - 1]))
        else:
            job += BEST_RECORD
    if rng.random() < 0.15:
        job = job[: rng.randrange(len(job) + 1)]
    if rng.random() < 0.1:
        at = rng.randrange(len(job) + 1)
        job = job[:at] + bytes([rng.randrange(256)]) + job[at:]
    return job


def distinct(rng):
    """A job that adds each of its channels once, so that most of it is answered."""
    channels = rng.sample(range(64), rng.randrange(1, 6))
    job = b"".join(add(c, rng.choice([1, 1, 2, 3, 4, 6])) for c in channels)
    for _ in range(rng.randrange(1, 5)):
        kind = rng.randrange(5)
        if kind == 0:
            job += weight(rng.choice(channels), rng.choice([0, 1, 2, 3, 5, 1000]))
        elif kind == 1:
            job += tolerance(rng.choice([0, 1, 2, 5, 20]))
        elif kind == 2:
            job += limit(rng.choice([0, 1, 2, 4, 6, 9, 15, LARGEST]))
        elif kind == 3:
            job += ask(rng.choice([0, 1, 2, 3, 5, 8, 12, 40, 80, 120, 200, 300]))
        job += BEST_RECORD if rng.random() < 0.6 else ask(rng.choice([1, 3, 6, 10, 100]))
    return job


def large(rng):
    """Jobs of 64 channels and 4,096 slots: alike, of two kinds, and with settings that change between the questions."""
    alike = bridge(*[64] * 64)
    mixed = bridge(*[100, 28] * 32)
    yield 0, alike + BEST_RECORD
    yield 1, alike + BEST_RECORD
    yield 0, mixed + BEST_RECORD + ask(4096)
    yield 1, mixed + tolerance(40) + BEST_RECORD
    yield 0, alike + b"".join(weight(c, 2) for c in range(32)) + ask(9000) + add(0, 1)


def main():
    rng = random.Random(2207)
    cases, lines = [], []
    for bottom, job, expected in WORKED:
        assert listing(bottom == 1, job) == expected, (job.hex(), listing(bottom == 1, job))
        cases.append((bottom, job))
    for bottom in (0, 1):
        cases += [(bottom, scattered(rng)) for _ in range(150)] + [(bottom, distinct(rng)) for _ in range(150)]
    cases += large(rng)
    data = b""
    for bottom, job in cases:
        data += bytes([bottom]) + len(job).to_bytes(2, "big") + job
        lines += [f"JOB {bottom} {len(job)}", *listing(bottom == 1, job)]
    store(__file__, data, lines)


if __name__ == "__main__":
    main()
