#!/usr/bin/env python3
"""Writes the cases of this crate: `stdin`, and the lines that they must give, `stdout`.

The answers come from the rules as docs/RULES.md states them (tools/rules.py), in whole numbers without a root table:
the largest v with v * v <= 1000 * s is looked for upwards from 0. Nothing here is shared with the
Rattle code. The first byte of a case says what it is. 3: the rows of an own table, in force until the next rows, with how many
numbers the row ahead and the row behind have (2 bytes each), and these (4 each). 0 (absolute deviation), 1 (two-sided) or 2 (own
table), and any other byte as 0: a cost, with a channel and its weight (1 and 2), the tolerance and the limit (4 each), and the
question: slots (2), channel (1), readings, count and slot (2 each). Numbers have the high byte first.
"""

import random
import sys
from pathlib import Path

sys.path.insert(0, str(Path(__file__).parents[2] / "tools"))
from rules import LARGEST, TOP, bottom_cost, own_cost, relax, root, rows_refused, stop, weigh
from storing import store

OWN = 2
ZEROS = [0] * 256


def rows_line(rows):
    """The line of rows."""
    refused = rows_refused(rows)
    if not refused:
        return "ROWS"
    number, at, step = refused
    return " ".join(["REFUSED", str(number), ("AHEAD", "BEHIND")[at], *([f"STEP {step}"] if step else [])])


def rows_bytes(rows):
    """The bytes of rows."""
    lengths = b"".join(len(row).to_bytes(2, "big") for row in rows)
    return bytes([3]) + lengths + b"".join(n.to_bytes(4, "big") for row in rows for n in row)


def answer(rows, bottom, weight_channel, weight, tolerance, limit, S, c, d, x, k):
    """The line of a case, where the own table is that of these rows."""
    if weight_channel > 63:
        return "REFUSED 1"
    if weight > 1000:
        return "REFUSED 9"
    if tolerance > LARGEST or limit > LARGEST:
        return "REFUSED 10"
    cost = own_cost(rows, S, c, d, x, k) if bottom == OWN else bottom_cost(bottom == 1, S, c, d, x, k)
    cost = weigh(weight if c == weight_channel else 1, cost)
    cost = relax(tolerance, cost)
    return str(stop(limit, S, d, x, k, cost))


def by_hand():
    """Cases with the answers that docs/RULES.md works out, for readings 1 and 1."""
    questions = [(k, x) for k in range(3) for x in range(2)]
    tables = [
        # bottom, weight of channel 0, tolerance, limit, channel, costs by slot and count
        (0, 1, 0, LARGEST, 0, [0, 2, 1, 1, 2, 0]),
        (0, 3, 0, LARGEST, 0, [0, 6, 3, 3, 6, 0]),
        (0, 3, 0, LARGEST, 1, [0, 2, 1, 1, 2, 0]),
        (0, 1, 1, LARGEST, 0, [0, 1, 0, 0, 1, 0]),
        (0, 1, 0, 0, 0, [0, TOP, 1, TOP, 2, 0]),
        (0, 1, 0, 1, 0, [0, TOP, 1, 1, 2, 0]),
        (1, 1, 0, LARGEST, 0, [0, 89, 160, 63, 320, 0]),
        (0, 3, 1, 1, 0, [0, TOP, 2, 2, 5, 0]),
        (0, 3, 1, 1, 1, [0, TOP, 0, 0, 1, 0]),
        (1, 3, 1, 1, 0, [0, TOP, 479, 188, 959, 0]),
        (1, 3, 1, 1, 1, [0, TOP, 159, 62, 319, 0]),
        (OWN, 1, 0, LARGEST, 0, [0, 64, 0, 16, 500, 0]),
        (OWN, 3, 1, 1, 0, [0, TOP, 0, 47, 1499, 0]),
        (OWN, 3, 1, 1, 1, [0, TOP, 0, 15, 499, 0]),
    ]
    for bottom, weight, tolerance, limit, c, costs in tables:
        for (k, x), cost in zip(questions, costs):
            yield (bottom, 0, weight, tolerance, limit, 2, c, 1, x, k), str(cost)


def at_the_edges():
    """The last settings that are taken and the first that are refused, and the edges of the domain."""
    plain = (2, 0, 1, 1, 1)
    for two_sided in (0, 1):
        for settings in [
            (63, 1000, LARGEST, LARGEST),
            (64, 1000, 0, LARGEST),
            (63, 1001, 0, LARGEST),
            (64, 1001, LARGEST + 1, LARGEST + 1),
            (63, 1001, LARGEST + 1, LARGEST + 1),
            (0, 0, LARGEST + 1, 0),
            (0, 0, 0, LARGEST + 1),
            (255, 65535, 2**32 - 1, 2**32 - 1),
        ]:
            yield (two_sided, *settings, *plain)
        for question in [
            (0, 0, 1, 0, 0),
            (4096, 0, 4096, 0, 4096),
            (4096, 63, 4096, 4096, 0),
            (4097, 0, 1, 0, 0),
            (2, 63, 1, 1, 0),
            (2, 64, 1, 1, 0),
            (2, 255, 1, 1, 0),
            (2, 0, 0, 0, 0),
            (2, 0, 4097, 0, 0),
            (2, 0, 1, 2, 0),
            (2, 0, 1, 1, 3),
            (65535, 0, 65535, 65535, 0),
            (65535, 0, 65535, 0, 65535),
        ]:
            for weight in (0, 1, 1000):
                yield (two_sided, 63, weight, 0, LARGEST, *question)


def every_step():
    """Each step from 0 to 255 and some past the cap, on both sides, at both of its ends."""
    for step in list(range(256)) + [256, 257, 511, 512]:
        for q in (step * 512, step * 512 + 511):
            yield (1, 0, 1, 0, LARGEST, *question_of(q))
            yield (1, 0, 1, 0, LARGEST, *question_of(-q))


def question_of(q):
    """A question with 4,096 slots, so that a step is 512 wide, and this q."""
    S = 4096
    for d in range(4096, 0, -1):
        for k in range(S + 1):
            x, rest = divmod(q + k * d, S)
            if rest == 0 and 0 <= x <= d:
                return S, 0, d, x, k
    raise AssertionError(f"no question has {q}")


def random_question(rng):
    """Settings of all sizes, and a question in the domain or near its edges."""
    S = rng.choice([1, 2, 3, 5, 8, 100, 1000, 4095, 4096])
    d = rng.randint(1, min(S + 1, 4096))
    x = rng.randint(0, d + rng.randint(0, 1))
    near = x * S // d + rng.randint(-2, 2)
    k = max(0, near if rng.random() < 0.7 else rng.randint(0, S + 1))
    c = rng.randint(0, 64)
    weight_channel = c if rng.random() < 0.7 else rng.randint(0, 64)
    weight = rng.choice([0, 1, 2, 3, 999, 1000, 1001, rng.randint(0, 1000)])
    tolerance = rng.choice([0, 0, 1, 40, rng.randint(0, 1000), rng.randint(0, LARGEST + 1)])
    q = S * x - k * d
    limit = rng.choice([LARGEST, max(0, q - 1), max(0, q), max(0, q + 1), rng.randint(0, LARGEST)])
    return weight_channel, weight, tolerance, limit, S, c, d, x, k


def at_random():
    """Random questions under the absolute deviation and the two-sided bottom."""
    rng = random.Random(20)
    for _ in range(1500):
        question = random_question(rng)
        yield (rng.randint(0, 1), *question)


def random_row(rng):
    """A row that starts at 0 and never falls, with few or many rises, up to the largest number or not."""
    numbers = [rng.randint(0, rng.choice([3, 1000, 2**32 - 1])) for _ in range(rng.choice([1, 3, 20, 255]))]
    return [0] + sorted(rng.choices(numbers, k=255))


def tables_at_random():
    """Rows that are accepted, with questions about each; the last ones have no number twice, and are asked about each step."""
    rng = random.Random(256)
    for _ in range(30):
        yield (random_row(rng), random_row(rng)), [(OWN, *random_question(rng)) for _ in range(30)]
    largest = [0] + [2**32 - 1] * 255
    yield (largest, largest), [(OWN, 0, weight, 0, LARGEST, 2, 0, 1, 1, k) for weight in (1, 256, 257, 1000) for k in (0, 1, 2)]
    distinct = [[0] + sorted(rng.sample(range(1, 2**32), 255)) for _ in range(2)]
    yield distinct, [(OWN, *case[1:]) for case in every_step()]


def wrong_rows():
    """Pairs of rows of which one at least has faults, with questions about the rows of zeros that stand for them."""
    rise, flat = list(range(256)), [0] * 255 + [1]
    rows = [rise, flat, [], rise[:255], [*rise, 255], [2**32 - 1] * 256, [1, *flat[1:]]]
    # the largest number from step 1 on, but one less at these steps
    for steps in [(2,), (255,), (100, 200)]:
        rows.append([2**32 - 1 - (s in steps) if s else 0 for s in range(256)])
    for ahead in rows:
        for behind in rows:
            if rows_refused((ahead, behind)):
                yield (ahead, behind), [(OWN, 0, 1, 0, LARGEST, 2, 0, 1, x, k) for x, k in [(1, 0), (0, 2), (2, 0)]]


def other_first_bytes():
    """Cases whose first byte names no bottom, with the costs of the absolute deviation that docs/RULES.md works out."""
    questions = [(k, x) for k in range(3) for x in range(2)]
    for first in (4, 255):
        for (k, x), cost in zip(questions, [0, 2, 1, 1, 2, 0], strict=True):
            yield (first, 0, 1, 0, LARGEST, 2, 0, 1, x, k), str(cost)


def bytes_of(case):
    """The bytes of a case."""
    widths = (1, 1, 2, 4, 4, 2, 1, 2, 2, 2)
    return b"".join(n.to_bytes(width, "big") for n, width in zip(case, widths, strict=True))


class Stored:
    """What is stored: bytes and lines, and the rows in force."""

    def __init__(self):
        self.data, self.lines, self.rows = bytearray(), [], (ZEROS, ZEROS)

    def put_rows(self, rows):
        """New rows; where they are refused, rows of zeros are in force."""
        self.data += rows_bytes(rows)
        self.lines.append(rows_line(rows))
        self.rows = (ZEROS, ZEROS) if rows_refused(rows) else rows

    def put(self, case, line=None):
        """A case, of which the line may be known."""
        found = answer(self.rows, *case)
        assert line in (None, found), (case, line, found)
        self.data += bytes_of(case)
        self.lines.append(found)


def groups():
    """Rows, with the cases that are asked while they are in force, each with its line where that is known otherwise."""
    yield ([s * s for s in range(256)], [0] * 5 + [500] * 251), list(by_hand())
    plain = [*at_the_edges(), *every_step(), *at_random()]
    yield (ZEROS, ZEROS), [(case, None) for case in plain]
    # an own table that costs what the two-sided bottom does, for which no rows are needed
    two_sided = [case for case in [*(case for case, _ in by_hand()), *plain] if case[0] == 1]
    rows = [root(s) for s in range(256)], [40 * s for s in range(256)]
    yield rows, [((OWN, *case[1:]), answer(None, *case)) for case in two_sided]
    for rows, cases in [*tables_at_random(), *wrong_rows()]:
        yield rows, [(case, None) for case in cases]
    yield ([s * s for s in range(256)], [0] * 5 + [500] * 251), list(other_first_bytes())


def main():
    stored = Stored()
    for rows, cases in groups():
        stored.put_rows(rows)
        for case, line in cases:
            stored.put(case, line)
    store(__file__, stored.data, stored.lines)


if __name__ == "__main__":
    main()
