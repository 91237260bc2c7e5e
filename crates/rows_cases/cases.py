#!/usr/bin/env python3
"""Writes the cases of this crate: `stdin`, and the lines that they must give, `stdout`.

The answers come from the rules as docs/RULES.md states them (tools/rules.py), and every refusal is looked for in the order of its
table. Nothing is shared with the Rattle code. A case has the bottom (1 byte: 0 absolute deviation, else two-sided), the limit of a
stop over it (4), the channel and the readings of a trial (1 and 2), how many window places, ready places and list bytes there are
(2, 1 and 2), the serial number of a quote (4), how many bytes its line is given (1), how many numbers the row has (1), and these
numbers (2 each); numbers with the high byte first.
"""

import random
import sys
from itertools import product
from pathlib import Path

sys.path.insert(0, str(Path(__file__).parents[2] / "tools"))
from rules import LARGEST, LIMIT, TOP, best, bottom_cost, figure, in_domain, least_of_all, stop
from storing import store

LAYERS = 1


def cost_of(two_sided, limit):
    """The cost of a stop over a bottom."""

    def cost(S, c, d, x, k):
        if not in_domain(S, c, d, x, k):
            return TOP
        return stop(limit, S, d, x, k, bottom_cost(two_sided, S, c, d, x, k))

    return cost


def row_refused(row, memory):
    """The number by which best of a row is refused, 0 where it is not."""
    places, ready, list_bytes = memory
    if len(row) != 64:
        return 17
    total = sum(row)
    rules = [(2, any(n > LIMIT for n in row)), (5, total > LIMIT), (6, total == 0)]
    rules.append((8, places < total or list_bytes < total or ready < 64))
    return min((number for number, fits in rules if fits), default=0)


def trial_refused(row, channel, readings):
    """The number by which a trial is refused, 0 where it is not."""
    if len(row) != 64:
        return 17
    if channel > 63:
        return 1
    rules = [(2, not 1 <= readings <= LIMIT or any(n > LIMIT for n in row)), (4, row[channel] == 0)]
    rules.append((5, sum(row) - row[channel] + readings > LIMIT))
    return min((number for number, fits in rules if fits), default=0)


def best_of(cost, row, memory):
    """What best of a row answers: the least (or nothing) with the channels by slot, or the number of the refusal."""
    number = row_refused(row, memory)
    if number:
        return number
    table = {c: n for c, n in enumerate(row) if n}
    least, made, _ = best(cost, table)
    if sum(row) <= 6:
        assert least_of_all(cost, table) == (TOP if least is None else least)
    return least, made[1] if made else []


def best_line(word, row, answer):
    """The line of a best."""
    if isinstance(answer, int):
        return f"{word} REFUSED {answer}"
    least, channels = answer
    said = "NONE" if least is None else f"LEAST {least}"
    counts = f" TOTAL {sum(row)} CHANNELS {sum(n > 0 for n in row)}"
    return f"{word} {said}{counts}" + "".join(f" {c}" for c in channels)


def quote_lines(row, least, serial, room):
    """The lines of the quote of a best."""
    if least is None:
        return ["DRAFT 20"]
    lines = []
    if not 1 <= serial <= 999_999:
        lines.append("ISSUE 19")
        serial = 1
    if room < 96:
        lines.append("PRINT 18")
    total, channels = sum(row), sum(n > 0 for n in row)
    return lines + [f"QUOTE {serial} LEAST {least} TOTAL {total} CHANNELS {channels} LAYERS {LAYERS} FIGURE {figure(least, total)}"]


def answers(case):
    """The lines of a case."""
    (two_sided, limit), (channel, readings), memory, (serial, room), row = case
    cost = cost_of(two_sided, limit)
    answer = best_of(cost, row, memory)
    lines = [best_line("BEST", row, answer)]
    number = trial_refused(row, channel, readings)
    changed = list(row)
    if not number:
        changed[channel] = readings
    tried = best_of(cost, changed, memory)
    lines.append(f"CHECK {number}" if number else "CHECKED")
    lines.append(best_line("TRIAL", changed, tried))
    lines.append(best_line("TRIED", changed, number if number else tried))
    lines.append("ROW" + "".join(f" {c}:{n}" for c, n in enumerate(row) if n))
    if not isinstance(answer, int):
        lines += quote_lines(row, answer[0], serial, room)
    return lines


def row_of(table):
    """A row with these readings."""
    return [table.get(c, 0) for c in range(64)]


def bridge(table, trial=(0, 1), penalty=(0, LARGEST), memory=(16, 64, 16), quote=(7, 96)):
    """A case with the readings of a table."""
    return penalty, trial, memory, quote, row_of(table)


def worked():
    """Bridges worked by hand."""
    for readings in ((1,), (1, 1), (2, 1), (1, 1, 1), (3, 2)):
        yield bridge(dict(enumerate(readings)), (0, 2))
    for limit in (0, 1):
        yield bridge({0: 1, 1: 1}, penalty=(0, limit))
    yield bridge({0: 1, 1: 1}, penalty=(1, LARGEST))


def every_small_table():
    """Every table of up to three channels and six readings, under the absolute deviation and the two-sided bottom, with one reading more of the second channel."""
    for t in product(range(7), repeat=3):
        if 1 <= sum(t) <= 6:
            table = {c: n for c, n in enumerate(t) if n}
            yield bridge(table, (1, t[1] + 1))
            yield bridge(table, (2, 3), (1, LARGEST))


def refused():
    """Each refusal, alone and before those that come after it."""
    for length in (0, 1, 63, 65, 128):
        yield (0, LARGEST), (64, 0), (0, 0, 0), (0, 0), [5000] * length
    full = bridge({0: 2, 1: 1})[4]
    # the row
    yield (0, LARGEST), (0, 1), (0, 0, 0), (0, 0), [4096] * 64
    yield (0, LARGEST), (0, 1), (0, 0, 0), (0, 0), [4097] + [4096] * 63
    yield (0, LARGEST), (0, 1), (0, 0, 0), (0, 0), [65535] * 64
    yield (0, LARGEST), (63, 1), (0, 0, 0), (0, 0), [0] * 63 + [4097]
    yield (0, LARGEST), (63, 1), (16, 64, 16), (1, 96), [65] * 64
    yield (0, LARGEST), (0, 1), (0, 0, 0), (0, 0), [0] * 64
    for memory in ((3, 64, 3), (2, 64, 3), (3, 63, 3), (3, 64, 2), (0, 0, 0)):
        yield (0, LARGEST), (0, 2), memory, (1, 96), full
        yield (0, LARGEST), (0, 1), memory, (1, 96), full
        yield (0, LARGEST), (0, 3), memory, (1, 96), full
    # the trial
    for channel in (63, 64, 255):
        for readings in (0, 1, 4096, 4097, 65535):
            yield bridge({0: 1, 63: 2}, (channel, readings))
    for readings in (4093, 4094, 4095, 4096):
        yield bridge({0: 2, 1: 1}, (0, readings))
        yield bridge({0: 2, 1: 1}, (5, readings))
    # a row that is above the limit in all may be mended by the trial
    yield (0, LARGEST), (0, 3), (16, 64, 16), (1, 96), row_of({0: 4096, 1: 2})
    yield (0, LARGEST), (1, 3), (16, 64, 16), (1, 96), row_of({0: 4096, 1: 2})
    # the quote
    for serial in (0, 1, 999_999, 1_000_000, 2**32 - 1):
        for room in (0, 95, 96, 255):
            yield bridge({0: 2, 1: 1}, quote=(serial, room))
    yield bridge({0: 1, 1: 1}, penalty=(0, 0), quote=(0, 0))


def at_random(rng):
    """Rows, trials, memory and quotes of all kinds."""
    for _ in range(300):
        table = {c: rng.randint(1, 4) for c in rng.sample(range(64), rng.randint(1, 4))}
        total = sum(table.values())
        channel = rng.choice([*table, *table, *table, rng.randrange(70)])
        readings = rng.choice((0, 1, 2, 3, 4, 5, 4097))
        limit = rng.choice((LARGEST, LARGEST, 0, 1, total))
        short = rng.random() < 0.1
        memory = (rng.randint(0, total), 64, total) if short else (total + 5, 64 + rng.randint(0, 9), total + 5)
        quote = (rng.choice((0, 1, 5, 999_999, rng.randrange(2_000_000))), rng.choice((95, 96, 96, 200)))
        yield bridge(table, (channel, readings), (rng.randint(0, 1), limit), memory, quote)


def bytes_of(case):
    """The bytes of a case."""
    (two_sided, limit), (channel, readings), (places, ready, list_bytes), (serial, room), row = case
    data = bytes([two_sided]) + limit.to_bytes(4, "big") + bytes([channel]) + readings.to_bytes(2, "big")
    data += places.to_bytes(2, "big") + bytes([ready]) + list_bytes.to_bytes(2, "big")
    data += serial.to_bytes(4, "big") + bytes([room, len(row)])
    return data + b"".join(n.to_bytes(2, "big") for n in row)


# worked by hand: readings 2 and 1, one reading more of the second, and the quote
WORKED = [
    "BEST LEAST 1 TOTAL 3 CHANNELS 2 0 1 0",
    "CHECKED",
    "TRIAL LEAST 2 TOTAL 4 CHANNELS 2 0 1 0 1",
    "TRIED LEAST 2 TOTAL 4 CHANNELS 2 0 1 0 1",
    "ROW 0:2 1:1",
    "QUOTE 7 LEAST 1 TOTAL 3 CHANNELS 2 LAYERS 1 FIGURE 34",
]
assert answers(bridge({0: 2, 1: 1}, (1, 2))) == WORKED, answers(bridge({0: 2, 1: 1}, (1, 2)))


def main():
    rng = random.Random(20261127)
    data, lines = bytearray(), []
    for case in [*worked(), *every_small_table(), *refused(), *at_random(rng)]:
        data += bytes_of(case)
        lines += answers(case)
    store(__file__, data, lines)


if __name__ == "__main__":
    main()
