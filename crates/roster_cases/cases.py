#!/usr/bin/env python3
"""Writes the cases of this crate: `stdin`, and the lines that they must give, `stdout`.

The answers come from the rules as docs/RULES.md states them (tools/rules.py): the book, the windows, the slots by Glover's
rule over all windows, the least by trying every bound that is a cost. For small rounds the least is held against all
complete lists. Which crowded slots are shown is left open: the program counts the windows inside by itself. Nothing is
shared with the Rattle code. A case has the bottom (1 byte: 0 absolute deviation, 1 two-sided, else the distance from a
centre), the centres of slots 0 to 7 (1 each), the weights of channels 0 and 1 (2 each), the tolerance and the limit (4
each), how many window places, ready places and list bytes there are (2 each), the number of replies and of calls (1 each),
and for each call its kind (1: 0 add, 1 change, 2 remove, 3 list, else best), channel (1), readings (2), bound (8), and how
many window places (2), ready places (1) and list bytes (2) it is lent; numbers with the high byte first.
"""

import random
import sys
from itertools import product
from pathlib import Path

sys.path.insert(0, str(Path(__file__).parents[2] / "tools"))
from rules import LARGEST, LIMIT, TOP, best, bottom_cost, centred_cost, in_domain, least_of_all, list_at, relax, stop, weigh
from storing import store

ADD, CHANGE, REMOVE, LIST, BEST = range(5)
CENTRES = 8


def cost_of(bottom, centres, weights, tolerance, limit):
    """The cost of stop over band over weights over a bottom."""

    def cost(S, c, d, x, k):
        if not in_domain(S, c, d, x, k):
            return TOP
        if bottom < 2:
            below = bottom_cost(bottom == 1, S, c, d, x, k)
        else:
            below = centred_cost(centres, x, k)
        weight = weights[c] if c < len(weights) else 1
        return stop(limit, S, d, x, k, relax(tolerance, weigh(weight, below)))

    return cost


def refused(book, call):
    """The number by which the book refuses a call, 0 where it accepts it."""
    kind, c, n, bound, (places, ready, list_bytes) = call
    total = sum(book.values())
    short = places < total or list_bytes < total or ready < 64
    if kind in (ADD, CHANGE, REMOVE):
        rules = [(1, c > 63)]
        if kind != REMOVE:
            rules.append((2, not 1 <= n <= LIMIT))
        rules.append((3, c in book) if kind == ADD else (4, c not in book))
        if kind != REMOVE:
            rules.append((5, total - book.get(c, 0) + n > LIMIT))
    else:
        rules = [(6, not book)] + [(7, bound > TOP - 1)] * (kind == LIST) + [(8, short)]
    return min((number for number, fits in rules if fits), default=0)


def entered(book, call):
    """The book after an accepted call."""
    kind, c, n, _, _ = call
    if kind in (ADD, CHANGE):
        return {**book, c: n}
    if kind == REMOVE:
        return {b: m for b, m in book.items() if b != c}
    return book


def shown(made):
    """The channels by slot and the windows with their slots, or a block."""
    if made[0] == "WITHIN":
        _, channels, rows = made
        return "".join(f" {c}" for c in channels) + "".join(f" {c}:{j}:{e}-{l}@{s}" for c, j, e, l, s in rows)
    shown = made[:1] if made[0] == "CROWD" else made
    return " " + " ".join(str(part) for part in shown) + (" 0" if made[0] == "SHUT" else "")


def reply(cost, book, call):
    """The line of an accepted call."""
    kind, _, _, bound, _ = call
    if kind in (ADD, CHANGE, REMOVE):
        return "DONE"
    if kind == LIST:
        made = list_at(cost, bound, book)
        return ("WITHIN" if made[0] == "WITHIN" else "OVER") + shown(made)
    least, made, below = best(cost, book)
    if sum(book.values()) <= 6:
        assert least_of_all(cost, book) == (TOP if least is None else least)
    counts = f" TOTAL {sum(book.values())} CHANNELS {len(book)}"
    if least is None:
        return "NONE" + counts + shown(below)
    return f"LEAST {least}" + counts + shown(made) + " BELOW" + (shown(below) if below else " NOTHING")


def answers(case):
    """The lines of a case."""
    penalty, room, replies, calls = case
    lent = [call[4] if call[0] >= LIST else (0, 0, 0) for call in calls]
    if replies < len(calls) or any(sum(sizes) > size for sizes, size in zip(zip(*lent), room)):
        return ["TOO LITTLE"]
    cost, book, lines = cost_of(*penalty), {}, []
    for call in calls:
        number = refused(book, call)
        lines.append(f"REFUSED {number}" if number else reply(cost, book, call))
        if not number:
            book = entered(book, call)
    return lines + ["CHANNELS" + "".join(f" {c}:{book[c]}" for c in sorted(book))]


def plain(bottom=0, centres=(), weights=(1, 1), tolerance=0, limit=LARGEST):
    """A penalty."""
    return bottom, (*centres, *[0] * (CENTRES - len(centres))), weights, tolerance, limit


def add(c, n):
    return ADD, c, n, 0, (0, 0, 0)


def change(c, n):
    return CHANGE, c, n, 0, (0, 0, 0)


def remove(c):
    return REMOVE, c, 0, 0, (0, 0, 0)


def list_call(bound, lent=(16, 64, 16)):
    return LIST, 0, 0, bound, lent


def best_call(lent=(16, 64, 16)):
    return BEST, 0, 0, 0, lent


def enough(calls):
    """Just as much memory as the calls are lent."""
    return tuple(sum(call[4][i] for call in calls if call[0] >= LIST) for i in range(3))


def series(penalty, calls):
    """A case with enough replies and memory."""
    return penalty, enough(calls), len(calls), calls


def channels(table):
    """The calls that add the channels of a table."""
    return [add(c, n) for c, n in table.items()]


def random_call(rng):
    """A call that may well be refused."""
    c = rng.choice((0, 1, 2, 63, 64, 255)) if rng.random() < 0.2 else rng.randrange(3)
    n = rng.choice((0, 4096, 4097, 65535)) if rng.random() < 0.15 else rng.randint(1, 3)
    bound = rng.choice((0, 1, 2, 3, 5, 8, 40, 160, TOP - 1, TOP))
    lent = (rng.choice((0, 3, 16, 16, 16)), rng.choice((0, 63, 64, 64, 64, 80)), rng.choice((0, 3, 16, 16, 16)))
    kind = rng.choice((ADD, ADD, CHANGE, REMOVE, LIST, LIST, BEST))
    return kind, c, n, bound, lent if kind >= LIST else (0, 0, 0)


def worked():
    """The bridges that are worked by hand."""
    for readings in ((1,), (1, 1), (1, 1, 1), (3, 2)):
        yield series(plain(), channels(dict(enumerate(readings))) + [list_call(b) for b in range(4)] + [best_call()])
    for penalty in (plain(weights=(3, 1)), plain(tolerance=1), plain(limit=0), plain(limit=1), plain(bottom=1)):
        yield series(penalty, [add(0, 1), add(1, 1), best_call()])


def every_small_table():
    """Every table of up to three channels and six readings, under the absolute deviation and the two-sided bottom."""
    for t in product(range(7), repeat=3):
        if 1 <= sum(t) <= 6:
            table = channels({c: n for c, n in enumerate(t) if n})
            yield series(plain(), table + [best_call(), list_call(sum(t) - 1), list_call(sum(t) // 2)])
            yield series(plain(bottom=1), table + [best_call(), list_call(100), list_call(200)])


def piles(rng):
    """Piles of layers of all kinds."""
    for _ in range(250):
        table = {c: rng.randint(1, 3) for c in rng.sample((0, 1, 2, 63), rng.randint(1, 3))}
        slots = sum(table.values())
        penalty = plain(rng.randint(0, 1), (), (rng.choice((0, 1, 2, 1000)), 1), rng.choice((0, 0, 1, slots)), rng.choice((LARGEST, 0, 1, slots // 2)))
        yield series(penalty, channels(table) + [best_call(), list_call(rng.randint(0, slots)), list_call(TOP - 1)])


def shut_windows(rng):
    """Centres that rise and fall, under which windows can be shut."""
    for _ in range(250):
        table = {c: rng.randint(1, 3) for c in rng.sample(range(64), rng.randint(1, 2))}
        penalty = plain(2, [rng.randint(0, 3) for _ in range(CENTRES)])
        yield series(penalty, channels(table) + [list_call(0), list_call(1), best_call()])


def mixed(rng):
    """Calls of all kinds, accepted and refused."""
    for _ in range(250):
        penalty = plain(rng.randint(0, 1), (), (2, 1), 0, rng.choice((LARGEST, LARGEST, 1)))
        yield series(penalty, [random_call(rng) for _ in range(rng.randint(0, 20))])


def at_the_edges():
    """Replies or memory that are just enough, and one less; the last that is taken and the first that is refused."""
    calls = [add(5, 2), add(6, 1), list_call(1, (3, 64, 3)), best_call((5, 70, 4)), remove(5), best_call((1, 64, 1))]
    room, count = enough(calls), len(calls)
    yield plain(), room, count, calls
    for less in ((1, 0, 0), (0, 1, 0), (0, 0, 1)):
        yield plain(), tuple(size - n for size, n in zip(room, less)), count, calls
    yield plain(), room, count - 1, calls
    yield plain(), (0, 0, 0), 0, []
    yield series(plain(), [add(0, 4096), add(1, 1), change(0, 4095), add(1, 1), add(2, 1), change(1, 2), remove(0), add(63, 4095), add(64, 1)])
    yield series(plain(), [add(63, 1), add(64, 1), list_call(TOP - 1), list_call(TOP), list_call(2**64 - 1), add(64, 0), add(63, 0), add(63, 4097), change(1, 1), remove(1)])


def larger():
    """Larger rounds."""
    for table in ({0: 12, 1: 5, 2: 1}, {3: 7, 4: 7, 5: 7}, {c: 2 for c in range(8)}, {10: 20, 11: 3}):
        slots = sum(table.values())
        lent = (slots, 64, slots)
        yield series(plain(), channels(table) + [best_call(lent), list_call(slots - 1, lent)])
        yield series(plain(bottom=1), channels(table) + [best_call(lent)])


def cases():
    rng = random.Random(20261127)
    yield from worked()
    yield from every_small_table()
    yield from piles(rng)
    yield from shut_windows(rng)
    yield from mixed(rng)
    yield from at_the_edges()
    yield from larger()


def bytes_of(case):
    """The bytes of a case."""
    (bottom, centres, weights, tolerance, limit), room, replies, calls = case
    data = bytes([bottom, *centres]) + b"".join(w.to_bytes(2, "big") for w in weights)
    data += tolerance.to_bytes(4, "big") + limit.to_bytes(4, "big") + b"".join(n.to_bytes(2, "big") for n in room)
    data += bytes([replies, len(calls)])
    for kind, c, n, bound, (places, ready, list_bytes) in calls:
        data += bytes([kind, c]) + n.to_bytes(2, "big") + bound.to_bytes(8, "big")
        data += places.to_bytes(2, "big") + bytes([ready]) + list_bytes.to_bytes(2, "big")
    return data


# worked by hand in docs/RULES.md; of those whose windows or block are not given there, the beginning
WORKED = [
    (plain(), (1,), "LEAST 0 TOTAL 1 CHANNELS 1 0 0:1:1-1@1 BELOW NOTHING"),
    (plain(), (1, 1), "LEAST 1 TOTAL 2 CHANNELS 2 0 1 0:1:1-2@1 1:1:1-2@2 BELOW MOMENT 1 0"),
    (plain(), (2, 1), "LEAST 1 TOTAL 3 CHANNELS 2 0 1 0 0:1:1-1@1 0:2:3-3@3 1:1:2-2@2 BELOW MOMENT 1 0"),
    (plain(), (1, 1, 1), "LEAST 2 TOTAL 3 CHANNELS 3 0 1 2 "),
    (plain(), (3, 2), "LEAST 2 TOTAL 5 CHANNELS 2 0 1 0 1 0 "),
    (plain(weights=(3, 1)), (1, 1), "LEAST 3 TOTAL 2 CHANNELS 2 0 1 "),
    (plain(tolerance=1), (1, 1), "LEAST 0 TOTAL 2 CHANNELS 2 0 1 "),
    (plain(limit=0), (1, 1), "NONE TOTAL 2 CHANNELS 2 CROWD"),
    (plain(limit=1), (1, 1), "LEAST 1 TOTAL 2 CHANNELS 2 0 1 "),
    (plain(bottom=1), (1, 1), "LEAST 160 TOTAL 2 CHANNELS 2 0 1 "),
]
for penalty, readings, line in WORKED:
    told = answers(series(penalty, channels(dict(enumerate(readings))) + [best_call()]))[-2]
    assert told.startswith(line), (readings, told)


def main():
    data, lines = bytearray(), []
    for case in cases():
        data += bytes_of(case)
        lines += answers(case)
    store(__file__, data, lines)


if __name__ == "__main__":
    main()
