#!/usr/bin/env python3
"""Writes the cases of this crate: `stdin`, and the lines that they must give, `stdout`.

The answers come from the rules as docs/RULES.md states them, word for word and slowly: every count
is taken afresh from the list, and every refusal is looked for in the order of the table. Nothing
here is shared with the Rattle code. A case is the length of an input in four bytes, the high byte
first, and then the input. Its first line is that of the audit, its second has the dearest moments of
the list, each after its cost, as many as there are places for; the number of places goes round (`PLACES`).
"""

import random
import sys
from pathlib import Path

sys.path.insert(0, str(Path(__file__).parents[2] / "tools"))
from storing import store

CHANNELS = 64
LIMIT = 4096
PLACES = (0, 1, 2, 5, 64, 300)


def audit(row, list_):
    """The line for a row of numbers and a list of bytes."""
    if len(row) != CHANNELS:
        return "REFUSED 17"
    if any(n > LIMIT for n in row):
        return "REFUSED 2"
    total = sum(row)
    if total > LIMIT:
        return "REFUSED 5"
    if total == 0:
        return "REFUSED 6"
    if len(list_) != total:
        return "REFUSED 14"
    for slot, byte in enumerate(list_, start=1):
        if byte >= CHANNELS or row[byte] == 0:
            return f"REFUSED 15 SLOT {slot}"
    for channel in range(CHANNELS):
        if list_.count(channel) != row[channel]:
            return f"REFUSED 16 CHANNEL {channel}"
    cost, k, c = min(moments(row, list_), key=lambda moment: (-moment[0], moment[1], moment[2]))
    return f"LARGEST {cost} MOMENT {k} {c}"


def moments(row, list_):
    """All moments of a list, each with its cost, slot and channel."""
    total = sum(row)
    channels = [c for c in range(CHANNELS) if row[c] > 0]
    return [(abs(total * list_[:k].count(c) - k * row[c]), k, c) for k in range(total + 1) for c in channels]


def parts(input_):
    """The row and the list of an input."""
    front = input_[:128]
    return [front[i] * 256 + front[i + 1] for i in range(0, len(front) - 1, 2)], input_[128:]


def whole(input_):
    """The line of the audit for the bytes of an input."""
    return audit(*parts(input_))


def dearest(input_, places):
    """The line of the dearest moments, each after its cost: as many as there are places for, the cheapest
    first; or why it is refused."""
    line = whole(input_)
    if line.startswith("REFUSED"):
        return "DEAREST " + " ".join(line.split()[:2])
    ordered = sorted(moments(*parts(input_)), key=lambda moment: (moment[0], -moment[1], -moment[2]))
    kept = ordered[len(ordered) - min(places, len(ordered)) :]
    return "DEAREST" + "".join(f" {cost} ({k},{c})" for cost, k, c in kept)


def table(**readings):
    """A row with the readings given as c0=2, c1=1 and so on."""
    row = [0] * CHANNELS
    for name, n in readings.items():
        row[int(name[1:])] = n
    return row


def bytes_of(row, list_=()):
    return b"".join(n.to_bytes(2, "big") for n in row) + bytes(list_)


def by_hand():
    """Inputs with the answers that the rules give on paper."""
    two_one = table(c0=2, c1=1)
    yield bytes_of(two_one, [0, 1, 0]), "LARGEST 1 MOMENT 1 0"
    yield bytes_of(two_one, [0, 0, 1]), "LARGEST 2 MOMENT 2 0"
    yield bytes_of(two_one, [1, 0, 0]), "LARGEST 2 MOMENT 1 0"
    yield bytes_of(table(c0=1), [0]), "LARGEST 0 MOMENT 0 0"
    yield bytes_of(table(c63=1), [63]), "LARGEST 0 MOMENT 0 63"
    yield bytes_of(table(c0=1, c1=1), [0, 1]), "LARGEST 1 MOMENT 1 0"
    yield bytes_of(table(c0=1, c1=1), [1, 0]), "LARGEST 1 MOMENT 1 0"
    yield bytes_of(table(c5=3, c9=2), [5, 9, 5, 9, 5]), "LARGEST 2 MOMENT 1 5"
    # one channel of 4,096 stands everywhere, so it never departs
    yield bytes_of(table(c7=4096), [7] * 4096), "LARGEST 0 MOMENT 0 7"
    # 64 channels of 64 in turn: after k slots, k = 64·t + r, a channel that stands among the last r
    # slots has q = 64·(64 − r), and another has q = −64·r; both are at most 64·63 in size, which
    # channel 0 reaches first, after slot 1
    yield bytes_of([64] * 64, list(range(64)) * 64), "LARGEST 4032 MOMENT 1 0"
    # two channels in two blocks: after slot 2,048 the first has q = 4,096·2,048 − 2,048·2,048
    yield bytes_of(table(c0=2048, c1=2048), [0] * 2048 + [1] * 2048), "LARGEST 4194304 MOMENT 2048 0"


def refusals():
    """Inputs that are refused, each number alone and before those that come after it."""
    two_one = table(c0=2, c1=1)
    # 17: too few bytes for a row
    yield b"", "REFUSED 17"
    yield b"\0", "REFUSED 17"
    yield bytes_of(two_one)[:127], "REFUSED 17"
    yield bytes_of(table(c0=9999))[:126], "REFUSED 17"
    # 2: a number above 4,096, also where the total passes it before
    yield bytes_of(table(c3=4097), [3] * 4097), "REFUSED 2"
    yield bytes_of(table(c0=65535)), "REFUSED 2"
    yield bytes_of(table(c0=4096, c1=4096, c63=4097)), "REFUSED 2"
    # 5: the total
    yield bytes_of(table(c0=4096, c1=1), [0] * 4096 + [1]), "REFUSED 5"
    yield bytes_of([65] * 64, [0]), "REFUSED 5"
    yield bytes_of([4096] * 64), "REFUSED 5"
    # 6: no channel, whatever the list
    yield bytes_of([0] * 64), "REFUSED 6"
    yield bytes_of([0] * 64, [0]), "REFUSED 6"
    # 14: the list's length, whatever it holds
    yield bytes_of(two_one, [0, 1]), "REFUSED 14"
    yield bytes_of(two_one, [0, 1, 0, 0]), "REFUSED 14"
    yield bytes_of(two_one), "REFUSED 14"
    yield bytes_of(two_one, [64, 64]), "REFUSED 14"
    yield bytes_of(table(c7=4096), [7] * 4095), "REFUSED 14"
    # 15: the first slot that has no channel of the table, before a wrong count
    yield bytes_of(two_one, [0, 2, 0]), "REFUSED 15 SLOT 2"
    yield bytes_of(two_one, [0, 0, 64]), "REFUSED 15 SLOT 3"
    yield bytes_of(two_one, [255, 63, 0]), "REFUSED 15 SLOT 1"
    yield bytes_of(table(c7=4096), [7] * 4095 + [6]), "REFUSED 15 SLOT 4096"
    # 16: the smallest channel with the wrong count
    yield bytes_of(two_one, [1, 1, 0]), "REFUSED 16 CHANNEL 0"
    yield bytes_of(two_one, [0, 0, 0]), "REFUSED 16 CHANNEL 0"
    yield bytes_of(table(c0=1, c2=1, c63=1), [0, 2, 2]), "REFUSED 16 CHANNEL 2"
    yield bytes_of(table(c62=1, c63=2), [63, 62, 62]), "REFUSED 16 CHANNEL 62"


def at_random(rng):
    """Complete lists, and lists with one byte changed, of random tables with few or many channels."""
    for turn in range(320):
        row = [0] * CHANNELS
        for channel in rng.sample(range(CHANNELS), rng.randint(1, 6 if turn < 300 else CHANNELS)):
            row[channel] = rng.randint(1, 12)
        list_ = [c for c in range(CHANNELS) for _ in range(row[c])]
        rng.shuffle(list_)
        if rng.random() < 0.25:
            list_[rng.randrange(len(list_))] = rng.choice([rng.randrange(256), rng.choice(list_)])
        if rng.random() < 0.05:
            list_.append(list_[0])
        yield bytes_of(row, list_)


def main():
    # readings 2 and 1, list 0 1 0: q is 0 at k = 0 and k = 3, and 1 or -1 in between
    level = bytes_of(table(c0=2, c1=1), [0, 1, 0])
    assert dearest(level, 3) == "DEAREST 1 (2,0) 1 (1,1) 1 (1,0)"
    assert dearest(level, 9) == "DEAREST 0 (3,1) 0 (3,0) 0 (0,1) 0 (0,0) 1 (2,1) 1 (2,0) 1 (1,1) 1 (1,0)"
    cases = []
    for input_, line in [*by_hand(), *refusals()]:
        assert whole(input_) == line, (line, whole(input_))
        cases.append((input_, line))
    cases += [(input_, whole(input_)) for input_ in at_random(random.Random(1))]
    lines = []
    for turn, (input_, line) in enumerate(cases):
        lines += [line, dearest(input_, PLACES[turn % len(PLACES)])]
    store(__file__, b"".join(len(i).to_bytes(4, "big") + i for i, _ in cases), lines)


if __name__ == "__main__":
    main()
