#!/usr/bin/env python3
"""Writes the cases of this crate: `stdin`, and the lines that they must give, `stdout`.

The answers come from the rules as docs/RULES.md states them. Whether an assignment exists is found by
going through all of them for small sets, and by counting the windows inside every interval for larger
ones; the slots of a placement are those of tools/rules.py. Nothing here is shared with the Rattle code.
A case has the number of ready places (1 byte), the number of windows (2), and for each window its
channel (1), reading, earliest and latest (2 each), numbers with the high byte first.
"""

import random
import sys
from itertools import permutations
from pathlib import Path

sys.path.insert(0, str(Path(__file__).parents[2] / "tools"))
from rules import placement
from storing import store


def arranged(windows):
    """Whether the windows stand as the matching takes them."""
    n = len(windows)
    if n > 4096:
        return False
    for c, j, e, l in windows:
        if not (c <= 63 and 1 <= e <= l <= n):
            return False
    for (c, j, e, l), (d, k, f, m) in zip(windows, windows[1:]):
        if not (c < d or (c == d and j < k and e <= f and l <= m)):
            return False
    return True


def some_assignment(windows):
    """Whether the readings can stand in different slots of their windows, by trying every order."""
    return any(
        all(e <= slot <= l for (c, j, e, l), slot in zip(windows, order))
        for order in permutations(range(1, len(windows) + 1))
    )


def no_crowd(windows):
    """Whether no interval has more windows wholly inside than slots."""
    n = len(windows)
    for a in range(1, n + 1):
        ends = sorted(l for c, j, e, l in windows if e >= a)
        for number, b in enumerate(ends, 1):
            if number > b - a + 1:
                return False
    return True


def answer(ready, windows):
    """The line of a case."""
    if min(ready, 80) < 64:
        return "REFUSED READY"
    if not arranged(windows):
        return "REFUSED WINDOWS"
    slots = placement(windows)
    exists = no_crowd(windows)
    if len(windows) <= 7:
        assert exists == some_assignment(windows)
    assert exists == (slots is not None)
    return "PLACED" + "".join(f" {s}" for s in slots) if exists else "CROWDED"


def rising(rng, n, lows, highs):
    """Ends of one channel's windows that never fall and leave none shut."""
    es = sorted(rng.choice(lows) for _ in range(n))
    ls = sorted(rng.choice(highs) for _ in range(n))
    return [(e, max(e, l)) for e, l in zip(es, ls)]


def random_windows(rng, n, channels, slack):
    """Windows of n readings that are spread over the channels, each about an even share's place."""
    counts = [0] * channels
    for _ in range(n):
        counts[rng.randrange(channels)] += 1
    numbers = sorted(rng.sample(range(64), channels))
    windows = []
    for c, d in zip(numbers, counts):
        ends = []
        for j in range(1, d + 1):
            e = max(1, -(-(j * n - slack) // d))
            l = min(n, ((j - 1) * n + slack) // d + 1)
            ends.append((e, max(e, l)))
        windows += [(c, j, e, min(n, l)) for j, (e, l) in enumerate(ends, 1)]
    return windows


def cases():
    rng = random.Random(20261118)
    yield 64, [(0, 1, 2, 2), (1, 1, 2, 2), (2, 1, 2, 2)]
    yield 64, [(0, 1, 1, 2), (1, 1, 1, 2)]
    yield 64, []
    yield 63, [(0, 1, 1, 1)]
    yield 0, []
    yield 80, [(63, 1, 1, 1)]
    yield 64, [(64, 1, 1, 1)]
    # every set of windows of one channel each, up to three slots
    for n in range(1, 4):
        spans = [(e, l) for e in range(1, n + 1) for l in range(e, n + 1)]
        for pick in range(len(spans) ** n):
            windows = []
            for c in range(n):
                pick, at = divmod(pick, len(spans))
                windows.append((c, 1, *spans[at]))
            yield 64, windows
    # small sets with several readings of a channel
    for _ in range(900):
        n = rng.randint(1, 7)
        channels = rng.randint(1, n)
        counts = [1] * channels
        for _ in range(n - channels):
            counts[rng.randrange(channels)] += 1
        windows = []
        for c, d in zip(sorted(rng.sample(range(64), channels)), counts):
            windows += [(c, j, e, l) for j, (e, l) in enumerate(rising(rng, d, range(1, n + 1), range(1, n + 1)), 1)]
        yield rng.choice((64, 65, 80)), windows
    # windows that are not arranged, or nearly
    for _ in range(300):
        n = rng.randint(1, 5)
        windows = [(rng.choice((0, 1, 63, 64)), rng.randint(0, 2), rng.randint(0, n + 1), rng.randint(0, n + 1)) for _ in range(n)]
        yield rng.choice((63, 64)), sorted(windows)
    # larger rounds about an even share, from too little slack to enough
    for _ in range(60):
        n = rng.randint(20, 150)
        channels = rng.randint(2, 20)
        yield 64, random_windows(rng, n, channels, rng.randrange(n // 2, n + 1))
    # 64 channels of 8 readings each
    yield 64, [(c, j, (j - 1) * 64 + 1, j * 64) for c in range(64) for j in range(1, 9)]
    yield 64, [(c, j, 1, 512) for c in range(64) for j in range(1, 9)]


def main():
    stdin = bytearray()
    lines = []
    for ready, windows in cases():
        stdin += bytes([ready]) + len(windows).to_bytes(2, "big")
        for c, j, e, l in windows:
            stdin += bytes([c]) + b"".join(x.to_bytes(2, "big") for x in (j, e, l))
        lines.append(answer(ready, windows))
    # worked by hand
    assert lines[:2] == ["CROWDED", "PLACED 1 2"]
    store(__file__, stdin, lines)


if __name__ == "__main__":
    main()
