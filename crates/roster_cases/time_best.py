#!/usr/bin/env python3
"""Times the best of rosters of 4,096 readings, by the program `roster_cases`.

The program is run on copies of a series that adds the channels and asks for the best, and on as many that ask for nothing. It
makes each call twice, in the series and by itself, so half the difference is one best with half of the making of its line.
"""

import sys
from pathlib import Path

sys.path.insert(0, str(Path(__file__).parents[2] / "tools"))
from cases import best_call, bytes_of, channels, plain, series
from timing import least_seconds

PROGRAM = Path(__file__).parent / "out" / "roster_cases"
COPIES = 5
TABLES = {
    "64 times 64": [64] * 64,
    "4,000 and 96": [4000, 96],
    "skewed": [1] * 32 + [2] * 16 + [16] * 15 + [3792],
    "rising": [2 * i + 1 for i in range(63)] + [127],
}


def seconds(penalty, readings, calls):
    """The time for all copies."""
    adds = channels(dict(enumerate(readings)))
    return least_seconds(PROGRAM, bytes_of(series(penalty, adds + calls)) * COPIES, b"DONE")


for name, readings in TABLES.items():
    for penalty, what in ((plain(), "absolute"), (plain(bottom=1), "two-sided")):
        took = (seconds(penalty, readings, [best_call((4096, 64, 4096))]) - seconds(penalty, readings, [])) / COPIES / 2
        print(f"{took * 1000:.0f} ms for the best of {name} readings, {what}")
