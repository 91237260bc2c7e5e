#!/usr/bin/env python3
"""Times the windows of tables of 4,096 readings, by the program `windows_cases`.

The program is run on many copies of the case with places for all windows, and on as many with none, which are refused
after the same bytes are read; both print the same line of the formulas. The difference is the windows and the line that
is made of them.
"""

import sys
from pathlib import Path

sys.path.insert(0, str(Path(__file__).parents[2] / "tools"))
from cases import bytes_of
from timing import least_seconds

PROGRAM = Path(__file__).parent / "out" / "windows_cases"
COPIES = 40
TABLES = {"64 times 64": [64] * 64, "4,000 and 96": [4000, 96], "skewed": [1] * 32 + [2] * 16 + [16] * 15 + [3792]}


def seconds(readings, bound, places):
    """The time for all copies."""
    case = bytes_of(0, bytes(8), bound, places, dict(enumerate(readings)))
    return least_seconds(PROGRAM, case * COPIES, b"WINDOWS" if places else b"REFUSED PLACES")


for name, readings in TABLES.items():
    for bound in (4095, 2**40 - 2):
        took = (seconds(readings, bound, 4096) - seconds(readings, bound, 0)) / COPIES
        print(f"{took * 1000:.2f} ms for the windows of {name} readings at bound {bound}")
