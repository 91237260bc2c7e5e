#!/usr/bin/env python3
"""Times an audit and the dearest 64 moments of 64 channels and 4,096 slots, by the program `audit_cases`.

    time_dearest.py [PROGRAM ..]    times this crate's build, or these builds of it side by side

The program is run on many copies of a list, and on as many whose last byte is wrong. Both are checked up to that byte, so the
difference is the two walks over the moments, the heap and the line of the moments. Only every sixth case has 64 places, so empty
inputs, which are refused at once, stand in between.
"""

import sys
from pathlib import Path

sys.path.insert(0, str(Path(__file__).parents[2] / "tools"))
from cases import PLACES, bytes_of
from timing import least_seconds

BUILT = Path(__file__).parent / "out" / "audit_cases"
CHANNELS, READINGS = 64, 64
COPIES = 100
TURNING = list(range(CHANNELS)) * READINGS
IN_BLOCKS = sorted(TURNING)


def seconds(program, list_):
    """The time for all copies of a list."""
    inputs = [bytes_of([READINGS] * CHANNELS, list_) if places == 64 else b"" for places in PLACES]
    return least_seconds(program, b"".join(len(i).to_bytes(4, "big") + i for i in inputs) * COPIES, b"REFUSED 17")


for name, list_ in (("channels in turn", TURNING), ("channels in blocks", IN_BLOCKS)):
    for program in sys.argv[1:] or [BUILT]:
        took = seconds(program, list_) - seconds(program, [*list_[:-1], CHANNELS])
        print(f"{took / COPIES * 1000:.2f} ms for an audit and the dearest 64 moments, {name}: {program}")
