#!/usr/bin/env python3
"""Times the matching of 64 channels of 64 readings to 4,096 slots, by the program `matching_cases`.

The program is run on many copies of the case with 64 ready places, and on as many with 63, which are refused after
the same bytes are read. The difference is the matching and the line that is made of its slots.
"""

import sys
from pathlib import Path

sys.path.insert(0, str(Path(__file__).parents[2] / "tools"))
from timing import least_seconds

PROGRAM = Path(__file__).parent / "out" / "matching_cases"
CHANNELS, READINGS = 64, 64
SLOTS = CHANNELS * READINGS
BOUND = SLOTS - 1
COPIES = 100


def case(ready):
    """The windows of the absolute deviation at a bound that every round keeps."""
    data = bytearray([ready]) + SLOTS.to_bytes(2, "big")
    for channel in range(CHANNELS):
        for j in range(1, READINGS + 1):
            earliest = max(1, -(-(j * SLOTS - BOUND) // READINGS))
            latest = min(SLOTS, ((j - 1) * SLOTS + BOUND) // READINGS + 1)
            data += bytes([channel]) + b"".join(x.to_bytes(2, "big") for x in (j, earliest, latest))
    return bytes(data)


def seconds(ready):
    """The time for all copies."""
    return least_seconds(PROGRAM, case(ready) * COPIES, b"PLACED" if ready >= 64 else b"REFUSED READY")


matched, refused = seconds(64), seconds(63)
print(f"{(matched - refused) / COPIES * 1000:.2f} ms for each matching of {SLOTS} slots")
