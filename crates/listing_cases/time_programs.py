#!/usr/bin/env python3
"""How long the programs `even` and `twosided` take on a best of 64 channels of 64 readings; they must be built before."""

import sys
from pathlib import Path

sys.path.insert(0, str(Path(__file__).parents[2] / "tools"))
from cases import BEST_RECORD, bridge
from timing import least_seconds


def main():
    for name in ("even", "twosided"):
        program = Path(__file__).parents[1] / name / "out" / name
        took = least_seconds(program, bridge(*[64] * 64) + BEST_RECORD, b"LEAST ")
        print(f"{name}: {1000 * took:.0f} ms")


if __name__ == "__main__":
    main()
