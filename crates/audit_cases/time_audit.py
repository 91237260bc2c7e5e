#!/usr/bin/env python3
"""Times the program `audit`, as a whole process, on 64 channels of 64 readings in rotating order."""

import subprocess
import time
from pathlib import Path

PROGRAM = Path(__file__).parents[1] / "audit" / "out" / "audit"
INPUT = (64).to_bytes(2, "big") * 64 + bytes(range(64)) * 64
RUNS = 200


def one_run():
    start = time.perf_counter()
    subprocess.run([PROGRAM], input=INPUT, stdout=subprocess.DEVNULL, check=True)
    return time.perf_counter() - start


times = sorted(one_run() for _ in range(RUNS))
print(f"median {times[RUNS // 2] * 1000:.2f} ms, most {times[-1] * 1000:.2f} ms, of {RUNS} runs")
