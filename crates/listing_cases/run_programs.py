#!/usr/bin/env python3
"""Gives the job of each stored case to the program of its bottom, `even` or `twosided`, and compares what it prints.

The gate prints the cases by the call that both programs make; this runs the programs themselves, which must be built
before (`rt run` in their folders).
"""

import subprocess
from pathlib import Path

HERE = Path(__file__).parent
PROGRAMS = [HERE.parent / name / "out" / name for name in ("even", "twosided")]


def main():
    data = (HERE / "stdin").read_bytes()
    listings = (HERE / "stdout").read_bytes().split(b"JOB ")[1:]
    for number, listing in enumerate(listings):
        bottom, length = data[0], int.from_bytes(data[1:3], "big")
        job, data = data[3 : 3 + length], data[3 + length :]
        out = subprocess.run([PROGRAMS[bottom]], input=job, stdout=subprocess.PIPE, check=True).stdout
        assert out == listing.split(b"\n", 1)[1], f"case {number}"
    assert not data
    print(len(listings), "jobs, each printed as stored")


if __name__ == "__main__":
    main()
