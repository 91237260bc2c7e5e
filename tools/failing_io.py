#!/usr/bin/env python3
"""Runs the built programs where a write fails, and where a read fails: the status must be 1, and not 0.

No contract speaks of that, and the stored outputs come from reads and writes that succeed. A program is built by `rt run` in its
crate's folder. Each write to /dev/full fails, and each read of a folder.
"""

import os
import subprocess
import sys
from pathlib import Path

ROOT = Path(__file__).resolve().parents[1]
PROGRAMS = ["audit", "bridge", "even", "twosided"]


def status(program, source, target):
    """The status of a program that reads what stands at one path and writes to another."""
    built = ROOT / "crates" / program / "out" / program
    reads, writes = os.open(source, os.O_RDONLY), os.open(target, os.O_WRONLY)
    try:
        return subprocess.run([built], stdin=reads, stdout=writes, stderr=subprocess.DEVNULL).returncode
    finally:
        os.close(reads)
        os.close(writes)


def main():
    wrong = 0
    for program in PROGRAMS:
        folder = ROOT / "crates" / program
        stdin = folder / "stdin"
        answered = [status(program, stdin, "/dev/null"), status(program, stdin, "/dev/full"), status(program, folder, "/dev/null")]
        print(program, *answered)
        wrong += answered != [0, 1, 1]
    print(f"{len(PROGRAMS) - wrong} programs say it where a write or a read fails, {wrong} wrong")
    sys.exit(bool(wrong))


if __name__ == "__main__":
    main()
