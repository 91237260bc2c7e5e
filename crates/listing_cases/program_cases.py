#!/usr/bin/env python3
"""Writes the job of the program `twosided` and its listing, `stdin` and `stdout` beside the program.

Several questions, with settings that change between them, and a fault at the end. The listing comes from cases.py.
"""

from pathlib import Path

from cases import BEST_RECORD, LARGEST, add, ask, bridge, limit, listing, tolerance, weight

JOB = b"".join(
    [
        bridge(1, 1) + BEST_RECORD + ask(159) + ask(160),
        weight(1, 3) + BEST_RECORD,
        tolerance(200) + BEST_RECORD,
        add(5, 2) + BEST_RECORD,
        limit(1) + BEST_RECORD,
        limit(LARGEST) + tolerance(0) + ask(500),
        add(5, 1),
    ]
)


def main():
    folder = Path(__file__).parents[1] / "twosided"
    (folder / "stdin").write_bytes(JOB)
    (folder / "stdout").write_text("".join(line + "\n" for line in listing(True, JOB)))


if __name__ == "__main__":
    main()
