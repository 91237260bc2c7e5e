#!/usr/bin/env python3
"""Gives the reference each job that is stored in `crates/listing_cases`, under its bottom, and compares what it prints.

So the plain program that the proved one is measured against is known to do the whole job: all records, lines and faults.
"""

import subprocess

from programs import ROOT, build_reference

CASES = ROOT / "crates" / "listing_cases"
BOTTOMS = [[], ["two-sided"]]


def main():
    reference = build_reference()
    data = (CASES / "stdin").read_bytes()
    listings = (CASES / "stdout").read_bytes().split(b"JOB ")[1:]
    for number, listing in enumerate(listings):
        bottom, length = data[0], int.from_bytes(data[1:3], "big")
        job, data = data[3 : 3 + length], data[3 + length :]
        out = subprocess.run([reference, *BOTTOMS[bottom]], input=job, stdout=subprocess.PIPE, check=True).stdout
        assert out == listing.split(b"\n", 1)[1], f"case {number}"
    assert not data
    print(len(listings), "jobs, each printed as stored")


if __name__ == "__main__":
    main()
