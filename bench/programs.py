"""Builds the two programs that are measured: the proved `even`, and the plain Rust of `reference/`."""

import subprocess
import sys
from pathlib import Path

ROOT = Path(__file__).resolve().parents[1]
REFERENCE = ROOT / "bench" / "reference"
EVEN = ROOT / "crates" / "even"


def build_reference():
    """The reference as cargo builds it for release, from what lies here alone."""
    subprocess.run(["cargo", "build", "--release", "--offline", "--quiet"], cwd=REFERENCE, check=True)
    return REFERENCE / "target" / "release" / "reference"


def build_even():
    """The program `even`. `rt run` proves it with all that it stands on, builds it as `out/even`, and runs it on the stored job;
    where nothing changed since it only runs it. In a fresh clone the proofs take minutes."""
    with open(EVEN / "stdin", "rb") as job:
        run = subprocess.run(["rt", "run"], cwd=EVEN, stdin=job, capture_output=True)
    if run.returncode or run.stdout != (EVEN / "stdout").read_bytes():
        sys.stderr.buffer.write(run.stdout + run.stderr)
        sys.exit("even: it is not proved, or does not print what is stored")
    return EVEN / "out" / "even"
