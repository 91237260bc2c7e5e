#!/usr/bin/env python3
"""Tries the edits of each crate's `must-not-compile/`, each in a copy of the repository, some at a time: the compiler must refuse
the edited source.

These edits are for what types rule out, before any contract is tried; the prover never sees them, so that they cannot stand among
those of `must-fail/`. An edit is a file with the lines `file:`, `old:` (which stands in that file once), `new:`, and `error:`, the
compiler's name of the error that it must give.
"""

import subprocess
import sys
import tempfile
from concurrent.futures import ThreadPoolExecutor
from pathlib import Path
from shutil import copytree, ignore_patterns

ROOT = Path(__file__).resolve().parents[1]


def fields(edit):
    """The lines of an edit by their names."""
    return dict(line.split(": ", 1) for line in edit.read_text().splitlines())


def verdict(edit):
    """Whether the compiler refuses an edit, in a copy of the repository, with its error; and what to print of it."""
    said = fields(edit)
    with tempfile.TemporaryDirectory() as folder:
        copy = Path(folder) / "copy"
        copytree(ROOT, copy, ignore=ignore_patterns(".git", "out", "target"))
        crate = copy / edit.parents[1].relative_to(ROOT)
        source = crate / said["file"]
        text = source.read_text()
        if text.count(said["old"]) != 1:
            return False, f"{edit.name}: what it replaces does not stand once in {said['file']}"
        source.write_text(text.replace(said["old"], said["new"]))
        run = subprocess.run(["rt", "try"], cwd=crate, stdin=subprocess.DEVNULL, capture_output=True, text=True)
    errors = [line for line in (run.stdout + run.stderr).splitlines() if "error[" in line]
    if run.returncode == 0 or len(errors) != 1 or f"error[{said['error']}]" not in errors[0]:
        return False, "\n".join([f"{edit.name}: it is not refused with {said['error']} alone:", *(errors or ["it compiles"])])
    return True, f"{edit.name}: does not compile, as it must be: {errors[0]}"


def main():
    edits = sorted(ROOT.glob("crates/*/must-not-compile/*.edit"))
    with ThreadPoolExecutor() as pool:
        verdicts = list(pool.map(verdict, edits))
    for _, said in verdicts:
        print(said)
    wrong = sum(not refused for refused, _ in verdicts)
    print(f"{len(edits) - wrong} edits do not compile, {wrong} wrong")
    sys.exit(bool(wrong or not edits))


if __name__ == "__main__":
    main()
