"""How long a program takes on an input, for the scripts that time many copies of a case."""

import subprocess
import time


def least_seconds(program, given, answer, runs=5):
    """The least time of a few runs, each of which must answer something that begins with `answer`."""
    least = None
    for _ in range(runs):
        start = time.perf_counter()
        out = subprocess.run([program], input=given, stdout=subprocess.PIPE, check=True).stdout
        took = time.perf_counter() - start
        least = took if least is None else min(least, took)
        assert out.startswith(answer), out[:40]
    return least
