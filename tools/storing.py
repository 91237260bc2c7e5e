"""Stores the cases of a crate and the lines that they must give, for the scripts that make them."""

from collections import Counter
from pathlib import Path


def store(script, data, lines):
    """Writes `stdin` and `stdout` beside the script, and tells how many lines begin with which word, or a number."""
    folder = Path(script).parent
    (folder / "stdin").write_bytes(data)
    (folder / "stdout").write_text("".join(line + "\n" for line in lines))
    words = Counter(word if word.isalpha() else "a number" for word in (line.split()[0] for line in lines))
    print(len(lines), "lines:", ", ".join(f"{n} {word}" for word, n in sorted(words.items())))
