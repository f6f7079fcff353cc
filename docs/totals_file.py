#!/usr/bin/env python3
"""Files of totals: how much a test tries, so that one that tries less fails. In a line are a name and its total; `#` begins
a comment.

Compares a total with that of its name in FILE: the status is 1 where FILE has another one, and where TOTAL is 0. Where the
environment has WRITE_TOTALS, as a tool's option --write-totals sets it, a total is written instead of compared.
"""
import argparse
import fcntl
import os
import re
import sys
from pathlib import Path

WRITES = "WRITE_TOTALS"


def is_writing():
    return bool(os.environ.get(WRITES))


def start_writing():
    """From here on totals are written, by the programs that are started too."""
    os.environ[WRITES] = "1"


def rows_of(path, text):
    rows = {}
    for line in text.splitlines():
        name, _, total = line.partition(" ")
        if line.startswith("#") or not line.strip():
            continue
        if not re.fullmatch(r"[\w.-]+", name) or not total.strip() or name in rows:
            raise SystemExit(f"{path}: no total of its own: {line}")
        rows[name] = total.strip()
    return rows


def read(path):
    """The totals of a file as texts, by their names."""
    return rows_of(path, Path(path).read_text())


def write(path, found, only=False):
    """Puts what was found into the file, where `only` is set in the place of all that it has, and says what changes."""
    with open(path, "r+") as file:
        fcntl.flock(file, fcntl.LOCK_EX)  # tests that run side by side write one file
        text = file.read()
        before = rows_of(path, text)
        after = {**({} if only else before), **{name: str(total) for name, total in found.items()}}
        for name in [name for name in {**before, **after} if before.get(name) != after.get(name)]:
            print(f"{path}: {name}: {before.get(name, 'none')}, now {after.get(name, 'none')}", file=sys.stderr)
        head = [line for line in text.splitlines() if line.startswith("#")]
        file.seek(0)
        file.truncate()
        file.write("".join(f"{line}\n" for line in [*head, *(f"{name} {total}" for name, total in after.items())]))


def fault(path, name, total):
    """What is wrong with a total that a test comes to, or nothing. It is written where it shall be, unless it is 0."""
    if str(total) in ("", "0"):
        return f"of {name} nothing was tried"
    if is_writing():
        write(path, {name: total})
        return ""
    wanted = read(path).get(name, "none")
    return "" if str(total) == wanted else f"of {name} {total} were tried, and {path} has {wanted}"


if __name__ == "__main__":
    parser = argparse.ArgumentParser(description=__doc__, formatter_class=argparse.RawDescriptionHelpFormatter)
    for word in ("file", "name", "total"):
        parser.add_argument(word, metavar=word.upper())
    asked = parser.parse_args()
    sys.exit(fault(asked.file, asked.name, asked.total) or None)
