"""Reads the rows of this folder, files *.txt: what programs print of pages. README.md says how they are written.

What can't be read is an error, and so is a file without rows.
"""
import re
import shlex
import sys
from collections import namedtuple
from pathlib import Path

sys.dont_write_bytecode = True
from block_words import in_words

TOP = Path(__file__).resolve().parents[2]
FOLDER = TOP / "tests/rows"
# What becomes of the output before it is compared, by the name after a bar in the command.
VIEWS = {"": bytes, "words": in_words}
ESCAPE = re.compile(rb"\\(?:x([0-9a-f]{2})|(.?))", re.S)
ESCAPED = {b"n": b"\n", b"r": b"\r", b"t": b"\t", b"\\": b"\\", b"e": b""}

# `words` are those of the command, the program first; `page` is None where nothing is given.
Row = namedtuple("Row", "where name words view page printed status said")
# What a folder holds of a run: its words as they are written, what is given, what is printed, and what is printed on standard error.
StoredRun = namedtuple("StoredRun", "words page printed said")


class BadRow(Exception):
    """A line that can't be read."""


def stored_run(folder):
    """The run that stands in a folder. It has its output; of the rest, what has no file is nothing."""
    words, page, said = (path.read_bytes() if path.is_file() else b"" for path in (folder / name for name in ("args", "stdin", "stderr")))
    return StoredRun(words.decode(), page, (folder / "stdout").read_bytes(), said)


def unescaped(text):
    """The bytes of a text as a file has it."""

    def byte(found):
        if found[1]:
            return bytes([int(found[1], 16)])
        if found[2] not in ESCAPED:
            raise BadRow(f"there is no escape {found[0].decode()}")
        return ESCAPED[found[2]]

    return ESCAPE.sub(byte, text.encode())


def printed_line(text):
    """A line that is printed, with its line feed, unless a backslash at its end says that it has none."""
    is_open = (len(text) - len(text.rstrip("\\"))) % 2 == 1
    return unescaped(text[:-1]) if is_open else unescaped(text) + b"\n"


def columns_of(line, least, most):
    columns = line.split("\t")
    if not least <= len(columns) <= most:
        raise BadRow(f"it has {len(columns)} columns")
    return columns


def head_of(where, name, command, status="0"):
    """The row of a group to which nothing is given, and of which nothing is printed."""
    command, _, view = command.partition(" | ")
    if view not in VIEWS:
        raise BadRow(f"nothing is called {view}")
    return Row(where, name, shlex.split(command), view, None, b"", int(status), b"")


class Reading:
    """What has been read of a file: the files for its rows, and the rows. A group without a page is a row itself."""

    def __init__(self):
        self.files, self.rows, self.head = {}, [], None

    def read(self, where, line):
        if line.startswith("= "):
            name, content = columns_of(line[2:], 2, 2)
            self.files[name] = unescaped(content)
        elif line.startswith("\t"):
            self.read_row(where, line)
        elif line and not line.startswith("#"):
            self.head = head_of(where, *columns_of(line, 2, 3))
            self.rows.append(self.head)

    def read_row(self, where, line):
        """A page of the group, a line that is printed of it, or one that is said on standard error."""
        if not self.head:
            raise BadRow("no group has begun")
        if line.startswith("\t\t\t"):
            self.rows[-1] = self.rows[-1]._replace(said=self.rows[-1].said + printed_line(line[3:]))
        elif line.startswith("\t\t"):
            self.rows[-1] = self.rows[-1]._replace(printed=self.rows[-1].printed + printed_line(line[2:]))
        else:
            self.begin(where, *columns_of(line[1:], 1, 2))

    def begin(self, where, page, *lines):
        """A row, which takes the place of that without a page."""
        if self.rows[-1] is self.head:
            self.rows.pop()
        self.rows.append(self.head._replace(where=where, page=unescaped(page), printed=b"".join(map(printed_line, lines))))


def rows_of(path):
    """The rows of a file, and the files of the folder that they are run in, by their names."""
    reading, name = Reading(), path.relative_to(TOP) if path.is_relative_to(TOP) else path
    for number, line in enumerate(path.read_text().split("\n"), 1):
        try:
            reading.read(f"{name}:{number}", line)
        except (BadRow, ValueError) as why:
            raise BadRow(f"{name}:{number}: {why}") from None
    if not reading.rows:
        raise BadRow(f"{name} has no row")
    return reading.rows, reading.files
