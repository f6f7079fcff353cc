"""What fillaqut tables is run on: its words, its input or a file, and what it then prints, says and answers with ample memory."""
import page_program
from page_program import Page, complaints_of, named_of, not_text_of, unread_of, usage_of

KNOWN, OTHER = page_program.KNOWN, page_program.OTHER


class Tables(Page):
    """A page whose text is written by one write, after all of it is read and what is said of its tables; before that nothing is."""

    command = "tables"

    def write_fault(self, number):
        return self.err + super().write_fault(number)


MISFIT = b"row has more cells than its table has columns, and the table is left as it is\n"
EMPTY = b"row has no cell, and its table is left as it is\n"
FORMS = b"usage: fillaqut tables [--check | --write] [--gfm] [--] [FILE ..]\n       fillaqut tables -h | --help | --version\n"
USAGE, COMPLAINTS = usage_of(FORMS), complaints_of(FORMS)
UNREAD = unread_of(Tables)
NAMED = named_of(Tables, b"a", notes=lambda name: b"%s:27:1: %s%s:43:1: %s" % (name.encode(), MISFIT, name.encode(), EMPTY))

ROUGH, SMOOTH = b"a|b\n-|-:\n1|2\n", b"| a   |   b |\n| --- | --: |\n| 1   |   2 |\n"

A_TABLE = Tables("a table", "", ROUGH, SMOOTH)
TWO = b"# x\n\n" + ROUGH + b"\n> " + ROUGH.replace(b"\n", b"\n> ")
A_CHECK = Tables("a check", "--check", TWO, b"-:3:1: table is not laid out\n-:7:3: table is not laid out\n", 1)
A_MISFIT = Tables("a row of too many cells", "", b"|a|\n|-|\n|b|c|\n", b"|a|\n|-|\n|b|c|\n", err=b"-:3:1: " + MISFIT)

# One of each form.
PLAIN = [A_TABLE, A_CHECK, A_MISFIT]

SMALL = [
    *PLAIN,
    Tables("a check of a table that is laid out", "--check", SMOOTH, b""),
    Tables("standard input with --write", "--write", ROUGH, SMOOTH),
    Tables("a check of a row of too many cells", "--check", A_MISFIT.given, b"-:3:1: " + MISFIT, 1),
    Tables("a check that writes nothing", "--write --check", ROUGH, b"-:1:1: table is not laid out\n", 1),
    Tables("not UTF-8", "", b"\xff\n", b"", 3, err=not_text_of(Tables.program, 0)),
    Tables("a paragraph", "", b"a | b\n", b"a | b\n"),
    Tables("no page", "", b"", b""),
]

# Files that --write is run on, each with what it holds before and after, what is said of it, and the status.
REPLACED = [
    ("a table", ROUGH, SMOOTH, b"", 0),
    ("a table that is laid out", SMOOTH, SMOOTH, b"", 0),
    ("two tables", ROUGH + b"\n|a|\n|-|\n|\n", SMOOTH + b"\n|a|\n|-|\n|\n", b"%s:7:1: " + EMPTY, 0),
    ("no table", b"a | b\n", b"a | b\n", b"", 0),
    ("not UTF-8", b"\xff\n", b"\xff\n", b"fillaqut: %s: not UTF-8: wrong byte at offset 0\n", 3),
]


def rows(count):
    return Tables("rows", "", b"|a|\n|-|\n" + b"|b|\n" * count, b"| a   |\n| --- |\n" + b"| b   |\n" * count)


def too_wide(size):
    """A table that is left as it is, as one of its cells has so many letters."""
    page = b"|a|\n|-|\n|%s|\n" % (b"b" * size)
    return Tables("a cell that is too wide", "", page, page, err=b"-:1:1: table would be wider than 2000 columns, and is left as it is\n")


def open_code(count):
    page = b"```\n" + b"\n" * count
    return Tables("open code", "", page, page)


def long():
    """A page that takes more than MANY reads of 512 bytes."""
    return [rows(13_750)]


def large():
    """Pages that ask for memory some dozens of times, where each block would ask for its own."""
    return [too_wide(1 << 17), open_code(1 << 17)]
