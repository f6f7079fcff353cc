"""What fillaqut blocks is run on: its words, its input, and what it then prints and answers with ample memory."""
import sys

sys.dont_write_bytecode = True
import page_program
from page_program import DEEP, Page, complaints_of, named_of, unread_of, usage_of
from program_runs import TOP

sys.path.append(str(TOP / "tests/rows"))
from rows import FOLDER, rows_of

KNOWN, OTHER = page_program.KNOWN, page_program.OTHER

# In bytes.
SMALL_MEMORY = 1 << 23


class Blocks(Page):
    """A page whose blocks are written while it is read, by one write for each part of it."""

    command = "blocks"

    def is_front(self, out):
        """The lines of its first blocks."""
        return self.out.startswith(out) and out[-1:] in (b"", b"\n")


FORMS = b"usage: fillaqut blocks [--json] [-e NAME].. [--gfm] [--] [FILE ..]\n       fillaqut blocks -h | --help | --version\n"
USAGE, COMPLAINTS = usage_of(FORMS), complaints_of(FORMS)
UNREAD, NAMED = unread_of(Blocks), named_of(Blocks, b"1 1 0 paragraph\n")

A_PAGE = Blocks("a page", "", b"# a\n\nb\n===\n", b"1 1 0 heading 1\n2 2 0 blank\n3 4 0 setext 1\n")
OBJECTS = Blocks(
    "objects",
    "--json",
    b"> ~~~ a",
    b'{"first":1,"last":1,"depth":0,"offset":0,"column":1,"kind":"quote"}\n'
    b'{"first":1,"last":1,"depth":1,"offset":0,"column":3,"kind":"fenced","count":3,"fence":"~","info":"a","bytes":7}\n'
    b'{"last":1,"depth":0,"end":7,"kind":"end"}\n',
)

# One of each form.
PLAIN = [A_PAGE, OBJECTS]

SMALL = [
    *PLAIN,
    Blocks("code", "", b"    a\n\n~~~\nb", b"1 1 0 indented\n2 2 0 blank\n3 4 0 fenced 3 ~\n"),
    Blocks("an info string", "", b"``` \xc3\n", b"1 1 0 fenced 3 ` \\u00c3\n"),
    Blocks("HTML", "", b"<!--\n\n-->\n<p>\n", b"1 3 0 html 2\n4 4 0 html 6\n"),
    Blocks("a table", "-e tables", b"|a|b|\n|-|-|\n|c|d|\n", b"1 3 0 table 2\n"),
    Blocks(
        "containers",
        "",
        b"> a\n2) b\n***\n",
        b"1 1 0 quote\n1 1 1 paragraph\n2 2 0 item ) 2\n2 2 1 paragraph\n2 2 0 list ) 2 tight\n3 3 0 break\n",
    ),
    Blocks("definitions", "", b"[a]: /b\n[c]:\n/d\ne\n", b"1 1 0 definition\n2 3 0 definition\n4 4 0 paragraph\n"),
    Blocks("deep containers", "", b">" * DEEP + b"a\n", b"".join(b"1 1 %d quote\n" % index for index in range(DEEP)) + b"1 1 %d paragraph\n" % DEEP),
    Blocks("no page", "", b"", b""),
]


# Pages that are read in two parts, cut at each place, and a byte at a time.
WHOLE = ("a_page_is_printed_block_by_block", "a_page_cut_at_any_place_prints_the_same")
CUT = [Blocks(row.name, "", row.page, row.printed) for row in rows_of(FOLDER / "blocks.txt")[0] if row.name in WHOLE]

# Pages that can't be read to their ends: of what was read before a fault, the blocks are printed whose end is read.
BROKEN = [
    Blocks("a page that breaks off", "", page, shown)
    for page, shown in [
        (b"", b""),
        (b"# a\n", b""),
        (b"# a\n\nb\n", b"1 1 0 heading 1\n2 2 0 blank\n"),
        (b"# a\r", b""),
        (b"# a\r\n\r", b""),
        (b"    a\n\n\n", b""),
        (b"    a\n\n\nb\n", b"1 1 0 indented\n2 3 0 blank\n"),
        (b"> a\n\nb", b"1 1 0 quote\n1 1 1 paragraph\n"),
        (b"a\n---", b""),
    ]
]


def headings(count):
    shown = b"".join(b"%d %d 0 heading 1\n" % (line, line) for line in range(1, count + 1))
    return Blocks("headings", "", b"# ab cd\n" * count, shown)


def objects(count):
    shown = b"".join(
        b'{"first":%d,"last":%d,"depth":0,"offset":%d,"column":1,"kind":"break","bytes":8}\n' % (line, line, 8 * line - 8)
        for line in range(1, count + 1)
    )
    return Blocks("objects of breaks", "--json", b"* * * *\n" * count, shown)


def items(count):
    shown = b"".join(b"%d %d 0 item - 0\n%d %d 1 paragraph\n" % ((line,) * 4) for line in range(1, count + 1))
    return Blocks("items", "", b"- ab cd\n" * count, shown + b"1 %d 0 list - 0 tight\n" % count)


def a_paragraph(count):
    return Blocks("a paragraph", "", b"ab cd\n" * count, b"1 %d 0 paragraph\n" % count)


def rows(count):
    return Blocks("rows of a table", "-e tables", b"a|b\n-|-\n" + b"c|d\n" * count, b"1 %d 0 table 2\n" % (count + 2))


def open_code(count):
    return Blocks("open code", "", b"```\n" + b"\n" * count, b"1 %d 0 fenced 3 `\n" % (count + 1))


def long():
    """Pages that take more than MANY reads of 512 bytes."""
    return [headings(6_500), objects(6_500)]


def passing():
    """A page that is longer than the memory in which it is printed, SMALL_MEMORY, and whose output is."""
    return [headings(2_500_000)]


def large():
    """Pages that are longer than a read."""
    return [headings(16_000), objects(16_000), items(16_000), a_paragraph(22_000), rows(33_000), open_code(125_000)]
