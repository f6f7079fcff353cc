"""What fillaqut inlines is run on: its words, its input, and what it then prints and answers with ample memory."""
import page_program
from page_program import DEEP, Page, complaints_of, named_of, not_text_of, unread_of, usage_of

KNOWN, OTHER = page_program.KNOWN, page_program.OTHER


class Inlines(Page):
    """A page whose inlines are written by one write, after all of it is read; before that nothing is."""

    command = "inlines"


FORMS = b"usage: fillaqut inlines [-e NAME].. [--gfm] [--] [FILE ..]\n       fillaqut inlines -h | --help | --version\n"
USAGE, COMPLAINTS = usage_of(FORMS), complaints_of(FORMS)
UNREAD, NAMED = unread_of(Inlines), named_of(Inlines, b'1 1 0 paragraph\n  0 1 text "a"\n')

A_PAGE = Inlines("a page", "", b"# a\n\n*b*\n", b'1 1 0 heading 1\n  2 3 text "a"\n3 3 0 paragraph\n  5 6 start emphasis\n  6 7 text "b"\n  7 8 end emphasis\n')

# The one form that there is.
PLAIN = [A_PAGE]

SMALL = [
    *PLAIN,
    Inlines("a reference", "", b"&amp;\n", b'1 1 0 paragraph\n  0 5 reference "&amp;"\n'),
    Inlines("two lines", "", b"a\\\nb\n", b'1 2 0 paragraph\n  0 1 text "a"\n  1 3 hard break "\\u005c\\u000a"\n  3 4 text "b"\n'),
    Inlines(
        "a label that is defined",
        "",
        b"[a]\n\n[A]: /b\n",
        b'1 1 0 paragraph\n  0 1 start link shortcut "a"\n  1 2 text "a"\n  2 3 end link\n',
    ),
    Inlines("deep block quotes", "", b">" * DEEP + b"a\n", b'1 1 %d paragraph\n  %d %d text "a"\n' % (DEEP, DEEP, DEEP + 1)),
    Inlines("not UTF-8", "", b"# \xff\n", b"", 3, err=not_text_of(Inlines.program, 2)),
    Inlines("no page", "", b"", b""),
]


def headings(count):
    shown = (b'%d %d 0 heading 1\n  %d %d text "ab cd"\n' % (line + 1, line + 1, 8 * line + 2, 8 * line + 7) for line in range(count))
    return Inlines("headings", "", b"# ab cd\n" * count, b"".join(shown))


def code_spans(count):
    """A paragraph that is long."""
    spans = [b'  %d %d code "`a`"\n' % (at, at + 3) for at in range(0, 4 * count, 4)]
    breaks = [b'  %d %d soft break "\\u000a"\n' % (at, at + 1) for at in range(3, 4 * count - 4, 4)]
    lines = [line for pair in zip(spans, [*breaks, b""]) for line in pair]
    return Inlines("code spans", "", b"`a`\n" * count, b"1 %d 0 paragraph\n" % count + b"".join(lines))


def open_code(count):
    return Inlines("open code", "", b"```\n" + b"\n" * count, b"")


def long():
    """Pages that take more than MANY reads of 512 bytes."""
    return [headings(6_500), code_spans(13_500)]


def large():
    """Pages whose inlines ask for memory some dozens of times, where each block would ask for its own."""
    return [code_spans(33_000), open_code(125_000)]
