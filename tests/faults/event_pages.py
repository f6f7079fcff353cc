"""What fillaqut events is run on: its words, its input, and what it then prints and answers with ample memory."""
import page_program
from page_program import DEEP, Page, complaints_of, named_of, not_text_of, unread_of, usage_of

KNOWN, OTHER = page_program.KNOWN, page_program.OTHER


class Events(Page):
    """A page whose events are written by one write, after all of it is read; before that nothing is."""

    command = "events"


FORMS = (
    b"usage: fillaqut events [-e NAME].. [--gfm] [--] [FILE ..]\n"
    b"       fillaqut events -h | --help | --version\n"
)
USAGE, COMPLAINTS = usage_of(FORMS), complaints_of(FORMS)
UNREAD, NAMED = unread_of(Events), named_of(Events, b'0 1 start paragraph\n0 1 text "a"\n0 1 end paragraph\n')


def element(start, end, name, *held, more=b""):
    """An element with what it holds; its start has more after its name."""
    range_of = b"%d %d " % (start, end)
    return range_of + b"start " + name + more + b"\n" + b"".join(held) + range_of + b"end " + name + b"\n"


def leaf(start, end, what):
    return b"%d %d %s\n" % (start, end, what)


def cell(at, letter):
    return element(at, at + 1, b"table cell", leaf(at, at + 1, b'text "%s"' % letter))


def quotes(depth, end, held):
    for place in reversed(range(depth)):
        held = element(place, end, b"block quote", held)
    return held


A_PAGE = Events(
    "a page",
    "",
    b"# a\n\nb\n===\n",
    element(0, 4, b"heading 1", leaf(2, 3, b'text "a"')) + element(5, 11, b"heading 1", leaf(5, 6, b'text "b"')),
)
STRUCK = Events(
    "text that is struck through",
    "-e strikethrough",
    b"~~a~~\n",
    element(0, 6, b"paragraph", element(0, 5, b"strikethrough", leaf(2, 3, b'text "a"'))),
)

# One of each form.
PLAIN = [A_PAGE, STRUCK]

SMALL = [
    *PLAIN,
    Events("a reference", "", b"&amp;\n", element(0, 6, b"paragraph", leaf(0, 5, b'text "&"'))),
    Events("a rule", "", b"***\n", leaf(0, 4, b"rule")),
    Events("deep block quotes", "", b">" * DEEP + b"a\n", quotes(DEEP, DEEP + 2, element(DEEP, DEEP + 2, b"paragraph", leaf(DEEP, DEEP + 1, b'text "a"')))),
    Events(
        "a link that is defined",
        "",
        b"[a]\n\n[a]: /b\n",
        b'0 4 start paragraph\n0 3 start link shortcut "/b" "" "a"\n1 2 text "a"\n0 3 end link\n0 4 end paragraph\n',
    ),
    Events(
        "code",
        "",
        b"~~~ x\na\n~~~\n",
        b'0 12 start code block "x"\n6 8 text "a\\u000a"\n0 12 end code block\n',
    ),
    Events(
        "a list with a task",
        "-e tasks",
        b"- [ ] a\n",
        b'0 8 start list\n0 8 start item\n2 5 unchecked task\n6 7 text "a"\n0 8 end item\n0 8 end list\n',
    ),
    Events(
        "a table",
        "-e tables",
        b"a|b\n-|-\n",
        element(0, 8, b"table", element(0, 3, b"table head", cell(0, b"a"), cell(2, b"b")), more=b" none none"),
    ),
    Events("not UTF-8", "", b"\xff\n", b"", 3, err=not_text_of(Events.program, 0)),
    Events("no page", "", b"", b""),
]


def headings(count):
    shown = (element(at, at + 8, b"heading 1", leaf(at + 2, at + 7, b'text "ab cd"')) for at in range(0, 8 * count, 8))
    return Events("headings", "", b"# ab cd\n" * count, b"".join(shown))


def a_paragraph(count):
    lines = [leaf(at, at + 5, b'text "ab cd"') + leaf(at + 5, at + 6, b"soft break") for at in range(0, 6 * count - 6, 6)]
    last = leaf(6 * count - 6, 6 * count - 1, b'text "ab cd"')
    return Events("a paragraph", "", b"ab cd\n" * count, element(0, 6 * count, b"paragraph", *lines, last))


def open_code(count):
    lines = (leaf(at, at + 1, b'text "\\u000a"') for at in range(4, count + 4))
    shown = b'0 %d start code block ""\n%s0 %d end code block\n' % (count + 4, b"".join(lines), count + 4)
    return Events("open code", "", b"```\n" + b"\n" * count, shown)


def long():
    """Pages that take more than MANY reads of 512 bytes."""
    return [headings(6_500), a_paragraph(9_000)]


def large():
    """Pages whose events ask for memory some dozens of times, where each block would ask for its own."""
    return [a_paragraph(22_000), open_code(125_000)]
