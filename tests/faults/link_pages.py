"""What fillaqut links is run on: its words, its input, and what it then prints and answers with ample memory."""
import re

import page_program
from page_program import DEEP, Page, complaints_of, named_of, not_text_of, unread_of, usage_of

KNOWN, OTHER = page_program.KNOWN, page_program.OTHER


class Links(Page):
    """A page whose lines are written by one write, after all of it is read; before that nothing is."""

    command = "links"


def under(name, shown):
    """The lines of standard input as those of a file of this name."""
    return re.sub(rb"(?m)^-:", lambda _: name.encode() + b":", shown)


FORMS = b"usage: fillaqut links [--json] [--check] [--root DIR] [-e NAME].. [--gfm] [--] [FILE ..]\n       fillaqut links -h | --help | --version\n"
USAGE, COMPLAINTS = usage_of(FORMS), complaints_of(FORMS)
UNREAD, NAMED = unread_of(Links), named_of(Links, b"", under)

A_PAGE = Links("a page", "", b"# [a](b)\n\nc <de:f>\n", b'-:1:3: link inline "b" ""\n-:3:3: link autolink "de:f" ""\n')
A_TABLE = Links("a table", "--gfm", b"|[a](b)|\n|-|\n", b'-:1:2: link inline "b" ""\n')
A_WIKILINK = Links("a wikilink", "-e wikilinks", b"[[a]]\n", b'-:1:1: link wikilink "a" ""\n')

AN_OBJECT = Links(
    "an object",
    "--json",
    b'[a]( "\xc3\xa4")\n',
    b'{"file":"-","line":1,"column":1,"start":0,"end":10,"element":"link","type":"inline","destination":"\\u0022\xc3\xa4\\u0022","title":""}\n',
)
A_FAULT = Links("a label", "", b"a\n[b][c]\n", b'-:2:1: label not defined "c"\n')

# One of each form.
PLAIN = [A_PAGE, A_TABLE, A_WIKILINK, AN_OBJECT, A_FAULT]

SMALL = [
    *PLAIN,
    Links("an image that is defined", "", b"![a]\n\n[a]: b 'c'\n", b'-:1:1: image shortcut "b" "c" "a"\n'),
    Links("a reference in a list", "", b"- [x][ a]\n\n[A]: &amp;\n", b'-:1:3: link reference "&" "" "a"\n'),
    Links("labels", "", b"[a]: b\n[A]: c\n", b'-:1:1: label not used "a"\n-:2:1: label defined before "A"\n'),
    Links("an object of a label", "--json", b"[a][]\n", b'{"file":"-","line":1,"column":1,"fault":"label not defined","text":"a"}\n'),
    Links("not UTF-8", "", b"\xff\n", b"", 3, err=not_text_of(Links.program, 0)),
    Links("not UTF-8, as objects", "--json", b"ab\xff\n", b"", 3, err=not_text_of(Links.program, 2)),
    Links("no page", "", b"", b""),
]


def autolinks(count):
    return Links("autolinks", "", b"<ab:c>\n" * count, b"".join(b'-:%d:1: link autolink "ab:c" ""\n' % (index + 1) for index in range(count)))


def open_code(count):
    return Links("open code", "", b"```\n" + b"\n" * count, b"")


def quotes(depth):
    return Links("deep block quotes", "", b">" * depth + b"<ab:c>\n", b'-:1:%d: link autolink "ab:c" ""\n' % (depth + 1))


def long():
    """A page that takes more than MANY reads of 512 bytes."""
    return [autolinks(8_750)]


def large():
    """Pages whose links ask for memory some dozens of times, where each block would ask for its own."""
    return [quotes(DEEP), autolinks(22_000), open_code(125_000)]
