"""What fillaqut html is run on: its words, its input, and what it then prints and answers with ample memory."""
import page_program
from page_program import DEEP, Page, complaints_of, named_of, not_text_of, unread_of, usage_of

KNOWN, OTHER = page_program.KNOWN, page_program.OTHER


class Html(Page):
    """A page whose HTML is written by one write, after all of it is read; before that nothing is."""

    command = "html"


FORMS = (
    b"usage: fillaqut html [--unsafe] [--strict] [--to html|events|json] [-e NAME].. [--gfm] [--] [FILE ..]\n"
    b"       fillaqut html -h | --help | --version\n"
)
USAGE, COMPLAINTS = usage_of(FORMS), complaints_of(FORMS)
UNREAD, NAMED = unread_of(Html), named_of(Html, b"<p>a</p>\n")

A_PAGE = Html("a page", "", b"# a\n\nb\n===\n", b"<h1>a</h1>\n<h1>b</h1>\n")
SAFE = Html("safe HTML", "", b"<b>[a](x:b)</b>\n", b'<p>&lt;b&gt;<a href="" rel="nofollow noopener">a</a>&lt;/b&gt;</p>\n')
UNSAFE = Html("HTML that is not safe", "--unsafe", b"<b>[a](x:b)</b>\n", b'<p><b><a href="x:b">a</a></b></p>\n')
EVENTS = Html("events", "--to events", b"***\n", b"0 4 rule\n")

# One of each form.
PLAIN = [A_PAGE, SAFE, UNSAFE, EVENTS]

SMALL = [
    *PLAIN,
    Html("a reference", "", b"&amp;\n", b"<p>&amp;</p>\n"),
    Html("text that is struck through", "-e strikethrough --to html", b"~~a~~\n", b"<p><del>a</del></p>\n"),
    Html("a wikilink", "--unsafe -e wikilinks", b"[[a]]\n", b'<p><a href="a">a</a></p>\n'),
    Html("an image that is defined", "", b"![a]\n\n[a]: b 'c'\n", b'<p><img src="b" alt="a" title="c" /></p>\n'),
    Html("code", "", b"~~~ x\na\n~~~\n", b'<pre><code class="language-x">a\n</code></pre>\n'),
    Html("a list", "", b"2) a\n", b'<ol start="2">\n<li>a</li>\n</ol>\n'),
    Html("a list with a task", "--gfm", b"- [ ] a\n", b'<ul>\n<li><input disabled="" type="checkbox"> a</li>\n</ul>\n'),
    Html("a table", "-e tables", b"|a|\n|:-|\n", b'<table>\n<thead>\n<tr>\n<th align="left">a</th>\n</tr>\n</thead>\n</table>\n'),
    Html("not UTF-8", "", b"\xff\n", "<p>\ufffd</p>\n".encode()),
    Html("not UTF-8 and refused", "--strict", b"a\xff\n", b"", 3, err=not_text_of(Html.program, 1)),
    Html("no page", "", b"", b""),
]


def headings(count):
    return Html("headings", "", b"# ab cd\n" * count, b"<h1>ab cd</h1>\n" * count)


def a_paragraph(count):
    return Html("a paragraph", "", b"ab cd\n" * count, b"<p>%s</p>\n" % b"\n".join([b"ab cd"] * count))


def open_code(count):
    return Html("open code", "", b"```\n" + b"\n" * count, b"<pre><code>%s</code></pre>\n" % (b"\n" * count))


def quotes(depth):
    shown = b"<blockquote>\n" * depth + b"<p>a</p>\n" + b"</blockquote>\n" * depth
    return Html("deep block quotes", "", b">" * depth + b"a\n", shown)


def long():
    """A page that takes more than MANY reads of 512 bytes."""
    return [headings(6_500)]


def large():
    """Pages whose HTML asks for memory some dozens of times, where each block would ask for its own."""
    return [quotes(DEEP), a_paragraph(22_000), open_code(125_000)]
