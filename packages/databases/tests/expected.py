"""What the functions answer of pages: of the specifications' examples, by the HTML that stands there, and of rows that are worked out by hand."""
import json
import re
import sys
from collections import namedtuple
from html.parser import HTMLParser
from pathlib import Path
from urllib.parse import quote

TOP = Path(__file__).resolve().parents[3]
sys.path += [str(TOP / "tests/html"), str(TOP / "packages/python/tests")]
import html_pages
import spec
import tables

ROWS = "databases/tests"
GITHUB = ("Tables (extension)", "Task list items (extension)", "Strikethrough (extension)")
# The schemes that safe HTML has (docs/SAFE_HTML.md), and where an address begins with another.
ADDRESS = re.compile(r'(?<= href=")[^"]*|(?<= src=")[^"]*')
OTHER_SCHEME = re.compile(r"(?!(?:https?|mailto|tel):)[a-z][a-z0-9+.-]*:", re.I)
# Where raw HTML may begin in a page. In HTML that a page has as it is, it stands too.
RAW = re.compile(r"<[A-Za-z/!?][^>\n]*")
# What stands in the address of a link as it is in the examples.
KEPT = "-_.+!*'(),%#@?=;:/&$~"

# A page with the extensions that are asked for, and its answer.
Case = namedtuple("Case", "where page extensions answer")


class Read(HTMLParser):
    """The words of HTML, with those of images, and its links and images."""

    def __init__(self, html):
        super().__init__()
        self.words, self.links = "", []
        self.feed(html)
        self.close()

    def handle_starttag(self, name, attributes):
        found = dict(attributes)
        if name == "a":
            self.links.append(["link", found["href"], found.get("title")])
        if name == "img":
            self.links.append(["image", found["src"], found.get("title")])
            self.words += without_spaces(found["alt"])

    def handle_data(self, text):
        self.words += without_spaces(text)


def without_spaces(text):
    return re.sub(r"[ \t\n]", "", text)


def has_raw_html(example):
    html = example.html.decode()
    return any(piece in html for piece in RAW.findall(example.page.decode()))


def safe_html(html):
    """The HTML of an example without raw HTML as docs/SAFE_HTML.md has it: no address of another scheme, and what links say."""
    html = ADDRESS.sub(lambda found: "" if OTHER_SCHEME.match(found[0]) else found[0], html)
    return re.sub(r'(<a href="[^"]*"(?: title="[^"]*")?)>', r'\1 rel="nofollow noopener">', html)


def examples():
    """The examples without raw HTML of both specifications, as cases of whatever an answer is."""
    found = [(example, "") for example in spec.examples(spec.COMMONMARK)]
    found += [(example, "gfm") for example in spec.examples(spec.GFM) if example.section in GITHUB]
    for example, extensions in found:
        if not has_raw_html(example):
            yield Case(f"example {example.number} of {example.section}", example.page, extensions, example.html.decode())


def html_cases():
    found = [case._replace(answer=safe_html(case.answer)) for case in examples()]
    for row in tables.pages("html"):
        if not any("=" in word for word in row.words):
            found.append(Case(row.where, row.text, ",".join(row.words), row.answer.decode()))
    return found


def text_cases():
    rows = tables.columns_of(f"{ROWS}/texts.tsv", 3)
    return [Case(where, tables.read_text(page), extensions, tables.read_text(text).decode()) for where, page, extensions, text in rows]


def link_cases():
    rows = tables.columns_of(f"{ROWS}/links.tsv", 3)
    return [Case(where, tables.read_text(page), extensions, json.loads(tables.read_text(found))) for where, page, extensions, found in rows]


def made_cases(seed, count):
    """Of so many pages of each sort that tests/html/beside compares those without zero bytes, which PostgreSQL doesn't take."""
    for name, pages, is_extended in html_pages.made(seed, count):
        yield from [Case(name, page, "gfm" if is_extended else "", None) for page in pages if b"\0" not in page]


def outer(links):
    """The rows of links without those inside an image, which HTML has not."""
    images = [row[4:] for row in links if row[3] == "image"]
    return [row for row in links if not any(start < row[4] and row[5] < stop for start, stop in images)]


def as_in_html(links):
    """The rows of links as HTML has them: kinds, addresses and titles."""
    return [[kind, quote(destination, safe=KEPT), title] for destination, title, _, kind, _, _ in outer(links)]


def as_in_safe_html(links):
    """The same where addresses of other schemes are empty."""
    return [[kind, "" if OTHER_SCHEME.match(address) else address, title] for kind, address, title in as_in_html(links)]
