"""What fillaqut blocks, cmark and cmark-gfm say of the blocks and containers of a page, in one form. Pages and texts of them are bytes."""
import html.entities
import os
import re
import subprocess
from collections import namedtuple
from pathlib import Path
from xml.etree import ElementTree

TOP = Path(__file__).resolve().parents[2]
FILLAQUT = os.environ.get("FILLAQUT", str(TOP / "crates/fillaqut/out/fillaqut"))
PLAIN = [FILLAQUT, "blocks"]
OURS = [*PLAIN, "-e", "tables"]
# What is not UTF-8 they replace by U+FFFD: else their patterns end there.
AS_XML = ["--validate-utf8", "--sourcepos", "-t", "xml"]
CMARK = [os.environ.get("CMARK", "cmark"), *AS_XML]
CMARK_GFM = [os.environ.get("CMARK_GFM", "cmark-gfm"), "-e", "table", *AS_XML]

# The elements of cmark, and the kinds of blocks and containers that they are.
BLOCKS = {"thematic_break": "break", "heading": "heading", "code_block": "code", "html_block": "html", "table": "table", "paragraph": "paragraph"}
CONTAINERS = {"block_quote": "quote", "item": "item"}
# Kinds of fillaqut blocks that cmark has under one name.
SAME_KIND = {"setext": "heading", "indented": "code", "fenced": "code"}

LINE = re.compile(rb"[^\r\n]*(?:\r\n|\n|\r)|[^\r\n]+")
# A line that has nothing but the markers of quotes.
EMPTY = re.compile(rb"[ \t>]*[\r\n]*")
REPLACEMENT = "\ufffd".encode()

# A block, a list or a container. `detail` is a level, an info string, a number of columns, the marker of an item: its delimiter, and
# the number that its list starts at or None; or of a list these two, and whether it is tight. `last` is 0 of a container and a list;
# of what cmark says it is the set of lines that it may be.
Block = namedtuple("Block", "kind detail first last depth")


def is_text(page):
    """Whether it is UTF-8. Else our programs that count its bytes refuse it."""
    try:
        page.decode()
    except UnicodeDecodeError:
        return False
    return True


def said_by(program, page):
    return subprocess.run(program, input=page, stdout=subprocess.PIPE, check=True).stdout


def lines_of(page):
    return LINE.findall(page)


def trimmed(lines, first, last):
    """The last line without the blank lines at the end of a block, which cmark may count."""
    last = min(last, len(lines))
    while last > first and EMPTY.fullmatch(lines[last - 1]):
        last -= 1
    return last


def without_control(text):
    """The text as XML can have it: of the bytes below the space it has tabs and line endings alone."""
    return re.sub(rb"[\0-\x08\v\f\x0e-\x1f]", REPLACEMENT, text)


def in_attribute(text):
    """The text as an attribute of cmark's XML has it: tabs and line endings are spaces there, and what is not UTF-8 or no character
    is U+FFFD, of which a run counts as one."""
    text = re.sub(rb"\r\n|[\t\n\r]", b" ", without_control(text))
    return re.sub("[\ufffd-\uffff]+", "\ufffd", text.decode(errors="replace")).encode()


def meaning(found):
    """What a backslash escape or a character reference means. (CommonMark 0.31.2, 2.4 and 2.5)"""
    escaped, hexadecimal, decimal, name = found.groups()
    if escaped:
        return escaped
    if name:
        return html.entities.html5.get(name.decode() + ";", found[0].decode()).encode()
    number = int(hexadecimal, 16) if hexadecimal else int(decimal)
    is_character = 0 < number < 0xD800 or 0xE000 <= number < 0x110000
    return chr(number).encode() if is_character else REPLACEMENT


def resolved(info):
    """The info string that fillaqut blocks prints as cmark has it: its bytes, with escapes and references in it resolved."""
    text = re.sub(rb"\\u00(..)", lambda item: bytes([int(item[1], 16)]), info).replace(b"\0", REPLACEMENT)
    reference = rb"&(?:#[xX]([0-9a-fA-F]{1,6})|#([0-9]{1,7})|([a-zA-Z][a-zA-Z0-9]*));"
    return in_attribute(re.sub(rb"\\([!-/:-@[-`{-~])|" + reference, meaning, text))


def our_marker(delimiter, start):
    return {b".": "period", b")": "paren"}.get(delimiter, "bullet"), int(start)


def our_detail(kind, more):
    if kind == "item":
        return our_marker(*more)
    if kind == "list":
        return *our_marker(*more[:2]), more[2] == b"tight"
    if kind in ("heading", "setext", "table"):
        return int(more[0])
    return resolved(b" ".join(more[2:])) if kind == "fenced" else b""


def in_order(found):
    """Blocks and lists where they begin: a list before its first item."""
    return sorted(found, key=lambda item: (item.first, item.depth, item.kind != "list"))


def our_rows(page, program=OURS):
    """What fillaqut blocks prints of a page: of each line its numbers, the kind, and the words after it."""
    rows = [row.split(b" ") for row in said_by(program, page).splitlines()]
    return [(int(first), int(last), int(depth), kind.decode(), more) for first, last, depth, kind, *more in rows]


def definitions_in(rows):
    """The lines of link reference definitions, which are no blocks of cmark."""
    return {line for first, last, _, kind, _ in rows if kind == "definition" for line in range(first, last + 1)}


def begins_of(rows):
    """The first line of each row, as cmark has it: a paragraph or setext heading begins with the definitions directly before it."""
    begins, before = [], None
    for first, last, depth, kind, _ in rows:
        goes_on = kind in ("definition", "paragraph", "setext") and before and before[1:] == (first - 1, depth)
        begins.append(before[0] if goes_on else first)
        before = (begins[-1], last, depth) if kind == "definition" else None
    return begins


def our_block(row, begin, lines, defined):
    """A block, a list or a container. Whether a list is tight isn't compared where it has a definition: for cmark that is no block."""
    first, last, depth, kind, more = row
    detail = our_detail(kind, more)
    if kind == "list":
        return Block(kind, (*detail[:2], None) if defined & set(range(first, last + 1)) else detail, first, 0, depth)
    end = 0 if kind in CONTAINERS.values() else trimmed(lines, first, last)
    return Block(SAME_KIND.get(kind, kind), detail, begin, end, depth)


def our_blocks(page, program=OURS):
    """What fillaqut blocks says of a page, and the lines of its definitions. Blank lines and definitions are no blocks of cmark."""
    lines, rows = lines_of(page), our_rows(page, program)
    defined = definitions_in(rows)
    blocks = [pair for pair in zip(rows, begins_of(rows)) if pair[0][3] not in ("blank", "definition")]
    return in_order(our_block(row, begin, lines, defined) for row, begin in blocks), defined


def parsed(said):
    """The document of cmark's XML, in whose texts each byte is a character."""
    return ElementTree.fromstring(without_control(said), ElementTree.XMLParser(encoding="iso-8859-1"))


def name_of(element):
    return element.tag.rpartition("}")[2]


def lines_in(element):
    """The first and the last line of an element: its places are LINE:COLUMN-LINE:COLUMN."""
    return [int(place.split(":")[0]) for place in element.get("sourcepos").split("-")]


def elements(document):
    """The containers and blocks of a document in order, each with its parent and how many containers are around it."""
    waiting = [(element, document, 0) for element in reversed(document)]
    while waiting:
        element, parent, depth = waiting.pop()
        name = name_of(element)
        yield element, parent, depth
        if name not in BLOCKS:
            waiting += [(child, element, depth + (name in CONTAINERS)) for child in reversed(element)]


def marker_of(item, items):
    """The delimiter of an item, and what its list starts at where it is the first."""
    return items.get("delim", "bullet"), int(items.get("start", 0)) if items[0] is item else None


def list_detail(items):
    """The delimiter of a list, what it starts at, and whether it is tight."""
    return items.get("delim", "bullet"), int(items.get("start", 0)), items.get("tight") == "true"


def their_detail(element, kind):
    if kind == "table":
        header = next(child for child in element if name_of(child) == "table_header")
        return len(header)
    if kind == "heading":
        return int(element.get("level"))
    return in_attribute(element.get("info", "").encode("latin-1"))


def their_block(element, depth, lines):
    """A block of cmark. HTML has as many lines as its text: its last line may be one too small. That of a setext heading,
    and of code that its container ends, may be one too large."""
    kind = BLOCKS[name_of(element)]
    first, last = lines_in(element)
    if kind == "html":
        last = first + len(lines_of((element.text or "").encode("latin-1"))) - 1
    is_longer = kind == "heading" or kind == "code" and depth > 0
    ends = {trimmed(lines, first, item) for item in (last, last - is_longer)}
    return Block(kind, their_detail(element, kind), first, ends, depth)


def their_blocks(document, lines):
    """What cmark says of a page of these lines."""
    found = []
    for element, parent, depth in elements(document):
        kind = CONTAINERS.get(name_of(element))
        if name_of(element) == "list":
            found.append(Block("list", list_detail(element), lines_in(element)[0], {0}, depth))
        elif kind:
            detail = marker_of(element, parent) if kind == "item" else b""
            found.append(Block(kind, detail, lines_in(element)[0], {0}, depth))
        else:
            found.append(their_block(element, depth, lines))
    return in_order(found)


def may_have_table(page):
    """Whether a page may have the delimiter row of a table: it has a pipe, or for cmark-gfm a line that ends as such a cell."""
    return b"|" in page or re.search(rb"(?::-+:?|-:)[ \t\v\f]*(?:[\r\n]|$)", page) is not None


def tables_of(document):
    return [item for item, _, _ in elements(document) if name_of(item) == "table"]


def has_table(document):
    return bool(tables_of(document))


def has_later_header(document):
    """Whether a paragraph's later line is the header row of a table: cmark-gfm writes no place of the lines before it."""
    return any(item.get("sourcepos") is None for item, _, _ in elements(document))


def our_shapes(page):
    """Kinds and depths of what our_blocks has but lists, with the columns of tables and the levels of headings; None where there are
    definitions, which are text before such a row for cmark-gfm."""
    rows = [row for row in our_rows(page) if row[3] not in ("blank", "list")]
    if definitions_in(rows):
        return None
    return [(SAME_KIND.get(kind, kind), number_of(our_detail(kind, more)), depth) for _, _, depth, kind, more in rows]


def their_shapes(document):
    """The same of what cmark-gfm says."""
    found = [(element, CONTAINERS.get(name_of(element)) or BLOCKS.get(name_of(element)), depth) for element, _, depth in elements(document)]
    return [(kind, number_of(None if kind in CONTAINERS.values() else their_detail(element, kind)), depth) for element, kind, depth in found if kind]


def number_of(detail):
    return detail if isinstance(detail, int) else None


def alike(our, their):
    """Whether they are the same, but that of an item which is not the first of its list cmark has no number, and that of some lists
    it isn't asked whether they are tight."""
    if our.kind == their.kind == "item" and their.detail[1] is None:
        our = our._replace(detail=(our.detail[0], None))
    if our.kind == their.kind == "list" and our.detail[2] is None:
        their = their._replace(detail=(*their.detail[:2], None))
    return our._replace(last=their.last) == their and our.last in their.last


def agree(ours, theirs):
    return len(ours) == len(theirs) and all(map(alike, ours, theirs))
