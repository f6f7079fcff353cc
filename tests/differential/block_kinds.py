"""The ways in which fillaqut blocks is known to differ from cmark 0.30.2 and cmark-gfm 0.29, each with the section that decides.

Sections are of CommonMark 0.31.2 where none other is named.
"""
import re
from collections import namedtuple
from itertools import zip_longest

from block_trees import EMPTY, agree, alike

# What of a line containers may take.
CONTAINERS = rb"(?:[ \t>]|[-+*](?=[ \t])|[0-9]{1,9}[.)](?=[ \t]))*"

# An opening fence and white space that is not trimmed from its info string.
INFO = rb"(?:~{3,}|`{3,})(?:[ \t]*[\v\f]|[^\r\n]*[\v\f][ \t\v\f]*(?:[\r\n]|$))"

# A way to differ: what a page of it has, the section, and whether a page is one.
Kind = namedtuple("Kind", "words section fits")


def our_list(block):
    """A list of ours of which it isn't asked whether it is tight; any other block as it is."""
    return block._replace(detail=(*block.detail[:2], None)) if block and block.kind == "list" else block


class Page:
    """A page of which the two say something else. Where theirs is None cmark-gfm finds a table, and writes no places of lines before it."""

    def __init__(self, lines, ours, defined, theirs):
        self.lines, self.ours, self.defined, self.theirs = lines, ours, defined, theirs
        self.text = b"".join(lines)

    def parting(self):
        """The first block of ours and of theirs that are not the same; None where there is no more. If they part at lists alone, and
        only in whether these are tight, it is the first of those."""
        pairs = [(item, (our_list(item), their)) for item, their in zip_longest(self.ours, self.theirs)]
        differ = [(our, their) for _, (our, their) in pairs if not (our and their and alike(our, their))]
        lists = [(our, their) for our, (_, their) in pairs if our and their and not alike(our, their)]
        return (differ or lists)[0]

    def other_lines(self):
        """The lines at which they may part: the first of that block, with the one before it where cmark has no block, and where one is
        shorter its last and the one after it."""
        our, their = self.parting()
        first = min(item.first for item in (our, their) if item)
        if not their:
            return self.lines[max(first - 2, 0) : first]
        if not (our and their and our.first == their.first and our.last):
            return self.lines[first - 1 : first]
        last = min(our.last, *their.last)
        later = last
        while later < len(self.lines) and EMPTY.fullmatch(self.lines[later]):
            later += 1
        return [self.lines[first - 1], self.lines[last - 1], *self.lines[later : later + 1]]

    def has_our_table(self):
        return any(block.kind == "table" for block in self.ours)

    def has_a_table(self):
        """Whether one of the two finds a table."""
        return self.theirs is None or self.has_our_table() or any(block.kind == "table" for block in self.theirs)


def begins(pattern):
    """That a line at which they part begins so, after its containers."""
    found = re.compile(CONTAINERS + pattern)
    return lambda page: any(map(found.match, page.other_lines()))


def begins_an_item(page):
    """That a line at which they part has a list marker and a form feed or vertical tab after it, and cmark sees an item there."""
    is_marker = re.compile(CONTAINERS + rb"(?:[-+*]|[0-9]{1,9}[.)])[\v\f]").match
    items = [page.lines[block.first - 1] for block in page.theirs if block.kind == "item"]
    return any(is_marker(line) and line in items for line in page.other_lines())


def in_a_table_page(pattern):
    """That fillaqut blocks finds a table in a page with this."""
    found = re.compile(pattern, re.M)
    return lambda page: page.has_our_table() and found.search(page.text) is not None


def begins_textarea(page):
    """That one of the two finds a table in a page with a block of <textarea>."""
    return page.has_a_table() and b"<textarea" in page.text


def begins_lazy_tag(page):
    """That the two part at a tag alone in its line, in a page with a table."""
    return page.has_a_table() and begins(rb"</?[a-zA-Z][^>]*>[ \t]*\r?$")(page)


def hyphens(page):
    """The lines of thematic breaks of hyphens directly after definitions, which are text for cmark, with the paragraph after them."""
    lines, end = set(), 0
    for block in page.ours:
        is_break = block.kind == "break" and block.first - 1 in page.defined and b"-" in page.lines[block.first - 1]
        if is_break or block.kind == "paragraph" and block.first == end + 1 and end in lines:
            lines.update(range(block.first, block.last + 1))
            end = block.last
    return lines


def has_hyphens(page):
    """That a page has such breaks, and all blocks of other lines agree; the lines of definitions before them are cmark's too."""
    passed = hyphens(page)
    others = [[block for block in blocks if block.first not in passed | page.defined and block.kind != "list"] for blocks in (page.ours, page.theirs)]
    return bool(passed) and agree(*others)


def parts_at_a_list(is_tight, kind):
    """That the two part at a list, which for cmark is tight or isn't, and a block of this kind is in it, with a blank line at its end
    if it is no table."""
    def fits(page):
        our, their = page.parting()
        if not (our and their) or our.kind != "list" or their != our._replace(detail=(*our.detail[:2], is_tight), last={0}):
            return False
        ends = [block.last for block in page.ours if block.kind == kind and block.depth > our.depth and block.first >= our.first]
        return any(kind == "table" or end < len(page.lines) and EMPTY.fullmatch(page.lines[end]) for end in ends)

    return fits


def has_other_white_space(page):
    """That cmark-gfm finds a table whose header or delimiter row has a form feed or a vertical tab."""
    rows = [b"".join(page.lines[block.first - 1 : block.first + 1]) for block in page.theirs or [] if block.kind == "table"]
    return any(re.search(rb"[\v\f]", row) for row in rows)


def has_lazy_pipe(page):
    """That a table's header row begins with spaces and a pipe in a lazy line, whose spaces cmark-gfm keeps."""
    return any(block.kind == "table" and block.depth > 0 and re.match(rb"[ \t]+\|", page.lines[block.first - 1]) for block in page.ours)


def begins_blank(page):
    """That an item begins with two blank lines, of which the second has its indent."""
    return re.search(rb"(?:[-+*]|[0-9][.)])[ \t]*\r?\n[> \t]*[ \t]\r?\n", page.text) is not None


KINDS = {
    "hyphens": Kind("have hyphens after link reference definitions", "4.1", has_hyphens),
    "loose": Kind("have a blank line after a thematic break in an item", "5.3", parts_at_a_list(True, "break")),
    "tight": Kind("have a blank line of HTML at the end of an item", "5.3", parts_at_a_list(False, "html")),
    "table": Kind("have a table in an item of a tight list", "5.3", parts_at_a_list(False, "table")),
    "declaration": Kind("begin a declaration with a small letter", "4.6, condition 4", begins(rb"<![a-z]")),
    "cdata": Kind("have <![CDATA[ in small letters", "4.6, condition 5", begins(rb"<!\[(?!CDATA)(?i:cdata)\[")),
    "raw": Kind("have <pre/> or the like alone in its line", "4.6, condition 7", begins(rb"<(?i:pre|script|style|textarea)/>")),
    "name": Kind("have <search> or <source>", "4.6, condition 6", begins(rb"</?(?i:search|source)(?=[\s/>]|$)")),
    "info": Kind("have a form feed or vertical tab at an end of an info string", "4.5", begins(INFO)),
    "escape": Kind("have an escaped & in an info string", "2.4", begins(rb"(?:~{3,}|`{3,})[^\r\n]*\\&")),
    "marker": Kind("have a list marker before a form feed or vertical tab", "5.2", begins_an_item),
    "begin": Kind("begin an item with blank lines", "5.2", begins_blank),
    "pipe": Kind("have a row of one pipe", "GFM 4.10", in_a_table_page(rb"^(?:[ \t>]|[-+*]|[0-9]{1,9}[.)])*\|[ \t]*\r?$")),
    "space": Kind("have a form feed or vertical tab in a table's first rows", "GFM 4.10", has_other_white_space),
    "older": Kind("have a table for one of them, and a block of <textarea>", "4.6, condition 1", begins_textarea),
    "lazy": Kind("have spaces before a header row's pipe in a lazy line", "5.1", has_lazy_pipe),
    "tag": Kind("have a tag alone in a lazy line, which ends the paragraph for cmark-gfm", "5.1", begins_lazy_tag),
    # Compared by kinds and depths alone: cmark-gfm writes no places of these lines.
    "header": Kind("have lines of a paragraph before a table", "GFM 4.10", lambda page: False),
}


# Those in which cmark-gfm reads tables apart.
OF_TABLES = ("pipe", "space", "older", "lazy")


def kind_of(page, among=tuple(KINDS)):
    """The way in which a page is known to differ, of these, or None."""
    return next((name for name in among if KINDS[name].fits(page)), None)
