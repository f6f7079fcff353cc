"""The ways in which the HTML of fillaqut html is known to differ from that of cmark 0.30.2 and cmark-gfm 0.29.0, each with the section that decides.

Sections are of CommonMark 0.31.2. A difference is of a kind where nothing else differs: both are the same without what the kind is of, taken out
of the HTML, or else of the page, which both then make anew.
"""
import re
import unicodedata
from collections import namedtuple

# What kind a difference is of: what the page has, the section that decides, and whether one is of it, or what a page is without that.
Kind = namedtuple("Kind", "words section fits")
PageKind = namedtuple("PageKind", "words section change")


class Difference(namedtuple("Difference", "page ours theirs is_extended")):
    """What a page has become here and there, read with extensions or without."""

    def same_by(self, change):
        """Whether both are the same once they are so changed."""
        return change(self.ours) == change(self.theirs)

    def without(self, change):
        return self._replace(ours=change(self.ours), theirs=change(self.theirs))

    def first(self):
        """The first line of ours that differs, and of theirs; empty where there is none."""
        ours, theirs = self.ours.split(b"\n"), self.theirs.split(b"\n")
        at = next((at for at, pair in enumerate(zip(ours, theirs)) if pair[0] != pair[1]), min(len(ours), len(theirs)))
        return b"".join(ours[at : at + 1]), b"".join(theirs[at : at + 1])


def substituted(pattern, by=b""):
    """A change: each find of a pattern becomes that."""
    compiled = re.compile(pattern)
    return lambda text: compiled.sub(by, text)


def has(pattern):
    compiled = re.compile(pattern)
    return lambda difference: compiled.search(difference.page) is not None


# ---- taken out of the HTML


def outside_of_code(change):
    """A change of all but code blocks."""
    parts_of = re.compile(rb"(<pre><code.*?</code></pre>)", re.S).split
    return lambda text: b"".join(part if part.startswith(b"<pre><code") else change(part) for part in parts_of(text))


without_tabs = substituted(rb"[ \t]+(?=\n|<br />)")
without_slashes = substituted(rb'<input(?: type="checkbox"| checked=""| disabled=""| /)*>', b"<input>")
without_indent = substituted(rb"(\n|<code(?: [^>]*)?>)[ \t]+", rb"\1")
without_lazy_indent = outside_of_code(substituted(rb"(\n|<code>|<p>)[ \t]+|[ \t]+(</code>)|([ \t])[ \t]+", rb"\1\2\3"))
without_last_lines = substituted(rb"(<code(?: [^>]*)?>)\n(?=</code></pre>)|\n(?=\n)", rb"\1")
without_paragraphs = substituted(rb"</?p>|\n")

LAZY = rb"[\r\n][ >]*[ \t]"
FENCE_AFTER_TAB = re.compile(rb"\t *(?:```|~~~)")


def has_last_line(difference, change=lambda text: text):
    """That the page has a last line without an ending, and the two are the same without such lines, after another change too."""
    return not difference.page.endswith((b"\n", b"\r")) and difference.same_by(lambda text: without_last_lines(change(text)))


def has_fence(difference):
    is_one = difference.same_by(without_indent) or has_last_line(difference, without_indent)
    return FENCE_AFTER_TAB.search(difference.page) is not None and is_one


def has_loose_list(difference):
    """That a list is loose for one of them, in a page with HTML, a thematic break or a table: blank lines of these are no blank lines between
    blocks, or are. Lines of other white space are of another kind."""
    is_other = difference.ours.count(b"<p>") != difference.theirs.count(b"<p>") and b"<li>" in difference.ours and not re.search(rb"[\f\v]", difference.page)
    return is_other and difference.same_by(without_paragraphs) and re.search(rb"[<|]|[*_-][ \t]*[*_-]", difference.page) is not None


# The changes are made one after another, and a page is of the kind of the first after which both have the same.
CHANGES = {
    "tasks": (Kind("have a task, whose attributes cmark-gfm writes in another order", "GFM 5.3", lambda difference: difference.is_extended), without_slashes),
    "tabs": (Kind("have a tab before a line ending, which cmark leaves out as it does spaces", "6.7, 6.8", has(rb"\t[ \t]*(?:[\r\n]|$)")), without_tabs),
    "lazy": (Kind("have a lazy line in code, HTML, after a backslash or a definition, whose indent cmark keeps", "5.1, 6.7", has(LAZY)), without_lazy_indent),
}
KINDS = {
    "fence": Kind("have a code fence after a tab, whose indent is less for cmark than it is", "2.2, 4.5", has_fence),
    "last": Kind("end with a line of code or HTML that has no line ending, to which cmark adds one", "2.1", has_last_line),
    "loose": Kind("have a list that is loose for one of them", "5.3", has_loose_list),
}

# ---- taken out of the page

# What may stand before a block in its line.
MARKERS = rb"^[ \t>*+\-0-9.)]*"
COMMENT = re.compile(rb"<!--(?:-?>|(?s:.)*?--(?!>)|(?s:.)*?--->)")
DELIMITER_ROW = re.compile(rb"(?m)^[ \t>*+0-9.)|:-]*-[ \t|:-]*(?=\r?$)")
DESTINATION = rb"\]:\s*\S+"
INLINE_DESTINATION = rb"(\]\(\s*)([^\s)]+)"


def kept_or(pattern, other, by=b"x"):
    """A change: each find of the other pattern that is in none of the first becomes that."""
    compiled = re.compile(rb"(?m)(%s)|%s" % (pattern, other))
    return lambda page: compiled.sub(lambda found: found.group(1) or by, page)


def within(pattern, change):
    """A change of each find of a pattern."""
    compiled = re.compile(pattern)
    return lambda page: compiled.sub(lambda found: change(found.group()), page)


def without_symbols(page):
    """Letters in place of symbols that are not ASCII."""
    return "".join("x" if ord(item) > 127 and unicodedata.category(item)[0] in "PS" else item for item in page.decode()).encode()


def without_comments(page):
    return page.replace(b"<!--", b"xxxx") if COMMENT.search(page) else page


def without_tables(page):
    """Words in place of delimiter rows."""
    return DELIMITER_ROW.sub(lambda found: found.group() + b" x" if b"|" in page or b":" in found.group() else found.group(), page)


def without_parentheses(page):
    """Letters in place of opening parentheses, but for those that begin a destination."""
    page = re.sub(DESTINATION, lambda found: found.group().replace(b"(", b"x"), page)
    # In an inline destination one may stand after a bracket too, as in `[a](b](c)`.
    page = re.sub(INLINE_DESTINATION, lambda found: found.group(1) + found.group(2).replace(b"(", b"x"), page)
    return re.sub(rb"(?<!\])\(", b"x", page)


PAGE_KINDS = {
    "symbol": PageKind("have a symbol that is not ASCII beside delimiters", "6.2", without_symbols),
    "underscore": PageKind("have a run of _ that closes, of which an opener further out is found", "6.2, rules 9 and 10",
        kept_or(MARKERS + rb"(?:_[ \t]*){3,}\r?$", rb"_")),
    "code": PageKind("have backticks after others without a closer, for which cmark then finds none", "6.1",
        kept_or(MARKERS + rb"`{3,}[^`\r\n]*\r?$", rb"`")),
    "comment": PageKind("have a comment with two hyphens in it, or <!--> or <!--->", "6.6", without_comments),
    "value": PageKind("have a tab after an unquoted value in a tag, which ends the value for cmark alone", "6.6, which has it end there",
        within(rb"<[a-zA-Z][^<>]*=\s*[^\s\"'=<>`]+\t[^<>]*", substituted(rb"\t", b" "))),
    "close": PageKind("have a CDATA section that ends in ]]]>, or an instruction that ends in ??>, which cmark overlooks", "6.6",
        substituted(rb"\]+(?=\]\]>)|\?+(?=\?>)")),
    "control": PageKind("have a control character in a destination that is not in <>, which then is not one", "6.3",
        substituted(rb"[\x01-\x08\x0e-\x1f\x7f]", b"x")),
    "autolink": PageKind("have a reference in an autolink, which cmark resolves", "2.5, 6.5",
        within(rb"<[a-zA-Z][a-zA-Z0-9+.-]+:[^<>\s]*&[^<>\s]*>", substituted(rb"&", b"x"))),
    "info": PageKind("have a reference to white space in an info string, which for cmark is part of the first word", "4.5",
        within(rb"(?:```|~~~)[^\r\n]*", substituted(rb"&(?:Tab|NewLine);", b"x"))),
    "declaration": PageKind("have a declaration with a small letter, or <![CDATA[ in small letters", "4.6, 6.6",
        substituted(rb"<!(?=[a-z]|\[(?!CDATA)(?i:cdata)\[|[A-Z]>)", b"xx")),
    "names": PageKind("have search, source, or a closed name of condition 1", "4.6",
        substituted(rb"(?i)(</?)(?:search|source|pre/|script/|style/|textarea/)", rb"\1x")),
    "space": PageKind("have a form feed or a vertical tab, which for cmark is space at ends", "2.1", substituted(rb"[\f\v]", b"x")),
    "escape": PageKind("have an escaped & in a destination, title or info string, which cmark resolves first", "2.4", substituted(rb"\\&", b"x")),
    "begin": PageKind("have an item that begins with two blank lines, which ends at the second", "5.2",
        substituted(rb"(?m)^((?:[ \t>]|(?:[-*+]|[0-9]+[.)])(?=[ \t]))*(?:[-*+]|[0-9]+[.)]))[ \t]*(?=\r?\n[ \t>]*\r?\n)", rb"\1 x")),
    "title": PageKind("have a title whose last quotation mark is escaped, which then is not one", "6.3", substituted(rb"\\['\")]", b"x")),
    "label": PageKind("have a label of white space, which is not a label", "6.3", substituted(rb"\[\s+\]", b"x")),
}
# The same of pages that are read with extensions.
EXTENDED_KINDS = {
    "task": PageKind("have a task that is not in the line of its item for cmark-gfm, or has no words there", "GFM 5.3", substituted(rb"\[[ xX]\]", b"(y)")),
    "tilde": PageKind("have tildes beside other delimiters, over which cmark-gfm passes", "6.2", kept_or(MARKERS + rb"~{3,}", rb"~")),
    "parentheses": PageKind("have parentheses that are not balanced in a destination, which cmark-gfm takes", "6.3", without_parentheses),
    "table": PageKind("have a table for one of them", "GFM 4.10", without_tables),
    "tag": PageKind("have a tag alone in a lazy line, which ends the paragraph for cmark-gfm", "5.1",
        substituted(rb"(?m)^( {0,3}</?[a-zA-Z][^\n>]*>)(?=\s*$)", rb"\1x")),
}
ALL = {name: kind for name, (kind, _) in CHANGES.items()} | KINDS | PAGE_KINDS | EXTENDED_KINDS


def kind_of_html(difference):
    """The way in which the HTML alone is known to differ, or None."""
    for name, (kind, change) in CHANGES.items():
        if kind.fits(difference):
            difference = difference.without(change)
            if difference.ours == difference.theirs:
                return name
    return next((name for name, kind in KINDS.items() if kind.fits(difference)), None)


def kind_of(difference, both_of):
    """The way in which a page is known to differ, or None, where `both_of` says what becomes of another page. Of several ways it is the last
    that has to be taken out. Without one of them the page may have another, so that they are gone through twice."""
    if found := kind_of_html(difference):
        return found
    kinds = (EXTENDED_KINDS if difference.is_extended else {}) | PAGE_KINDS
    for name, kind in 2 * list(kinds.items()):
        page = kind.change(difference.page)
        if page != difference.page:
            difference = Difference(page, *both_of(page), difference.is_extended)
            if difference.ours == difference.theirs or kind_of_html(difference):
                return name
    return None
