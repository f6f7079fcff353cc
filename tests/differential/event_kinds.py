"""The ways in which fillaqut events is known to differ from pulldown-cmark 0.9.2, each with the section that decides.

Sections are of CommonMark 0.31.2.
"""
import re
from collections import namedtuple

from block_trees import CMARK
from event_lines import TASKS
from event_shapes import WITH_EXTENSIONS, how_many_alike, our_shape, their_shape
from inline_kinds import has_symbol

# A comment that was none in 0.30, and a declaration that was none.
COMMENT = re.compile(rb"<!--(?:-?>|(?s:.)*?--(?!>)|(?s:.)*?--->)")
DECLARATION = re.compile(rb"<![a-z]|<![A-Z]+>")
# Nothing but blank lines, in block quotes or not.
BLANK = re.compile(rb"[ \t>\r\n]*")
# The marker of a task, and the white space after it.
MARKER = re.compile(rb"\[[ \t\v\fxX]\]\s*")
# The rest of a line that has nothing but white space.
BLANK_REST = re.compile(rb"[ \t\v\f]*(?:[\r\n]|\Z)")
INDENT = re.compile(rb"^[ \t]+", re.M)
ELEMENT = re.compile(r"(?:start|end) (block quote|list|item|code block|link|image|table head|table row|table cell)")
CONTAINERS = ("block quote", "list", "item")
ROWS = ("table head", "table row")


class Pair(namedtuple("Pair", "our their")):
    """An event of ours and one of theirs; None where there is no more."""

    def are_alike(self):
        """Whether they are the same but for ranges, and for texts that differ in a known way."""
        return bool(self.our and self.their and self.our.words == self.their.words and (self.our.texts == self.their.texts or kind_of_text(self)))

    def of(self, words):
        return self.our and self.our.words == words and self.their and self.their.words == words

    def element(self):
        """The element that the pair begins or ends, if it is one that may differ."""
        found = self.our and ELEMENT.match(self.our.words)
        return found[1] if found else ""


# A way to differ: what a page, an event or a place of it has, the section that decides, and whether one is of it.
Kind = namedtuple("Kind", "words section fits")


class Parting(namedtuple("Parting", "page options pairs at")):
    """Where the events of a page part, which is read with these options: at this pair, of all pairs."""

    @property
    def our(self):
        return self.pairs[self.at].our

    @property
    def their(self):
        return self.pairs[self.at].their

    def outermost(self):
        """Where the line begins in which our outermost block does that holds the place."""
        depth, start = 0, 0
        for event in (our for our, _ in self.pairs[: self.at + 1] if our):
            start = event.start if depth == 0 else start
            depth += event.words.startswith("start ") - event.words.startswith("end ")
        return self.page.rfind(b"\n", 0, start) + 1

    def are(self, words):
        """Whether both are events of these words."""
        return self.pairs[self.at].of(words)

    def around(self):
        """The lines in which their sources stand."""
        places = [place for pair in self.pairs[self.at] if pair for place in pair[:2]]
        start, end = self.page.rfind(b"\n", 0, min(places)) + 1, self.page.find(b"\n", max(places))
        return self.page[start : end if end >= 0 else len(self.page)]


def is_line_end(page, place):
    return page[place : place + 1] in (b"", b"\r", b"\n")


def without_end(parting, spaces):
    """Whether our text is theirs without such spaces at its end, and how our next event is called; if it is nothing but these there is no such
    event of ours, and the next is the one that stands there."""
    if not (parting.our and parting.their and parting.their.words == "text" and is_line_end(parting.page, parting.their.end)):
        return False, ""
    left = parting.their.texts[0].rstrip(spaces)
    is_without = left != parting.their.texts[0] and (not left or parting.our.words == "text" and parting.our.texts == (left,))
    after = parting.our if not left else parting.pairs[parting.at + 1].our
    return is_without, after.words if after else ""


def has_spaces(parting):
    """That spaces stand before a soft line break, which are left out."""
    return without_end(parting, b" ") == (True, "soft break")


def has_tabs(parting):
    """That a tab, and no two spaces after it, stand before a line ending: only spaces are left out there."""
    if not (parting.our and parting.their and parting.our.words == "text" and parting.our.texts[0].endswith(b"\t")):
        return False
    left = parting.our.texts[0].rstrip(b" \t")
    is_without = parting.their.texts == (left,) if left else parting.their.words in ("soft break", "hard break")
    return is_without and parting.page[parting.our.end :].lstrip(b" ")[:1] in (b"\r", b"\n")


def has_last_spaces(parting):
    """That spaces or tabs stand after the last text of a block, where the line ends."""
    is_without, after = without_end(parting, b" \t")
    return is_without and after.startswith("end ")


def has_return(parting):
    """That a carriage return alone ends a line of code or HTML, which goes on for pulldown-cmark."""
    if not ((parting.are("text") or parting.are("html")) and parting.our.start == parting.their.start):
        return False
    return re.search(rb"\r(?!\n)", parting.page[parting.their.start : parting.their.end]) is not None


def has_bare_header(parting):
    """That the header row of a table is one cell without a pipe."""
    if not (parting.our and parting.our.words.startswith("start table ")):
        return False
    row = re.split(rb"[\r\n]", parting.page[parting.our.start :], maxsplit=1)[0]
    return b"|" not in row.replace(b"\\|", b"")


def has_columns(parting):
    """That HTML has a tab of which some columns are text, which are a text of their own for pulldown-cmark."""
    found = b""
    for their in (pair.their for pair in parting.pairs[parting.at :] if pair.their):
        if their.words == "text" and their.start == their.end and not their.texts[0].strip(b" "):
            return parting.our is not None and parting.our.words == "html" and in_lines(parting.our.texts[0]).startswith(in_lines(found) + their.texts[0])
        if their.words != "html":
            return False
        found += their.texts[0]
    return False


def others(parting):
    """What cmark says of the page, and if it is read with extensions cmark-gfm."""
    asked = [(CMARK, False), *([(WITH_EXTENSIONS, False), (WITH_EXTENSIONS, True)] if parting.options else [])]
    return [their_shape(parting.page, *how) for how in asked]


def is_alone(parting):
    """That cmark has the events that fillaqut events has."""
    ours = our_shape([pair.our for pair in parting.pairs if pair.our])
    return any(how_many_alike(parting.page, ours, other) == len(ours) == len(other) for other in others(parting))


def is_alone_there(parting):
    """That cmark has the events that fillaqut events has up to where the two part, and not those of pulldown-cmark."""
    if parting.our is None:
        return False
    ours = our_shape([pair.our for pair in parting.pairs if pair.our])
    front, theirs = (our_shape([pair[side] for pair in parting.pairs[: parting.at + 1] if pair[side]]) for side in (0, 1))
    return any(how_many_alike(parting.page, ours, other) >= len(front) and theirs != other[: len(theirs)] for other in others(parting))


def task_at(parting, last=0):
    """The marker of a task that one of the pair is, or one of the pair before it, or of so many after it."""
    near = [event for pair in parting.pairs[max(parting.at - 1, 0) : parting.at + 1 + last] for event in pair]
    return next((event for event in reversed(near) if event and event.words in TASKS), None)


def has_marker_alone(parting):
    """That nothing but white space stands in the line after the marker of a task, which for pulldown-cmark a paragraph may follow."""
    marker = task_at(parting, 1)
    return marker is not None and BLANK_REST.match(parting.page, marker.end) is not None


def has_marker_below(parting):
    """That the marker of a task begins a line, in which no list marker stands."""
    marker = task_at(parting)
    return marker is not None and not parting.page[parting.page.rfind(b"\n", 0, marker.start) + 1 : marker.start].strip(b" \t>")


def has_tab_in_marker(parting):
    """That the marker of a task has neither a space nor an x between its brackets."""
    marker = task_at(parting)
    return marker is not None and parting.page[marker.start + 1 : marker.start + 2] not in (b" ", b"x", b"X")


def has_block_in_task(parting):
    """That a block begins after the marker of a task for pulldown-cmark, or that the marker begins a heading or code."""
    theirs = [pair.their for pair in parting.pairs[parting.at : parting.at + 2] if pair.their]
    after = next((event.words for event in theirs if event.words not in TASKS), "")
    begins = after.startswith("start ") or parting.our and parting.our.words.startswith(("start heading", "start code block"))
    return task_at(parting) is not None and bool(begins)


def has_comment(parting):
    """That such a comment stands in these lines, or begins in them and is HTML of ours."""
    near = [event.texts[0] for event, _ in parting.pairs[parting.at : parting.at + 2] if event and event.words == "html"]
    return any(COMMENT.search(text) for text in [parting.around(), *near])


def has_block_in_rows(parting):
    """That another block of ours begins after the rows of a table, where a row stands for pulldown-cmark."""
    if not (parting.our and parting.their and parting.our.words == "end table" and parting.their.words == "start table row"):
        return False
    after = next((event for event, _ in parting.pairs[parting.at + 1 :] if event and event.words.startswith("start ")), None)
    return after is not None and parting.our.end <= after.start < parting.their.end


def has_lazy_header(parting):
    """That a table of ours begins in the next line, with a pipe after spaces, where their paragraph goes on: there, or with the text before it."""
    near = parting.pairs[parting.at : parting.at + 3]
    ours, theirs = ([pair[side] for pair in near if pair[side]] for side in (0, 1))
    after = next((event.words for event in theirs if event.words != "text"), None)
    if after not in ("soft break", "hard break"):
        return False
    ends = [at for at, event in enumerate(ours) if event.words == "end paragraph" and all(other.words == "text" for other in ours[:at])]
    begun = [event for at in ends for event in ours[at + 1 : at + 2] if event.words.startswith("start table ")]
    return any(re.search(rb"[\r\n][ \t]+$", parting.page[: event.start]) and parting.page[event.start :].startswith(b"|") for event in begun)


def has_quote(parting):
    """That a block quote of ours begins in the next line, where their paragraph goes on."""
    if not (parting.our and parting.their and parting.our.words.startswith("end ") and parting.their.words == "soft break"):
        return False
    place = parting.their.end + len(parting.page[parting.their.end :]) - len(parting.page[parting.their.end :].lstrip(b" "))
    return any(pair.our and pair.our.words == "start block quote" and pair.our.start == place for pair in parting.pairs[parting.at :])


def has(pattern):
    return lambda parting: pattern.search(parting.around()) is not None


def in_lines(text):
    """The text with a line feed for each line ending."""
    return text.replace(b"\r\n", b"\n")


def has_indent(pair):
    """That lines of HTML are indented."""
    ours, theirs = (INDENT.sub(b"", in_lines(side.texts[0])) for side in pair) if pair.of("html") else (True, False)
    return ours == theirs


def has_ending_in_code(pair):
    """That a code span has a line ending at its edge."""
    return pair.of("code") and pair.our.texts[0].split() == pair.their.texts[0].split()


def has_escaped_pipe(pair):
    """That a code span in a cell of a table has an escaped pipe."""
    return pair.of("code") and pair.their.texts[0] != pair.our.texts[0] == pair.their.texts[0].replace(b"\\|", b"|")


TEXT_KINDS = {
    "indent": Kind("have HTML lines with an indent, which pulldown-cmark may leave out", "4.6", has_indent),
    "code": Kind("are a code span with a line ending at its edge, which is a space", "6.1", has_ending_in_code),
    "pipe": Kind("are a code span with an escaped pipe in a table, whose backslash pulldown-cmark keeps", "GFM 4.10", has_escaped_pipe),
}

EVENT_KINDS = {
    "spaces": Kind("have spaces before a soft line break, which are no part of it for pulldown-cmark", "6.8", has_spaces),
    "tabs": Kind("have a tab before a line ending, which is left out for pulldown-cmark as spaces are", "6.7, 6.8", has_tabs),
    "last": Kind("have spaces or tabs at the end of a block, which are text for pulldown-cmark", "4.8", has_last_spaces),
    "return": Kind("have a CR without a LF, which ends no line for pulldown-cmark", "2.1", has_return),
    "header": Kind("have a table whose header row has no pipe, which is not one for pulldown-cmark", "GFM 4.10", has_bare_header),
    "columns": Kind("have HTML with a tab of which some columns are text", "2.2", has_columns),
    "comment": Kind("have a comment with two hyphens in it, or that begins with > or ->", "6.6", has_comment),
    "declaration": Kind("have a declaration with a small letter, or a letter alone", "6.6", has(DECLARATION)),
    "symbol": Kind("have a symbol that is not ASCII beside delimiters", "6.2", lambda parting: has_symbol(parting.around())),
    "ends": Kind("have the marker of a task for pulldown-cmark that white space follows alone in its line", "GFM 5.3", has_marker_alone),
    "below": Kind("have the marker of a task in a later line than that of its item, which is not one for pulldown-cmark", "GFM 5.3", has_marker_below),
    "inside": Kind("have a heading or code that begins with the marker of a task, or for pulldown-cmark a block after one", "GFM 5.3", has_block_in_task),
    "brackets": Kind("have the marker of a task for pulldown-cmark with a tab between its brackets, which is text", "GFM 5.3", has_tab_in_marker),
    "alone": Kind("have for cmark, or with extensions for cmark-gfm, the events that they have here", "pulldown-cmark 0.9.2 alone", is_alone),
    "there": Kind("have them up to where they part from pulldown-cmark", "pulldown-cmark 0.9.2 alone", is_alone_there),
    "quote": Kind("have a block quote that interrupts a paragraph, which goes on for pulldown-cmark", "5.1", has_quote),
    "rows": Kind("have a block that ends a table, in which it is a row for pulldown-cmark", "GFM 4.10", has_block_in_rows),
    "lazy": Kind("have spaces before a header row's pipe in a lazy line, which is no row for pulldown-cmark", "5.1", has_lazy_header),
}


# A place: of which pair it is, whether it is the end of its range, and where it is for ours and for theirs.
Place = namedtuple("Place", "page pair is_end our their")


def is_escape(parting):
    return parting.pair.of("text") and not parting.is_end and parting.page[parting.our : parting.their] == b"\\"


def is_marker(parting):
    is_earlier = not parting.is_end and parting.their < parting.our
    return parting.pair.element() in CONTAINERS and is_earlier and not parting.page[parting.their : parting.our].strip(b" \t")


def is_tab(parting):
    return (parting.pair.of("text") or parting.pair.element() == "code block") and not parting.is_end and parting.page[parting.our : parting.their] == b"\t"


def is_indent(parting):
    return parting.pair.of("html") and not parting.is_end and parting.our < parting.their and not parting.page[parting.our : parting.their].strip(b" \t")


def is_last_line(parting):
    """That a page ends with spaces after HTML that is closed."""
    return parting.pair.of("html") and parting.is_end and parting.their == len(parting.page) and not parting.page[parting.our : parting.their].strip(b" \t")


def is_part_of_tab(parting):
    """That a page ends with HTML whose last line is a part of a tab, the rest of which a container takes."""
    beyond = parting.page[parting.their : parting.our]
    return parting.pair.of("html") and parting.is_end and parting.our == len(parting.page) and b"\t" in beyond and not beyond.strip(b" \t>")


def is_fence(parting):
    return parting.pair.element() == "code block" and parting.is_end and parting.page[parting.their : parting.our] in (b"\n", b"\r\n", b"\r")


def is_blank(parting):
    is_later = parting.is_end and parting.our < parting.their
    return parting.pair.element() in CONTAINERS and is_later and BLANK.fullmatch(parting.page, parting.our, parting.their) is not None


def is_return(parting):
    beyond = parting.page[parting.our : parting.their]
    return parting.is_end and parting.page[parting.our - 1 : parting.our] == b"\r" and beyond != b"" and not beyond.strip(b"\r\n")


def is_of_task(parting):
    return parting.pair.our.words.endswith(" paragraph") and not parting.is_end and MARKER.fullmatch(parting.page, parting.our, parting.their) is not None


def is_collapsed(parting):
    return parting.pair.element() in ("link", "image") and parting.is_end and parting.page[parting.their : parting.our] == b"[]"


def is_row(parting):
    beyond = parting.page[parting.our : parting.their]
    return parting.pair.element() in ROWS and parting.is_end and parting.our < parting.their and not beyond.strip(b" \t\r\n")


def is_cell(parting):
    beside = parting.page[parting.our : parting.their] if parting.is_end else parting.page[parting.their : parting.our]
    return parting.pair.element() == "table cell" and (not beside.strip(b" \t") or parting.pair.our.start == parting.pair.our.end)


PLACE_KINDS = {
    "escape": Kind("begin with the backslash of an escape, for pulldown-cmark after it", "2.4", is_escape),
    "marker": Kind("begin with the marker of a container, for pulldown-cmark with the space before it", "5.1, 5.2", is_marker),
    "tab": Kind("begin with a tab of which some columns are text, for pulldown-cmark after it", "2.2", is_tab),
    "indent": Kind("begin with the indent of HTML, for pulldown-cmark after it", "4.6", is_indent),
    "closed": Kind("end with the line that closes HTML, for pulldown-cmark after the spaces at the end of the page", "4.6", is_last_line),
    "part": Kind("end with a last line of HTML that is a part of a tab, for pulldown-cmark before it", "2.2", is_part_of_tab),
    "fence": Kind("end with the line of a closing fence, for pulldown-cmark before its line ending", "4.5", is_fence),
    "blank": Kind("end with the last block of a container, for pulldown-cmark after the blank lines that follow", "5.1, 5.2", is_blank),
    "return": Kind("end with a line that a CR without a LF ends, for pulldown-cmark with the next line ending", "2.1", is_return),
    "row": Kind("end with the text of a row, for pulldown-cmark after its line ending", "GFM 4.10", is_row),
    "cell": Kind("are those of a cell's content, for pulldown-cmark with the spaces around it", "GFM 4.10", is_cell),
    "task": Kind("begin with the marker of a task, for pulldown-cmark after it", "GFM 5.3", is_of_task),
    "collapsed": Kind("end after the [] of a collapsed reference, for pulldown-cmark before it", "6.3", is_collapsed),
}


def kind_of_text(pair):
    """The way in which the texts of a pair are known to differ, or None."""
    return next((name for name, kind in TEXT_KINDS.items() if kind.fits(pair)), None)


def kind_of_events(parting):
    """The way in which a page is known to differ whose events part there, or None."""
    return next((name for name, kind in EVENT_KINDS.items() if kind.fits(parting)), None)


def kinds_of_places(page, pair):
    """The ways in which the places of a pair are known to differ, `agree` where they are the same, or None."""
    places = [Place(page, pair, False, pair.our.start, pair.their.start), Place(page, pair, True, pair.our.end, pair.their.end)]
    return ["agree" if place.our == place.their else next((name for name, kind in PLACE_KINDS.items() if kind.fits(place)), None) for place in places]
