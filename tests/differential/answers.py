"""What calls answer by docs/DEFINITIONS.md, for cuts.py and refusals.py. Nothing here knows the library.

Bracketed sections are of CommonMark 0.31.2, GFM of GitHub Flavored Markdown 0.29. None stands for none.
"""
import re

PUNCTUATION = rb"[!-/:-@\[-`{-~]"
ENDING = rb"(?:\r\n|\r|\n|\Z)"
# White space that ends no line (2.1).
INLINE_SPACE = rb"[ \t\x0b\x0c]"


def length_of(pattern, text):
    """The length of what a pattern takes at the front."""
    found = re.match(pattern, text, re.S)
    return found and found.end()


# Lines (2.1, 2.2, 4.1 to 4.5).

def eol(text):
    return length_of(ENDING, text)


def line(text):
    """The bytes before the first LF or CR, and that ending."""
    return length_of(rb"[^\r\n]*" + ENDING, text)


def lines(text):
    """The lines of a text, with their endings."""
    length = line(text)
    return [text[:length], *lines(text[length:])] if text else []


def blank_line(text):
    return length_of(INLINE_SPACE + b"*" + ENDING, text)


def thematic_break(text):
    """The length of the line, with its ending, if it is a thematic break (4.1)."""
    return length_of(rb"(?=([*_-]))(?:[ \t]*\1){3,}[ \t]*" + ENDING, text)


def break_length(text):
    """How far a line that is no thematic break can be read as one, with a line ending there: not at all where it begins with
    no mark, or is shorter than three bytes."""
    found = re.match(rb"([*_-])(?:\1|[ \t])*", text)
    return found.end() + (eol(text[found.end():]) or 0) if found and len(text) >= 3 else 0


def indent(text, limit):
    """The place of the last byte looked at, and the columns: a space that fills the limit is counted and ends the indent, a
    tab that would go past it ends it (2.2)."""
    place = columns = 0
    for place, byte in enumerate(text):
        wide = 4 - columns % 4 if byte == 9 else 1
        if byte not in b" \t" or (byte == 9 and columns + wide > limit):
            return place, columns
        columns += wide
        if byte == 32 and columns == limit:
            return place, columns
    return place, columns


def code_fence(text):
    """The length and the byte of an opening fence (4.5)."""
    found = re.match(rb"(`{3,})(?!`|[^\n]*`)|(~{3,})", text)
    return found and (found.end(), text[0])


def closing_code_fence(text, byte, least):
    if not text:
        return 0
    return length_of(b"%c{%d,}[ \\t]*(?=%s)" % (byte, least, ENDING), text)


def closing_metadata(text, byte):
    """A line of three of the byte that opened the block, or for `-` of three `.`, and spaces."""
    three = rb"(?:---|\.\.\.)" if byte == ord("-") else rb"\+\+\+"
    return length_of(three + rb" *(?=" + ENDING + rb")", text)


def metadata_block(text, byte):
    """Three bytes, and white space, in the first line; a next line that is neither blank nor closes the block; a later one
    that does. Lines end at LF."""
    opened = re.match(rb"%s{3}(?!%s)[ \t\r\x0c]*\n" % ((re.escape(b"%c" % byte),) * 2), text)
    if not opened:
        return None
    body = text[opened.end():]
    later = [body[at.end():] for at in re.finditer(b"\n", body)]
    is_closed = any(closing_metadata(line, byte) is not None for line in later)
    well = is_closed and blank_line(body) is None and closing_metadata(body, byte) is None
    return (3, byte) if well else None


def atx_level(text):
    found = re.match(rb"(#{1,6})(?=[ \t\n\x0b\x0c\r]|\Z)", text)
    return found and found.end()


def setext(text):
    """The length of the line and the level."""
    found = re.match(rb"(=+|-+)" + INLINE_SPACE + b"*" + ENDING, text)
    return found and (found.end(), 1 if text[:1] == b"=" else 2)


def list_item(text):
    """The length of what an item begins with, its delimiter, its number and its indent (5.2)."""
    found = re.match(rb"[-+*]|([0-9]{1,9})[.)]", text)
    rest = text[found.end():] if found else b""
    if not found:
        return None
    place, columns = (0, 1) if blank_line(rest) is not None else indent(rest, 5)
    if not columns:
        return None
    if columns > 4:
        place = columns = 1
    return found.end() + place, text[found.end() - 1], int(found[1] or 0), found.end() + columns


def table_head(text):
    """The length of a delimiter row with its line ending, and the alignments of its columns (GFM 4.10)."""
    found = re.match(rb" {0,3}(?! )(\|?)((?:[ :-]*-[ :-]*\|)*)([ :-]*)" + ENDING, text)
    if not found or b"|" not in found[1] + found[2] or b"-" not in found[0]:
        return 0, []
    cells = found[2].split(b"|")[:-1] + [found[3]] * bool(found[3].strip(b" "))
    names = {(0, 0): "None", (1, 0): "Left", (0, 1): "Right", (1, 1): "Center"}
    bare = [cell.replace(b" ", b"") for cell in cells]
    return found.end(), [names[line[:1] == b":", b":" in line[1:]] for line in bare]


# The start of a line, column by column (2.2, 5.1 to 5.3; GFM 5.3; alerts).

class LineStart:
    """The bytes of a line, the place in them, the columns of a tab before it that are not taken, and the column of the place."""

    def __init__(self, line):
        self.line, self.place, self.pending, self.column = line, 0, 0, 0

    def left(self):
        return self.line[self.place:]

    def seen(self):
        return self.place, self.pending

    def go(self, count):
        """Passes bytes of one column each."""
        self.place, self.column = self.place + count, self.column + count

    def rest(self):
        """What is left, its tabs before the line ending written out."""
        head = re.match(rb"[^\r\n]*", self.left())[0]
        shown, column = b" " * self.pending, self.column
        for byte in head:
            wide = 4 - column % 4 if byte == 9 else 1
            shown, column = shown + (b" " * wide if byte == 9 else b"%c" % byte), column + wide
        return shown + self.left()[len(head):]

    def spaces(self):
        return length_of(b" *", self.rest())

    def upto(self, most):
        """Takes columns of space."""
        taken = min(most, self.spaces())
        for _ in range(taken):
            if not self.pending:
                wide = 4 - self.column % 4 if self.left()[:1] == b"\t" else 1
                self.place, self.column, self.pending = self.place + 1, self.column + wide, wide
            self.pending -= 1
        return taken

    def all_space(self):
        self.go(length_of(rb"[ \t]*", self.left()))
        self.pending = 0

    def is_at_end(self):
        return self.left()[:1] in (b"", b"\n", b"\r")

    def quote(self):
        if self.left()[:1] != b">":
            return False
        self.go(1)
        self.upto(1)
        return True

    def list(self, indent):
        """A marker; then one column of space or the line's end; and further columns, if they are fewer than four and the rest
        is not blank."""
        found = re.match(rb"[-+*]|([0-9]{1,9})[.)]", self.left())
        if not found or (not found[1] and thematic_break(self.left())):
            return None
        before = self.place, self.pending, self.column
        self.go(found.end())
        if not self.spaces() and not self.is_at_end():
            self.place, self.pending, self.column = before
            return None
        self.upto(1)
        further = 0 if blank_line(self.left()) is not None or self.spaces() > 3 else self.upto(3)
        return self.line[before[0] + found.end() - 1], int(found[1] or 0), indent + found.end() + 1 + further

    def definition(self, indent):
        if self.left()[:1] != b":":
            return None
        self.go(1)
        return indent + 1 + self.upto(1 if self.spaces() > 4 else 4)

    def task(self):
        """Up to three columns of space, and a box."""
        before = self.place, self.pending, self.column
        self.upto(3)
        box = re.match(rb"\[([ \t\x0b\x0cxX])\](?=[ \t\n\x0b\x0c\r])", self.left())
        if not box:
            self.place, self.pending, self.column = before
            return None
        self.go(3)
        return box[1] in b"xX"

    def alert(self):
        found = re.match(rb"\[!(note|tip|important|warning|caution)\]" + INLINE_SPACE + b"*" + ENDING, self.left(), re.I)
        if not found:
            return None
        self.go(found.end())
        return found[1].decode().capitalize()


def line_run(line, calls):
    """The answers of calls on the start of a line, each the name of a call and its arguments; the rest; the place; and where
    a call that is not for space stands inside a tab, its index."""
    start, answers = LineStart(line), []
    for call, *words in calls:
        if start.pending and call not in ("space", "upto"):
            return answers, start.rest(), start.place, len(answers)
        answers.append(start.upto(*words) == words[0] if call == "space" else getattr(start, call)(*words))
    return answers, start.rest(), start.place, None


# Kept text (5), and what stands in it.

def kept(text, skips):
    """The bytes of the text with their places, and of each whether it ends a line. Behind each line ending as many bytes are
    left out as `skips` answers for the rest; without it the text ends at its first line ending."""
    found, place = [], 0
    while place < len(text):
        unit = re.compile(rb"\r\n|.", re.S).match(text, place)
        is_ending = unit[0] in (b"\n", b"\r", b"\r\n")
        if is_ending and skips is None:
            break
        found += [(text[at:at + 1], at, is_ending and at + 1 == unit.end()) for at in range(*unit.span())]
        place = unit.end() + (skips(text[unit.end():]) if is_ending else 0)
    return found


# Tags (6.6). An unquoted value is the longest run, and takes tabs.
VALUE = rb"""(?:'[^']*'|"[^"]*"|[^'" =<>`\t\n\x0b\x0c\r][^'" =<>`\n\r]*(?![^'" =<>`\n\r]))"""
ATTRIBUTE = rb"(?:[ \t\n\x0b\x0c\r]+[A-Za-z_:][A-Za-z0-9_.:-]*(?:[ \t\n\x0b\x0c\r]*=[ \t\n\x0b\x0c\r]*" + VALUE + rb")?)"
OPEN_TAG = rb"<[A-Za-z][A-Za-z0-9-]*" + ATTRIBUTE + rb"*[ \t\n\x0b\x0c\r]*/?>"
CLOSING_TAG = rb"</[A-Za-z][A-Za-z0-9-]*" + INLINE_SPACE + rb"*(?:\r\n|\r|\n)?" + INLINE_SPACE + rb"*>"


def tag(text, skips=None):
    """The tag at the front: its text, and how many bytes of the source it takes. A closing tag holds at most one line ending
    of the source."""
    bytes_kept = kept(text, skips)
    joined = b"".join(byte for byte, _, _ in bytes_kept)
    is_closing = joined.startswith(b"</")
    found = re.match(CLOSING_TAG if is_closing else OPEN_TAG, joined)
    if not found or (is_closing and sum(ends for _, _, ends in bytes_kept[:found.end()]) > 1):
        return None
    return found[0], bytes_kept[found.end() - 1][1] + 1


BLOCK_NAMES = (
    b"address article aside base basefont blockquote body caption center col colgroup dd details dialog dir div dl dt fieldset "
    b"figcaption figure footer form frame frameset h1 h2 h3 h4 h5 h6 head header hr html iframe legend li link main menu menuitem "
    b"nav noframes ol optgroup option p param search section summary table tbody td tfoot th thead title tr track ul"
).split()


def is_block_name(text):
    """Whether what follows `<` opens an HTML block by its name (4.6, start condition 6)."""
    found = re.match(rb"/?([A-Za-z0-9]+)(?:[ \t\r\n>]|/>|\Z)", text)
    return bool(found) and found[1].lower() in BLOCK_NAMES


def tag_alone(text):
    """The length of a tag that is alone in its line (4.6, start condition 7)."""
    found = tag(text)
    return found[1] if found and blank_line(text[found[1]:]) is not None else None


# By the numbers of their conditions (4.6): how HTML blocks begin, and what ends those of 1 to 5.
RAW_NAMES = rb"(?:pre|script|style|textarea)"
HTML_STARTS = (rb"(?i:<" + RAW_NAMES + rb")(?=[ \t>\r\n]|\Z)", rb"<!--", rb"<\?", rb"<![A-Za-z]", rb"<!\[CDATA\[")
HTML_ENDS = (rb"(?i:</" + RAW_NAMES + rb">)", rb"-->", rb"\?>", rb">", rb"\]\]>")
HTML_KINDS = ("RawText", "Comment", "Processing", "Declaration", "Cdata", "BlockName", "TagAlone")


def html_kind(text):
    """The kind of the HTML block that begins there (4.6)."""
    begins = [bool(re.match(start, text)) for start in HTML_STARTS]
    begins.append(text[:1] == b"<" and is_block_name(text[1:]))
    begins.append(tag_alone(text) is not None and not re.match(rb"(?i:<" + RAW_NAMES + rb")(?![A-Za-z0-9-])", text))
    return next((kind for kind, is_there in zip(HTML_KINDS, begins) if is_there), None)


def interrupts(text):
    """Whether the line can interrupt a paragraph (4.8)."""
    text = re.sub(rb"\A {1,3}", b"", text[: line(text)])
    item = list_item(text)
    is_item = item and re.match(rb"(?:[-+*]|0{0,8}1[.)])[ \t]", text) and blank_line(re.sub(rb"\A[^ \t]*", b"", text)) is None
    found = (thematic_break(text), atx_level(text), code_fence(text), length_of(b">", text))
    return any(item is not None for item in found) or bool(is_item) or html_kind(text) not in (None, "TagAlone")


def ends_html(text, kind):
    """Whether the line at the front ends an HTML block of the kind (4.6)."""
    number = HTML_KINDS.index(kind)
    return bool(re.search(HTML_ENDS[number], text[: line(text)])) if number < len(HTML_ENDS) else blank_line(text) is not None


def label(text, skips):
    """A link label without backslashes before punctuation (6.3): how many bytes it takes with its closing bracket, its text,
    and whether that stands in the source as it is."""
    bytes_kept = kept(text, skips)
    joined = b"".join(byte for byte, _, _ in bytes_kept)
    content = re.match(rb"([^\[\]]*)\]", joined)
    if not content:
        return None
    close = content.end(1)
    runs = [match.span() for match in re.finditer(rb"[ \t\n\x0b\x0c\r]+", content[1])]
    has_blank_line = any(sum(ends for _, _, ends in bytes_kept[slice(*run)]) > 1 for run in runs)
    words = content[1].split()
    if has_blank_line or not words or len(content[1].decode(errors="replace")) > 999:
        return None
    is_lent = all(content[1][slice(*run)] == b" " for run in runs)
    return bytes_kept[close][1] + 1, b" ".join(words).decode(), is_lent


# Links (6.3, 6.5), references and escapes (2.4, 2.5).

def destination(text, max_next):
    """The length of a bare destination without escapes: balanced parentheses, at most `max_next + 1` of them open at once. A
    closing one that opens nothing ends it, and so does a byte up to space; there is none where it ends inside of one."""
    depth = 0
    for place, byte in enumerate(text):
        if byte <= 32 or (byte == ord(")") and depth == 0):
            return place if depth == 0 else None
        depth += (byte == ord("(")) - (byte == ord(")"))
        if depth > max_next + 1:
            return None
    return len(text) if depth == 0 else None


def link_title(text):
    """The length of a title: two quotes or parentheses, between which neither of the two stands but behind a backslash, and none
    of whose lines is blank."""
    escape = rb"\\" + PUNCTUATION
    between = rb"(?:%s|(?!%s)[^%s])*"
    around = {b'"': b'""', b"'": b"''", b"(": b"()"}.get(text[:1])
    if not around:
        return None
    opening, closing = (re.escape(around[number:number + 1]) for number in (0, 1))
    length = length_of(opening + between % (escape, escape, opening + closing) + closing, text)
    return length if length and all(blank_line(item) is None for item in lines(text[:length])) else None


GAP = rb"[ \t]*(?:\r\n|\r|\n)?[ \t]*"


def link_destination(text, start, max_next):
    """A destination without escapes, in angle brackets or bare and not empty: where it stands, and where it ends."""
    pointed = re.compile(rb"<([^<>\n\r]*)>").match(text, start)
    bare = None if text[start:start + 1] == b"<" else destination(text[start:], max_next)
    return pointed.span(1) + (pointed.end(),) if pointed else bare and (start, start + bare, start + bare)


def separated_title(text, offset):
    """Where the raw text of a title begins and ends that follows the offset after a gap."""
    start = re.compile(GAP).match(text, offset).end()
    length = link_title(text[start:]) if start > offset else None
    return length and (start + 1, start + length - 1)


def reference_definition(text, max_next):
    """A link reference definition (4.7) whose label and destination have no escapes: where its label, its destination and its
    title stand, and its length."""
    rest_of_line = re.compile(rb"[ \t]*" + ENDING)
    name = label(text[1:], lambda rest: 0) if text[:1] == b"[" else None
    colon = name and re.compile(b":" + GAP).match(text, 1 + name[0])
    target = colon and link_destination(text, colon.end(), max_next)
    if not target:
        return None
    begun = ((1, name[0]), target[:2])
    title = separated_title(text, target[2])
    titled = title and rest_of_line.match(text, title[1] + 1)
    if titled:
        return (*begun, title, titled.end())
    untitled = rest_of_line.match(text, target[2])
    return untitled and (*begun, None, untitled.end())


def wikilink(text, start, length):
    """The first pipe in so many bytes: the place behind it, and what stands before it."""
    hit = text.find(b"|", start, start + length)
    return None if hit < 0 else (hit + 1, text[start:hit].decode())


def uri(text, start):
    """An absolute URI that `>` ends: the place behind that, and the URI."""
    found = re.compile(rb"([A-Za-z][A-Za-z0-9+.-]{1,31}:[^\x00-\x20<>]*)>").match(text, start)
    return found and (found.end(), found[1].decode())


def reference(text, known):
    """The length of a character reference, whose first byte is not looked at, and its meaning."""
    found = re.match(rb".(?:#([0-9]{1,7})|#[xX]([0-9A-Fa-f]{1,6})|([A-Za-z0-9]*));", text, re.S)
    if not found or (found[3] is not None and found[3] not in known):
        return None
    if found[3] is not None:
        return found.end(), known[found[3]]
    number = int(found[1]) if found[1] else int(found[2], 16)
    is_character = 0 < number < 0xD800 or 0xDFFF < number < 0x110000
    return found.end(), chr(number if is_character else 0xFFFD)


def unescaped(text, known):
    """The meaning of the pieces of a text outside tables: escapes, references, and CR, which means nothing."""
    shown, place = b"", 0
    while place < len(text):
        rest = text[place:]
        found = reference(rest, known) if rest[:1] == b"&" else None
        if re.match(rb"\\" + PUNCTUATION, rest):
            taken, meaning = 2, rest[1:2]
        elif found:
            taken, meaning = found[0], found[1].encode()
        else:
            taken, meaning = 1, rest[:1].replace(b"\r", b"")
        shown, place = shown + meaning, place + taken
    return shown.decode()
