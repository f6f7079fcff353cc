"""Parts of inline text, HTML and texts that are made. Sections in brackets are those of CommonMark 0.31.2."""
from __future__ import annotations

import ctypes
from enum import IntEnum
from typing import Any, Callable, Generic, NamedTuple, Optional, Union, overload

from . import _c
from ._library import ROOM, function, writer
from ._pages import (
    Buffer, Made, Page, after, character_number, flag, front, kind_of, limits, number, place_in, stated_of, text_for, whole, whole_number,
)
from .errors import stated
from .skips import Skips, table

_scan_link_dest: Callable[..., _c.Part] = function("scan_link_dest")
_scan_link_title: Callable[..., _c.Part] = function("scan_link_title")
_scan_autolink: Callable[..., _c.Part] = function("scan_autolink")
_scan_email_autolink: Callable[..., _c.Part] = function("scan_email_autolink")
_scan_code_span: Callable[..., _c.Part] = function("scan_code_span")
_scan_delimiter_run: Callable[..., _c.DelimiterRun] = function("scan_delimiter_run")
_is_unicode_whitespace: Callable[..., bool] = function("is_unicode_whitespace")
_is_unicode_punctuation: Callable[..., bool] = function("is_unicode_punctuation")
_scan_wikilink_pipe: Callable[..., _c.Part] = function("scan_wikilink_pipe")
_starts_html_block_type_6: Callable[..., bool] = function("starts_html_block_type_6")
_scan_html_type_7: Callable[..., int] = function("scan_html_type_7")
_scan_html_block_start: Callable[..., int] = function("scan_html_block_start")
_ends_html_block: Callable[..., int] = function("ends_html_block")
_scan_html_tag: Callable[..., int] = function("scan_html_tag")
_scan_html_tag_over_lines: Callable[..., tuple[Any, bytes]] = writer("scan_html_tag_over_lines")
_scan_inline_html: Callable[..., _c.End] = function("scan_inline_html")
_scan_entity: Callable[..., tuple[Any, bytes]] = writer("scan_entity")
_unescape: Callable[..., tuple[Any, bytes]] = writer("unescape")
_scan_link_label: Callable[..., tuple[Any, bytes]] = writer("scan_link_label")
_labels_match: Callable[..., int] = function("labels_match")
_label_key: Callable[..., tuple[Any, bytes]] = writer("label_key")

REFERENCE_ROOM = 6
#: A label has at most 999 characters.
LABEL_ROOM = 4 * 999


class Part(NamedTuple):
    """A part of the bytes."""

    end: int  #: the offset after all that belongs to it
    start: int  #: the place of its own bytes
    stop: int  #: the offset after these


def _part(found: _c.Part, origin: int) -> Optional[Part]:
    if not stated(found.status):
        return None
    start = found.start
    return Part(origin + found.end, origin + start, origin + (start + found.length))


def scan_link_dest(data: Page, at: int = 0, end: Optional[int] = None, *, max_next: int = 31) -> Optional[Part]:
    """A link destination; angle brackets are not among its own bytes. Parentheses may stand in each other `max_next` + 1
    deep. An empty one without brackets is one too. (6.3)

    >>> scan_link_dest(b"[a](<b c>)", 4)
    Part(end=9, start=5, stop=8)
    """
    address, length, first, origin = whole(data, at, end)
    return _part(_scan_link_dest(address, length, first, number("max_next", max_next)), origin)


def scan_link_title(data: Page, at: int = 0, end: Optional[int] = None) -> Optional[Part]:
    r"""A link title; the quotes or parentheses around it are not among its own bytes. It may go on over lines, of which none
    is blank. (6.3)

    >>> scan_link_title(b"[a](/b 'c d')", 7), scan_link_title(b"'c\n\n d'")
    (Part(end=12, start=8, stop=11), None)
    """
    address, length, first, origin = whole(data, at, end)
    return _part(_scan_link_title(address, length, first), origin)


def scan_autolink(data: Page, at: int = 0, end: Optional[int] = None) -> Optional[Part]:
    """The absolute URI of the autolink whose `<` stands just before the place. (6.5)

    >>> scan_autolink(b"<https://a.b>", 1)
    Part(end=13, start=1, stop=12)
    """
    address, length, first, origin = whole(data, at, end)
    return _part(_scan_autolink(address, length, first), origin)


def scan_email_autolink(data: Page, at: int = 0, end: Optional[int] = None) -> Optional[Part]:
    """The email address of the autolink whose `<` stands just before the place. (6.5)

    >>> scan_email_autolink(b"<a@b.c>", 1)
    Part(end=7, start=1, stop=6)
    """
    address, length, first, origin = whole(data, at, end)
    return _part(_scan_email_autolink(address, length, first), origin)


def scan_code_span(data: Page, at: int = 0, end: Optional[int] = None) -> Optional[Part]:
    """The code span that begins at the place, as if no backtick stood before that; its backtick strings are not among its own
    bytes. Where no later string closes it, all of the page is read for that: a caller notes where the last string of each
    length begins, and asks only where such a one is still to come. (6.1)

    >>> scan_code_span("a ``b ` c`` d", 2)
    Part(end=11, start=4, stop=9)
    """
    address, length, first, origin = whole(data, at, end)
    return _part(_scan_code_span(address, length, first), origin)


class DelimiterRun(NamedTuple):
    """A run of `*` or `_`."""

    end: int  #: the place after it
    byte: int  #: `*` or `_`
    can_open: bool  #: whether it can open emphasis
    can_close: bool  #: whether it can close emphasis


def scan_delimiter_run(data: Page, at: int = 0, end: Optional[int] = None, *, begin: int = 0) -> Optional[DelimiterRun]:
    """The delimiter run that begins at the place, in the text that begins at `begin`. The caller asks where no unescaped byte
    of its kind stands just before it. NotUtf8Error where no character of UTF-8 stands beside it. (6.2)

    >>> scan_delimiter_run("- **a**", 2, begin=2), scan_delimiter_run(b"a_b_", 1)
    (DelimiterRun(end=4, byte=42, can_open=True, can_close=False), DelimiterRun(end=2, byte=95, can_open=False, can_close=False))
    """
    address, length, first, origin = whole(data, at, end)
    if not 0 <= whole_number("begin", begin) <= at:
        raise IndexError(f"begin {begin} is not in 0 <= begin <= at, which is {at}")
    before = place_in(data, begin)
    found = _scan_delimiter_run(address + before, length - before, first - before)
    if not stated(found.status):
        return None
    return DelimiterRun(origin + (first + found.count), found.byte, bool(found.can_open), bool(found.can_close))


def is_unicode_whitespace(character: Union[str, int]) -> bool:
    """A Unicode white space character: a tab, LF, FF or CR, or one of category Zs. (2.1)

    >>> is_unicode_whitespace("\u3000"), is_unicode_whitespace("a")
    (True, False)
    """
    return _is_unicode_whitespace(character_number(character))


def is_unicode_punctuation(character: Union[str, int]) -> bool:
    """A Unicode punctuation character: one of category P or S. (2.1)

    >>> is_unicode_punctuation("€"), is_unicode_punctuation("a")
    (True, False)
    """
    return _is_unicode_punctuation(character_number(character))


def scan_wikilink_pipe(data: Page, at: int = 0, end: Optional[int] = None, *, count: int) -> Optional[Part]:
    """What stands before the first pipe of so many bytes, or characters of a str, from the place on. (An extension of
    pulldown-cmark)

    >>> scan_wikilink_pipe(b"[[a|b]]", 2, count=3)
    Part(end=4, start=2, stop=3)
    """
    address, length, first, origin = whole(data, at, end)
    among = min(place_in(data, at + number("count", count)) - first, _c.NONE)
    return _part(_scan_wikilink_pipe(address, length, first, among), origin)


def starts_html_block_type_6(data: Page, at: int = 0, end: Optional[int] = None) -> bool:
    """Whether an HTML block that a name of start condition 6 opens begins there, after the `<`. (4.6)

    >>> starts_html_block_type_6(b"<div>", 1), starts_html_block_type_6(b"<b>", 1)
    (True, False)
    """
    address, length, _held = front(data, at, end)
    return _starts_html_block_type_6(address, length)


def scan_html_type_7(data: Page, at: int = 0, end: Optional[int] = None) -> Optional[int]:
    r"""The offset after the tag that stands alone in the rest of its line. (4.6, start condition 7)

    >>> scan_html_type_7(b"<b> \n"), scan_html_type_7(b"<b> a")
    (3, None)
    """
    address, length, at = front(data, at, end)
    return after(at, _scan_html_type_7(address, length))


class HtmlBlockKind(IntEnum):
    """The kinds of HTML blocks, by the numbers of their start and end conditions."""

    RAW_TEXT = _c.HTML_RAW_TEXT
    COMMENT = _c.HTML_COMMENT
    PROCESSING = _c.HTML_PROCESSING
    DECLARATION = _c.HTML_DECLARATION
    CDATA = _c.HTML_CDATA
    BLOCK_NAME = _c.HTML_BLOCK_NAME
    TAG_ALONE = _c.HTML_TAG_ALONE


def scan_html_block_start(data: Page, at: int = 0, end: Optional[int] = None) -> Optional[HtmlBlockKind]:
    """The kind of the HTML block that begins there, after the indent of its line. (4.6)

    >>> scan_html_block_start(b"<!-- a"), scan_html_block_start(b"<a> b")
    (<HtmlBlockKind.COMMENT: 2>, None)
    """
    address, length, _held = front(data, at, end)
    kind = _scan_html_block_start(address, length)
    return HtmlBlockKind(kind) if kind else None


def ends_html_block(data: Page, at: int = 0, end: Optional[int] = None, *, kind: HtmlBlockKind) -> bool:
    """Whether the line ends an HTML block of this kind: as its last line, or as the blank line after it. (4.6)

    >>> [ends_html_block(b"a -->", kind=kind) for kind in (HtmlBlockKind.COMMENT, HtmlBlockKind.BLOCK_NAME)]
    [True, False]
    """
    address, length, _held = front(data, at, end)
    return stated(_ends_html_block(address, length, kind_of("kind", HtmlBlockKind, kind)))


def scan_html_tag(data: Page, at: int = 0, end: Optional[int] = None) -> Optional[int]:
    """The offset after an open or closing tag that holds no line ending. (6.6)

    >>> scan_html_tag(b"a <b c='d'>", 2)
    11
    """
    address, length, at = front(data, at, end)
    return after(at, _scan_html_tag(address, length))


class Tag(NamedTuple, Generic[Made]):
    """A tag that goes on over lines."""

    end: int  #: the offset after it
    text: Optional[Made]  #: what it is without the bytes that are left out; None where none are


@overload
def scan_html_tag_over_lines(
    data: str, at: int = 0, end: Optional[int] = None, *, skips: Optional[Skips] = None
) -> Optional[Tag[str]]: ...
@overload
def scan_html_tag_over_lines(
    data: Buffer, at: int = 0, end: Optional[int] = None, *, skips: Optional[Skips] = None
) -> Optional[Tag[bytes]]: ...
def scan_html_tag_over_lines(data: Page, at: int = 0, end: Optional[int] = None, *, skips: Optional[Skips] = None) -> Any:
    r"""An open or closing tag, over lines of which the skips of the page are left out. (6.6)

    >>> page = b"> <foo\n> bar>\n"
    >>> scan_html_tag_over_lines(page, 2, skips=Skips(page, [(0, 2), (7, 2)]))
    Tag(end=13, text=b'<foo\nbar>')
    """
    address, length, first, origin = whole(data, at, end)
    found, text = _scan_html_tag_over_lines(address, length, first, *table(skips, data), ROOM)
    return Tag(origin + found.end, text_for(data, text) if text else None) if stated(found.status) else None


class HtmlScanGuard:
    """What the scans of one text have searched in vain, so that none of them searches it again: k scans at rising places of n
    bytes, each at or after the end that was found before, pass over at most 4n + 8k bytes."""

    def __init__(self, data: Page, *, end: Optional[int] = None) -> None:
        self.data, self.end = data, limits(data, 0, end)[1]
        self.passed = 0  #: how many bytes the scans have passed over; of a str those of its UTF-8
        self._numbers = _c.HtmlGuard()

    def scan(self, at: int) -> Optional[int]:
        """The offset after the comment, CDATA section, declaration or processing instruction whose `<!` or `<?` ends at the
        place. NoOpenerError where none ends there. (6.6)

        >>> guard = HtmlScanGuard(b"<!-- a --> <?b")
        >>> guard.scan(2), guard.scan(13)
        (10, None)
        """
        address, length, _, origin = whole(self.data, 0, self.end)
        first = min(place_in(self.data, number("at", at)), _c.NONE)
        found = _scan_inline_html(address, length, first, ctypes.addressof(self._numbers))
        self.passed += found.passed
        return origin + found.end if stated(found.status) else None


class Entity(NamedTuple, Generic[Made]):
    """A character reference."""

    end: int  #: the offset after its `;`
    text: Made  #: what it stands for


@overload
def scan_entity(data: str, at: int = 0, end: Optional[int] = None) -> Optional[Entity[str]]: ...
@overload
def scan_entity(data: Buffer, at: int = 0, end: Optional[int] = None) -> Optional[Entity[bytes]]: ...
def scan_entity(data: Page, at: int = 0, end: Optional[int] = None) -> Any:
    """A character reference: a number, or an entity of HTML. The first byte is taken for its `&`. EmptyError where there are
    no bytes. (2.5)

    >>> scan_entity("a&auml;b", 1), scan_entity(b"&auml;").text
    (Entity(end=7, text='ä'), b'\\xc3\\xa4')
    """
    address, length, at = front(data, at, end)
    found, text = _scan_entity(address, length, REFERENCE_ROOM)
    return Entity(at + found.taken, text_for(data, text)) if stated(found.status) else None


@overload
def unescape(data: str, at: int = 0, end: Optional[int] = None, *, in_table: bool = False) -> str: ...
@overload
def unescape(data: Buffer, at: int = 0, end: Optional[int] = None, *, in_table: bool = False) -> bytes: ...
def unescape(data: Page, at: int = 0, end: Optional[int] = None, *, in_table: bool = False) -> Any:
    r"""The text with its backslash escapes and character references resolved, and without CR; in a cell of a table two
    backslashes and a pipe give the pipe. NotUtf8Error. (2.4, 2.5)

    >>> unescape(rb"a\*b &amp; c"), unescape("&amp;x&amp;y", 5, 11)
    (b'a*b & c', 'x&')
    """
    address, length, _held = front(data, at, end)
    found, text = _unescape(address, length, flag("in_table", in_table), length + length // 5)
    stated_of(found.status, data, at, end)
    return text_for(data, text)


class Label(NamedTuple, Generic[Made]):
    """A link label."""

    end: int  #: the offset after the closing bracket
    text: Made  #: its words, joined by one space
    start: Optional[int]  #: the place where that text stands as it is


@overload
def scan_link_label(
    data: str, at: int = 0, end: Optional[int] = None, *, in_table: bool = False, skips: Optional[Skips] = None
) -> Optional[Label[str]]: ...
@overload
def scan_link_label(
    data: Buffer, at: int = 0, end: Optional[int] = None, *, in_table: bool = False, skips: Optional[Skips] = None
) -> Optional[Label[bytes]]: ...
def scan_link_label(
    data: Page, at: int = 0, end: Optional[int] = None, *, in_table: bool = False, skips: Optional[Skips] = None
) -> Any:
    r"""The link label whose opening bracket stands just before the place, over lines of which the skips of the page are left out.
    In a cell of a table a pipe loses the backslash before it. Its own bytes are UTF-8. (6.3)

    >>> scan_link_label(b"[a\n b]: c", 1)
    Label(end=6, text=b'a b', start=None)
    """
    address, length, first, origin = whole(data, at, end)
    capacity = min(length - first, LABEL_ROOM)
    found, text = _scan_link_label(address, length, first, flag("in_table", in_table), *table(skips, data), capacity)
    if not stated(found.status):
        return None
    return Label(origin + found.end, text_for(data, text), after(origin, found.start))


def labels_match(one: Page, other: Page) -> bool:
    r"""Whether two labels match: their full case foldings are equal. NotUtf8Error. (6.3)

    >>> labels_match("ẞ", b"SS")
    True
    """
    address, length, _one = front(one, 0, None, "one")
    second, count, _other = front(other, 0, None, "other")
    return stated_of(_labels_match(address, length, second, count), one, 0, None, one=one, other=other)


@overload
def label_key(label: str) -> str: ...
@overload
def label_key(label: Buffer) -> bytes: ...
def label_key(label: Page) -> Any:
    """The full case folding of a label: two labels match exactly where their keys are equal. NotUtf8Error. (6.3)

    >>> label_key("Straße"), label_key("Straße".encode())
    ('strasse', b'strasse')
    """
    address, length, _held = front(label, 0, None, "label")
    found, text = _label_key(address, length, 3 * length)
    stated_of(found.status, label, 0, None)
    return text_for(label, text)
