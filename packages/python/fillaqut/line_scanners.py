"""Bytes, lines, block quotes and list items at a place. Sections in brackets are those of CommonMark 0.31.2."""
from __future__ import annotations

from typing import Callable, Iterator, NamedTuple, Optional, Union

from . import _c
from ._library import function
from ._pages import Page, after, front, limits, number
from ._pages import byte as _byte
from .errors import stated

_is_whitespace: Callable[..., bool] = function("is_whitespace")
_is_whitespace_in_line: Callable[..., bool] = function("is_whitespace_in_line")
_is_punctuation: Callable[..., bool] = function("is_punctuation")
_is_utf8: Callable[..., bool] = function("is_utf8")
_scan_ch: Callable[..., int] = function("scan_ch")
_scan_ch_repeat: Callable[..., int] = function("scan_ch_repeat")
_scan_while: Callable[..., int] = function("scan_while")
_scan_rev_while: Callable[..., int] = function("scan_rev_while")
_scan_whitespace_in_line: Callable[..., int] = function("scan_whitespace_in_line")
_scan_eol: Callable[..., int] = function("scan_eol")
_scan_line: Callable[..., int] = function("scan_line")
_scan_nextline: Callable[..., int] = function("scan_nextline")
_scan_blank_line: Callable[..., int] = function("scan_blank_line")
_scan_blockquote_start: Callable[..., int] = function("scan_blockquote_start")
_scan_listitem: Callable[..., _c.ListItem] = function("scan_listitem")
_calc_indent: Callable[..., _c.Indent] = function("calc_indent")

#: A byte: its number, or the one character of a str or bytes.
Byte = Union[int, str, bytes]


def is_whitespace(byte: Byte) -> bool:
    """Space, tab, LF, VT, FF or CR. (2.1)

    >>> is_whitespace(0x20), is_whitespace("a")
    (True, False)
    """
    return _is_whitespace(_byte(byte))


def is_whitespace_in_line(byte: Byte) -> bool:
    r"""Space, tab, VT or FF: white space that ends no line. (2.1)

    >>> is_whitespace_in_line("\t"), is_whitespace_in_line("\n")
    (True, False)
    """
    return _is_whitespace_in_line(_byte(byte))


def is_punctuation(byte: Byte) -> bool:
    """An ASCII punctuation character. (2.1)

    >>> is_punctuation("!"), is_punctuation("a")
    (True, False)
    """
    return _is_punctuation(_byte(byte))


def is_utf8(data: Page, at: int = 0, end: Optional[int] = None) -> bool:
    r"""Whether the bytes are UTF-8.

    >>> is_utf8(b"\xc3\xa9"), is_utf8(b"\xc3")
    (True, False)
    """
    address, length, _ = front(data, at, end)
    return _is_utf8(address, length)


def scan_ch(data: Page, at: int = 0, end: Optional[int] = None, *, byte: Byte) -> int:
    """The offset after this byte; the place itself where another stands there.

    >>> scan_ch(b"a#", 1, byte="#"), scan_ch(b"a#", byte="#")
    (2, 0)
    """
    address, length, at = front(data, at, end)
    return at + _scan_ch(address, length, _byte(byte))


def scan_ch_repeat(data: Page, at: int = 0, end: Optional[int] = None, *, byte: Byte) -> int:
    """The offset after as many of this byte as stand there.

    >>> scan_ch_repeat(b"###a", 1, byte="#")
    3
    """
    address, length, at = front(data, at, end)
    return at + _scan_ch_repeat(address, length, _byte(byte))


def _accepted(given: Page) -> tuple[int, int, int]:
    """The accepted bytes, as `front` has them."""
    if isinstance(given, str) and not given.isascii():
        raise ValueError("a character that is accepted is not one byte")
    try:
        return front(given, 0, None)
    except TypeError:
        raise TypeError(f"what is accepted is of type {type(given).__name__}, and not bytes or str") from None


def scan_while(data: Page, at: int = 0, end: Optional[int] = None, *, accepted: Page) -> int:
    """The offset after as many bytes as are among the accepted ones. Each is looked for among all of these.

    >>> scan_while(b"-abca", 1, accepted=b"ba")
    3
    """
    address, length, at = front(data, at, end)
    among, count, _held = _accepted(accepted)
    return at + _scan_while(address, length, among, count)


def scan_rev_while(data: Page, at: int = 0, end: Optional[int] = None, *, accepted: Page) -> int:
    r"""The place before as many bytes, up to the end, as are among the accepted ones.

    >>> scan_rev_while(b"a \t", accepted=b" \t")
    1
    """
    address, length, at = front(data, at, end)
    among, count, _held = _accepted(accepted)
    return at + (length - _scan_rev_while(address, length, among, count))


def scan_whitespace_in_line(data: Page, at: int = 0, end: Optional[int] = None) -> int:
    r"""The offset after white space that ends no line.

    >>> scan_whitespace_in_line(b"a \t\n", 1)
    3
    """
    address, length, at = front(data, at, end)
    return at + _scan_whitespace_in_line(address, length)


def scan_eol(data: Page, at: int = 0, end: Optional[int] = None) -> Optional[int]:
    r"""The offset after the line ending: LF, CR LF, CR, or the end of the bytes. (2.1)

    >>> scan_eol(b"a\r\nb", 1), scan_eol(b"a\r\nb"), scan_eol(b"a", 1)
    (3, None, 1)
    """
    address, length, at = front(data, at, end)
    return after(at, _scan_eol(address, length))


def scan_line(data: Page, at: int = 0, end: Optional[int] = None) -> int:
    r"""The offset after the line and its ending, LF, CR LF or CR; the end where there is none. (2.1)

    >>> scan_line(b"a\r\nb\nc"), scan_line(b"a\r\nb\nc", 3), scan_line(b"a\r\nb\nc", 5)
    (3, 5, 6)
    """
    address, length, at = front(data, at, end)
    return at + _scan_line(address, length)


class Line(NamedTuple):
    """A line."""

    start: int  #: the place of its first byte
    end: int  #: the offset after its last byte, where its ending stands
    next: int  #: the offset after its ending, where the next line begins


_ENDINGS = {"\r\n": 2, "\r": 1, "\n": 1}


def _ending(data: Union[str, bytes, bytearray, memoryview], line: int, after: int) -> int:
    """How long the ending of a line is, of which `after` is the offset after it."""
    tail = data[max(line, after - 2) : after]
    text = tail if isinstance(tail, str) else bytes(tail).decode("latin-1")
    return _ENDINGS.get(text, 0) or _ENDINGS.get(text[-1:], 0)


def _lines(data: Union[str, bytes, bytearray, memoryview], at: int, end: int) -> Iterator[Line]:
    while at < end:
        following = scan_line(data, at, end)
        yield Line(at, following - _ending(data, at, following), following)
        at = following


def lines(data: Page, at: int = 0, end: Optional[int] = None) -> Iterator[Line]:
    r"""Each line in turn; of no bytes none. Lines end in LF, CR LF or CR, and the last one with the bytes. (2.1)

    >>> list(lines("a\r\n\nbü"))
    [Line(start=0, end=1, next=3), Line(start=3, end=3, next=4), Line(start=4, end=6, next=6)]
    """
    first, last = limits(data, at, end)
    return _lines(data if isinstance(data, (str, bytes, bytearray)) else memoryview(data), first, last)


def scan_nextline(data: Page, at: int = 0, end: Optional[int] = None) -> int:
    r"""The offset after the first LF, or the end where there is none. It knows LF alone.

    >>> scan_nextline(b"a\rb\nc"), scan_nextline(b"a\rb\nc", 4)
    (4, 5)
    """
    address, length, at = front(data, at, end)
    return at + _scan_nextline(address, length)


def scan_blank_line(data: Page, at: int = 0, end: Optional[int] = None) -> Optional[int]:
    r"""The offset after the rest of the line with its ending, where that is blank. (4.9)

    >>> scan_blank_line(b"a \n", 1), scan_blank_line(b"a \n")
    (3, None)
    """
    address, length, at = front(data, at, end)
    return after(at, _scan_blank_line(address, length))


def scan_blockquote_start(data: Page, at: int = 0, end: Optional[int] = None) -> Optional[int]:
    """The offset after a block quote marker, `>` and at most one space. (5.1)

    >>> scan_blockquote_start(b"> a"), scan_blockquote_start(b">a"), scan_blockquote_start(b"a")
    (2, 1, None)
    """
    address, length, at = front(data, at, end)
    return after(at, _scan_blockquote_start(address, length))


class ListItem(NamedTuple):
    """A list item's marker."""

    end: int  #: the offset after the marker and the white space that belongs to it
    delimiter: int  #: the byte `-`, `+` or `*`; `.` or `)` of an ordered item
    start: int  #: the number of an ordered item, else 0
    indent: int  #: columns of the marker and that space


def scan_listitem(data: Page, at: int = 0, end: Optional[int] = None) -> Optional[ListItem]:
    """The list item that begins there. Thematic breaks are items to it; LineStart.list_item knows better. (5.2)

    >>> scan_listitem(b"10. a")
    ListItem(end=4, delimiter=46, start=10, indent=4)
    >>> scan_listitem(b"a")
    """
    address, length, at = front(data, at, end)
    found = _scan_listitem(address, length)
    if found.length == _c.NONE:
        return None
    return ListItem(at + found.length, found.delimiter, found.start, found.indent)


class Indent(NamedTuple):
    """An indent."""

    place: int  #: that of the last byte that was looked at
    columns: int  #: of the spaces and tabs that were counted


def calc_indent(data: Page, at: int = 0, end: Optional[int] = None, *, limit: int) -> Indent:
    r"""The columns of the spaces and tabs, up to a limit. TooLargeError where the limit is. (2.2)

    >>> calc_indent(b"\t x", limit=8)
    Indent(place=2, columns=5)
    """
    address, length, at = front(data, at, end)
    found = _calc_indent(address, length, number("limit", limit))
    stated(found.status)
    return Indent(at + found.place, found.columns)
