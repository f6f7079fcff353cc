"""Pages, and the places of their bytes. C reads a page where it stands, but for a long buffer that could change while it is read
without the lock of the interpreter, which is copied. The bytes of `bytes` and of a `str` that is ASCII are those of the object, the
UTF-8 of another `str` is what Python itself makes of it once and keeps with it, and those of a buffer stand in the buffer, which is
held while it is read."""
from __future__ import annotations

import ctypes
from array import array
from bisect import bisect_right
from codecs import utf_8_decode
from enum import IntEnum
from functools import lru_cache
from mmap import mmap
from operator import index
from typing import Any, Iterable, Optional, TypeVar, Union

from ._c import NONE, NOT_UTF8
from ._library import FAST, UNLOCKED, address_of, address_of_text, size_of_text
from .errors import LoneSurrogateError, NotUtf8Error, stated

Buffer = Union[bytes, bytearray, memoryview, mmap]
#: What can be scanned. Other buffers of single bytes are taken too.
Page = Union[str, Buffer]
#: What texts that are made are: str of a str, else bytes.
Made = TypeVar("Made", str, bytes)

NUMBERS = NONE + 1
STEP = 64  #: of so many characters each, the place of their UTF-8 is kept; the extension too has this number

_BYTES = bytes.__basicsize__ - 1  #: where in the object its bytes begin
_PROBE = b"\x00 a page"
if ctypes.cast(ctypes.c_char_p(_PROBE), ctypes.c_void_p).value != id(_PROBE) + _BYTES:
    raise ImportError("this is no CPython: bytes stand elsewhere")


class _InBuffer:
    """A byte of a buffer, which stays where it is as long as this lives."""

    __slots__ = ("view", "byte")

    def __init__(self, view: memoryview, byte: int) -> None:
        self.view, self.byte = view, byte

    def __add__(self, length: int) -> int:
        return self.byte + length


class InText:
    """A byte in the UTF-8 of a str. Where a length is added to it, the place in the str is answered."""

    __slots__ = ("text", "byte")

    def __init__(self, text: str, byte: int) -> None:
        self.text, self.byte = text, byte

    def __add__(self, length: int) -> int:
        return _index_of(self.text, self.byte + length)


def _origin(held: Any, byte: int) -> Any:
    """What lengths are added to: the byte itself, or in what is held."""
    if held is None:
        return byte
    return InText(held, byte) if isinstance(held, str) else _InBuffer(held, byte)


@lru_cache(maxsize=8)
def _marks(text: str) -> tuple[array[int], int]:
    """The places in UTF-8 of every STEP-th character, and of the end; and the address where they stand."""
    found, place = array("Q", [0]), 0
    for at in range(0, len(text), STEP):
        place += len(text[at : at + STEP].encode())
        found.append(place)
    return found, found.buffer_info()[0]


def byte_of(text: str, place: int) -> int:
    """The place in UTF-8 of a place in the str; after the str a byte is counted for each."""
    size, (marks, address) = len(text), _marks(text)
    if place >= size:
        return marks[-1] + place - size
    if FAST:
        found: int = FAST.span(text, address, 0, place)[2]
        return found
    block = place // STEP
    front, first = block * STEP, marks[block]
    if marks[block + 1] - first == min(STEP, size - front):  # all of the block is ASCII
        return first + place - front
    return first + len(text[front:place].encode())


def _index_of(text: str, byte: int) -> int:
    """The place in the str of a place in its UTF-8; of one inside of a character, that of the character."""
    marks, address = _marks(text)
    if FAST:
        found: int = FAST.index_of(text, address, len(marks), byte)
        return found
    block = min(bisect_right(marks, byte), len(marks) - 1) - 1
    front, first = block * STEP, marks[block]
    if marks[block + 1] - first == min(STEP, len(text) - front):
        return front + byte - first
    return front + len(text[front : front + STEP].encode()[: byte - first].decode("utf-8", "ignore"))


def named(given: object) -> str:
    """What is given, in the words of an error."""
    return "None" if given is None else f"of type {type(given).__name__}"


def whole_number(what: str, given: Any) -> int:
    if isinstance(given, bool):  # which is an int, and most often meant for something else
        raise TypeError(f"{what} is {given}, and not an int")
    try:
        return index(given)
    except TypeError:
        raise TypeError(f"{what} is {named(given)}, and not an int") from None


def number(what: str, given: int) -> int:
    if type(given) is int and 0 <= given < NUMBERS:
        return given
    found = whole_number(what, given)
    if not 0 <= found < NUMBERS:
        raise ValueError(f"{what} is {given}, which is no size")
    return found


def byte(given: Union[int, str, bytes]) -> int:
    """A byte, by its number or as the one character of a str or bytes."""
    if type(given) is int and 0 <= given < 256:
        return given
    if isinstance(given, (str, bytes)):
        found = given.encode() if isinstance(given, str) else given
        if len(found) != 1:
            raise ValueError(f"{given!r} is not one byte")
        return found[0]
    if not 0 <= whole_number("the byte", given) < 256:
        raise ValueError(f"{given} is no byte")
    return index(given)


def character_number(given: Union[str, int]) -> int:
    """The number of a character, which is given itself or by its number."""
    if isinstance(given, str):
        if len(given) != 1:
            raise ValueError(f"{given!r} is not one character")
        return ord(given)
    found = whole_number("the character", given)
    if not 0 <= found < 2**32:
        raise ValueError(f"{given} is no number of a character")
    return found


Kind = TypeVar("Kind", bound=IntEnum)


def kind_of(what: str, kinds: type[Kind], given: Any) -> Kind:
    """The one of these kinds that is given, or that has the number."""
    if type(given) is kinds:
        return given
    found = whole_number(what, given)
    try:
        return kinds(found)
    except ValueError:
        raise ValueError(f"{what} is {found}, which no {kinds.__name__} is") from None


def pair(what: str, given: Any) -> tuple[Any, Any]:
    """The two that are given."""
    try:
        one, other = given
    except TypeError:
        raise TypeError(f"{what} is {named(given)}, and not two numbers") from None
    except ValueError:
        raise ValueError(f"{what} has not two numbers: {given!r}") from None
    return one, other


def flag(what: str, given: bool) -> bool:
    if given is True or given is False:
        return given
    raise TypeError(f"{what} is {named(given)}, and not a bool")


def several(name: str, given: Iterable[Any], of: str) -> list[Any]:
    """What is given, in a list."""
    if type(given) is not tuple and type(given) is not list:
        check_several(name, given, of)
    return list(given)


def check_several(name: str, given: Iterable[Any], of: str) -> None:
    """Refuses what can't be gone through, and a text, which is one."""
    if isinstance(given, (str, bytes, bytearray, memoryview)) or not hasattr(given, "__iter__"):
        raise TypeError(f"{name} is {named(given)}, and not several {of}")


def view_of(data: Any, name: str = "data") -> memoryview:
    """A view that holds the buffer."""
    try:
        view = memoryview(data)
    except TypeError:
        raise TypeError(f"{name} is {named(data)}, and not str, bytes or another buffer") from None
    if view.ndim != 1 or view.itemsize != 1 or not view.contiguous:
        raise TypeError(f"{name} is a buffer of something else than single bytes in a row")
    return view


def _span(text: str, first: int, last: int) -> tuple[int, int, int]:
    """The address of the UTF-8 of a str, the byte of the first place, and how many bytes stand there up to the last."""
    try:
        if FAST:
            found: tuple[int, int, int] = FAST.span(text, _marks(text)[1], first, last)
            return found
        byte = byte_of(text, first)
        return address_of_text(text), byte, byte_of(text, last) - byte
    except UnicodeEncodeError as why:
        raise LoneSurrogateError(why.start) from None


def _all_of(text: str) -> tuple[int, int, int]:
    """The same of the whole str."""
    try:
        return address_of_text(text), 0, size_of_text(text)
    except UnicodeEncodeError as why:
        raise LoneSurrogateError(why.start) from None


def _limits(size: int, at: int, end: Optional[int]) -> tuple[int, int]:
    """The places where reading begins and ends."""
    first = at if type(at) is int else whole_number("at", at)
    last = size if end is None else end if type(end) is int else whole_number("end", end)
    if not 0 <= first <= last <= size:
        raise IndexError(f"at {first} and end {last} are not in 0 <= at <= end <= {size}")
    return first, last


def limits(data: Page, at: int, end: Optional[int]) -> tuple[int, int]:
    """The places of the page where reading begins and ends."""
    return _limits(len(data if isinstance(data, (str, bytes)) else view_of(data)), at, end)


def _spot(data: Page, at: int, end: Optional[int], name: str) -> tuple[int, int, int, Any]:
    """The address of any page, the byte at the place, how many stand there up to the end, and what is held: the str whose places
    are not those of its UTF-8, the view of a buffer, or None."""
    if isinstance(data, str):
        text = data if type(data) is str else str.__str__(data)  # a class of one's own may count otherwise
        first, last = _limits(len(text), at, end)
        if text is data and text.isascii():
            return address_of_text(text), first, last - first, None
        if last - first == len(text):  # of all of it no table is made
            return *_all_of(text), text
        return *_span(text, first, last), text
    view = view_of(data, name)
    first, last = _limits(len(view), at, end)
    return address_of(view), first, last - first, view


def front(data: Page, at: int, end: Optional[int], name: str = "data") -> tuple[int, int, int]:
    """The address of the place in the page, how many bytes stand there up to the end; and the place, to which lengths that C
    answers are added, and which has to live as long as the address is used."""
    if type(data) is bytes and type(at) is int:
        size = len(data)
        last = size if end is None else end
        if type(last) is int and 0 <= at <= last <= size:
            return id(data) + _BYTES + at, last - at, at
    address, first, length, held = _spot(data, at, end, name)
    return address + first, length, _origin(held, first)


def unchanged(data: Page, at: int, end: Optional[int]) -> tuple[int, int, Any]:
    """As `front`, of what nobody changes while C reads it without the lock: a long buffer that isn't one of bytes is copied."""
    address, length, origin = front(data, at, end)
    if length < UNLOCKED or not isinstance(origin, _InBuffer) or isinstance(origin.view.obj, bytes):
        return address, length, origin
    copied = ctypes.string_at(address, length)
    return id(copied) + _BYTES, length, _InBuffer(memoryview(copied), origin.byte)


def whole(data: Page, at: int, end: Optional[int]) -> tuple[int, int, int, int]:
    """The address of the page, how many bytes it has up to the end, and the byte at the place; and 0, to which places that C
    answers are added, and which has to live as long as the address is used."""
    if type(data) is bytes and type(at) is int:
        size = len(data)
        last = size if end is None else end
        if type(last) is int and 0 <= at <= last <= size:
            return id(data) + _BYTES, last, at, 0
    address, first, length, held = _spot(data, at, end, "data")
    return address, first + length, first, _origin(held, 0)


def place_in(data: Page, place: int) -> int:
    """The byte of a place in the page."""
    return byte_of(data, place) if isinstance(data, str) and not data.isascii() else place


def after(at: int, length: int) -> Optional[int]:
    """The offset after so many bytes, or None where C has answered that there is none."""
    return None if length == NONE else at + length


def text_for(data: Page, made: bytes) -> Any:
    """A text that was made of the page, as str where that is one."""
    return made.decode() if isinstance(data, str) else made


def stated_of(status: int, data: Page, at: int, end: Optional[int], **others: Page) -> bool:
    """As `stated`, of a call that reads all of a text, and all of others: where one is not UTF-8 its first wrong byte is named."""
    if status != NOT_UTF8:
        return stated(status)
    for name, text in others.items():
        if (found := _first_wrong(text, 0, None)) is not None:
            raise NotUtf8Error(found, name)
    raise NotUtf8Error(_first_wrong(data, at, end))


def check_text(data: Page, at: int, end: Optional[int]) -> None:
    """Refuses what is not UTF-8, and names its first wrong byte."""
    if (found := _first_wrong(data, at, end)) is not None:
        raise NotUtf8Error(found)


def _first_wrong(data: Page, at: int, end: Optional[int]) -> Optional[int]:
    """The place of the first byte that is not UTF-8, or None where all of them are, as of a str."""
    if isinstance(data, str):
        return None
    view = view_of(data)
    first, last = _limits(len(view), at, end)
    try:
        utf_8_decode(view[first:last], "strict", True)
    except UnicodeDecodeError as why:
        return first + why.start
    return None
