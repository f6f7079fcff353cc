"""What is left out of a page: at the fronts of lines, the markers and the indent of their containers."""
from __future__ import annotations

from ctypes import addressof
from typing import Any, Callable, Iterable, Optional

from . import _c
from ._library import function
from ._pages import NUMBERS, Page, number, pair, place_in, several, whole
from .errors import stated

_check_skips: Callable[..., int] = function("check_skips")


class Skips:
    r"""A table of a page: at each place, that of the first byte of a line, how many bytes are left out, all of them ASCII. It is
    made once, and BadSkipsError where it is not of this text: where the offsets don't rise, or one ends past the page or where the next has
    begun.

    >>> page = b"> <foo\n> bar>\n"
    >>> len(Skips(page, [(0, 2), (7, 2)]))
    2
    >>> Skips(page, [(7, 2), (0, 2)])
    Traceback (most recent call last):
    fillaqut.errors.BadSkipsError: The table of what is left out is not of this text
    """

    def __init__(self, data: Page, rows: Iterable[tuple[int, int]] = ()) -> None:
        address, length, _, held = whole(data, 0, None)
        given = several("rows", rows, "rows")
        listed: list[Any] = [_row(data, *pair("a row", row)) for row in given]
        self.data, self._table = data, (_c.Skip * len(listed))(*listed)
        stated(_check_skips(address, length, addressof(self._table), len(listed)))
        del held  # until here the page has stayed where it is

    def __len__(self) -> int:
        return len(self._table)


def _row(data: Page, place: int, length: int) -> tuple[int, int]:
    """A row in bytes."""
    place, length = number("a place", place), number("a length", length)
    first = place_in(data, place)
    return min(first, NUMBERS - 1), min(place_in(data, place + length) - first, NUMBERS - 1)


def table(skips: Optional[Skips], data: Page) -> tuple[Optional[int], int]:
    """The address of the skips of a page as C has them, and how many they are."""
    if skips is None:
        return None, 0
    if not isinstance(skips, Skips):
        raise TypeError(f"skips is of type {type(skips).__name__}, and not Skips")
    if skips.data is not data and (type(skips.data) is not type(data) or skips.data != data):
        raise ValueError("skips is of another page")
    return addressof(skips._table), len(skips)
