"""Which extensions of CommonMark a call is asked for, by their names in a list or another iterable."""
from __future__ import annotations

from typing import Iterable

from ._extensions import BITS, NOT_BUILT
from ._pages import several


def bits_of(extensions: Iterable[str]) -> int:
    """The bits of these extensions."""
    return _bits(_names_of(extensions))


def built_bits_of(extensions: Iterable[str]) -> int:
    """The same, where events and HTML are built of each of them."""
    names = _names_of(extensions)
    bits = _bits(names)
    left = [name for name in names if name in NOT_BUILT]
    if left:
        raise ValueError(f"events and HTML are not built of the extension {left[0]!r} yet")
    return bits


def _names_of(extensions: Iterable[str]) -> list[str]:
    return several("extensions", extensions, "names")


def _bits(names: list[str]) -> int:
    found = 0
    for name in names:
        if not isinstance(name, str) or name not in BITS:
            raise ValueError(f"there is no extension {name!r}, but {', '.join(BITS)}")
        found |= BITS[name]
    return found
