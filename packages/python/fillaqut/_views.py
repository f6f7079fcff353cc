"""Several texts that a call is given."""
from __future__ import annotations

from typing import Any, Iterable

from . import _c
from ._pages import Page, front, several, view_of


def views_of(name: str, texts: Iterable[Page]) -> tuple[Any, list[Any]]:
    """The texts as C has them, and what has to live as long as these are used, first the texts. Those that could change are copied."""
    listed = enumerate(several(name, texts, name))
    given = [text if isinstance(text, (str, bytes)) else bytes(view_of(text, f"{name}[{at}]")) for at, text in listed]
    found = [front(text, 0, None) for text in given]
    rows: list[Any] = [(address, length) for address, length, _ in found]
    return (_c.View * len(rows))(*rows), [given, found]
