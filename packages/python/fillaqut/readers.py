"""Pages that come piece by piece. Sections in brackets are those of CommonMark 0.31.2."""
from __future__ import annotations

from codecs import BOM_UTF8
from ctypes import addressof
from typing import Any, Callable, Iterable, Iterator, Optional, overload

from . import _c
from ._library import function
from ._pages import Buffer, Page, check_several, front, named, view_of
from .errors import LoneSurrogateError, stated
from .extensions import bits_of
from .pages import Block, Container, container_of, leaf_of

_block_line: Callable[..., Any] = function("block_line")

_SHORT = 4096  #: a text of so many bytes is read again with each piece, and a longer one once it is twice as long


class BlockReader:
    r"""Reads a page that comes piece by piece, all of them `str` or all bytes that may end anywhere, and returns each leaf block once
    what has come shows where it ends. It keeps what is not returned yet, and the containers that are open.

    A block is as `scan_blocks` has it of the whole page with these extensions, with places of the whole page; but a paragraph that begins with link
    reference definitions is one block, with these at the front of its content.

    >>> reader = BlockReader()
    >>> [block.content() for block in reader.feed(b"# A\n> b\n")]
    [b'A']
    >>> [(block.content(), block.line, len(block.containers)) for block in reader.feed(b"c\n- d\n")]
    [(b'b\nc', 1, 1)]
    >>> [(block.content(), block.kept) for block in reader.close()]
    [(b'd', 0)]
    """

    __slots__ = (
        "_pieces", "_size", "_wanted", "_ready", "_open", "_structs", "_containers", "_began", "_start", "_line", "_is_text", "_fed", "_has_ended",
    )

    def __init__(self, *, extensions: Iterable[str] = ()) -> None:
        self._pieces: list[bytes] = []  # what is not returned yet
        self._size = self._wanted = 0  # how many bytes these have, and have to have before they are read again
        self._ready: list[Block[Any]] = []  # what is ready and not returned, as memory was refused then
        self._open = _c.OpenBlocks(0, bits_of(extensions), 0)
        self._structs = (_c.Block * 8)()
        self._containers: tuple[Container, ...] = ()
        self._began: tuple[Any, ...] = ()
        self._start = self._line = 0  # how much of the page is returned
        self._is_text: Optional[bool] = None  # whether the pieces are str, once one has come
        self._fed = 0  # how many characters of a str have come
        self._has_ended = False

    @overload
    def feed(self, data: str) -> list[Block[str]]: ...
    @overload
    def feed(self, data: Buffer) -> list[Block[bytes]]: ...
    def feed(self, data: Page) -> list[Any]:
        """Takes the next piece of the page. Answers the blocks that are known to end. ValueError after `close`."""
        self._check_not_ended()
        self._pieces.append(self._bytes_of(data))
        self._size += len(self._pieces[-1])
        return self._returned(False) if self._size >= self._wanted else []

    def close(self) -> list[Block[Any]]:
        """The page has ended. Answers the blocks that are left; ValueError the next time."""
        self._check_not_ended()
        returned = self._returned(True)
        self._has_ended = True
        return returned

    def _check_not_ended(self) -> None:
        if self._has_ended:
            raise ValueError("the page has ended, as the reader is closed")

    def _bytes_of(self, data: Page) -> bytes:
        """The bytes of a piece."""
        is_text = isinstance(data, str)
        if self._is_text is not None and self._is_text != is_text:
            raise TypeError(f"data is {named(data)}, and the pieces before it are {'str' if self._is_text else 'bytes'}")
        if not isinstance(data, str):
            found = bytes(view_of(data))
        else:
            try:
                found = data.encode()
            except UnicodeEncodeError as why:
                raise LoneSurrogateError(self._fed + why.start) from None
            self._fed += len(data)
        self._is_text = is_text
        return found

    def _returned(self, has_ended: bool) -> list[Block[Any]]:
        text = b"".join(self._pieces)
        address, size, _ = front(text, 0, None)
        if not self._start and text.startswith(BOM_UTF8):  # which is no part of the first block
            self._start = 1 if self._is_text else len(BOM_UTF8)
            self._size -= len(BOM_UTF8)
        try:
            while True:
                at, leaf = size - self._size, _c.Block()
                found = self._next(address + at, self._size, has_ended, leaf)
                if found.status == _c.NOTHING:
                    break
                self._size -= leaf.bytes
                self._ready.append(self._block(found, leaf, text[at : at + leaf.bytes]))
        finally:
            self._pieces = [text[size - self._size :]]
        self._wanted = 2 * self._size if self._size > _SHORT else 0
        returned, self._ready = self._ready, []
        return returned

    def _next(self, address: int, size: int, has_ended: bool, leaf: _c.Block) -> Any:
        """The next block, with room for its containers."""
        while True:
            given = addressof(self._structs), len(self._structs), addressof(self._open), addressof(leaf)
            found = _block_line(address, size, has_ended, *given)
            if found.status != _c.TOO_SHORT:
                stated(found.status)
                return found
            wider = (_c.Block * (2 * found.depth))()
            wider[: len(self._structs)] = self._structs[:]
            self._structs = wider

    def _block(self, found: Any, leaf: _c.Block, lines: bytes) -> Block[Any]:
        """The block, after which more of the page is returned."""
        kept, began = found.kept, self._structs[found.kept : found.depth]
        text = lines.decode() if self._is_text else lines
        origin: Any = _InLines(lines, self._start) if self._is_text else self._start
        if began or kept < len(self._containers):
            self._began = *self._began[:kept], *[_c.Block.from_buffer_copy(struct) for struct in began]
            self._containers = *self._containers[:kept], *[container_of(origin + struct.place, struct) for struct in began]
        block: Block[Any] = leaf_of((text, 0, None), origin, leaf, kept, self._containers, self._began)
        block.line = self._line
        self._start = origin + leaf.bytes
        self._line += leaf.lines
        return block


class _InLines:
    """The front of lines that are part of a str. Where a length is added to it, the place in the str is answered."""

    __slots__ = ("lines", "start")

    def __init__(self, lines: bytes, start: int) -> None:
        self.lines, self.start = lines, start

    def __add__(self, length: int) -> int:
        return self.start + len(self.lines[:length].decode())


@overload
def read_blocks(pieces: Iterable[str], *, extensions: Iterable[str] = ()) -> Iterator[Block[str]]: ...
@overload
def read_blocks(pieces: Iterable[Buffer], *, extensions: Iterable[str] = ()) -> Iterator[Block[bytes]]: ...
def read_blocks(pieces: Iterable[Page], *, extensions: Iterable[str] = ()) -> Iterator[Block[Any]]:
    r"""The leaf blocks of a page that comes in pieces, as an open file has lines, with memory for the longest block and the deepest
    nesting. See `BlockReader`.

    >>> [(block.kind.name, block.line, block.content()) for block in read_blocks([b"# A\n\nb", b"\nc"])]
    [('HEADING', 0, b'A'), ('BLANK', 1, b''), ('PARAGRAPH', 2, b'b\nc')]
    >>> [(block.start, block.content()) for block in read_blocks(["# é\n", "> b"])]
    [(0, 'é'), (4, 'b')]
    """
    check_several("pieces", pieces, "pieces")
    return _read(BlockReader(extensions=extensions), pieces)


def _read(reader: BlockReader, pieces: Iterable[Any]) -> Iterator[Block[Any]]:
    for piece in pieces:
        yield from reader.feed(piece)
    yield from reader.close()
