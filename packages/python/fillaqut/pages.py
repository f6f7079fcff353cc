"""The blocks of a page, and their content. Sections in brackets are those of CommonMark 0.31.2."""
from __future__ import annotations

from ctypes import addressof
from enum import IntEnum
from typing import Any, Callable, Generic, Iterable, Iterator, NamedTuple, Optional, Union, overload

from . import _c
from ._library import function, writer
from ._pages import Buffer, Made, Page, front, text_for, unchanged
from .errors import stated
from .extensions import bits_of
from .inline import HtmlBlockKind

_scan_blocks: Callable[..., _c.Blocks] = function("scan_blocks")
_block_content: Callable[..., tuple[Any, bytes]] = writer("block_content")
_scan_lists: Callable[..., _c.Blocks] = function("scan_lists")


class BlockKind(IntEnum):
    """The kind of a leaf block."""

    BLANK = _c.BLOCK_BLANK  #: blank lines in a row, which are no block (4.9)
    BREAK = _c.BLOCK_BREAK  #: a thematic break (4.1)
    HEADING = _c.BLOCK_HEADING  #: an ATX heading (4.2)
    SETEXT = _c.BLOCK_SETEXT  #: a setext heading (4.3)
    INDENTED = _c.BLOCK_INDENTED  #: indented code (4.4)
    FENCED = _c.BLOCK_FENCED  #: fenced code (4.5)
    HTML = _c.BLOCK_HTML  #: an HTML block (4.6)
    TABLE = _c.BLOCK_TABLE  #: a table, with the extension "tables" (GitHub Flavored Markdown 0.29, 4.10)
    DEFINITION = _c.BLOCK_DEFINITION  #: a link reference definition (4.7)
    PARAGRAPH = _c.BLOCK_PARAGRAPH  #: a paragraph (4.8)


_KINDS = {int(kind): kind for kind in BlockKind}


class BlockQuote(NamedTuple):
    """A block quote. (5.1)"""

    place: int  #: where its marker stands


class Item(NamedTuple):
    """A list item. (5.2)"""

    place: int  #: where its marker stands
    delimiter: int  #: its bullet `-`, `+` or `*`, or what ends its number, `.` or `)`
    start: int  #: its number, 0 of a bullet
    width: int  #: how many columns its later lines are indented by


class FootnoteDefinition(NamedTuple):
    """A footnote definition, with the extension "footnotes". (GitHub)"""

    place: int  #: where its marker stands


class TermDefinition(NamedTuple):
    """A definition of a term, the paragraph before it or before another one of it, with "definition-lists". (PHP Markdown Extra)"""

    place: int  #: where its marker stands
    width: int  #: how many columns its later lines are indented by


Container = Union[BlockQuote, Item, FootnoteDefinition, TermDefinition]


class Block(Generic[Made]):
    """A leaf block, in its containers."""

    __slots__ = ("kind", "containers", "kept", "line", "lines", "start", "stop", "place", "indent", "number", "_page", "_given")

    kind: BlockKind
    containers: tuple[Container, ...]  #: those that it stands in, outermost first
    kept: int  #: how many of these its first line goes on with; it begins the others
    line: int  #: how many lines of the page stand before it
    lines: int  #: how many lines it has
    start: int  #: the place of its first line
    stop: int  #: the offset after its last line
    place: int  #: the place of what its first line has after its containers and `indent`
    indent: int  #: the columns of space there, at most four
    number: int  #: as its kind has one; see `level`, `html_kind`, `fence` and `columns`
    _page: tuple[Any, int, Optional[int]]
    _given: tuple[Any, Any]

    def __repr__(self) -> str:
        return f"<{self.kind.name} of {self.lines} lines from line {self.line} on>"

    @property
    def level(self) -> Optional[int]:
        """The level of a heading, 1 to 6."""
        return self.number if self.kind in (BlockKind.HEADING, BlockKind.SETEXT) else None

    @property
    def html_kind(self) -> Optional[HtmlBlockKind]:
        """The kind of an HTML block."""
        return HtmlBlockKind(self.number) if self.kind == BlockKind.HTML else None

    @property
    def fence(self) -> Optional[tuple[int, int]]:
        """Of fenced code the byte of its fence, and how many of it stand there."""
        return (self._given[0].byte, self._given[0].count) if self.kind == BlockKind.FENCED else None

    @property
    def columns(self) -> Optional[int]:
        """How many columns a table has."""
        return self._given[0].count if self.kind == BlockKind.TABLE else None

    def content(self) -> Made:
        r"""Of a paragraph, a heading or a definition its text, without what stands for containers and without white space at the
        ends of all and before each line. Of code and HTML their lines, without containers, indent and fences. Else nothing.

        >>> [block.content() for block in scan_blocks("> # A #\n> b\n  c")]
        ['A', 'b\nc']
        """
        address, length, _held = front(*self._page)
        leaf, began = self._given
        containers = (_c.Block * len(began))(*began)
        given = addressof(leaf), addressof(containers), len(began), self.kept
        found, text = _block_content(address, length, *given, leaf.bytes)
        stated(found.status)
        made: Made = text_for(self._page[0], text)
        return made


@overload
def scan_blocks(data: str, at: int = 0, end: Optional[int] = None, *, extensions: Iterable[str] = ()) -> Iterator[Block[str]]: ...
@overload
def scan_blocks(data: Buffer, at: int = 0, end: Optional[int] = None, *, extensions: Iterable[str] = ()) -> Iterator[Block[bytes]]: ...
def scan_blocks(data: Page, at: int = 0, end: Optional[int] = None, *, extensions: Iterable[str] = ()) -> Iterator[Block[Any]]:
    r"""The leaf blocks of a page, from the first to the last, with the containers that they stand in. Their lines, joined, are
    the page. A paragraph that begins with link reference definitions comes in parts, each definition as a block of its own.

    Of `extensions` "tables", "footnotes" and "definition-lists" begin blocks; the other names change nothing. ValueError for a name
    that is none. (3, 4, 5)

    >>> [(block.kind.name, block.line, len(block.containers)) for block in scan_blocks("# A\n> - b\n\n[c]: d\ne")]
    [('HEADING', 0, 0), ('PARAGRAPH', 1, 2), ('BLANK', 2, 0), ('DEFINITION', 3, 0), ('PARAGRAPH', 4, 0)]
    >>> [block.kind.name for block in scan_blocks("|a|\n|-|", extensions=["tables"])], [block.kind.name for block in scan_blocks("|a|\n|-|")]
    (['TABLE'], ['PARAGRAPH'])
    """
    bits = bits_of(extensions)
    address, length, origin = unchanged(data, at, end)
    blocks, count = _written(_scan_blocks, _c.Block, address, length, bits)
    return _leaves((data, at, end), origin, blocks, count)


def _written(scan: Any, kind: Any, address: int, length: int, bits: int) -> tuple[Any, int]:
    """What a scan writes of a page, in a buffer that has room for all of it, and how many they are."""
    count = length // 32 + 8
    while True:
        buffer = (kind * count)()
        found = scan(address, length, bits, addressof(buffer), count)
        if found.status != _c.TOO_SHORT:
            stated(found.status)
            return buffer, found.count
        count = found.count


def _leaves(page: tuple[Any, int, Optional[int]], origin: int, blocks: Any, count: int) -> Iterator[Block[Any]]:
    """The leaf blocks, with the containers that are open. These are copied where they have changed since the block before."""
    began: list[_c.Block] = []
    containers: list[Container] = []
    same: Optional[tuple[tuple[Container, ...], tuple[_c.Block, ...]]] = ((), ())
    kept = 0
    for block in map(blocks.__getitem__, range(count)):
        kind = block.kind
        if kind == _c.BLOCK_END:
            began.pop()
            containers.pop()
            kept, same = len(began), None
        elif kind in _KINDS:
            if same is None:
                same = tuple(containers), tuple(began)
            yield leaf_of(page, origin, block, kept, *same)
            kept = len(began)
        else:
            began.append(block)
            containers.append(container_of(origin + block.place, block))
            same = None


def container_of(place: int, block: Any) -> Container:
    if block.kind == _c.BLOCK_FOOTNOTE:
        return FootnoteDefinition(place)
    if block.kind == _c.BLOCK_TERM_DEFINITION:
        return TermDefinition(place, block.width)
    return BlockQuote(place) if block.kind == _c.BLOCK_QUOTE else Item(place, block.byte, block.number, block.width)


def leaf_of(page: Any, origin: int, block: Any, kept: int, containers: tuple[Container, ...], began: tuple[Any, ...]) -> Block[Any]:
    made: Block[Any] = Block()
    made.kind, made.number, made.indent = _KINDS[block.kind], block.number, block.indent
    made.containers, made.kept = containers, kept
    made.line, made.lines = block.line, block.lines
    made.start, made.stop, made.place = origin + block.start, origin + (block.start + block.bytes), origin + block.place
    made._page, made._given = page, (block, began)
    return made


class ListBlock(NamedTuple):
    """A list: items that follow each other in one container, of one bullet or delimiter. (5.3)"""

    delimiter: int  #: the bullet of its items, `-`, `+` or `*`, or what ends their numbers, `.` or `)`
    start: int  #: the number of its first item, 0 of a bullet
    is_loose: bool  #: whether a blank line stands between two of its items, or between two blocks directly in one; else it is tight
    depth: int  #: how many containers it stands in
    line: int  #: how many lines of the page stand before it
    lines: int  #: how many lines it has


def scan_lists(data: Page, at: int = 0, end: Optional[int] = None, *, extensions: Iterable[str] = ()) -> Iterator[ListBlock]:
    r"""The lists of a page, each where it ends: a list in an item comes before the list of that item. `extensions` is as of
    `scan_blocks`. (5.3)

    >>> list(scan_lists("2) a\n3) b\n\n   c"))
    [ListBlock(delimiter=41, start=2, is_loose=True, depth=0, line=0, lines=4)]
    """
    bits = bits_of(extensions)
    address, length, _held = unchanged(data, at, end)
    lists, count = _written(_scan_lists, _c.List, address, length, bits)
    return map(_list, lists[:count])


def _list(row: Any) -> ListBlock:
    return ListBlock(row.delimiter, row.start, row.is_loose, row.depth, row.line, row.end - row.line)
