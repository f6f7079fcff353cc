//! The blocks of a page, and their content. Sections in brackets are those of CommonMark 0.31.2.

use alloc::sync::Arc;
use alloc::vec;
use alloc::vec::{IntoIter, Vec};
use core::ops::Range;

use crate::extensions::Extensions;
use crate::raw::{self, ffi};
use crate::values::{HeadingLevel, HtmlBlockKind};

/// The kind of a leaf block.
#[derive(Clone, Copy, Debug, PartialEq, Eq, Hash)]
pub enum BlockKind {
    /// Blank lines in a row, which are no block. (4.9)
    Blank,
    /// A thematic break. (4.1)
    Break,
    /// An ATX heading. (4.2)
    Heading(HeadingLevel),
    /// A setext heading. (4.3)
    Setext(HeadingLevel),
    /// Indented code. (4.4)
    Indented,
    /// Fenced code, with how many bytes of which its fence has. (4.5)
    Fenced(usize, u8),
    /// An HTML block. (4.6)
    Html(HtmlBlockKind),
    /// A table with so many columns, with [`Extensions::tables`]. (GitHub Flavored Markdown 0.29, 4.10)
    Table(usize),
    /// A link reference definition. (4.7)
    Definition,
    /// A paragraph. (4.8)
    Paragraph,
}

/// A container of blocks.
#[derive(Clone, Copy, Debug, PartialEq, Eq, Hash)]
pub enum Container {
    /// A block quote. (5.1)
    Quote {
        /// Where its marker stands.
        place: usize,
    },
    /// A list item. (5.2)
    Item {
        /// Where its marker stands.
        place: usize,
        /// Its bullet, or what ends its number.
        delimiter: u8,
        /// Its number, 0 of a bullet.
        start: u32,
        /// How many columns its later lines are indented by.
        width: u8,
    },
    /// A footnote definition, with [`Extensions::footnotes`]. (GitHub)
    Footnote {
        /// Where its marker stands.
        place: usize,
    },
    /// A definition of the term before it, with [`Extensions::definition_lists`]: the paragraph before it, or before another
    /// definition. (PHP Markdown Extra)
    TermDefinition {
        /// Where its marker stands.
        place: usize,
        /// How many columns its later lines are indented by.
        width: u8,
    },
}

/// A leaf block, in its containers.
#[derive(Clone, Debug)]
pub struct Block<'a> {
    /// Its kind.
    pub kind: BlockKind,
    /// Its lines, counted from 0.
    pub lines: Range<usize>,
    /// The bytes of its lines.
    pub range: Range<usize>,
    /// The columns of space that its first line has after its containers, at most four.
    pub indent: usize,
    /// Where that stands which its first line has after that space.
    pub place: usize,
    /// How many of its containers its first line goes on with. It begins the others.
    pub kept: usize,
    page: &'a [u8],
    returned: ffi::Block,
    open: Arc<Open>,
}

/// The containers that are open, as C has them too.
#[derive(Clone, Debug, Default)]
struct Open {
    returned: Vec<ffi::Block>,
    containers: Vec<Container>,
}

impl Open {
    /// A container begins in those that are open.
    fn push(&mut self, returned: ffi::Block, place: usize) {
        self.returned.push(returned);
        self.containers.push(container_of(&returned, place));
    }

    /// All but the first ones end.
    fn truncate(&mut self, depth: usize) {
        self.returned.truncate(depth);
        self.containers.truncate(depth);
    }
}

impl Block<'_> {
    /// The containers that it stands in, outermost first.
    ///
    /// ```
    /// use fillaqut::{scan_blocks, Container, Extensions};
    /// let item = Container::Item { place: 2, delimiter: b'-', start: 0, width: 2 };
    /// let block = scan_blocks(b"> - a", Extensions::default()).next().unwrap();
    /// assert_eq!(block.containers(), [Container::Quote { place: 0 }, item]);
    /// ```
    #[must_use]
    pub fn containers(&self) -> &[Container] {
        &self.open.containers
    }

    /// Of a paragraph, a heading or a definition its text, without what stands for containers and without white space at the
    /// ends of all and before each line. Of code and HTML their lines, without containers, indent and fences. Else nothing.
    ///
    /// ```
    /// use fillaqut::{scan_blocks, Extensions};
    /// let blocks: Vec<_> = scan_blocks(b"> # A #\n> b\n  c", Extensions::default()).collect();
    /// assert_eq!((blocks[0].content(), blocks[1].content()), (b"A".to_vec(), b"b\nc".to_vec()));
    /// ```
    #[must_use]
    pub fn content(&self) -> Vec<u8> {
        let mut made = vec![0; self.range.len()];
        loop {
            let text = raw::block_content(self.page, &self.returned, &self.open.returned, self.kept, &mut made);
            let is_short = text.status == ffi::TOO_SHORT;
            made.resize(text.length, 0);
            if !is_short {
                return made;
            }
        }
    }
}

/// The leaf blocks of a page.
#[derive(Clone, Debug)]
pub struct Blocks<'a> {
    page: &'a [u8],
    returned: IntoIter<ffi::Block>,
    open: Arc<Open>,
    kept: usize,
}

/// The leaf blocks of a page, from the first to the last, with the containers that they stand in. Their lines, joined, are the
/// page. A paragraph that begins with link reference definitions comes in parts, each definition as a block of its own. Of the
/// extensions tables, footnotes and definition lists begin blocks, and the others change nothing. (3, 4, 5)
///
/// ```
/// use fillaqut::{scan_blocks, BlockKind, Extensions, HeadingLevel};
/// let blocks = scan_blocks(b"[a]: b\nC\n===\n> - d", Extensions::default());
/// let returned: Vec<_> = blocks.map(|it| (it.kind, it.lines.start, it.containers().len())).collect();
/// let setext = BlockKind::Setext(HeadingLevel::H1);
/// assert_eq!(returned, [(BlockKind::Definition, 0, 0), (setext, 1, 0), (BlockKind::Paragraph, 3, 2)]);
/// let asked = Extensions { tables: true, ..Extensions::default() };
/// assert_eq!(scan_blocks(b"|a|\n|-|", asked).next().unwrap().kind, BlockKind::Table(1));
/// ```
#[must_use]
pub fn scan_blocks(page: &[u8], extensions: Extensions) -> Blocks<'_> {
    let mut returned = vec![ffi::Block::default(); page.len() / 32 + 8];
    loop {
        let found = raw::scan_blocks(page, extensions.bits(), &mut returned);
        let is_short = found.status == ffi::TOO_SHORT;
        returned.resize(found.count, ffi::Block::default());
        if !is_short {
            return Blocks { page, returned: returned.into_iter(), open: Arc::default(), kept: 0 };
        }
    }
}

impl<'a> Iterator for Blocks<'a> {
    type Item = Block<'a>;

    fn next(&mut self) -> Option<Block<'a>> {
        loop {
            let returned = self.returned.next()?;
            if let Some(kind) = kind_of(&returned) {
                return Some(self.leaf(kind, returned));
            }
            let open = Arc::make_mut(&mut self.open);
            if returned.kind == ffi::BLOCK_END {
                self.kept = open.returned.len().saturating_sub(1);
                open.truncate(self.kept);
            } else {
                open.push(returned, returned.place);
            }
        }
    }
}

impl<'a> Blocks<'a> {
    fn leaf(&mut self, kind: BlockKind, returned: ffi::Block) -> Block<'a> {
        let kept = core::mem::replace(&mut self.kept, self.open.returned.len());
        Block {
            kind,
            lines: returned.line..returned.line + returned.lines,
            range: returned.start..returned.start + returned.bytes,
            indent: returned.indent,
            place: returned.place,
            kept,
            page: self.page,
            returned,
            open: self.open.clone(),
        }
    }
}

fn container_of(returned: &ffi::Block, place: usize) -> Container {
    match returned.kind {
        ffi::BLOCK_QUOTE => Container::Quote { place },
        ffi::BLOCK_FOOTNOTE => Container::Footnote { place },
        ffi::BLOCK_TERM_DEFINITION => Container::TermDefinition { place, width: returned.width },
        _ => Container::Item { place, delimiter: returned.byte, start: returned.number, width: returned.width },
    }
}

/// The kind of a leaf block.
fn kind_of(returned: &ffi::Block) -> Option<BlockKind> {
    let level = || HeadingLevel::try_from(returned.number as usize).ok();
    Some(match returned.kind {
        ffi::BLOCK_BLANK => BlockKind::Blank,
        ffi::BLOCK_BREAK => BlockKind::Break,
        ffi::BLOCK_HEADING => BlockKind::Heading(level()?),
        ffi::BLOCK_SETEXT => BlockKind::Setext(level()?),
        ffi::BLOCK_INDENTED => BlockKind::Indented,
        ffi::BLOCK_FENCED => BlockKind::Fenced(returned.count, returned.byte),
        ffi::BLOCK_HTML => BlockKind::Html(HtmlBlockKind::of(returned.number)?),
        ffi::BLOCK_TABLE => BlockKind::Table(returned.count),
        ffi::BLOCK_DEFINITION => BlockKind::Definition,
        ffi::BLOCK_PARAGRAPH => BlockKind::Paragraph,
        _ => return None,
    })
}

/// Reads a page that comes piece by piece, of bytes that may end anywhere. It keeps what is not returned yet, and the containers that
/// are open, so that it has memory for the longest block and the deepest nesting.
#[derive(Clone, Debug, Default)]
pub struct BlockReader {
    text: Vec<u8>,
    /// How much of the text is returned, and how many bytes have to be left before it is read again.
    used: usize,
    needed: usize,
    has_ended: bool,
    page: ffi::OpenBlocks,
    structs: Vec<ffi::Block>,
    open: Arc<Open>,
    /// How much of the page is returned.
    start: usize,
    line: usize,
}

/// Of so many bytes a text is read again with each piece, and a longer one once it is twice as long.
const SHORT: usize = 4096;

/// U+FEFF in UTF-8, which is no part of a page that begins with it.
const BYTE_ORDER_MARK: &[u8] = b"\xEF\xBB\xBF";

impl BlockReader {
    /// Before the first piece of a page, which is read with these extensions.
    ///
    /// ```
    /// use fillaqut::{BlockReader, Container, Extensions};
    /// let mut reader = BlockReader::new(Extensions { footnotes: true, ..Extensions::default() });
    /// reader.feed(b"[^a]: b\n");
    /// reader.end();
    /// assert_eq!(reader.next_block().unwrap().containers(), [Container::Footnote { place: 0 }]);
    ///
    /// let mut reader = BlockReader::new(Extensions { definition_lists: true, ..Extensions::default() });
    /// reader.feed(b"apple\n: red\n");
    /// reader.end();
    /// assert_eq!(reader.next_block().unwrap().content(), b"apple");
    /// assert_eq!(reader.next_block().unwrap().containers(), [Container::TermDefinition { place: 6, width: 2 }]);
    /// ```
    #[must_use]
    pub fn new(extensions: Extensions) -> BlockReader {
        let page = ffi::OpenBlocks { extensions: extensions.bits(), ..ffi::OpenBlocks::default() };
        BlockReader { page, ..BlockReader::default() }
    }

    /// Takes the next bytes of the page.
    ///
    /// # Panics
    ///
    /// After [`BlockReader::end`].
    ///
    /// ```
    /// let mut reader = fillaqut::BlockReader::default();
    /// reader.feed(b"# A\n> b\n");
    /// assert_eq!(reader.next_block().unwrap().content(), b"A");
    /// assert!(reader.next_block().is_none());
    /// ```
    pub fn feed(&mut self, bytes: &[u8]) {
        assert!(!self.has_ended, "the page has ended");
        self.text.drain(..self.used);
        self.used = 0;
        self.text.extend_from_slice(bytes);
    }

    /// The page has ended.
    ///
    /// ```
    /// let mut reader = fillaqut::BlockReader::default();
    /// reader.feed(b"a");
    /// assert!(reader.next_block().is_none());
    /// reader.end();
    /// assert_eq!(reader.next_block().unwrap().content(), b"a");
    /// ```
    pub fn end(&mut self) {
        self.has_ended = true;
    }

    /// The next leaf block, once what has come of the page shows where it ends. It is as [`scan_blocks`] has it of the whole page
    /// with these extensions, with places of the whole page; but a paragraph that begins with link reference definitions is one block, with these at
    /// the front of its content.
    ///
    /// ```
    /// let mut reader = fillaqut::BlockReader::default();
    /// reader.feed(b"# A\n> b\n");
    /// assert_eq!(reader.next_block().unwrap().range, 0..4);
    /// reader.feed(b"c\n# D\n");
    /// let block = reader.next_block().unwrap();
    /// assert_eq!((block.content(), block.lines.clone(), block.containers().len()), (b"b\nc".to_vec(), 1..3, 1));
    /// ```
    pub fn next_block(&mut self) -> Option<Block<'_>> {
        if self.start == 0 && self.text.starts_with(BYTE_ORDER_MARK) {
            (self.start, self.used) = (BYTE_ORDER_MARK.len(), BYTE_ORDER_MARK.len());
        }
        let left = self.text.len() - self.used;
        if !self.has_ended && left < self.needed {
            return None;
        }
        let mut returned = ffi::Block::default();
        let found = self.read(&mut returned);
        let Some(kind) = kind_of(&returned).filter(|_| found.status == ffi::OK) else {
            self.needed = if left > SHORT { left.saturating_mul(2) } else { 0 };
            return None;
        };
        self.needed = 0;
        Some(self.leaf(kind, returned, found))
    }

    /// The next block, with room for its containers.
    fn read(&mut self, returned: &mut ffi::Block) -> ffi::LineBlock {
        loop {
            let text = &self.text[self.used..];
            let found = raw::block_line(text, self.has_ended, &mut self.structs, &mut self.page, returned);
            if found.status != ffi::TOO_SHORT {
                return found;
            }
            self.structs.resize(found.depth.saturating_mul(2), ffi::Block::default());
        }
    }

    fn leaf(&mut self, kind: BlockKind, returned: ffi::Block, found: ffi::LineBlock) -> Block<'_> {
        let (start, line, used) = (self.start, self.line, self.used);
        let begun = &self.structs[found.kept..found.depth];
        if !begun.is_empty() || found.kept < self.open.returned.len() {
            let open = Arc::make_mut(&mut self.open);
            open.truncate(found.kept);
            begun.iter().for_each(|it| open.push(*it, start + it.place));
        }
        self.start += returned.bytes;
        self.line += returned.lines;
        self.used += returned.bytes;
        Block {
            kind,
            lines: line..self.line,
            range: start..self.start,
            indent: returned.indent,
            place: start + returned.place,
            kept: found.kept,
            page: &self.text[used..self.used],
            returned,
            open: self.open.clone(),
        }
    }
}

/// A list: items that follow each other in one container, of one bullet or delimiter. (5.3)
#[derive(Clone, Debug, PartialEq, Eq, Hash)]
pub struct ListBlock {
    /// The bullet of its items, or what ends their numbers.
    pub delimiter: u8,
    /// The number of its first item, 0 of a bullet.
    pub start: u32,
    /// Whether a blank line stands between two of its items, or between two blocks directly in one. Else it is tight.
    pub is_loose: bool,
    /// How many containers it stands in.
    pub depth: usize,
    /// Its lines, counted from 0.
    pub lines: Range<usize>,
}

/// The lists of a page, each where it ends: a list in an item comes before the list of that item. The extensions are as of
/// [`scan_blocks`]. (5.3)
///
/// ```
/// use fillaqut::{scan_lists, Extensions};
/// let lists = scan_lists(b"2) a\n3) b\n\n   c", Extensions::default());
/// assert_eq!((lists[0].delimiter, lists[0].start, lists[0].is_loose), (b')', 2, true));
/// assert_eq!((lists.len(), lists[0].depth, lists[0].lines.clone()), (1, 0, 0..4));
/// ```
#[must_use]
pub fn scan_lists(page: &[u8], extensions: Extensions) -> Vec<ListBlock> {
    let mut returned = vec![ffi::List::default(); page.len() / 32 + 8];
    loop {
        let found = raw::scan_lists(page, extensions.bits(), &mut returned);
        let is_short = found.status == ffi::TOO_SHORT;
        returned.resize(found.count, ffi::List::default());
        if !is_short {
            return returned.iter().map(list_of).collect();
        }
    }
}

fn list_of(returned: &ffi::List) -> ListBlock {
    ListBlock {
        delimiter: returned.delimiter,
        start: returned.start,
        is_loose: returned.is_loose,
        depth: returned.depth,
        lines: returned.line..returned.end,
    }
}
