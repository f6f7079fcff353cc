//! Bytes, lines and blocks at the front of the text. Sections in brackets are those of CommonMark 0.31.2.
//!
//! A call of the library takes longer than a look at one byte. So where the first byte decides the answer, it is returned here; a build
//! with debug assertions compares it with the library's.

use alloc::vec;
use alloc::vec::Vec;
use core::ops::Range;

use crate::raw::{self, ffi};
use crate::values::{found, Alignment, HeadingLevel, ListItem};

/// Space, tab, LF, VT, FF or CR. (2.1)
///
/// ```
/// assert!(fillaqut::is_ascii_whitespace(b'\n'));
/// ```
#[inline]
#[must_use]
pub fn is_ascii_whitespace(byte: u8) -> bool {
    let is = matches!(byte, b' ' | b'\t'..=b'\r');
    debug_assert_eq!(is, raw::is_whitespace(byte));
    is
}

/// Space, tab, VT or FF: white space that ends no line. (2.1)
///
/// ```
/// assert!(!fillaqut::is_ascii_whitespace_no_nl(b'\n'));
/// ```
#[inline]
#[must_use]
pub fn is_ascii_whitespace_no_nl(byte: u8) -> bool {
    let is = matches!(byte, b' ' | b'\t' | 0x0b | 0x0c);
    debug_assert_eq!(is, raw::is_whitespace_in_line(byte));
    is
}

/// An ASCII punctuation character. (2.1)
///
/// ```
/// assert!(fillaqut::is_ascii_punctuation(b'!'));
/// ```
#[inline]
#[must_use]
pub fn is_ascii_punctuation(byte: u8) -> bool {
    raw::is_punctuation(byte)
}

/// 1 where the first byte is this one, else 0.
///
/// ```
/// assert_eq!(fillaqut::scan_ch(b"#a", b'#'), 1);
/// ```
#[inline]
#[must_use]
pub fn scan_ch(data: &[u8], byte: u8) -> usize {
    let length = usize::from(data.first() == Some(&byte));
    debug_assert_eq!(length, raw::scan_ch(data, byte));
    length
}

/// How many of this byte stand at the front.
///
/// ```
/// assert_eq!(fillaqut::scan_ch_repeat(b"##a", b'#'), 2);
/// ```
#[inline]
#[must_use]
pub fn scan_ch_repeat(data: &[u8], byte: u8) -> usize {
    if data.first() != Some(&byte) {
        debug_assert_eq!(0, raw::scan_ch_repeat(data, byte));
        return 0;
    }
    raw::scan_ch_repeat(data, byte)
}

/// How many bytes from the front are among the accepted ones. Each is looked for among all of these.
///
/// ```
/// assert_eq!(fillaqut::scan_while(b"abca", b"ba"), 2);
/// ```
#[inline]
#[must_use]
pub fn scan_while(data: &[u8], accepted: &[u8]) -> usize {
    raw::scan_while(data, accepted)
}

/// The same from the back.
///
/// ```
/// assert_eq!(fillaqut::scan_rev_while(b"a \t", b" \t"), 2);
/// ```
#[inline]
#[must_use]
pub fn scan_rev_while(data: &[u8], accepted: &[u8]) -> usize {
    raw::scan_rev_while(data, accepted)
}

/// How many bytes of white space that ends no line stand at the front.
///
/// ```
/// assert_eq!(fillaqut::scan_whitespace_no_nl(b" \t\n"), 2);
/// ```
#[inline]
#[must_use]
pub fn scan_whitespace_no_nl(data: &[u8]) -> usize {
    raw::scan_whitespace_in_line(data)
}

/// The length of the line ending at the front; 0 at the end of the text. (2.1)
///
/// ```
/// assert_eq!(fillaqut::scan_eol(b"\r\na"), Some(2));
/// assert_eq!(fillaqut::scan_eol(b"a"), None);
/// ```
#[inline]
#[must_use]
pub fn scan_eol(bytes: &[u8]) -> Option<usize> {
    let length = match bytes {
        [] => Some(0),
        [b'\r', b'\n', ..] => Some(2),
        [b'\n' | b'\r', ..] => Some(1),
        _ => None,
    };
    debug_assert_eq!(length, found(raw::scan_eol(bytes)));
    length
}

/// The length of the line at the front with its ending, LF, CR LF or CR; all bytes where there is none. (2.1)
///
/// ```
/// assert_eq!(fillaqut::scan_line(b"a\rb\n"), 2);
/// ```
#[inline]
#[must_use]
pub fn scan_line(bytes: &[u8]) -> usize {
    raw::scan_line(bytes)
}

/// The offset after the first LF, or the length where there is none. It knows LF alone.
///
/// ```
/// assert_eq!(fillaqut::scan_nextline(b"a\rb\nc"), 4);
/// ```
#[inline]
#[must_use]
pub fn scan_nextline(bytes: &[u8]) -> usize {
    raw::scan_nextline(bytes)
}

/// The length of the blank line at the front with its ending. (4.9)
///
/// ```
/// assert_eq!(fillaqut::scan_blank_line(b" \t\na"), Some(3));
/// ```
#[inline]
#[must_use]
pub fn scan_blank_line(bytes: &[u8]) -> Option<usize> {
    if matches!(bytes.first(), Some(b'!'..)) {
        debug_assert_eq!(None, found(raw::scan_blank_line(bytes)));
        return None;
    }
    found(raw::scan_blank_line(bytes))
}

/// The length of the block quote marker at the front, `>` and at most one space. (5.1)
///
/// ```
/// assert_eq!(fillaqut::scan_blockquote_start(b"> a"), Some(2));
/// ```
#[inline]
#[must_use]
pub fn scan_blockquote_start(data: &[u8]) -> Option<usize> {
    found(raw::scan_blockquote_start(data))
}

/// The list item that begins at the front. (5.2)
///
/// ```
/// use fillaqut::{scan_listitem, ListItem};
/// let item = ListItem { length: 4, delimiter: b'.', start: 10, indent: 4 };
/// assert_eq!(scan_listitem(b"10. a"), Some(item));
/// ```
#[inline]
#[must_use]
pub fn scan_listitem(bytes: &[u8]) -> Option<ListItem> {
    let item = raw::scan_listitem(bytes);
    found(item.length).map(|length| ListItem {
        length,
        delimiter: item.delimiter,
        start: item.start,
        indent: item.indent,
    })
}

/// The place of the last byte that was looked at, and the columns of the spaces and tabs at the front, up to a limit. (2.2)
///
/// # Panics
///
/// Where `max` is above `usize::MAX / 4`.
///
/// ```
/// assert_eq!(fillaqut::calc_indent(b"\t x", 8), (2, 5));
/// ```
#[inline]
#[must_use]
pub fn calc_indent(text: &[u8], max: usize) -> (usize, usize) {
    let indent = raw::calc_indent(text, max);
    assert!(indent.status == ffi::OK, "the limit is too large: {max}");
    (indent.place, indent.columns)
}

/// The length of the thematic break at the front, with its line ending; else a place before which none begins. (4.1)
///
/// ```
/// assert_eq!(fillaqut::scan_hrule(b"* * *\n"), Ok(6));
/// assert_eq!(fillaqut::scan_hrule(b"* * a"), Err(4));
/// ```
#[inline]
pub fn scan_hrule(bytes: &[u8]) -> Result<usize, usize> {
    let line = raw::scan_hrule(bytes);
    found(line.length).ok_or(line.none_before)
}

/// The level of the ATX heading at the front. (4.2)
///
/// ```
/// use fillaqut::{scan_atx_heading, HeadingLevel};
/// assert_eq!(scan_atx_heading(b"## a"), Some(HeadingLevel::H2));
/// ```
#[inline]
#[must_use]
pub fn scan_atx_heading(data: &[u8]) -> Option<HeadingLevel> {
    HeadingLevel::of(raw::scan_atx_heading(data))
}

/// The length of the setext heading underline at the front, with its line ending, and the level. (4.3)
///
/// ```
/// use fillaqut::{scan_setext_heading, HeadingLevel};
/// assert_eq!(scan_setext_heading(b"---\na"), Some((4, HeadingLevel::H2)));
/// ```
#[inline]
#[must_use]
pub fn scan_setext_heading(data: &[u8]) -> Option<(usize, HeadingLevel)> {
    let line = raw::scan_setext_heading(data);
    found(line.length).zip(HeadingLevel::of(line.level))
}

/// A link reference definition: where its parts stand, as they are written.
#[derive(Clone, Debug, PartialEq, Eq, Hash)]
pub struct ReferenceDefinition {
    /// What stands between the brackets of its label.
    pub label: Range<usize>,
    /// Its destination, without angle brackets.
    pub destination: Range<usize>,
    /// Its title, without the two bytes around it, if it has one.
    pub title: Option<Range<usize>>,
    /// How many bytes it takes, its last line ending among them.
    pub len: usize,
}

/// The link reference definition at the front of a paragraph's content, which is its lines without the markers of containers
/// and without indent. Parentheses in its destination may stand in each other `max_next + 1` deep. (4.7)
///
/// ```
/// let found = fillaqut::scan_reference_definition(b"[a]: <b> 'c'\n", 31).unwrap();
/// assert_eq!((found.label, found.destination, found.title, found.len), (1..2, 6..7, Some(10..11), 13));
/// ```
#[must_use]
pub fn scan_reference_definition(data: &[u8], max_next: usize) -> Option<ReferenceDefinition> {
    let returned = raw::scan_reference_definition(data, 0, max_next);
    let part = |start: usize, length: usize| start..start + length;
    (returned.status == ffi::OK).then(|| ReferenceDefinition {
        label: part(returned.label_start, returned.label_length),
        destination: part(returned.destination_start, returned.destination_length),
        title: found(returned.title_start).map(|start| part(start, returned.title_length)),
        len: returned.end,
    })
}

/// The alignments of the columns of the delimiter row at the front, and its length with the line ending; 0 and none where
/// there is none. (GitHub Flavored Markdown 0.29, 4.10)
///
/// ```
/// use fillaqut::{scan_table_head, Alignment};
/// assert_eq!(scan_table_head(b"|-|:-:|\n"), (8, vec![Alignment::None, Alignment::Center]));
/// ```
#[inline]
#[must_use]
pub fn scan_table_head(data: &[u8]) -> (usize, Vec<Alignment>) {
    let mut buffer = [0; 64];
    let text = raw::scan_table_head(data, &mut buffer);
    let columns = |numbers: &[u8]| numbers.iter().copied().map(Alignment::of).collect();
    match text.status {
        ffi::OK => (text.taken, columns(&buffer[..text.length])),
        ffi::TOO_SHORT => {
            let mut buffer = vec![0; text.length];
            let text = raw::scan_table_head(data, &mut buffer);
            (text.taken, columns(&buffer))
        }
        _ => (0, Vec::new()),
    }
}

fn fence(returned: ffi::Fence) -> Option<(usize, u8)> {
    found(returned.length).map(|length| (length, returned.byte))
}

/// The length and the byte of the opening code fence at the front. (4.5)
///
/// ```
/// assert_eq!(fillaqut::scan_code_fence(b"~~~~ rust"), Some((4, b'~')));
/// ```
#[inline]
#[must_use]
pub fn scan_code_fence(data: &[u8]) -> Option<(usize, u8)> {
    fence(raw::scan_code_fence(data))
}

/// The length of the closing code fence at the front, without its line ending, of one that was opened by `count` of the
/// byte. At the end of the text it is 0. (4.5)
///
/// ```
/// assert_eq!(fillaqut::scan_closing_code_fence(b"```` \n", b'`', 3), Some(5));
/// ```
#[inline]
#[must_use]
pub fn scan_closing_code_fence(bytes: &[u8], fence: u8, count: usize) -> Option<usize> {
    found(raw::scan_closing_code_fence(bytes, fence, count))
}

/// The length and the byte of the opening line of a metadata block. (An extension of pulldown-cmark)
///
/// ```
/// assert_eq!(fillaqut::scan_metadata_block(b"---\na: b\n---\n", true, false), Some((3, b'-')));
/// ```
#[inline]
#[must_use]
pub fn scan_metadata_block(data: &[u8], yaml_style: bool, pluses_style: bool) -> Option<(usize, u8)> {
    fence(raw::scan_metadata_block(data, yaml_style, pluses_style))
}

/// The length of what closes a metadata block that was opened by the byte.
///
/// ```
/// assert_eq!(fillaqut::scan_closing_metadata_block(b"...\n", b'-'), Some(3));
/// ```
#[inline]
#[must_use]
pub fn scan_closing_metadata_block(bytes: &[u8], fence: u8) -> Option<usize> {
    found(raw::scan_closing_metadata_block(bytes, fence))
}

/// Whether the line at the front can interrupt a paragraph, after at most three columns of indent. (4.8)
///
/// ```
/// assert!(fillaqut::interrupts_paragraph(b"- a"));
/// assert!(!fillaqut::interrupts_paragraph(b"2. a"));
/// ```
#[must_use]
pub fn interrupts_paragraph(line: &[u8]) -> bool {
    raw::interrupts_paragraph(line)
}
