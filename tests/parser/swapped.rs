//! What the passes call, under the names by which they call it, over the crate `fillaqut`.

use std::borrow::Cow;
use std::convert::TryFrom;

use fillaqut::Skip;
pub(crate) use fillaqut::{
    is_ascii_punctuation, is_ascii_whitespace, is_ascii_whitespace_no_nl, scan_blank_line, scan_blockquote_start,
    scan_ch, scan_ch_repeat, scan_closing_code_fence, scan_code_fence, scan_eol, scan_hrule, scan_html_type_7,
    scan_link_dest, scan_nextline, scan_whitespace_no_nl, starts_html_block_type_6,
};

use crate::strings::CowStr;
use crate::{Alignment, HeadingLevel, LinkType};

/// The guard of the block that is read last. Each block is a text of its own, up to its end.
#[derive(Clone, Default)]
pub(crate) struct HtmlScanGuard<'input>(fillaqut::HtmlScanGuard<'input>);

impl<'input> HtmlScanGuard<'input> {
    fn of(&mut self, text: &'input [u8]) -> &mut fillaqut::HtmlScanGuard<'input> {
        if !std::ptr::eq(self.0.text(), text) {
            self.0 = fillaqut::HtmlScanGuard::new(text);
        }
        &mut self.0
    }
}

pub(crate) fn scan_inline_html_comment<'input>(
    bytes: &'input [u8],
    ix: usize,
    guard: &mut HtmlScanGuard<'input>,
) -> Option<usize> {
    guard.of(bytes).scan_inline_html_comment(ix)
}

pub(crate) fn scan_inline_html_processing<'input>(
    bytes: &'input [u8],
    ix: usize,
    guard: &mut HtmlScanGuard<'input>,
) -> Option<usize> {
    guard.of(bytes).scan_inline_html_processing(ix)
}

/// The start of a line. In the version of these passes its calls take the spaces before a marker themselves, so they are made
/// where the next byte is a space or may begin one; and where it begins one and no column is pending, the marker is asked for at
/// once.
#[derive(Clone)]
pub(crate) struct LineStart<'line> {
    bytes: &'line [u8],
    start: fillaqut::LineStart<'line>,
}

impl<'line> LineStart<'line> {
    pub(crate) fn new(bytes: &[u8]) -> LineStart {
        LineStart { bytes, start: fillaqut::LineStart::new(bytes) }
    }

    pub(crate) fn scan_space(&mut self, count: usize) -> bool {
        self.start.scan_space(count)
    }

    pub(crate) fn scan_space_upto(&mut self, count: usize) -> usize {
        self.start.scan_space_upto(count)
    }

    pub(crate) fn scan_all_space(&mut self) {
        self.start.scan_all_space()
    }

    pub(crate) fn is_at_eol(&self) -> bool {
        self.start.is_at_eol()
    }

    /// The byte at which a line start of these bytes stands.
    fn next(&self, start: &fillaqut::LineStart) -> Option<u8> {
        self.bytes.get(start.bytes_scanned()).copied()
    }

    #[inline(always)]
    pub(crate) fn scan_blockquote_marker(&mut self) -> bool {
        match self.next(&self.start) {
            Some(b'>') if self.start.remaining_space() == 0 => self.start.scan_blockquote_marker(),
            Some(b' ' | b'\t' | b'>') => self.scan_quote_behind_space(),
            _ => false,
        }
    }

    fn scan_quote_behind_space(&mut self) -> bool {
        let mut start = self.start.clone();
        let found = start.scan_space_upto(4) < 4 && self.next(&start) == Some(b'>') && start.scan_blockquote_marker();
        if found {
            self.start = start;
        }
        found
    }

    #[inline(always)]
    pub(crate) fn scan_list_marker(&mut self) -> Option<(u8, u64, usize)> {
        let next = self.next(&self.start)?;
        if begins_item(next) && self.start.remaining_space() == 0 {
            self.start.scan_list_marker_with_indent(0)
        } else if begins_item(next) || matches!(next, b' ' | b'\t') {
            self.scan_item_behind_space()
        } else {
            None
        }
    }

    fn scan_item_behind_space(&mut self) -> Option<(u8, u64, usize)> {
        let mut start = self.start.clone();
        let indent = start.scan_space_upto(4);
        if indent == 4 || !self.next(&start).map_or(false, begins_item) {
            return None;
        }
        let item = start.scan_list_marker_with_indent(indent)?;
        self.start = start;
        Some(item)
    }

    pub(crate) fn scan_task_list_marker(&mut self) -> Option<bool> {
        self.start.scan_task_list_marker()
    }

    pub(crate) fn bytes_scanned(&self) -> usize {
        self.start.bytes_scanned()
    }

    pub(crate) fn remaining_space(&self) -> usize {
        self.start.remaining_space()
    }
}

fn begins_item(byte: u8) -> bool {
    matches!(byte, b'-' | b'+' | b'*' | b'0'..=b'9')
}

#[inline(always)]
pub(crate) fn scan_while(data: &[u8], mut accepts: impl FnMut(u8) -> bool) -> usize {
    match data.first() {
        Some(&first) if accepts(first) => {
            scan_accepted(first, accepts, |bytes| fillaqut::scan_while(data, bytes), |length| data.get(length).copied())
        }
        _ => 0,
    }
}

#[inline(always)]
pub(crate) fn scan_rev_while(data: &[u8], mut accepts: impl FnMut(u8) -> bool) -> usize {
    match data.last() {
        Some(&last) if accepts(last) => {
            let before = |length| data[..data.len() - length].last().copied();
            scan_accepted(last, accepts, |bytes| fillaqut::scan_rev_while(data, bytes), before)
        }
        _ => 0,
    }
}

/// Scans for bytes that the closure accepts, of which this is one. It is asked once for each other byte at which the scan for
/// those so far ends, so that it need not be asked for all that there are.
fn scan_accepted(
    first: u8,
    mut accepts: impl FnMut(u8) -> bool,
    scan: impl Fn(&[u8]) -> usize,
    behind: impl Fn(usize) -> Option<u8>,
) -> usize {
    let mut accepted = [first; 256];
    let mut count = 1;
    loop {
        let length = scan(&accepted[..count]);
        match behind(length) {
            Some(next) if accepts(next) => accepted[count] = next,
            _ => return length,
        }
        count += 1;
    }
}

pub(crate) fn scan_atx_heading(data: &[u8]) -> Option<HeadingLevel> {
    HeadingLevel::try_from(fillaqut::scan_atx_heading(data)? as usize).ok()
}

pub(crate) fn scan_setext_heading(data: &[u8]) -> Option<(usize, HeadingLevel)> {
    let (length, level) = fillaqut::scan_setext_heading(data)?;
    Some((length, HeadingLevel::try_from(level as usize).ok()?))
}

pub(crate) fn scan_table_head(data: &[u8]) -> (usize, Vec<Alignment>) {
    let (length, columns) = fillaqut::scan_table_head(data);
    let alignment = |column| match column {
        fillaqut::Alignment::None => Alignment::None,
        fillaqut::Alignment::Left => Alignment::Left,
        fillaqut::Alignment::Center => Alignment::Center,
        fillaqut::Alignment::Right => Alignment::Right,
    };
    (length, columns.into_iter().map(alignment).collect())
}

/// Asks what the passes ask where an item begins, as the header advises: so a paragraph ends exactly before an item.
#[inline(always)]
pub(crate) fn scan_listitem(bytes: &[u8]) -> Option<(usize, u8, usize, usize)> {
    if !bytes.first().copied().map_or(false, begins_item) {
        return None;
    }
    scan_item(bytes)
}

fn scan_item(bytes: &[u8]) -> Option<(usize, u8, usize, usize)> {
    let mut start = fillaqut::LineStart::new(bytes);
    let (delimiter, number, indent) = start.scan_list_marker_with_indent(0)?;
    Some((start.bytes_scanned(), delimiter, number as usize, indent))
}

/// Whether what stands behind a marker is blank, and the line behind that.
pub(crate) fn scan_empty_list(data: &[u8]) -> bool {
    scan_blank_line(data).and_then(|line| scan_blank_line(&data[line..])).is_some()
}

pub(crate) fn scan_refdef_title(text: &str) -> Option<(usize, &str)> {
    fillaqut::scan_link_title(text, 0)
}

pub(crate) fn scan_entity(bytes: &[u8]) -> (usize, Option<CowStr<'static>>) {
    let (length, meaning) = fillaqut::scan_entity(bytes);
    (length, meaning.map(CowStr::from))
}

pub(crate) fn unescape(input: &str) -> CowStr<'_> {
    fillaqut::unescape(input, false).into()
}

pub(crate) fn scan_autolink(text: &str, start_ix: usize) -> Option<(usize, CowStr<'_>, LinkType)> {
    if let Some((end, uri, _)) = fillaqut::scan_autolink(text, start_ix) {
        return Some((end, uri.into(), LinkType::Autolink));
    }
    super::scan_email(text, start_ix).map(|(end, address)| (end, address, LinkType::Email))
}

pub(crate) fn scan_html_block_inner(
    data: &[u8],
    newline_handler: Option<&dyn Fn(&[u8]) -> usize>,
) -> Option<(Vec<u8>, usize)> {
    if let Some(length) = fillaqut::scan_html_tag(data) {
        return Some((Vec::new(), length));
    }
    let (end, skips) = lines_of_tag(data, newline_handler?);
    fillaqut::scan_html_block_inner(&data[..end], &skips).expect("skips rise")
}

/// Behind the first byte that no tag goes past, `<` or `>` outside of quotes, with what the handler leaves out of the lines
/// up to there.
fn lines_of_tag(data: &[u8], handler: &dyn Fn(&[u8]) -> usize) -> (usize, Vec<Skip>) {
    let mut skips = Vec::new();
    let mut quote = None;
    let mut ix = 1;
    while let Some(&byte) = data.get(ix) {
        match (byte, quote) {
            (b'\n' | b'\r', _) => {
                let line = ix + scan_eol(&data[ix..]).unwrap_or(1);
                ix = leave_out(line, handler(&data[line..]), &mut skips);
                continue;
            }
            (_, Some(opened)) if byte == opened => quote = None,
            (b'"' | b'\'', None) => quote = Some(byte),
            (b'<' | b'>', None) => return (ix + 1, skips),
            _ => (),
        }
        ix += 1;
    }
    (data.len(), skips)
}

/// Notes what is left out at the front of a line; the place behind it.
fn leave_out(line: usize, length: usize, skips: &mut Vec<Skip>) -> usize {
    if length > 0 {
        skips.push(Skip::new(line, length));
    }
    line + length
}

pub(crate) fn scan_link_label_rest<'text>(
    text: &'text str,
    linebreak_handler: &dyn Fn(&[u8]) -> Option<usize>,
) -> Option<(usize, CowStr<'text>)> {
    if let Some(found) = label_in_a_line(text) {
        return Some(found);
    }
    let (end, skips) = lines_of_label(text.as_bytes(), linebreak_handler)?;
    let label = fillaqut::scan_link_label_rest(&text[..end], &skips, false);
    label.expect("skips rise").map(|(length, label)| (length, label.into()))
}

/// The label that the first closing bracket ends, if it is near and no line ends before it.
fn label_in_a_line(text: &str) -> Option<(usize, CowStr<'_>)> {
    let near = &text.as_bytes()[..text.len().min(NEAR)];
    let end = memchr::memchr2(b']', b'\n', near).filter(|end| near[*end] == b']')?;
    let (length, label) = fillaqut::scan_link_label_rest(&text[..=end], &[], false).ok()??;
    // a label that stands there as it is has no line ending
    let is_whole = matches!(label, Cow::Borrowed(own) if own.len() + 1 == length);
    (is_whole || !text[..length].contains('\r')).then(|| (length, label.into()))
}

/// So long are most lines at most.
const NEAR: usize = 200;

/// Bytes that no label has more of: 999 characters of four.
const LABEL: usize = 4 * 999;

/// Behind the first bracket that no backslash escapes, with what the handler leaves out of the lines up to there; None where
/// it is an opening one, where there is none in so many bytes, or where the handler wants no more lines.
fn lines_of_label(bytes: &[u8], handler: &dyn Fn(&[u8]) -> Option<usize>) -> Option<(usize, Vec<Skip>)> {
    let mut skips = Vec::new();
    let (mut ix, mut most) = (0, LABEL + 1);
    loop {
        let rest = bytes.get(ix..bytes.len().min(most))?;
        ix += rest.iter().position(|byte| matches!(byte, b'[' | b'\\' | b']' | b'\n' | b'\r'))?;
        match bytes[ix] {
            b'[' => return None,
            b']' => return Some((ix + 1, skips)),
            b'\\' if bytes.get(ix + 1).map_or(false, |next| is_ascii_punctuation(*next)) => ix += 2,
            b'\\' => ix += 1,
            _ => {
                let line = ix + scan_eol(&bytes[ix..])?;
                let length = handler(&bytes[line..])?;
                skips.push(Skip::new(line, length));
                ix = line + length;
                most += length;
            }
        }
    }
}

/// A label in the table of definitions, equal to those that match it. The passes make one under this name.
#[derive(Clone, PartialEq, Eq, Hash)]
pub(crate) struct UniCase<'text>(fillaqut::LinkLabel<'text>);

impl<'text> UniCase<'text> {
    pub(crate) fn new(label: CowStr<'text>) -> Self {
        UniCase(fillaqut::LinkLabel::new(label))
    }
}

impl AsRef<str> for UniCase<'_> {
    fn as_ref(&self) -> &str {
        self.0.as_str()
    }
}
