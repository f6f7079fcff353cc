//! Parts of inline text, HTML, escapes and labels. Sections in brackets are those of CommonMark 0.31.2.

use alloc::borrow::Cow;
use alloc::string::String;
use alloc::vec;
use alloc::vec::Vec;
use core::ops::Range;

use crate::raw::{self, ffi, Skip};
use crate::values::{found, BadSkips, HtmlBlockKind, LinkType};

/// Bytes that most texts that are made have room in.
const SMALL: usize = 256;
/// Bytes that each character reference has room in.
const REFERENCE: usize = 6;

/// Gives room for so many bytes, of the stack where they are few.
pub(crate) fn with_room<T>(length: usize, call: impl FnOnce(&mut [u8]) -> T) -> T {
    match length {
        0..=SMALL => call(&mut [0; SMALL]),
        _ => call(&mut vec![0; length]),
    }
}

pub(crate) fn string(bytes: Vec<u8>) -> String {
    String::from_utf8(bytes).expect("texts that are made of a text are UTF-8")
}

/// A part of the bytes: the offset after it, and its own bytes.
pub(crate) fn part(returned: ffi::Part, data: &[u8]) -> Option<(usize, &[u8])> {
    (returned.status == ffi::OK).then(|| (returned.end, &data[returned.start..returned.start + returned.length]))
}

/// The same of a text.
pub(crate) fn text_part(returned: ffi::Part, data: &str) -> Option<(usize, &str)> {
    (returned.status == ffi::OK).then(|| (returned.end, &data[returned.start..returned.start + returned.length]))
}

pub(crate) fn check_place(data: &str, start: usize) {
    assert!(data.is_char_boundary(start), "no character begins at {start}");
}

/// The first pipe of the `len` bytes from a place on: the offset after it, and the text before it. (An extension of
/// pulldown-cmark)
///
/// # Panics
///
/// Where the place is not in the text, between two characters.
///
/// ```
/// assert_eq!(fillaqut::scan_wikilink_pipe("[[a|b]]", 2, 3), Some((4, "a")));
/// ```
#[inline]
#[must_use]
pub fn scan_wikilink_pipe(data: &str, start_ix: usize, len: usize) -> Option<(usize, &str)> {
    check_place(data, start_ix);
    text_part(raw::scan_wikilink_pipe(data.as_bytes(), start_ix, len), data)
}

/// The same of any bytes; `None` too where the place is past their end.
///
/// ```
/// assert_eq!(fillaqut::scan_wikilink_pipe_bytes(b"\xff|", 0, 2), Some((2, &b"\xff"[..])));
/// ```
#[inline]
#[must_use]
pub fn scan_wikilink_pipe_bytes(data: &[u8], start_ix: usize, len: usize) -> Option<(usize, &[u8])> {
    part(raw::scan_wikilink_pipe(data, start_ix, len), data)
}

/// The link destination at a place: how many bytes it takes, and its text. Parentheses may stand in each other
/// `max_next + 1` deep. (6.3)
///
/// # Panics
///
/// Where the place is not in the text, between two characters.
///
/// ```
/// assert_eq!(fillaqut::scan_link_dest("[a](<b c>)", 4, 31), Some((5, "b c")));
/// ```
#[inline]
#[must_use]
pub fn scan_link_dest(data: &str, start_ix: usize, max_next: usize) -> Option<(usize, &str)> {
    check_place(data, start_ix);
    let returned = text_part(raw::scan_link_dest(data.as_bytes(), start_ix, max_next), data);
    returned.map(|(end, text)| (end - start_ix, text))
}

/// The same of any bytes; `None` too where the place is past their end.
///
/// ```
/// assert_eq!(fillaqut::scan_link_dest_bytes(b"\xff )", 0, 31), Some((1, &b"\xff"[..])));
/// ```
#[inline]
#[must_use]
pub fn scan_link_dest_bytes(data: &[u8], start_ix: usize, max_next: usize) -> Option<(usize, &[u8])> {
    let returned = part(raw::scan_link_dest(data, start_ix, max_next), data);
    returned.map(|(end, text)| (end - start_ix, text))
}

/// The link title at a place: how many bytes it takes, and its text, without the quotes or parentheses around it. It may go
/// on over lines, of which none is blank. (6.3)
///
/// # Panics
///
/// Where the place is not in the text, between two characters.
///
/// ```
/// assert_eq!(fillaqut::scan_link_title("[a](/b 'c d')", 7), Some((5, "c d")));
/// ```
#[inline]
#[must_use]
pub fn scan_link_title(data: &str, start_ix: usize) -> Option<(usize, &str)> {
    check_place(data, start_ix);
    let returned = text_part(raw::scan_link_title(data.as_bytes(), start_ix), data);
    returned.map(|(end, text)| (end - start_ix, text))
}

/// The same of any bytes; `None` too where the place is past their end.
///
/// ```
/// assert_eq!(fillaqut::scan_link_title_bytes(b"(\xff)", 0), Some((3, &b"\xff"[..])));
/// ```
#[inline]
#[must_use]
pub fn scan_link_title_bytes(data: &[u8], start_ix: usize) -> Option<(usize, &[u8])> {
    let returned = part(raw::scan_link_title(data, start_ix), data);
    returned.map(|(end, text)| (end - start_ix, text))
}

/// The absolute URI of the autolink whose `<` stands just before the place: the offset after its `>`, and the URI. (6.5)
///
/// # Panics
///
/// Where the place is not in the text, between two characters.
///
/// ```
/// use fillaqut::{scan_autolink, LinkType};
/// assert_eq!(scan_autolink("<https://a.b>", 1), Some((13, "https://a.b".into(), LinkType::Autolink)));
/// ```
#[inline]
#[must_use]
pub fn scan_autolink(text: &str, start_ix: usize) -> Option<(usize, Cow<'_, str>, LinkType)> {
    check_place(text, start_ix);
    let returned = text_part(raw::scan_autolink(text.as_bytes(), start_ix), text);
    returned.map(|(end, uri)| (end, Cow::Borrowed(uri), LinkType::Autolink))
}

/// The same of any bytes; `None` too where the place is past their end.
///
/// ```
/// assert_eq!(fillaqut::scan_autolink_bytes(b"<ab:\xff>", 1), Some((6, &b"ab:\xff"[..])));
/// ```
#[inline]
#[must_use]
pub fn scan_autolink_bytes(data: &[u8], start_ix: usize) -> Option<(usize, &[u8])> {
    part(raw::scan_autolink(data, start_ix), data)
}

/// Whether an HTML block that a name of start condition 6 opens begins here, after the `<`. (4.6)
///
/// ```
/// assert!(fillaqut::starts_html_block_type_6(b"div>"));
/// ```
#[inline]
#[must_use]
pub fn starts_html_block_type_6(data: &[u8]) -> bool {
    raw::starts_html_block_type_6(data)
}

/// The length of the tag at the front that stands alone in its line. (4.6, start condition 7)
///
/// ```
/// assert_eq!(fillaqut::scan_html_type_7(b"<b> \n"), Some(3));
/// ```
#[inline]
#[must_use]
pub fn scan_html_type_7(data: &[u8]) -> Option<usize> {
    found(raw::scan_html_type_7(data))
}

/// The kind of the HTML block that begins at the front, after the indent of its line. (4.6)
///
/// ```
/// use fillaqut::{scan_html_block_start, HtmlBlockKind};
/// assert_eq!(scan_html_block_start(b"<!-- a"), Some(HtmlBlockKind::Comment));
/// assert_eq!(scan_html_block_start(b"<a> b"), None);
/// ```
#[must_use]
pub fn scan_html_block_start(data: &[u8]) -> Option<HtmlBlockKind> {
    HtmlBlockKind::of(raw::scan_html_block_start(data))
}

/// Whether the line at the front ends an HTML block of this kind: as its last line, or as the blank line after it. (4.6)
///
/// ```
/// use fillaqut::{ends_html_block, HtmlBlockKind};
/// assert!(ends_html_block(b"a -->", HtmlBlockKind::Comment));
/// assert!(!ends_html_block(b"a -->", HtmlBlockKind::BlockName));
/// ```
#[must_use]
pub fn ends_html_block(line: &[u8], kind: HtmlBlockKind) -> bool {
    raw::ends_html_block(line, kind as u32) == ffi::OK
}

/// The length of the open or closing tag at the front, which holds no line ending. (6.6)
///
/// ```
/// assert_eq!(fillaqut::scan_html_tag(b"<b c='d'> e"), Some(9));
/// ```
#[inline]
#[must_use]
pub fn scan_html_tag(data: &[u8]) -> Option<usize> {
    found(raw::scan_html_tag(data))
}

/// The open or closing tag at the front, over lines of which the skips are left out: its text without these, empty where
/// none are left out inside it; and its length. (6.6)
///
/// ```
/// use fillaqut::{scan_html_block_inner, Skip};
/// let tag = scan_html_block_inner(b"<foo\n> bar>", &[Skip::new(5, 2)]);
/// assert_eq!(tag, Ok(Some((b"<foo\nbar>".to_vec(), 11))));
/// ```
#[inline]
pub fn scan_html_block_inner(data: &[u8], skips: &[Skip]) -> Result<Option<(Vec<u8>, usize)>, BadSkips> {
    Ok(Page::new(data, skips)?.scan_tag(0).map(|(end, text)| (text.unwrap_or_default(), end)))
}

/// A page with the table of what is left out of it, which is looked through once. Tags and labels are then scanned at places
/// of the page.
///
/// ```
/// use fillaqut::{Page, Skip};
/// let text = b"> <a\n> b> [c\n> d]";
/// let skips = [Skip::new(0, 2), Skip::new(5, 2), Skip::new(13, 2)];
/// let page = Page::new(text, &skips).unwrap();
/// assert_eq!(page.scan_tag(2), Some((9, Some(b"<a\nb>".to_vec()))));
/// assert_eq!(page.scan_label(11, false), Some((17, "c d".into())));
/// ```
#[derive(Clone, Copy, Debug)]
pub struct Page<'page> {
    bytes: &'page [u8],
    skips: &'page [Skip],
}

impl<'page> Page<'page> {
    /// The page, where the skips are a table of it.
    ///
    /// ```
    /// use fillaqut::{BadSkips, Page, Skip};
    /// assert_eq!(Page::new(b"a", &[Skip::new(1, 1)]).unwrap_err(), BadSkips);
    /// ```
    #[inline]
    pub fn new(bytes: &'page [u8], skips: &'page [Skip]) -> Result<Self, BadSkips> {
        raw::check_skips(bytes, skips).then_some(Page { bytes, skips }).ok_or(BadSkips)
    }

    /// The page up to a place, as the end of a paragraph.
    ///
    /// # Panics
    ///
    /// Where the place is past the end.
    ///
    /// ```
    /// let page = fillaqut::Page::new(b"a b]", &[]).unwrap();
    /// assert_eq!(page.up_to(3).scan_label(0, false), None);
    /// ```
    #[inline]
    #[must_use]
    pub fn up_to(self, end: usize) -> Self {
        Page { bytes: &self.bytes[..end], ..self }
    }

    /// The open or closing tag at the place: the offset after it, and its text where something is left out inside it. (6.6)
    ///
    /// ```
    /// let page = fillaqut::Page::new(b"a <b\nc>", &[]).unwrap();
    /// assert_eq!(page.scan_tag(2), Some((7, None)));
    /// ```
    #[inline]
    #[must_use]
    pub fn scan_tag(&self, start: usize) -> Option<(usize, Option<Vec<u8>>)> {
        let mut buffer = [0; SMALL];
        let tag = raw::scan_html_tag_over_lines(self.bytes, start, self.skips, &mut buffer);
        match tag.status {
            ffi::OK => Some((tag.end, (tag.length > 0).then(|| buffer[..tag.length].to_vec()))),
            ffi::TOO_SHORT => {
                let mut buffer = vec![0; tag.length];
                raw::scan_html_tag_over_lines(self.bytes, start, self.skips, &mut buffer);
                Some((tag.end, Some(buffer)))
            }
            _ => None,
        }
    }

    /// The link label whose opening bracket stands just before the place: the offset after its closing one, and its words,
    /// joined by one space. In a cell of a table a pipe loses the backslash before it. Its own bytes are UTF-8. (6.3)
    ///
    /// ```
    /// let page = fillaqut::Page::new(b"[a  b]: c", &[]).unwrap();
    /// assert_eq!(page.scan_label(1, false), Some((6, "a b".into())));
    /// ```
    #[inline]
    pub fn scan_label(&self, start: usize, is_in_table: bool) -> Option<(usize, Cow<'page, str>)> {
        let (end, text) = label_at(self.bytes, start, self.skips, is_in_table)?;
        let own = |place| core::str::from_utf8(&self.bytes[place]).expect("a label is UTF-8");
        Some((end, text.map_or_else(Cow::Owned, |place| Cow::Borrowed(own(place)))))
    }
}

/// The text of a label: where it stands in the bytes, or the text that was made.
type LabelText = Result<Range<usize>, String>;

#[inline]
fn label_at(bytes: &[u8], start: usize, skips: &[Skip], is_in_table: bool) -> Option<(usize, LabelText)> {
    // Where nothing is left out most labels stand in the bytes as they are, and need no buffer.
    let mut small;
    let buffer: &mut [u8] = if skips.is_empty() {
        &mut []
    } else {
        small = [0; SMALL];
        &mut small
    };
    let label = raw::scan_link_label(bytes, start, is_in_table, skips, buffer);
    let text = match label.status {
        ffi::OK | ffi::TOO_SHORT if label.start != ffi::NONE => Ok(label.start..label.start + label.length),
        ffi::OK => Err(string(buffer[..label.length].to_vec())),
        ffi::TOO_SHORT => {
            let mut buffer = vec![0; label.length];
            raw::scan_link_label(bytes, start, is_in_table, skips, &mut buffer);
            Err(string(buffer))
        }
        _ => return None,
    };
    Some((label.end, text))
}

/// A text with what scans for inline HTML have searched in it in vain, so that none of them searches it again: k scans of n
/// bytes, at rising places, each at or after the end that was found before, pass over at most 4n + 8k bytes.
///
/// ```
/// use fillaqut::HtmlScanGuard;
/// let mut guard = HtmlScanGuard::new(b"<!-- a --> <!-- b <!-- c");
/// assert_eq!(guard.scan_inline_html_comment(2), Some(10));
/// assert_eq!(guard.scan_inline_html_comment(13), None);
/// assert_eq!(guard.scan_inline_html_comment(20), None); // known from the scan before
/// ```
#[derive(Clone, Debug, Default, PartialEq, Eq)]
pub struct HtmlScanGuard<'text> {
    text: &'text [u8],
    numbers: ffi::HtmlGuard,
}

impl<'text> HtmlScanGuard<'text> {
    /// That of a text of which nothing has been searched.
    ///
    /// ```
    /// assert_eq!(fillaqut::HtmlScanGuard::new(b"a").text(), b"a");
    /// ```
    #[inline]
    #[must_use]
    pub fn new(text: &'text [u8]) -> Self {
        HtmlScanGuard { text, numbers: ffi::HtmlGuard::default() }
    }

    /// The text in which it scans.
    ///
    /// ```
    /// assert_eq!(fillaqut::HtmlScanGuard::new(b"<!a>").text().len(), 4);
    /// ```
    #[inline]
    #[must_use]
    pub fn text(&self) -> &'text [u8] {
        self.text
    }

    fn end(&mut self, ix: usize, opener: u8) -> Option<usize> {
        let opens = ix.checked_sub(1).and_then(|before| self.text.get(before)) == Some(&opener);
        let returned = opens.then(|| raw::scan_inline_html(self.text, ix, &mut self.numbers))?;
        (returned.status == ffi::OK).then_some(returned.end)
    }

    /// The offset after the comment, CDATA section or declaration whose `<!` ends at the place; `None` too where none ends
    /// there. (6.6)
    ///
    /// ```
    /// use fillaqut::HtmlScanGuard;
    /// assert_eq!(HtmlScanGuard::new(b"a <!-- b --> c").scan_inline_html_comment(4), Some(12));
    /// ```
    #[inline]
    pub fn scan_inline_html_comment(&mut self, ix: usize) -> Option<usize> {
        self.end(ix, b'!')
    }

    /// The offset after the processing instruction whose `<?` ends at the place; `None` too where none ends there. (6.6)
    ///
    /// ```
    /// use fillaqut::HtmlScanGuard;
    /// assert_eq!(HtmlScanGuard::new(b"<?a?>").scan_inline_html_processing(2), Some(5));
    /// ```
    #[inline]
    pub fn scan_inline_html_processing(&mut self, ix: usize) -> Option<usize> {
        self.end(ix, b'?')
    }
}

/// The length of the character reference at the front, and what it stands for; 0 and `None` where there is none. The first
/// byte is taken for its `&`. All entities of HTML are known. (2.5)
///
/// ```
/// assert_eq!(fillaqut::scan_entity(b"&auml;b"), (6, Some("ä".into())));
/// assert_eq!(fillaqut::scan_entity(b"&a;"), (0, None));
/// ```
#[inline]
#[must_use]
pub fn scan_entity(bytes: &[u8]) -> (usize, Option<Cow<'static, str>>) {
    let mut buffer = [0; REFERENCE];
    let text = raw::scan_entity(bytes, &mut buffer);
    if text.status != ffi::OK {
        return (0, None);
    }
    (text.taken, Some(Cow::Owned(string(buffer[..text.length].to_vec()))))
}

/// The text with its backslash escapes and character references resolved, and without CR; in a cell of a table two
/// backslashes and a pipe give the pipe. It is the input itself where nothing changes. (2.4, 2.5)
///
/// ```
/// assert_eq!(fillaqut::unescape(r"a\*b &amp; c", false), "a*b & c");
/// ```
#[inline]
#[must_use]
pub fn unescape(input: &str, is_in_table: bool) -> Cow<'_, str> {
    with_room(input.len() + input.len() / 5, |buffer| {
        let length = raw::unescape(input, is_in_table, buffer).length;
        let text = &buffer[..length];
        match text == input.as_bytes() {
            true => Cow::Borrowed(input),
            false => Cow::Owned(string(text.to_vec())),
        }
    })
}

/// The link label whose opening bracket stands just before the text, over lines of which the skips are left out: its length
/// with the closing bracket, and its words, joined by one space. In a cell of a table a pipe loses the backslash before it.
/// (6.3)
///
/// ```
/// use fillaqut::{scan_link_label_rest, Skip};
/// assert_eq!(scan_link_label_rest("a b]: c", &[], false), Ok(Some((4, "a b".into()))));
/// assert_eq!(scan_link_label_rest("a\n> b]", &[Skip::new(2, 2)], false), Ok(Some((6, "a b".into()))));
/// ```
#[inline]
pub fn scan_link_label_rest<'text>(
    text: &'text str,
    skips: &[Skip],
    is_in_table: bool,
) -> Result<Option<(usize, Cow<'text, str>)>, BadSkips> {
    if !skips.is_empty() && !raw::check_skips(text.as_bytes(), skips) {
        return Err(BadSkips);
    }
    let own = |label: LabelText| label.map_or_else(Cow::Owned, |place| Cow::Borrowed(&text[place]));
    Ok(label_at(text.as_bytes(), 0, skips, is_in_table).map(|(length, label)| (length, own(label))))
}
