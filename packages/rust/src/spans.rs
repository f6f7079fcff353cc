//! Code spans, delimiter runs, email addresses, and the classes of characters. Sections in brackets are those of CommonMark
//! 0.31.2.

use alloc::borrow::Cow;

use crate::inline::{check_place, part, text_part};
use crate::raw::{self, ffi};
use crate::values::LinkType;

/// A Unicode white space character: a tab, LF, FF or CR, or one of category Zs. (2.1)
///
/// ```
/// assert!(fillaqut::is_unicode_whitespace('\u{3000}'));
/// ```
#[inline]
#[must_use]
pub fn is_unicode_whitespace(character: char) -> bool {
    raw::is_unicode_whitespace(u32::from(character))
}

/// A Unicode punctuation character: one of category P or S. (2.1)
///
/// ```
/// assert!(fillaqut::is_unicode_punctuation('€'));
/// ```
#[inline]
#[must_use]
pub fn is_unicode_punctuation(character: char) -> bool {
    raw::is_unicode_punctuation(u32::from(character))
}

/// The code span that begins at a place, as if no backtick stood before that: the place after it, and its content as it is
/// written. (6.1)
///
/// Where no later string closes it, all of the text is read for that: a caller notes where the last string of each length
/// begins, and asks only where such a one is still to come.
///
/// # Panics
///
/// Where the place is not in the text, between two characters.
///
/// ```
/// assert_eq!(fillaqut::scan_code_span("a ``b ` c`` d", 2), Some((11, "b ` c")));
/// ```
#[inline]
#[must_use]
pub fn scan_code_span(text: &str, start_ix: usize) -> Option<(usize, &str)> {
    check_place(text, start_ix);
    text_part(raw::scan_code_span(text.as_bytes(), start_ix), text)
}

/// The same of any bytes; `None` too where the place is past their end.
///
/// ```
/// assert_eq!(fillaqut::scan_code_span_bytes(b"`\xff`", 0), Some((3, &b"\xff"[..])));
/// ```
#[inline]
#[must_use]
pub fn scan_code_span_bytes(data: &[u8], start_ix: usize) -> Option<(usize, &[u8])> {
    part(raw::scan_code_span(data, start_ix), data)
}

/// The email address of the autolink whose `<` stands just before the place: the place after its `>`, and the address. (6.5)
///
/// # Panics
///
/// Where the place is not in the text, between two characters.
///
/// ```
/// use fillaqut::{scan_email_autolink, LinkType};
/// assert_eq!(scan_email_autolink("<a@b.c>", 1), Some((7, "a@b.c".into(), LinkType::Email)));
/// ```
#[inline]
#[must_use]
pub fn scan_email_autolink(text: &str, start_ix: usize) -> Option<(usize, Cow<'_, str>, LinkType)> {
    check_place(text, start_ix);
    let returned = text_part(raw::scan_email_autolink(text.as_bytes(), start_ix), text);
    returned.map(|(end, address)| (end, Cow::Borrowed(address), LinkType::Email))
}

/// The same of any bytes; `None` too where the place is past their end.
///
/// ```
/// assert_eq!(fillaqut::scan_email_autolink_bytes(b"<a@b>\xff", 1), Some((5, &b"a@b"[..])));
/// ```
#[inline]
#[must_use]
pub fn scan_email_autolink_bytes(data: &[u8], start_ix: usize) -> Option<(usize, &[u8])> {
    part(raw::scan_email_autolink(data, start_ix), data)
}

/// A run of `*` or `_`.
#[derive(Clone, Copy, Debug, PartialEq, Eq, Hash)]
pub struct DelimiterRun {
    /// `*` or `_`.
    pub byte: u8,
    /// How many bytes it has.
    pub count: usize,
    /// Whether it can open emphasis.
    pub can_open: bool,
    /// Whether it can close emphasis.
    pub can_close: bool,
}

/// The delimiter run that begins at a place, before which no unescaped byte of its kind stands. It reads the character before
/// it and the one after it, and nothing else. (6.2)
///
/// # Panics
///
/// Where the place is not in the text, between two characters.
///
/// ```
/// use fillaqut::{scan_delimiter_run, DelimiterRun};
/// let run = DelimiterRun { byte: b'*', count: 2, can_open: true, can_close: false };
/// assert_eq!(scan_delimiter_run("a **b**", 2), Some(run));
/// ```
#[must_use]
pub fn scan_delimiter_run(text: &str, place: usize) -> Option<DelimiterRun> {
    check_place(text, place);
    let returned = raw::scan_delimiter_run(text.as_bytes(), place);
    let ffi::DelimiterRun { byte, count, can_open, can_close, .. } = returned;
    (returned.status == ffi::OK).then_some(DelimiterRun { byte, count, can_open, can_close })
}
