//! The HTML of a page. Sections in brackets are those of CommonMark 0.31.2.

use alloc::string::String;
use alloc::vec;

use crate::extensions::Extensions;
use crate::inline::string;
use crate::raw::{self, ffi};

/// The bits of these extensions, of each of which events and HTML are built.
pub(crate) fn built_bits(extensions: Extensions) -> u32 {
    if let Some(name) = extensions.not_built() {
        panic!("events and HTML are not built of the extension `{name}` yet");
    }
    extensions.bits()
}

/// The schemes that addresses may have where none are named.
pub const DEFAULT_SCHEMES: &[&str] = &["http", "https", "mailto", "tel"];

/// What is written of the HTML that stands in a page, in blocks of its own and in texts. (4.6, 6.6)
#[derive(Clone, Copy, Debug, Default, PartialEq, Eq, Hash)]
pub enum RawHtml {
    /// Its text, with references for what would be HTML.
    #[default]
    Escaped,
    /// Nothing.
    Omitted,
}

/// What safe HTML is written with, by [`html_with`]; by default as [`html`] has it.
#[derive(Clone, Copy, Debug, PartialEq, Eq, Hash)]
pub struct HtmlSetting<'a> {
    /// The schemes that addresses may have, without a colon and without regard to case, [`DEFAULT_SCHEMES`] by default. Of others an
    /// empty address is written. Where there are none, relative addresses are written alone.
    pub schemes: &'a [&'a str],
    /// What is written of raw HTML, its text by default.
    pub raw_html: RawHtml,
    /// Whether links say `rel="nofollow noopener"`, as they do by default.
    pub rel: bool,
    /// Whether an image is written as a link to it, whose text is its description, and in a link as that text alone; by default it
    /// is not.
    pub images_as_links: bool,
}

impl Default for HtmlSetting<'_> {
    fn default() -> Self {
        HtmlSetting { schemes: DEFAULT_SCHEMES, raw_html: RawHtml::Escaped, rel: true, images_as_links: false }
    }
}

/// The HTML of a page, safe for pages by people who are not trusted: raw HTML is written as text; of links and images an address is
/// written where it is relative or has one of the schemes `http`, `https`, `mailto` and `tel`, and else an empty one; and links say
/// `rel="nofollow noopener"`. All else is as the examples of CommonMark and of GitHub Flavored Markdown have it. (3 to 6)
///
/// # Panics
///
/// Where an extension is asked for that HTML is not built of yet.
///
/// ```
/// use fillaqut::{html, Extensions};
/// assert_eq!(html("<script>", Extensions::default()), "&lt;script&gt;\n");
/// let expected = "<p><a href=\"\" rel=\"nofollow noopener\">a</a></p>\n";
/// assert_eq!(html("[a](javascript:b)", Extensions::default()), expected);
/// ```
#[must_use]
pub fn html(text: &str, extensions: Extensions) -> String {
    html_lossy(text.as_bytes(), extensions)
}

/// The same as [`html`] by a setting. The HTML is safe with each: raw HTML is never kept.
///
/// # Panics
///
/// As of [`html`].
///
/// ```
/// use fillaqut::{html_with, Extensions, HtmlSetting, RawHtml};
/// let setting = HtmlSetting { schemes: &["ftp"], rel: false, ..HtmlSetting::default() };
/// assert_eq!(html_with("<ftp://a>", Extensions::default(), &setting), "<p><a href=\"ftp://a\">ftp://a</a></p>\n");
/// assert_eq!(html_with("<https://a>", Extensions::default(), &setting), "<p><a href=\"\">https://a</a></p>\n");
///
/// let setting = HtmlSetting { raw_html: RawHtml::Omitted, images_as_links: true, ..HtmlSetting::default() };
/// let expected = "<p>a <a href=\"c\" rel=\"nofollow noopener\">b</a></p>\n";
/// assert_eq!(html_with("a<i> ![b](c)", Extensions::default(), &setting), expected);
/// ```
#[must_use]
pub fn html_with(text: &str, extensions: Extensions, setting: &HtmlSetting) -> String {
    html_lossy_with(text.as_bytes(), extensions, setting)
}

/// The setting as C has it.
fn asked_by<'a>(setting: &HtmlSetting<'a>) -> raw::AskedHtml<'a> {
    raw::AskedHtml {
        schemes: if setting.schemes.is_empty() { &[""] } else { setting.schemes }, // no address has this one
        raw_html: match setting.raw_html {
            RawHtml::Escaped => ffi::RAW_HTML_ESCAPED,
            RawHtml::Omitted => ffi::RAW_HTML_OMITTED,
        },
        rel: if setting.rel { ffi::REL_NOFOLLOW } else { ffi::REL_NONE },
        images_as_links: setting.images_as_links,
    }
}

/// The HTML of a page that may not be UTF-8, safe as that of [`html`], with U+FFFD in the place of each part that is wrong, as
/// [`String::from_utf8_lossy`] has it. To refuse such a page ask [`core::str::from_utf8`] first, whose error says where it is wrong.
///
/// # Panics
///
/// As of [`html`].
///
/// ```
/// use fillaqut::{html_lossy, Extensions};
/// assert_eq!(html_lossy(b"a\xe2\x82 <b>", Extensions::default()), "<p>a\u{fffd} &lt;b&gt;</p>\n");
/// ```
#[must_use]
pub fn html_lossy(page: &[u8], extensions: Extensions) -> String {
    written(page.len(), |buffer| raw::html(page, built_bits(extensions), buffer))
}

/// The same as [`html_lossy`] by a setting. The HTML is safe with each.
///
/// # Panics
///
/// As of [`html`].
///
/// ```
/// use fillaqut::{html_lossy_with, Extensions, HtmlSetting, RawHtml};
/// let setting = HtmlSetting { raw_html: RawHtml::Omitted, ..HtmlSetting::default() };
/// assert_eq!(html_lossy_with(b"a\xff<b>", Extensions::default(), &setting), "<p>a\u{fffd}</p>\n");
/// ```
#[must_use]
pub fn html_lossy_with(page: &[u8], extensions: Extensions, setting: &HtmlSetting) -> String {
    let asked = asked_by(setting);
    written(page.len(), |buffer| raw::html_with(page, built_bits(extensions), &asked, buffer))
}

/// The HTML of a page that may not be UTF-8, as [`html_unsafe`] has it and with U+FFFD as of [`html_lossy`].
///
/// # Panics
///
/// As of [`html`].
///
/// ```
/// use fillaqut::{html_unsafe_lossy, Extensions};
/// assert_eq!(html_unsafe_lossy(b"\xff<b>", Extensions::default()), "<p>\u{fffd}<b></p>\n");
/// ```
#[must_use]
pub fn html_unsafe_lossy(page: &[u8], extensions: Extensions) -> String {
    written(page.len(), |buffer| raw::html_unsafe(page, built_bits(extensions), buffer))
}

/// The HTML of a page, as the examples write it. Raw HTML stands in it as it is, and links lead anywhere: it is for text of one's own,
/// and [`html`] for text by others. (3 to 6)
///
/// # Panics
///
/// As of [`html`].
///
/// ```
/// use fillaqut::{html_unsafe, Extensions};
/// assert_eq!(html_unsafe("# A\n<b>", Extensions::default()), "<h1>A</h1>\n<b>\n");
/// let asked = Extensions { strikethrough: true, ..Extensions::default() };
/// assert_eq!(html_unsafe("~~a~~", asked), "<p><del>a</del></p>\n");
/// ```
#[must_use]
pub fn html_unsafe(text: &str, extensions: Extensions) -> String {
    html_unsafe_lossy(text.as_bytes(), extensions)
}

/// What is written where there is room, which is made anew where it is too short.
fn written(length: usize, write: impl Fn(&mut [u8]) -> ffi::Text) -> String {
    let mut buffer = vec![0; 2 * length + 64];
    loop {
        let found = write(&mut buffer);
        let is_short = found.status == ffi::TOO_SHORT;
        buffer.resize(found.length, 0);
        if !is_short {
            return string(buffer);
        }
    }
}
