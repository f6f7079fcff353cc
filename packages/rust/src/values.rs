//! What the scanners return: levels, alignments, kinds, and why a call refuses what it is given.

use core::error::Error;
use core::fmt;

use crate::raw::ffi;

/// The level of a heading.
#[derive(Clone, Copy, Debug, PartialEq, Eq, PartialOrd, Ord, Hash)]
#[allow(missing_docs)]
pub enum HeadingLevel {
    H1 = 1,
    H2,
    H3,
    H4,
    H5,
    H6,
}

impl HeadingLevel {
    #[inline]
    pub(crate) fn of(level: u32) -> Option<Self> {
        match level {
            1 => Some(HeadingLevel::H1),
            2 => Some(HeadingLevel::H2),
            3 => Some(HeadingLevel::H3),
            4 => Some(HeadingLevel::H4),
            5 => Some(HeadingLevel::H5),
            6 => Some(HeadingLevel::H6),
            _ => None,
        }
    }
}

/// ```
/// use fillaqut::{HeadingLevel, InvalidHeadingLevel};
///
/// assert_eq!(HeadingLevel::try_from(2), Ok(HeadingLevel::H2));
/// assert_eq!(HeadingLevel::try_from(7), Err(InvalidHeadingLevel(7)));
/// ```
impl TryFrom<usize> for HeadingLevel {
    type Error = InvalidHeadingLevel;

    fn try_from(number: usize) -> Result<Self, InvalidHeadingLevel> {
        u32::try_from(number).ok().and_then(HeadingLevel::of).ok_or(InvalidHeadingLevel(number))
    }
}

/// The name of its element in HTML.
///
/// ```
/// assert_eq!(fillaqut::HeadingLevel::H2.to_string(), "h2");
/// ```
impl fmt::Display for HeadingLevel {
    fn fmt(&self, f: &mut fmt::Formatter<'_>) -> fmt::Result {
        f.pad(["h1", "h2", "h3", "h4", "h5", "h6"][*self as usize - 1])
    }
}

/// A number that is no level of a heading: 0, or above 6.
#[derive(Clone, Copy, Debug, PartialEq, Eq, PartialOrd, Ord, Hash)]
pub struct InvalidHeadingLevel(pub usize);

impl fmt::Display for InvalidHeadingLevel {
    fn fmt(&self, f: &mut fmt::Formatter<'_>) -> fmt::Result {
        write!(f, "no heading has the level {}", self.0)
    }
}

impl Error for InvalidHeadingLevel {}

/// How a column of a table is aligned.
#[derive(Clone, Copy, Debug, PartialEq, Eq, Hash)]
#[allow(missing_docs)]
pub enum Alignment {
    None,
    Left,
    Center,
    Right,
}

impl Alignment {
    pub(crate) fn of(number: u8) -> Self {
        match u32::from(number) {
            ffi::ALIGN_LEFT => Alignment::Left,
            ffi::ALIGN_CENTER => Alignment::Center,
            ffi::ALIGN_RIGHT => Alignment::Right,
            _ => Alignment::None,
        }
    }
}

/// A list item's marker.
#[derive(Clone, Copy, Debug, PartialEq, Eq, Hash)]
pub struct ListItem {
    /// The bytes of the marker and of the space that belongs to it.
    pub length: usize,
    /// `-`, `+` or `*`; `.` or `)` of an ordered item.
    pub delimiter: u8,
    /// The number of an ordered item, else 0.
    pub start: usize,
    /// The columns of the marker and of that space.
    pub indent: usize,
}

/// The kind of an alert, which is a block quote.
#[derive(Clone, Copy, Debug, PartialEq, Eq, Hash)]
#[allow(missing_docs)]
pub enum BlockQuoteKind {
    Note,
    Tip,
    Important,
    Warning,
    Caution,
}

impl BlockQuoteKind {
    pub(crate) fn of(kind: u32) -> Option<Self> {
        match kind {
            ffi::ALERT_NOTE => Some(BlockQuoteKind::Note),
            ffi::ALERT_TIP => Some(BlockQuoteKind::Tip),
            ffi::ALERT_IMPORTANT => Some(BlockQuoteKind::Important),
            ffi::ALERT_WARNING => Some(BlockQuoteKind::Warning),
            ffi::ALERT_CAUTION => Some(BlockQuoteKind::Caution),
            _ => None,
        }
    }
}

/// The kind of an HTML block, by the number of its start and end conditions.
#[derive(Clone, Copy, Debug, PartialEq, Eq, PartialOrd, Ord, Hash)]
pub enum HtmlBlockKind {
    /// `<pre`, `<script`, `<style` or `<textarea`, to a line with a closing tag of one of them.
    RawText = 1,
    /// `<!--`, to a line with `-->`.
    Comment,
    /// `<?`, to a line with `?>`.
    Processing,
    /// `<!` and a letter, to a line with `>`.
    Declaration,
    /// `<![CDATA[`, to a line with `]]>`.
    Cdata,
    /// A tag with one of 62 names, to a blank line.
    BlockName,
    /// Another tag alone in its line, to a blank line. It can't interrupt a paragraph.
    TagAlone,
}

impl HtmlBlockKind {
    pub(crate) fn of(kind: u32) -> Option<Self> {
        use HtmlBlockKind::*;
        let kinds = [RawText, Comment, Processing, Declaration, Cdata, BlockName, TagAlone];
        kinds.into_iter().find(|it| *it as u32 == kind)
    }
}

/// How a link or an image is written.
#[derive(Clone, Copy, Debug, PartialEq, Eq, Hash)]
#[non_exhaustive]
pub enum LinkType {
    /// With a destination and perhaps a title in parentheses.
    Inline,
    /// With a label in brackets.
    Reference,
    /// With `[]`.
    Collapsed,
    /// With neither.
    Shortcut,
    /// An absolute URI in angle brackets.
    Autolink,
    /// An email address in angle brackets.
    Email,
    /// As a wikilink.
    WikiLink {
        /// Whether a pipe and a text follow its target.
        has_pothole: bool,
    },
}

impl LinkType {
    pub(crate) fn of(kind: u32) -> Self {
        match kind {
            ffi::LINK_REFERENCE => LinkType::Reference,
            ffi::LINK_COLLAPSED => LinkType::Collapsed,
            ffi::LINK_SHORTCUT => LinkType::Shortcut,
            ffi::LINK_AUTOLINK => LinkType::Autolink,
            ffi::LINK_EMAIL => LinkType::Email,
            ffi::LINK_WIKI => LinkType::WikiLink { has_pothole: false },
            ffi::LINK_WIKI_PIPED => LinkType::WikiLink { has_pothole: true },
            _ => LinkType::Inline,
        }
    }
}

/// A table of skips is not of this text: its offsets do not rise, one ends past the text or where the next has begun, or one
/// leaves out other bytes than ASCII of a label.
#[derive(Clone, Copy, Debug, PartialEq, Eq)]
pub struct BadSkips;

impl fmt::Display for BadSkips {
    fn fmt(&self, f: &mut fmt::Formatter<'_>) -> fmt::Result {
        f.write_str("the table of what is left out is not of this text")
    }
}

impl Error for BadSkips {}

/// `None` in place of the number that C has for it.
#[inline]
pub(crate) fn found(length: usize) -> Option<usize> {
    (length != ffi::NONE).then_some(length)
}
