//! The inlines of a text. Sections in brackets are those of CommonMark 0.31.2.

use alloc::vec;
use alloc::vec::IntoIter;
use core::ops::Range;

use crate::extensions::Extensions;
use crate::raw::{self, ffi};

/// What an inline is, or what begins or ends there.
#[derive(Clone, Debug, PartialEq, Eq, Hash)]
pub enum InlineKind {
    /// Text. Delimiters in no emphasis and brackets of no link are text too. (6.9)
    Text,
    /// A backslash and the punctuation that it escapes. (2.4)
    Escape,
    /// A character reference. (2.5)
    Reference,
    /// A code span, with where its content stands. (6.1)
    Code(Range<usize>),
    /// An absolute URI in angle brackets, with where it stands between them. (6.5)
    Uri(Range<usize>),
    /// An email address in angle brackets, with where it stands between them. (6.5)
    Email(Range<usize>),
    /// Raw HTML. (6.6)
    Html,
    /// A soft line break, with the spaces around it. (6.8)
    SoftBreak,
    /// A hard line break, with the spaces around it and the backslash that may make it. (6.7)
    HardBreak,
    /// Emphasis begins. (6.2)
    StartEmphasis,
    /// The innermost emphasis that has begun ends.
    EndEmphasis,
    /// Strong emphasis begins. (6.2)
    StartStrong,
    /// The innermost strong emphasis that has begun ends.
    EndStrong,
    /// A link begins. (6.3)
    StartLink(Link),
    /// An image begins. (6.4)
    StartImage(Link),
    /// The innermost link or image that has begun ends.
    EndLink,
    /// Strikethrough begins, with [`Extensions::strikethrough`].
    StartStrikethrough,
    /// The innermost strikethrough that has begun ends.
    EndStrikethrough,
}

/// Where a link or an image leads, and where it ends.
#[derive(Clone, Debug, PartialEq, Eq, Hash)]
pub struct Link {
    /// Where it leads.
    pub target: LinkTarget,
    /// The place after all of it.
    pub end: usize,
}

/// Where a link or an image leads, by what follows its text, or as a wikilink. The parts stand there as they are written: [`unescape`] decodes a
/// destination and a title, and [`scan_link_label_rest`] reads the label that begins there. (6.3)
///
/// [`unescape`]: crate::unescape
/// [`scan_link_label_rest`]: crate::scan_link_label_rest
#[derive(Clone, Debug, PartialEq, Eq, Hash)]
pub enum LinkTarget {
    /// A destination and perhaps a title in parentheses.
    Inline {
        /// Where the destination stands, without angle brackets.
        destination: Range<usize>,
        /// Where the title stands, without the bytes around it.
        title: Option<Range<usize>>,
    },
    /// A label, with where it stands between its brackets.
    Full(Range<usize>),
    /// `[]`; the text of the link, which stands there, is the label.
    Collapsed(Range<usize>),
    /// Neither; the text of the link, which stands there, is the label.
    Shortcut(Range<usize>),
    /// It is a wikilink, whose target stands there before its text: its bytes stand for themselves. One that has no text shows its
    /// target.
    Wiki(Range<usize>),
}

/// An inline that holds no others, or where one begins or ends that does.
#[derive(Clone, Debug, PartialEq, Eq, Hash)]
pub struct Inline {
    /// What it is.
    pub kind: InlineKind,
    /// Its bytes: of emphasis and strikethrough the delimiters that begin or end it, of a link or an image its left bracket, with
    /// the `!` of an image, or its right bracket and what follows there that belongs to it; of a wikilink that begins all before
    /// its text.
    pub range: Range<usize>,
}

/// The inlines of a text.
#[derive(Clone, Debug)]
pub struct Inlines {
    returned: IntoIter<ffi::Inline>,
}

/// The inlines of a text, in order: of the content of a paragraph or a heading, as [`Block::content`] has it. Joined, they are the
/// text, and they nest: each that begins ends. Text may stand in several, one after another.
///
/// `labels` are those that are defined, each as [`scan_link_label_rest`] answers it. What refers to a label that matches none of
/// them is text. Of the extensions strikethrough and wikilinks are read in a text, and the others change nothing.
///
/// [`Block::content`]: crate::Block::content
/// [`scan_link_label_rest`]: crate::scan_link_label_rest
///
/// ```
/// use fillaqut::{scan_inlines, Extensions, InlineKind, LinkTarget};
/// let inlines: Vec<_> = scan_inlines("*a* [B]", &["b"], Extensions::default()).collect();
/// assert_eq!((&inlines[0].kind, &inlines[1].range), (&InlineKind::StartEmphasis, &(1..2)));
/// let InlineKind::StartLink(link) = &inlines[4].kind else { panic!() };
/// assert_eq!((&link.target, link.end), (&LinkTarget::Shortcut(5..6), 7));
/// let asked = Extensions { strikethrough: true, ..Default::default() };
/// let struck = scan_inlines("~~a~~", &[], asked).next().unwrap();
/// assert_eq!((struck.kind, struck.range), (InlineKind::StartStrikethrough, 0..2));
/// ```
#[must_use]
pub fn scan_inlines(text: &str, labels: &[&str], extensions: Extensions) -> Inlines {
    let mut returned = vec![ffi::Inline::default(); text.len() / 16 + 8];
    loop {
        let found = raw::scan_inlines(text, labels, extensions.bits(), &mut returned);
        let is_short = found.status == ffi::TOO_SHORT;
        returned.resize(found.count, ffi::Inline::default());
        if !is_short {
            return Inlines { returned: returned.into_iter() };
        }
    }
}

impl Iterator for Inlines {
    type Item = Inline;

    fn next(&mut self) -> Option<Inline> {
        let returned = self.returned.next()?;
        Some(Inline { kind: kind_of(&returned), range: span(returned.start, returned.length) })
    }

    fn size_hint(&self) -> (usize, Option<usize>) {
        self.returned.size_hint()
    }
}

impl ExactSizeIterator for Inlines {}

fn span(start: usize, length: usize) -> Range<usize> {
    start..start + length
}

/// What stands between so many bytes on each side.
fn inner(returned: &ffi::Inline, count: usize) -> Range<usize> {
    returned.start + count..returned.start + returned.length - count
}

fn kind_of(returned: &ffi::Inline) -> InlineKind {
    match returned.kind {
        ffi::INLINE_ESCAPE => InlineKind::Escape,
        ffi::INLINE_REFERENCE => InlineKind::Reference,
        ffi::INLINE_CODE => InlineKind::Code(inner(returned, returned.count)),
        ffi::INLINE_URI => InlineKind::Uri(inner(returned, 1)),
        ffi::INLINE_EMAIL => InlineKind::Email(inner(returned, 1)),
        ffi::INLINE_HTML => InlineKind::Html,
        ffi::INLINE_SOFT_BREAK => InlineKind::SoftBreak,
        ffi::INLINE_HARD_BREAK => InlineKind::HardBreak,
        ffi::INLINE_EMPHASIS => InlineKind::StartEmphasis,
        ffi::INLINE_EMPHASIS_END => InlineKind::EndEmphasis,
        ffi::INLINE_STRONG => InlineKind::StartStrong,
        ffi::INLINE_STRONG_END => InlineKind::EndStrong,
        ffi::INLINE_LINK => InlineKind::StartLink(link_of(returned)),
        ffi::INLINE_IMAGE => InlineKind::StartImage(link_of(returned)),
        ffi::INLINE_LINK_END => InlineKind::EndLink,
        ffi::INLINE_STRIKETHROUGH => InlineKind::StartStrikethrough,
        ffi::INLINE_STRIKETHROUGH_END => InlineKind::EndStrikethrough,
        _ => InlineKind::Text,
    }
}

fn link_of(returned: &ffi::Inline) -> Link {
    let label = span(returned.label_start, returned.label_length);
    let target = match returned.target {
        ffi::TARGET_FULL => LinkTarget::Full(label),
        ffi::TARGET_COLLAPSED => LinkTarget::Collapsed(label),
        ffi::TARGET_SHORTCUT => LinkTarget::Shortcut(label),
        ffi::TARGET_WIKI => LinkTarget::Wiki(span(returned.destination_start, returned.destination_length)),
        _ => LinkTarget::Inline {
            destination: span(returned.destination_start, returned.destination_length),
            title: (returned.title_start != ffi::NONE).then(|| span(returned.title_start, returned.title_length)),
        },
    };
    Link { target, end: returned.end }
}
