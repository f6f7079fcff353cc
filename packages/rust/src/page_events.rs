//! The events of a page. Sections in brackets are those of CommonMark 0.31.2.

use alloc::borrow::{Cow, ToOwned};
use alloc::string::String;
use alloc::vec;
use alloc::vec::{IntoIter, Vec};
use core::iter::FusedIterator;
use core::ops::Range;

use crate::extensions::Extensions;
use crate::inline::string;
use crate::page_html::built_bits;
use crate::raw::{self, ffi};
use crate::values::{Alignment, HeadingLevel, LinkType};

/// A part of a page. Starts and ends balance: each `Start` has its `End` after it, and the events in between stand in that element.
#[derive(Clone, Debug, PartialEq, Eq)]
#[non_exhaustive]
pub enum Event<'a> {
    /// An element begins.
    Start(Tag<'a>),
    /// The element ends that has begun last, of those that have not ended.
    End(TagEnd),
    /// Text, its escapes and references resolved; of code and HTML blocks as it is.
    Text(Cow<'a, str>),
    /// A code span. (6.1)
    Code(Cow<'a, str>),
    /// A line of an HTML block. (4.6)
    Html(Cow<'a, str>),
    /// Raw HTML in a text. (6.6)
    InlineHtml(Cow<'a, str>),
    /// A line ending in a paragraph. (6.8)
    SoftBreak,
    /// A line ending that is kept. (6.7)
    HardBreak,
    /// A thematic break. (4.1)
    Rule,
    /// The box of a list item, and whether it is checked. (GitHub Flavored Markdown 0.29, section 5.3)
    TaskListMarker(bool),
}

/// What begins, and what is known of it then.
#[derive(Clone, Debug, PartialEq, Eq)]
#[non_exhaustive]
pub enum Tag<'a> {
    /// A paragraph. (4.8)
    Paragraph,
    /// A heading, of this level. (4.2, 4.3)
    Heading(HeadingLevel),
    /// A block quote. (5.1)
    BlockQuote,
    /// A code block. (4.4, 4.5)
    CodeBlock(CodeBlockKind<'a>),
    /// An HTML block. (4.6)
    HtmlBlock,
    /// A list; of an ordered one the number of its first item. (5.3)
    List(Option<u64>),
    /// A list item. (5.2)
    Item,
    /// A table, with the alignment of each column. (GitHub Flavored Markdown 0.29, section 4.10)
    Table(Vec<Alignment>),
    /// The first row of a table.
    TableHead,
    /// Each later row.
    TableRow,
    /// A cell of a row.
    TableCell,
    /// Emphasis. (6.2)
    Emphasis,
    /// Strong emphasis. (6.2)
    Strong,
    /// Text that is struck through. (GitHub Flavored Markdown 0.29, section 6.5)
    Strikethrough,
    /// A link. (6.3, 6.5)
    Link(Target<'a>),
    /// An image. (6.4)
    Image(Target<'a>),
}

/// What ends.
#[derive(Clone, Copy, Debug, PartialEq, Eq, Hash)]
#[non_exhaustive]
#[allow(missing_docs)] // each is that of `Tag`
pub enum TagEnd {
    Paragraph,
    Heading(HeadingLevel),
    BlockQuote,
    CodeBlock,
    HtmlBlock,
    /// Whether the list is ordered.
    List(bool),
    Item,
    Table,
    TableHead,
    TableRow,
    TableCell,
    Emphasis,
    Strong,
    Strikethrough,
    Link,
    Image,
}

/// How a code block is written.
#[derive(Clone, Debug, PartialEq, Eq)]
pub enum CodeBlockKind<'a> {
    /// It is indented. (4.4)
    Indented,
    /// It has fences; with its info string, escapes and references resolved. (4.5)
    Fenced(Cow<'a, str>),
}

/// Where a link or an image leads.
#[derive(Clone, Debug, PartialEq, Eq)]
pub struct Target<'a> {
    /// How it is written.
    pub link_type: LinkType,
    /// Its destination, escapes and references resolved.
    pub dest_url: Cow<'a, str>,
    /// Its title, the same; empty where there is none.
    pub title: Cow<'a, str>,
    /// Of a reference its label, as it is written, else empty.
    pub id: Cow<'a, str>,
}

impl Event<'_> {
    /// The same event, which borrows nothing of the page.
    ///
    /// ```
    /// use fillaqut::{Event, Extensions, Parser};
    /// let page = String::from("a");
    /// let kept: Vec<Event<'static>> = Parser::new(&page, Extensions::default()).map(Event::into_static).collect();
    /// drop(page);
    /// assert_eq!(kept[1], Event::Text("a".into()));
    /// ```
    #[must_use]
    pub fn into_static(self) -> Event<'static> {
        match self {
            Event::Start(tag) => Event::Start(tag.into_static()),
            Event::End(tag) => Event::End(tag),
            Event::Text(text) => Event::Text(owned(text)),
            Event::Code(text) => Event::Code(owned(text)),
            Event::Html(text) => Event::Html(owned(text)),
            Event::InlineHtml(text) => Event::InlineHtml(owned(text)),
            Event::SoftBreak => Event::SoftBreak,
            Event::HardBreak => Event::HardBreak,
            Event::Rule => Event::Rule,
            Event::TaskListMarker(is_checked) => Event::TaskListMarker(is_checked),
        }
    }
}

impl Tag<'_> {
    /// What ends it.
    ///
    /// ```
    /// use fillaqut::{Tag, TagEnd};
    /// assert_eq!(Tag::List(Some(7)).to_end(), TagEnd::List(true));
    /// ```
    #[must_use]
    pub fn to_end(&self) -> TagEnd {
        match self {
            Tag::Paragraph => TagEnd::Paragraph,
            Tag::Heading(level) => TagEnd::Heading(*level),
            Tag::BlockQuote => TagEnd::BlockQuote,
            Tag::CodeBlock(_) => TagEnd::CodeBlock,
            Tag::HtmlBlock => TagEnd::HtmlBlock,
            Tag::List(first) => TagEnd::List(first.is_some()),
            Tag::Item => TagEnd::Item,
            Tag::Table(_) => TagEnd::Table,
            Tag::TableHead => TagEnd::TableHead,
            Tag::TableRow => TagEnd::TableRow,
            Tag::TableCell => TagEnd::TableCell,
            Tag::Emphasis => TagEnd::Emphasis,
            Tag::Strong => TagEnd::Strong,
            Tag::Strikethrough => TagEnd::Strikethrough,
            Tag::Link(_) => TagEnd::Link,
            Tag::Image(_) => TagEnd::Image,
        }
    }

    /// The same tag, which borrows nothing of the page.
    ///
    /// ```
    /// use fillaqut::{Event, Extensions, Parser, Tag};
    /// let page = String::from("# a");
    /// let Some(Event::Start(tag)) = Parser::new(&page, Extensions::default()).next() else { panic!() };
    /// let kept: Tag<'static> = tag.into_static();
    /// drop(page);
    /// assert_eq!(kept, Tag::Heading(fillaqut::HeadingLevel::H1));
    /// ```
    #[must_use]
    pub fn into_static(self) -> Tag<'static> {
        match self {
            Tag::Paragraph => Tag::Paragraph,
            Tag::Heading(level) => Tag::Heading(level),
            Tag::BlockQuote => Tag::BlockQuote,
            Tag::CodeBlock(kind) => Tag::CodeBlock(kind.into_static()),
            Tag::HtmlBlock => Tag::HtmlBlock,
            Tag::List(first) => Tag::List(first),
            Tag::Item => Tag::Item,
            Tag::Table(alignments) => Tag::Table(alignments),
            Tag::TableHead => Tag::TableHead,
            Tag::TableRow => Tag::TableRow,
            Tag::TableCell => Tag::TableCell,
            Tag::Emphasis => Tag::Emphasis,
            Tag::Strong => Tag::Strong,
            Tag::Strikethrough => Tag::Strikethrough,
            Tag::Link(target) => Tag::Link(target.into_static()),
            Tag::Image(target) => Tag::Image(target.into_static()),
        }
    }
}

impl CodeBlockKind<'_> {
    /// The same kind, which borrows nothing of the page.
    ///
    /// ```
    /// use fillaqut::CodeBlockKind;
    /// let kept: CodeBlockKind<'static> = CodeBlockKind::Fenced(String::from("rust").as_str().into()).into_static();
    /// assert_eq!(kept, CodeBlockKind::Fenced("rust".into()));
    /// ```
    #[must_use]
    pub fn into_static(self) -> CodeBlockKind<'static> {
        match self {
            CodeBlockKind::Indented => CodeBlockKind::Indented,
            CodeBlockKind::Fenced(info) => CodeBlockKind::Fenced(owned(info)),
        }
    }
}

impl Target<'_> {
    /// The same target, which borrows nothing of the page.
    ///
    /// ```
    /// use fillaqut::{LinkType, Target};
    /// let page = String::from("b");
    /// let target = Target { link_type: LinkType::Inline, dest_url: page.as_str().into(), title: "".into(), id: "".into() };
    /// let kept: Target<'static> = target.into_static();
    /// drop(page);
    /// assert_eq!(kept.dest_url, "b");
    /// ```
    #[must_use]
    pub fn into_static(self) -> Target<'static> {
        let Target { link_type, dest_url, title, id } = self;
        Target { link_type, dest_url: owned(dest_url), title: owned(title), id: owned(id) }
    }
}

/// The text with memory of its own.
fn owned(text: Cow<'_, str>) -> Cow<'static, str> {
    Cow::Owned(text.into_owned())
}

/// The events of a page, in order. All of them are made when it is; a text that stands in the page as it is is lent from there.
///
/// ```
/// use fillaqut::{Event, Extensions, Parser, Tag};
/// let mut parser = Parser::new("*a* &amp;", Extensions::default());
/// assert_eq!(parser.nth(1), Some(Event::Start(Tag::Emphasis)));
/// let texts: Vec<_> = parser.filter(|it| matches!(it, Event::Text(_))).collect();
/// assert_eq!(texts, [Event::Text("a".into()), Event::Text(" ".into()), Event::Text("&".into())]);
/// ```
#[derive(Clone, Debug)]
pub struct Parser<'a> {
    events: OffsetIter<'a>,
}

/// The same events, each with the range of its source: both events of an element have that of the whole.
#[derive(Clone, Debug)]
pub struct OffsetIter<'a> {
    page: &'a str,
    texts: String,
    returned: IntoIter<ffi::Event>,
}

impl<'a> Parser<'a> {
    /// The events of a page, which is read with these extensions. (3 to 6)
    ///
    /// # Panics
    ///
    /// Where an extension is asked for that events are not built of yet.
    ///
    /// ```
    /// use fillaqut::{Event, Extensions, Parser};
    /// assert_eq!(Parser::new("***", Extensions::default()).collect::<Vec<_>>(), [Event::Rule]);
    /// ```
    #[must_use]
    pub fn new(page: &'a str, extensions: Extensions) -> Self {
        let extensions = built_bits(extensions);
        let mut events = vec![ffi::Event::default(); page.len() / 8 + 64];
        let mut texts = vec![0; page.len() + 64];
        loop {
            let found = raw::events(page, extensions, &mut events, &mut texts);
            let is_short = found.status == ffi::TOO_SHORT;
            events.resize(found.count, ffi::Event::default());
            texts.resize(found.length, 0);
            if !is_short {
                return Parser { events: OffsetIter { page, texts: string(texts), returned: events.into_iter() } };
            }
        }
    }

    /// The events that are left, each with the range of its source.
    ///
    /// ```
    /// use fillaqut::{Event, Extensions, Parser, Tag};
    /// let mut events = Parser::new("> a", Extensions::default()).into_offset_iter();
    /// assert_eq!(events.next(), Some((Event::Start(Tag::BlockQuote), 0..3)));
    /// assert_eq!(events.next(), Some((Event::Start(Tag::Paragraph), 2..3)));
    /// ```
    #[must_use]
    pub fn into_offset_iter(self) -> OffsetIter<'a> {
        self.events
    }
}

impl<'a> Iterator for Parser<'a> {
    type Item = Event<'a>;

    fn next(&mut self) -> Option<Event<'a>> {
        self.events.next().map(|(event, _)| event)
    }

    fn size_hint(&self) -> (usize, Option<usize>) {
        self.events.size_hint()
    }
}

impl ExactSizeIterator for Parser<'_> {}

impl FusedIterator for Parser<'_> {}

impl<'a> Iterator for OffsetIter<'a> {
    type Item = (Event<'a>, Range<usize>);

    fn next(&mut self) -> Option<Self::Item> {
        let returned = self.returned.next()?;
        Some((self.event(&returned), returned.start..returned.end))
    }

    fn size_hint(&self) -> (usize, Option<usize>) {
        self.returned.size_hint()
    }
}

impl ExactSizeIterator for OffsetIter<'_> {}

impl FusedIterator for OffsetIter<'_> {}

impl<'a> OffsetIter<'a> {
    fn event(&self, returned: &ffi::Event) -> Event<'a> {
        match returned.kind {
            ffi::EVENT_START => Event::Start(self.tag(returned)),
            ffi::EVENT_END => Event::End(end_of(returned)),
            ffi::EVENT_CODE => Event::Code(self.text(returned)),
            ffi::EVENT_HTML => Event::Html(self.text(returned)),
            ffi::EVENT_INLINE_HTML => Event::InlineHtml(self.text(returned)),
            ffi::EVENT_SOFT_BREAK => Event::SoftBreak,
            ffi::EVENT_HARD_BREAK => Event::HardBreak,
            ffi::EVENT_RULE => Event::Rule,
            ffi::EVENT_TASK => Event::TaskListMarker(returned.detail == 1),
            _ => Event::Text(self.text(returned)),
        }
    }

    fn tag(&self, returned: &ffi::Event) -> Tag<'a> {
        match returned.element {
            ffi::ELEMENT_HEADING => Tag::Heading(level_of(returned)),
            ffi::ELEMENT_QUOTE => Tag::BlockQuote,
            ffi::ELEMENT_CODE_BLOCK if returned.detail == 1 => {
                Tag::CodeBlock(CodeBlockKind::Fenced(self.text(returned)))
            }
            ffi::ELEMENT_CODE_BLOCK => Tag::CodeBlock(CodeBlockKind::Indented),
            ffi::ELEMENT_HTML_BLOCK => Tag::HtmlBlock,
            ffi::ELEMENT_LIST => Tag::List((returned.detail == 1).then_some(returned.number)),
            ffi::ELEMENT_ITEM => Tag::Item,
            ffi::ELEMENT_TABLE => {
                Tag::Table(self.words(returned.text_start, returned.text_length).bytes().map(Alignment::of).collect())
            }
            ffi::ELEMENT_TABLE_HEAD => Tag::TableHead,
            ffi::ELEMENT_TABLE_ROW => Tag::TableRow,
            ffi::ELEMENT_TABLE_CELL => Tag::TableCell,
            ffi::ELEMENT_EMPHASIS => Tag::Emphasis,
            ffi::ELEMENT_STRONG => Tag::Strong,
            ffi::ELEMENT_STRIKETHROUGH => Tag::Strikethrough,
            ffi::ELEMENT_LINK => Tag::Link(self.target(returned)),
            ffi::ELEMENT_IMAGE => Tag::Image(self.target(returned)),
            _ => Tag::Paragraph,
        }
    }

    fn target(&self, returned: &ffi::Event) -> Target<'a> {
        Target {
            link_type: LinkType::of(returned.detail),
            dest_url: self.text(returned),
            title: Cow::Owned(self.words(returned.title_start, returned.title_length).to_owned()),
            id: Cow::Owned(self.words(returned.label_start, returned.label_length).to_owned()),
        }
    }

    /// The text of an event, lent from the page where it is its source.
    fn text(&self, returned: &ffi::Event) -> Cow<'a, str> {
        let words = self.words(returned.text_start, returned.text_length);
        match self.page.get(returned.start..returned.end) {
            Some(source) if source == words => Cow::Borrowed(source),
            _ => Cow::Owned(words.to_owned()),
        }
    }

    fn words(&self, start: usize, length: usize) -> &str {
        &self.texts[start..start + length]
    }
}

fn level_of(returned: &ffi::Event) -> HeadingLevel {
    HeadingLevel::of(returned.detail).unwrap_or(HeadingLevel::H6)
}

fn end_of(returned: &ffi::Event) -> TagEnd {
    match returned.element {
        ffi::ELEMENT_HEADING => TagEnd::Heading(level_of(returned)),
        ffi::ELEMENT_QUOTE => TagEnd::BlockQuote,
        ffi::ELEMENT_CODE_BLOCK => TagEnd::CodeBlock,
        ffi::ELEMENT_HTML_BLOCK => TagEnd::HtmlBlock,
        ffi::ELEMENT_LIST => TagEnd::List(returned.detail == 1),
        ffi::ELEMENT_ITEM => TagEnd::Item,
        ffi::ELEMENT_TABLE => TagEnd::Table,
        ffi::ELEMENT_TABLE_HEAD => TagEnd::TableHead,
        ffi::ELEMENT_TABLE_ROW => TagEnd::TableRow,
        ffi::ELEMENT_TABLE_CELL => TagEnd::TableCell,
        ffi::ELEMENT_EMPHASIS => TagEnd::Emphasis,
        ffi::ELEMENT_STRONG => TagEnd::Strong,
        ffi::ELEMENT_STRIKETHROUGH => TagEnd::Strikethrough,
        ffi::ELEMENT_LINK => TagEnd::Link,
        ffi::ELEMENT_IMAGE => TagEnd::Image,
        _ => TagEnd::Paragraph,
    }
}
