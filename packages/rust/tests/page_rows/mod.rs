//! The rows of packages/pages.tsv.

use std::ops::Range;

use fillaqut::*;

use crate::tables::{each_page, PageRow, HTML_KINDS};

fn container_word(container: &Container) -> String {
    match container {
        Container::Quote { place } => format!("quote@{place}"),
        Container::Footnote { place } => format!("footnote@{place}"),
        Container::TermDefinition { place, width } => format!("term{width}@{place}"),
        Container::Item { place, delimiter, start, width } => {
            format!("item{}{start},{width}@{place}", char::from(*delimiter))
        }
    }
}

fn leaf_word(block: &Block) -> String {
    let word = match block.kind {
        BlockKind::Blank => "blank".into(),
        BlockKind::Break => "break".into(),
        BlockKind::Heading(level) => format!("heading{}", level as usize),
        BlockKind::Setext(level) => format!("setext{}", level as usize),
        BlockKind::Indented => "indented".into(),
        BlockKind::Fenced(count, byte) => format!("fenced{}{count}", char::from(byte)),
        BlockKind::Html(kind) => format!("html{}", 1 + HTML_KINDS.iter().position(|it| *it == kind).unwrap()),
        BlockKind::Table(columns) => format!("table{columns}"),
        BlockKind::Definition => "definition".into(),
        BlockKind::Paragraph => "paragraph".into(),
    };
    format!("{word}:{}-{}", block.lines.start + 1, block.lines.end)
}

/// What begins and ends, and what stands there.
fn blocks_of(row: &PageRow) -> String {
    let (mut words, mut depth) = (vec![], 0);
    for block in scan_blocks(row.text.as_bytes(), extensions(row)) {
        words.extend((block.kept..depth).map(|_| "end".to_owned()));
        words.extend(block.containers()[block.kept..].iter().map(container_word));
        words.push(leaf_word(&block));
        depth = block.containers().len();
    }
    words.extend((0..depth).map(|_| "end".to_owned()));
    words.join(" ")
}

#[test]
fn rows_of_blocks() {
    each_page("scan_blocks", |row| assert_eq!(blocks_of(row), row.answer, "{}", row.place));
    each_page("block_content", |row| {
        let blocks = scan_blocks(row.text.as_bytes(), extensions(row));
        let contents: Vec<u8> = blocks.flat_map(|it| [it.content(), b"|".to_vec()].concat()).collect();
        assert_eq!(String::from_utf8(contents).unwrap(), row.answer, "{}", row.place);
    });
}

#[test]
fn rows_of_lists() {
    each_page("scan_lists", |row| {
        let words = scan_lists(row.text.as_bytes(), extensions(row)).into_iter().map(|it| {
            let looseness = if it.is_loose { "loose" } else { "tight" };
            let (first, last) = (it.lines.start + 1, it.lines.end);
            format!("{}{}@{}:{first}-{last} {looseness}", char::from(it.delimiter), it.start, it.depth)
        });
        assert_eq!(words.collect::<Vec<_>>().join(" "), row.answer, "{}", row.place);
    });
}

/// The text of a code span: line endings are spaces, and one space at each end is left out, unless all are spaces. (6.1)
fn code(text: &str) -> String {
    let text = text.replace('\n', " ");
    let inner = text.strip_prefix(' ').and_then(|it| it.strip_suffix(' '));
    inner.filter(|it| it.contains(|character| character != ' ')).unwrap_or(&text).to_owned()
}

/// The destination and the title of the first definition whose label matches.
fn defined<'row>(row: &'row PageRow, label: &str) -> (&'row str, &'row str) {
    let of = |name: &'row str| row.words.iter().filter(move |(it, _)| it == name).map(|(_, text)| &text[..]);
    let number = of("label").position(|it| labels_match(it, label)).unwrap();
    (of("destination").nth(number).unwrap(), of("title").nth(number).unwrap())
}

/// Where a link or an image leads.
fn target(row: &PageRow, link: &Link) -> String {
    let text = |range: &Range<usize>| &row.text[range.clone()];
    let (destination, title) = match &link.target {
        LinkTarget::Wiki(target) => return format!("{}|", text(target)),
        LinkTarget::Inline { destination, title } => (text(destination), title.as_ref().map_or("", text)),
        LinkTarget::Full(label) | LinkTarget::Collapsed(label) | LinkTarget::Shortcut(label) => {
            let (length, label) = scan_link_label_rest(&row.text[label.start..], &[], false).unwrap().unwrap();
            assert!(length > label.len(), "{}", row.place);
            defined(row, &label)
        }
    };
    format!("{}|{}", unescape(destination, false), unescape(title, false))
}

fn inline_word(row: &PageRow, it: &Inline) -> String {
    let text = &row.text[it.range.clone()];
    match &it.kind {
        InlineKind::Text => text.into(),
        InlineKind::Escape | InlineKind::Reference => unescape(text, false).into(),
        InlineKind::Code(content) => format!("<code>{}</code>", code(&row.text[content.clone()])),
        InlineKind::Uri(content) => format!("<a {0}|>{0}</>", &row.text[content.clone()]),
        InlineKind::Email(content) => format!("<a mailto:{0}|>{0}</>", &row.text[content.clone()]),
        InlineKind::Html => format!("<html>{text}</html>"),
        InlineKind::SoftBreak => "\n".into(),
        InlineKind::HardBreak => "<br>".into(),
        InlineKind::StartEmphasis => "<em>".into(),
        InlineKind::EndEmphasis => "</em>".into(),
        InlineKind::StartStrong => "<strong>".into(),
        InlineKind::EndStrong => "</strong>".into(),
        InlineKind::StartStrikethrough => "<del>".into(),
        InlineKind::EndStrikethrough => "</del>".into(),
        InlineKind::StartLink(link) => format!("<a {}>", target(row, link)),
        InlineKind::StartImage(link) => format!("<img {}>", target(row, link)),
        InlineKind::EndLink => "</>".into(),
    }
}

#[test]
fn rows_of_inlines() {
    each_page("scan_inlines", |row| {
        let labels: Vec<&str> = row.words.iter().filter(|(name, _)| name == "label").map(|(_, it)| &it[..]).collect();
        let inlines = scan_inlines(&row.text, &labels, extensions(row));
        let found: String = inlines.map(|it| inline_word(row, &it)).collect();
        assert_eq!(found, row.answer, "{}", row.place);
    });
}

fn extensions(row: &PageRow) -> Extensions {
    Extensions {
        tables: row.asks("tables"),
        footnotes: row.asks("footnotes"),
        strikethrough: row.asks("strikethrough"),
        tasks: row.asks("tasks"),
        definition_lists: row.asks("definition-lists"),
        wikilinks: row.asks("wikilinks"),
    }
}

#[test]
fn rows_of_html() {
    each_page("html_unsafe", |row| assert_eq!(html_unsafe(&row.text, extensions(row)), row.answer, "{}", row.place));
    each_page("html", |row| {
        let schemes = schemes(row);
        let setting = setting(row, &schemes);
        assert_eq!(html_with(&row.text, extensions(row), &setting), row.answer, "{}", row.place);
        if setting == HtmlSetting::default() {
            assert_eq!(html(&row.text, extensions(row)), row.answer, "{}", row.place);
        }
    });
}

/// The scheme that a row names, if it does.
fn schemes(row: &PageRow) -> Vec<&str> {
    row.words.iter().filter(|(name, _)| name == "scheme").map(|(_, scheme)| &scheme[..]).collect()
}

/// The setting that a row asks for.
fn setting<'a>(row: &PageRow, schemes: &'a [&'a str]) -> HtmlSetting<'a> {
    let is_asked = |name, field| row.words.iter().any(|word| word.0 == name && word.1 == field);
    HtmlSetting {
        schemes: if schemes.is_empty() { DEFAULT_SCHEMES } else { schemes },
        raw_html: if is_asked("raw_html", "omitted") { RawHtml::Omitted } else { RawHtml::Escaped },
        rel: !is_asked("rel", "none"),
        images_as_links: is_asked("images_as_links", "yes"),
    }
}

fn quoted(text: &str) -> String {
    format!(" \"{}\"", text.replace('\n', "\\n"))
}

fn target_words(target: &Target) -> String {
    let kind = match target.link_type {
        LinkType::Inline => "inline",
        LinkType::Reference => "reference",
        LinkType::Collapsed => "collapsed",
        LinkType::Shortcut => "shortcut",
        LinkType::Autolink => "autolink",
        LinkType::Email => "email",
        LinkType::WikiLink { has_pothole: false } => "wikilink",
        LinkType::WikiLink { has_pothole: true } => "piped wikilink",
        kind => panic!("not asked for: {kind:?}"),
    };
    let label = if target.id.is_empty() { String::new() } else { quoted(&target.id) };
    format!(" {kind}{}{}{label}", quoted(&target.dest_url), quoted(&target.title))
}

fn start_words(tag: &Tag) -> String {
    match tag {
        Tag::Paragraph => "paragraph".into(),
        Tag::Heading(level) => format!("heading {}", *level as usize),
        Tag::BlockQuote => "block quote".into(),
        Tag::CodeBlock(CodeBlockKind::Indented) => "code block".into(),
        Tag::CodeBlock(CodeBlockKind::Fenced(info)) => format!("code block{}", quoted(info)),
        Tag::HtmlBlock => "html block".into(),
        Tag::List(start) => format!("list{}", start.map_or(String::new(), |it| format!(" {it}"))),
        Tag::Item => "item".into(),
        Tag::Table(alignments) => {
            let words = alignments.iter().map(|it| format!(" {it:?}").to_lowercase());
            format!("table{}", words.collect::<String>())
        }
        Tag::TableHead => "table head".into(),
        Tag::TableRow => "table row".into(),
        Tag::TableCell => "table cell".into(),
        Tag::Emphasis => "emphasis".into(),
        Tag::Strong => "strong".into(),
        Tag::Strikethrough => "strikethrough".into(),
        Tag::Link(target) => format!("link{}", target_words(target)),
        Tag::Image(target) => format!("image{}", target_words(target)),
        tag => panic!("not asked for: {tag:?}"),
    }
}

fn end_words(tag: TagEnd) -> String {
    let word = match tag {
        TagEnd::Heading(level) => return format!("heading {}", level as usize),
        TagEnd::Paragraph => "paragraph",
        TagEnd::BlockQuote => "block quote",
        TagEnd::CodeBlock => "code block",
        TagEnd::HtmlBlock => "html block",
        TagEnd::List(_) => "list",
        TagEnd::Item => "item",
        TagEnd::Table => "table",
        TagEnd::TableHead => "table head",
        TagEnd::TableRow => "table row",
        TagEnd::TableCell => "table cell",
        TagEnd::Emphasis => "emphasis",
        TagEnd::Strong => "strong",
        TagEnd::Strikethrough => "strikethrough",
        TagEnd::Link => "link",
        TagEnd::Image => "image",
        tag => panic!("not asked for: {tag:?}"),
    };
    word.into()
}

/// The line of an event.
fn event_line((event, range): (Event, Range<usize>)) -> String {
    let words = match event {
        Event::Start(tag) => format!("start {}", start_words(&tag)),
        Event::End(tag) => format!("end {}", end_words(tag)),
        Event::Text(text) => format!("text{}", quoted(&text)),
        Event::Code(text) => format!("code{}", quoted(&text)),
        Event::Html(text) => format!("html{}", quoted(&text)),
        Event::InlineHtml(text) => format!("inline html{}", quoted(&text)),
        Event::SoftBreak => "soft break".into(),
        Event::HardBreak => "hard break".into(),
        Event::Rule => "rule".into(),
        Event::TaskListMarker(is_checked) => format!("{}checked task", if is_checked { "" } else { "un" }),
        event => panic!("not asked for: {event:?}"),
    };
    format!("{} {} {words}\n", range.start, range.end)
}

#[test]
fn rows_of_events() {
    each_page("events", |row| {
        let events = Parser::new(&row.text, extensions(row)).into_offset_iter();
        assert_eq!(events.map(event_line).collect::<String>(), row.answer, "{}", row.place);
    });
}
