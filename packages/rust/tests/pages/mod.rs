//! The examples of CommonMark 0.31.2, by their HTML; and the events of pages.

use std::ops::Range;

use fillaqut::*;

const FENCE: &str = "````````````````````````````````";

/// The pages and the HTML of the specification's examples.
fn examples() -> Vec<(String, String)> {
    let path = concat!(env!("CARGO_MANIFEST_DIR"), "/../../tests/commonmark/spec-0.31.2.txt");
    let text = std::fs::read_to_string(path).unwrap().replace('→', "\t");
    let front = format!("\n{FENCE} example\n");
    let parts = text.split(&front).skip(1).map(|it| it.split_once(FENCE).unwrap().0);
    let both =
        parts.map(|it| it.strip_prefix(".\n").map_or_else(|| it.split_once("\n.\n"), |html| Some(("", html))).unwrap());
    both.map(|(page, html)| (if page.is_empty() { String::new() } else { format!("{page}\n") }, html.to_owned()))
        .collect()
}

#[test]
fn each_example() {
    let examples = examples();
    assert_eq!(examples.len(), 652);
    for (page, expected) in examples {
        assert_eq!(html_unsafe(&page, Extensions::default()), expected, "of {page:?}");
    }
}

fn every() -> Extensions {
    Extensions { tables: true, strikethrough: true, tasks: true, wikilinks: true, ..Extensions::default() }
}

fn events(page: &str) -> Vec<(Event<'_>, Range<usize>)> {
    Parser::new(page, every()).into_offset_iter().collect()
}

fn tags(page: &str) -> Vec<(Tag<'_>, Range<usize>)> {
    let starts = events(page).into_iter().filter_map(|(it, range)| match it {
        Event::Start(tag) => Some((tag, range)),
        _ => None,
    });
    starts.collect()
}

fn target(link_type: LinkType, dest_url: &'static str, title: &'static str, id: &'static str) -> Target<'static> {
    Target { link_type, dest_url: dest_url.into(), title: title.into(), id: id.into() }
}

#[test]
fn texts() {
    let texts: Vec<_> =
        events("a\\*&amp;`b`<i>  \nc\n***\n").into_iter().map(|(it, range)| (it, range.start)).collect();
    let expected = [
        (Event::Start(Tag::Paragraph), 0),
        (Event::Text("a".into()), 0),
        (Event::Text("*".into()), 1),
        (Event::Text("&".into()), 3),
        (Event::Code("b".into()), 8),
        (Event::InlineHtml("<i>".into()), 11),
        (Event::HardBreak, 14),
        (Event::Text("c".into()), 17),
        (Event::End(TagEnd::Paragraph), 0),
        (Event::Rule, 19),
    ];
    assert_eq!(texts, expected);
}

#[test]
fn blocks() {
    assert_eq!(tags("## é\n")[0], (Tag::Heading(HeadingLevel::H2), 0..6));
    assert_eq!(tags("> a")[0], (Tag::BlockQuote, 0..3));
    assert_eq!(tags("``` b&amp; c\n```\n")[0], (Tag::CodeBlock(CodeBlockKind::Fenced("b& c".into())), 0..17));
    assert_eq!(tags("    a\n")[0].0, Tag::CodeBlock(CodeBlockKind::Indented));
    assert_eq!(
        events("<p>\n"),
        [
            (Event::Start(Tag::HtmlBlock), 0..4),
            (Event::Html("<p>\n".into()), 0..4),
            (Event::End(TagEnd::HtmlBlock), 0..4)
        ]
    );
    assert_eq!(tags("7. a\n")[..2], [(Tag::List(Some(7)), 0..5), (Tag::Item, 0..5)]);
    assert_eq!(events("- a").last(), Some(&(Event::End(TagEnd::List(false)), 0..3)));
    assert_eq!(events("- [x] a")[2], (Event::TaskListMarker(true), 2..5));
    let table = tags("|a|b|\n|:-|-:|\n|c|d|\n");
    assert_eq!(table[0].0, Tag::Table(vec![Alignment::Left, Alignment::Right]));
    let kinds: Vec<_> = table[1..].iter().map(|(it, _)| it.clone()).collect();
    assert_eq!(kinds, [Tag::TableHead, Tag::TableCell, Tag::TableCell, Tag::TableRow, Tag::TableCell, Tag::TableCell]);
}

#[test]
fn links() {
    let of = |page: &'static str| tags(page)[1].0.clone();
    assert_eq!(of("[a](<b c> 'd')"), Tag::Link(target(LinkType::Inline, "b c", "d", "")));
    assert_eq!(of("![a][B]\n\n[b]: c\n"), Tag::Image(target(LinkType::Reference, "c", "", "B")));
    assert_eq!(of("[a][]\n\n[a]: c\n"), Tag::Link(target(LinkType::Collapsed, "c", "", "a")));
    assert_eq!(of("[a]\n\n[a]: c\n"), Tag::Link(target(LinkType::Shortcut, "c", "", "a")));
    assert_eq!(of("<ab:c>"), Tag::Link(target(LinkType::Autolink, "ab:c", "", "")));
    assert_eq!(of("<a@b>"), Tag::Link(target(LinkType::Email, "a@b", "", "")));
    assert_eq!(of("[[a]]"), Tag::Link(target(LinkType::WikiLink { has_pothole: false }, "a", "", "")));
    assert_eq!(of("![[a|b]]"), Tag::Image(target(LinkType::WikiLink { has_pothole: true }, "a", "", "")));
    assert_eq!(of("~~*a*~~"), Tag::Strikethrough);
}

/// More events and longer texts than there is room for at first; and texts that stand in the page are lent from there.
#[test]
fn many() {
    assert_eq!(Parser::new(&"a\n".repeat(5000), every()).filter(|it| *it == Event::SoftBreak).count(), 4999);
    let page = format!("{}\n[a]: {}\n", "[a]\n".repeat(20), "b".repeat(5000));
    let links = tags(&page).into_iter().filter(|(it, _)| matches!(it, Tag::Link(to) if to.dest_url.len() == 5000));
    assert_eq!(links.count(), 20);
    let page = "a *b*";
    let lent = Parser::new(page, every()).filter_map(|it| match it {
        Event::Text(std::borrow::Cow::Borrowed(words)) => Some(words),
        _ => None,
    });
    assert_eq!(lent.collect::<Vec<_>>(), ["a ", "b"]);
    assert_eq!(Parser::new("", every()).len(), 0);
}
