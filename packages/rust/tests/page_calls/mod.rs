//! Blocks, lists, inlines and HTML of pages as Rust has them. The values are worked out by hand from CommonMark 0.31.2 and GitHub
//! Flavored Markdown 0.29.

use fillaqut::*;

const NONE: Extensions = Extensions {
    tables: false,
    footnotes: false,
    strikethrough: false,
    tasks: false,
    definition_lists: false,
    wikilinks: false,
};

/// The kinds of the leaf blocks, with their first lines, how many containers they go on with, and how many they stand in.
fn returned(page: &[u8]) -> Vec<(BlockKind, usize, usize, usize)> {
    scan_blocks(page, NONE).map(|it| (it.kind, it.lines.start, it.kept, it.containers().len())).collect()
}

fn contents(page: &str) -> Vec<String> {
    scan_blocks(page.as_bytes(), NONE).map(|it| String::from_utf8(it.content()).unwrap()).collect()
}

/// Examples of CommonMark 0.31.2 by their numbers, and of tables.
#[test]
fn blocks() {
    use BlockKind::*;
    use HeadingLevel::*;
    assert_eq!(returned(b""), []);
    assert_eq!(returned(b"***\n"), [(Break, 0, 0, 0)]);
    assert_eq!(returned(b"## foo ##\n\nbar\n---"), [(Heading(H2), 0, 0, 0), (Blank, 1, 0, 0), (Setext(H2), 2, 0, 0)]);
    assert_eq!(returned(b"````\n```\n"), [(Fenced(4, b'`'), 0, 0, 0)]); // as 124
    assert_eq!(returned(b"<!-- a -->\n"), [(Html(HtmlBlockKind::Comment), 0, 0, 0)]);
    let page = b"| a |\n| - |\n| b |";
    assert_eq!(returned(page), [(Paragraph, 0, 0, 0)]);
    let mut found = scan_blocks(page, Extensions { tables: true, ..NONE }).map(|it| (it.kind, it.lines));
    assert_eq!((found.next(), found.next()), (Some((Table(1), 0..3)), None)); // as 198 of GFM
    let expected = [(Definition, 0, 0, 0), (Setext(H1), 1, 0, 0), (Paragraph, 3, 0, 0)];
    assert_eq!(returned(b"[foo]: /url\nbar\n===\n[foo]\n"), expected); // 215
    assert_eq!(returned(b"> bar\nbaz\n> foo\n"), [(Paragraph, 0, 0, 1)]); // 233
    let expected = [(Paragraph, 0, 0, 1), (Blank, 1, 1, 1), (Indented, 2, 1, 1)];
    assert_eq!(returned(b"- foo\n\n\t\tbar\n"), expected); // 5
    let expected = [(Blank, 0, 0, 1), (Blank, 1, 0, 0), (Paragraph, 2, 0, 0)];
    assert_eq!(returned(b"-\n\n  foo\n"), expected); // 280
    assert_eq!(contents("- foo\n\n\t\tbar\n"), ["foo", "", "  bar\n"]);
    assert_eq!(contents("> bar\nbaz\n> foo\n"), ["bar\nbaz\nfoo"]);
    assert_eq!(contents(" ```\n aaa\naaa\n```\n"), ["aaa\naaa\n"]); // 131
}

#[test]
fn places_of_blocks() {
    let page = b"> - a\n\n   b\n 12) c";
    let blocks: Vec<_> = scan_blocks(page, NONE).collect();
    let quote = Container::Quote { place: 0 };
    let bullet = Container::Item { place: 2, delimiter: b'-', start: 0, width: 2 };
    assert_eq!(blocks[0].containers(), [quote, bullet]);
    assert_eq!((blocks[0].range.clone(), blocks[0].place, blocks[0].indent), (0..6, 4, 0));
    assert_eq!((blocks[2].range.clone(), blocks[2].place, blocks[2].indent), (7..18, 10, 3));
    assert_eq!((blocks.len(), blocks[2].lines.clone()), (3, 2..4)); // the number of an item that ends a paragraph is 1
    let other: Vec<_> = scan_blocks(b" 12) c", NONE).collect();
    assert_eq!(other[0].containers(), [Container::Item { place: 1, delimiter: b')', start: 12, width: 5 }]);
}

/// More blocks and containers than the room that is tried first.
#[test]
fn many_blocks() {
    let page = [">".repeat(1000), "a\n".into(), "\n- ".repeat(500)].concat();
    let blocks: Vec<_> = scan_blocks(page.as_bytes(), NONE).collect();
    assert_eq!((blocks[0].containers().len(), blocks[0].content()), (1000, b"a".to_vec()));
    assert_eq!(blocks.iter().map(|it| it.range.len()).sum::<usize>(), page.len());
    let code = [b" ```\n".to_vec(), b"\ta\n".repeat(100)].concat(); // of each tab one column is indent (4.5)
    assert_eq!(scan_blocks(&code, NONE).next().unwrap().content(), b"   a\n".repeat(100));
}

/// Examples of CommonMark 0.31.2, and many lists.
#[test]
fn lists() {
    type Returned = (u8, u32, bool, usize, usize, usize);
    let rows: [(&str, &[Returned]); 5] = [
        ("a\n", &[]),
        ("- foo\n- bar\n+ baz\n", &[(b'-', 0, false, 0, 0, 2), (b'+', 0, false, 0, 2, 3)]), // 301
        ("- a\n- ```\n  b\n\n\n  ```\n- c\n", &[(b'-', 0, false, 0, 0, 7)]),                // 318
        ("- a\n  - b\n\n    c\n- d\n", &[(b'-', 0, true, 1, 1, 4), (b'-', 0, false, 0, 0, 5)]), // 319
        ("123456789. ok\n", &[(b'.', 123_456_789, false, 0, 0, 1)]),                        // 265
    ];
    for (page, expected) in rows {
        let found = scan_lists(page.as_bytes(), NONE);
        let returned =
            found.iter().map(|it| (it.delimiter, it.start, it.is_loose, it.depth, it.lines.start, it.lines.end));
        assert_eq!(returned.collect::<Vec<_>>(), expected);
    }
    assert_eq!(scan_lists("- a\n+ a\n".repeat(1000).as_bytes(), NONE).len(), 2000);
}

fn kinds_of(text: &str, labels: &[&str]) -> Vec<InlineKind> {
    scan_inlines(text, labels, NONE).map(|it| it.kind).collect()
}

/// A text with elements for its emphasis and its links, of which each has its destination or its label.
fn marked(text: &str, labels: &[&str], extensions: Extensions) -> String {
    let element = |kind: &str, link: Link| match link.target {
        LinkTarget::Inline { destination, .. } => format!("<{kind} {}>", &text[destination]),
        LinkTarget::Full(label) | LinkTarget::Collapsed(label) | LinkTarget::Shortcut(label) => {
            format!("<{kind} [{}]>", &text[label])
        }
        LinkTarget::Wiki(target) => format!("<{kind} [[{}]]>", &text[target]),
    };
    let marked = |it: Inline| match it.kind {
        InlineKind::StartEmphasis => "<em>".into(),
        InlineKind::EndEmphasis => "</em>".into(),
        InlineKind::StartStrong => "<strong>".into(),
        InlineKind::EndStrong => "</strong>".into(),
        InlineKind::StartStrikethrough => "<del>".into(),
        InlineKind::EndStrikethrough => "</del>".into(),
        InlineKind::Code(content) => format!("<code>{}</code>", &text[content]),
        InlineKind::StartLink(link) => element("a", link),
        InlineKind::StartImage(link) => element("img", link),
        InlineKind::EndLink => "</>".into(),
        InlineKind::SoftBreak => "\n".into(),
        InlineKind::HardBreak => "<br>".into(),
        _ => text[it.range].into(),
    };
    scan_inlines(text, labels, extensions).map(marked).collect()
}

/// Examples of CommonMark 0.31.2 by their numbers.
#[test]
fn inlines() {
    let rows: [(&str, &[&str], &str); 13] = [
        ("foo\\\nbar", &[], "foo<br>bar"),                                           // 16
        ("`` foo ` bar ``", &[], "<code> foo ` bar </code>"),                        // 329, its spaces too
        ("foo***bar***baz", &[], "foo<em><strong>bar</strong></em>baz"),             // 416
        ("*foo [*bar*](/url)*", &[], "<em>foo <a /url><em>bar</em></></em>"),        // 419
        ("[link](foo(and(bar)))", &[], "<a foo(and(bar))>link</>"),                  // 496
        ("[foo *bar](baz*)", &[], "<a baz*>foo *bar</>"),                            // 522
        ("[foo [bar](/uri)][ref]", &["ref"], "[foo <a /uri>bar</>]<a [ref]>ref</>"), // 532
        ("[foo][BaR]", &["bar"], "<a [BaR]>foo</>"),                                 // 539
        ("[*foo* bar][]", &["*foo* bar"], "<a [*foo* bar]><em>foo</em> bar</>"),     // 554
        ("[foo](not a link)", &["foo"], "<a [foo]>foo</>(not a link)"),              // 568
        ("[foo][bar][baz]", &["baz", "foo"], "[foo]<a [baz]>bar</>"),                // 571
        ("![foo ![bar](/url)](/url2)", &[], "<img /url2>foo <img /url>bar</></>"),   // 574
        ("foo \n baz", &[], "foo\nbaz"),                                             // 649
    ];
    for (text, labels, expected) in rows {
        assert_eq!(marked(text, labels, NONE), expected);
        assert_eq!(scan_inlines(text, labels, NONE).map(|it| &text[it.range]).collect::<String>(), text);
    }
}

/// Examples of GitHub Flavored Markdown 0.29 by their numbers, and what CommonMark alone makes of one.
#[test]
fn strikethrough() {
    let extensions = Extensions { strikethrough: true, ..NONE };
    let text = "~~Hi~~ Hello, ~there~ world!"; // 491
    assert_eq!(marked(text, &[], extensions), "<del>Hi</del> Hello, <del>there</del> world!");
    assert_eq!(marked(text, &[], Extensions { tables: true, tasks: true, wikilinks: true, ..NONE }), text);
    for text in ["This ~~has a", "new paragraph~~."] {
        assert_eq!(marked(text, &[], extensions), text); // 492
    }
}

/// Two brackets, a target, and perhaps a pipe and a text; and what CommonMark alone makes of one.
#[test]
fn wikilinks() {
    let extensions = Extensions { wikilinks: true, ..NONE };
    let both = Extensions { strikethrough: true, ..extensions };
    assert_eq!(marked("[[a]] ![[b|*c*]]", &[], extensions), "<a [[a]]></> <img [[b]]><em>c</em></>");
    assert_eq!(marked("~[[a]]~", &[], both), "<del><a [[a]]></></del>");
    assert_eq!(marked("~[[a]]~", &[], extensions), "~<a [[a]]></>~");
    assert_eq!(marked("[[a]]", &["a"], NONE), "[<a [a]>a</>]");
    for text in ["[[]]", "[[a]", "[[a\nb]]", "[[a|b](c)"] {
        assert_eq!(marked(text, &[], extensions), text);
    }
}

#[test]
fn parts_of_inlines() {
    use InlineKind::*;
    assert_eq!(kinds_of("", &["a"]), []);
    assert_eq!(kinds_of("\\*&amp;<a>", &[]), [Escape, Reference, Html]);
    assert_eq!(kinds_of("``a``<bb:c><d@e>", &[]), [Code(2..3), Uri(6..10), Email(12..15)]);
    let target = |text, labels: &[&str]| match kinds_of(text, labels).swap_remove(0) {
        StartLink(link) | StartImage(link) => (link.target, link.end),
        kind => panic!("{kind:?}"),
    };
    assert_eq!(target("![a](<b> 'c')", &[]), (LinkTarget::Inline { destination: 6..7, title: Some(10..11) }, 13));
    assert_eq!(target("[a]()", &[]), (LinkTarget::Inline { destination: 4..4, title: None }, 5));
    assert_eq!(target("[a](b '')", &[]), (LinkTarget::Inline { destination: 4..5, title: Some(7..7) }, 9));
    assert_eq!(target("[a][B]", &["b"]), (LinkTarget::Full(4..5), 6));
    assert_eq!(target("[ä][]", &["", "Ä"]), (LinkTarget::Collapsed(1..3), 6));
    assert_eq!(target("[a]", &["a", "a"]), (LinkTarget::Shortcut(1..2), 3));
}

/// More inlines than the room that is tried first, and more labels than a few.
#[test]
fn many_inlines() {
    let text = ["*a ".repeat(1000), "b*".repeat(1000), "[999]".into()].concat();
    let numbers: Vec<_> = (0..1000).map(|it| it.to_string()).collect();
    let labels: Vec<_> = numbers.iter().map(String::as_str).collect();
    let inlines = scan_inlines(&text, &labels, NONE);
    assert_eq!(inlines.len(), inlines.clone().count());
    assert_eq!(inlines.filter(|it| it.kind == InlineKind::EndEmphasis).count(), 1000);
    assert_eq!(kinds_of(&text, &labels).last(), Some(&InlineKind::EndLink));
}

/// Examples of CommonMark 0.31.2 and of GitHub Flavored Markdown 0.29, by their numbers.
#[test]
fn html_of_pages() {
    let every = Extensions { tables: true, strikethrough: true, tasks: true, wikilinks: true, ..NONE };
    assert_eq!(html_unsafe("", NONE), "");
    assert_eq!(
        html_unsafe("> # Foo\n> bar\n> baz\n", NONE),
        "<blockquote>\n<h1>Foo</h1>\n<p>bar\nbaz</p>\n</blockquote>\n"
    ); // 228
    assert_eq!(html_unsafe("</div>\n*foo*\n", NONE), "</div>\n*foo*\n"); // 151
    let table = "<table>\n<thead>\n<tr>\n<th>abc</th>\n<th>def</th>\n</tr>\n</thead>\n</table>\n";
    assert_eq!(html_unsafe("| abc | def |\n| --- | --- |\n", every), table); // 205
    assert_eq!(html("| abc | def |\n| --- | --- |\n", every), table);
    assert_eq!(html_unsafe("| a |\n| - |\n", NONE), "<p>| a |\n| - |</p>\n");
    let struck = "<p><del>Hi</del> Hello, <del>there</del> world!</p>\n";
    assert_eq!(html_unsafe("~~Hi~~ Hello, ~there~ world!\n", every), struck); // 491
    let tasks = "<ul>\n<li><input disabled=\"\" type=\"checkbox\"> foo</li>\n</ul>\n";
    assert_eq!(html_unsafe("- [ ] foo\n", every), tasks); // 279
    assert_eq!(html_unsafe("[[a|b]]", every), "<p><a href=\"a\">b</a></p>\n");
}

/// Each extension is its own.
#[test]
fn html_by_one_extension() {
    let pages = ["|a|\n|-|\n", "~a~", "- [x] a", "[[a]]"];
    for asked in 0..4 {
        let only = |which| asked == which;
        let (tables, strikethrough, tasks, wikilinks) = (only(0), only(1), only(2), only(3));
        let extensions = Extensions { tables, strikethrough, tasks, wikilinks, ..NONE };
        for (number, page) in pages.iter().enumerate() {
            let is_read = html_unsafe(page, extensions) != html_unsafe(page, NONE);
            assert_eq!(is_read, number == asked, "{page} with the extension {asked}");
        }
    }
}

/// Events and HTML are not built of footnotes and definition lists.
#[test]
fn extensions_that_are_not_built() {
    let footnotes = Extensions { footnotes: true, ..NONE };
    let definition_lists = Extensions { tables: true, definition_lists: true, ..NONE };
    for (asked, name) in [(footnotes, "footnotes"), (definition_lists, "definition_lists")] {
        let calls: [fn(Extensions); 4] = [
            |asked| drop(html("a", asked)),
            |asked| drop(html_unsafe("a", asked)),
            |asked| drop(html_with("a", asked, &HtmlSetting::default())),
            |asked| drop(Parser::new("a", asked)),
        ];
        for call in calls {
            let why = std::panic::catch_unwind(|| call(asked)).unwrap_err();
            let expected = format!("events and HTML are not built of the extension `{name}` yet");
            assert_eq!(why.downcast_ref::<String>(), Some(&expected));
        }
    }
}

#[test]
fn html_of_pages_by_others() {
    let none = NONE;
    let link =
        |address: &str, text: &str| format!("<p><a href=\"{address}\" rel=\"nofollow noopener\">{text}</a></p>\n");
    assert_eq!(html("a <b c=\"d\">&amp;", none), "<p>a &lt;b c=&quot;d&quot;&gt;&amp;</p>\n");
    assert_eq!(html("<HTTP://b>", none), link("HTTP://b", "HTTP://b"));
    assert_eq!(html("[a](java&Tab;script:b)", none), link("", "a"));
}

#[test]
fn settings_of_html() {
    let link =
        |address: &str, text: &str| format!("<p><a href=\"{address}\" rel=\"nofollow noopener\">{text}</a></p>\n");
    let usual = HtmlSetting::default();
    assert_eq!((usual.schemes, usual.raw_html), (DEFAULT_SCHEMES, RawHtml::default()));
    assert_eq!((usual.rel, usual.images_as_links), (true, false));
    for schemes in [DEFAULT_SCHEMES, &["ftp", "HTTPS"]] {
        let setting = HtmlSetting { schemes, ..usual };
        assert_eq!(html_with("<https://a>", NONE, &setting), link("https://a", "https://a"));
    }
    let others: [&[&str]; 4] = [&["ftp"], &["https:"], &[""], &[]];
    for schemes in others {
        let setting = HtmlSetting { schemes, ..usual };
        assert_eq!(html_with("<https://a>", NONE, &setting), link("", "https://a"));
        assert_eq!(html_with("[a](b)", NONE, &setting), link("b", "a"));
    }
    let setting = HtmlSetting { schemes: &["é"], raw_html: RawHtml::Omitted, rel: false, images_as_links: true };
    assert_eq!(html_with("~~a<b>~~", Extensions { strikethrough: true, ..NONE }, &setting), "<p><del>a</del></p>\n");
}

/// An address is written as often as it is referred to, up to 100,000 bytes.
#[test]
fn long_html() {
    let address = format!("/{}", "b".repeat(4999));
    let page = format!("{}\n[a]: {address}\n", "[a]\n".repeat(20));
    let links = vec![format!("<a href=\"{address}\">a</a>"); 20];
    let expected = format!("<p>{}</p>\n", links.join("\n"));
    assert_eq!(html_unsafe(&page, NONE), expected);
    assert_eq!(html_with(&page, NONE, &HtmlSetting { rel: false, ..HtmlSetting::default() }), expected);
}

/// Pages that are not UTF-8 are read as std reads them.
#[test]
fn lossy_html() {
    let bytes = [0x41, 0x80, 0xbf, 0xc2, 0xe0, 0xed, 0xf0, 0xf4, 0xff];
    let pairs = bytes.iter().flat_map(|one| bytes.iter().map(|other| vec![*one, *other]));
    let others = [
        &b"\xe2\x82"[..],
        b"\xed\xa0\x80",
        b"\xf0\x9f\x8d",
        b"\xf4\x90\x80\x80",
        b"# <b>\xc3\xa9 [\xff](ftp:b)\n\xf0\x9f",
    ];
    let setting = HtmlSetting { rel: false, raw_html: RawHtml::Omitted, ..HtmlSetting::default() };
    for page in pairs.chain(others.map(<[u8]>::to_vec)) {
        let text = String::from_utf8_lossy(&page);
        assert_eq!(html_lossy(&page, NONE), html(&text, NONE));
        assert_eq!(html_lossy_with(&page, NONE, &setting), html_with(&text, NONE, &setting));
        assert_eq!(html_unsafe_lossy(&page, NONE), html_unsafe(&text, NONE));
    }
}

/// A page that has each kind of event and each element.
const ALL: &str = "# a\n\n> - b\n\n1. c\n\n```d\ne\n```\n\n    f\n\n<p>\n\n|g|\n|-|\n|h|\n\n*i* **j** ~~k~~ [l](m \"n\") ![o][p]\n\n[p]: q\n\n***\n\
    - [x] r <b> `s` \\\nt\nu";

/// Each tag ends by what `to_end` says, and an event that borrows nothing is the same event.
#[test]
fn ends_and_owned_events() {
    let asked = Extensions { tables: true, strikethrough: true, tasks: true, ..NONE };
    let (mut tags, mut ended) = (Vec::new(), std::collections::HashSet::new());
    for event in Parser::new(ALL, asked) {
        let kept: Event<'static> = event.clone().into_static();
        assert_eq!(kept, event);
        match event {
            Event::Start(tag) => tags.push(tag),
            Event::End(end) => {
                assert_eq!(tags.pop().map(|it| it.to_end()), Some(end));
                ended.insert(end);
            }
            _ => {}
        }
    }
    assert_eq!((tags, ended.len()), (vec![], 17)); // 16 elements, and lists of two kinds
}

fn is_shared<T: Send + Sync>() {}

/// Calls and what they return may be in many threads at once.
#[test]
fn threads() {
    is_shared::<(Parser, OffsetIter, Event, Extensions, HtmlSetting, BlockReader, Block, Inline)>();
    let setting = HtmlSetting { rel: false, ..HtmlSetting::default() };
    let pages: Vec<_> = (0..400).map(|number| format!("[{number}](b)\n\n").repeat(100)).collect();
    let made = |page: &String| html_with(page, NONE, &setting);
    let found: Vec<Vec<String>> = std::thread::scope(|scope| {
        let threads: Vec<_> = pages.chunks(100).map(|part| scope.spawn(|| part.iter().map(made).collect())).collect();
        threads.into_iter().map(|it| it.join().unwrap()).collect()
    });
    assert_eq!(found.len(), 4);
    for (number, html) in found.concat().iter().enumerate() {
        assert_eq!(*html, format!("<p><a href=\"b\">{number}</a></p>\n").repeat(100));
    }
}
