//! What no example says: texts longer than the room that is tried first, what is borrowed, what is refused, and guards. The
//! values are worked out by hand from CommonMark 0.31.2.

use std::borrow::Cow;
use std::panic::catch_unwind;

use fillaqut::*;

mod lines;
mod overs;
mod page_calls;
mod page_rows;
mod pages;
mod readers;
mod table;
mod tables;

#[test]
fn nothing() {
    assert_eq!(scan_eol(b""), Some(0));
    assert_eq!(scan_blank_line(b"a"), None);
    assert_eq!(scan_listitem(b"-x"), None);
    assert_eq!(scan_listitem(b"-"), Some(ListItem { length: 1, delimiter: b'-', start: 0, indent: 2 }));
    assert_eq!(scan_atx_heading(b"#######"), None);
    assert_eq!(scan_setext_heading(b"=-"), None);
    assert_eq!(scan_code_fence(b"``"), None);
    assert_eq!(scan_closing_code_fence(b"~~\n", b'~', 3), None);
    assert_eq!(scan_metadata_block(b"---\n---\n", true, true), None);
    assert_eq!(scan_hrule(b"--"), Err(0));
    assert_eq!(scan_table_head(b"||-|"), (0, vec![]));
    assert_eq!(scan_html_type_7(b"<a> b"), None);
    assert_eq!(scan_html_tag(b"<1>"), None);
    assert_eq!(scan_entity(b""), (0, None));
    assert_eq!(scan_html_block_inner(b"", &[]), Ok(None));
    assert_eq!(scan_link_label_rest("a", &[], false), Ok(None));
}

#[test]
fn levels() {
    use HeadingLevel::*;
    for (level, expected) in [H1, H2, H3, H4, H5, H6].into_iter().enumerate() {
        assert_eq!(scan_atx_heading(&b"###### a"[5 - level..]), Some(expected));
        assert_eq!(HeadingLevel::try_from(level + 1), Ok(expected));
        assert_eq!(format!("{expected:>3}"), format!(" h{}", level + 1));
    }
}

#[test]
fn no_levels() {
    for number in [0, 7, 1 << 32 | 1, usize::MAX] {
        assert_eq!(HeadingLevel::try_from(number), Err(InvalidHeadingLevel(number)));
    }
    assert_eq!(InvalidHeadingLevel(7).to_string(), "no heading has the level 7");
}

#[test]
fn kinds() {
    use BlockQuoteKind::*;
    let named = [("note", Note), ("Tip", Tip), ("IMPORTANT", Important), ("warning", Warning), ("caution", Caution)];
    for (name, kind) in named {
        assert_eq!(LineStart::new(format!("[!{name}]").as_bytes()).scan_blockquote_tag(), Some(kind));
    }
    assert_eq!(LineStart::new(b"[!other]").scan_blockquote_tag(), None);
}

#[test]
fn html_blocks() {
    use HtmlBlockKind::*;
    let lines: [(&[u8], _, &[u8]); 7] = [
        (b"<pre>", RawText, b"</style>"),
        (b"<!--", Comment, b"-->"),
        (b"<?a", Processing, b"?>"),
        (b"<!a", Declaration, b">"),
        (b"<![CDATA[", Cdata, b"]]>"),
        (b"<p", BlockName, b"\n"),
        (b"<b>", TagAlone, b""),
    ];
    for (first, kind, last) in lines {
        assert_eq!(scan_html_block_start(first), Some(kind));
        assert!(ends_html_block(last, kind));
        assert!(!ends_html_block(b".", kind));
    }
}

#[test]
fn alignments() {
    use Alignment::{Center, Left, Right};
    let row = "|:-|:-:|-:".repeat(100) + "|\n";
    let (length, columns) = scan_table_head(row.as_bytes());
    assert_eq!(length, row.len());
    assert_eq!(columns, [Left, Center, Right].repeat(100));
    assert_eq!(scan_table_head(b"-|").1, [Alignment::None]);
}

/// All texts of at most so many bytes among these.
fn texts(bytes: &[u8], most: usize) -> Vec<Vec<u8>> {
    let mut all = vec![vec![]];
    let mut last = all.clone();
    for _ in 0..most {
        last = last.iter().flat_map(|text| bytes.iter().map(move |byte| [&text[..], &[*byte]].concat())).collect();
        all.extend_from_slice(&last);
    }
    all
}

#[test]
fn first_bytes() {
    let bytes: Vec<u8> = (0..=255).collect();
    if cfg!(not(debug_assertions)) {
        panic!("what is returned without the library is not compared with it");
    }
    let spaces: Vec<u8> = bytes.iter().copied().filter(|byte| is_ascii_whitespace(*byte)).collect();
    assert_eq!(spaces, b"\t\n\x0b\x0c\r ");
    let in_line: Vec<u8> = bytes.iter().copied().filter(|byte| is_ascii_whitespace_no_nl(*byte)).collect();
    assert_eq!(in_line, b"\t\x0b\x0c ");
    for text in texts(&bytes, 2) {
        let _ = (scan_eol(&text), scan_blank_line(&text));
        let _ = (scan_ch(&text, b'\r'), scan_ch_repeat(&text, b' '));
    }
}

#[test]
fn places_without_space() {
    for text in texts(b" \t\r\n>a", 4) {
        for first in 0..6 {
            let mut start = LineStart::new(&text);
            let taken = start.scan_space_upto(first);
            assert!(taken <= first);
            let mut other = start.clone();
            let column = start.scan_space_upto(1);
            assert_eq!(other.scan_space(1), column == 1);
            assert_eq!(other.remaining_space(), start.remaining_space());
            assert_eq!(start.is_at_eol(), matches!(text.get(start.bytes_scanned()), None | Some(b'\r' | b'\n')));
            start.scan_all_space();
            assert_eq!(start.scan_space_upto(9), 0);
        }
    }
}

#[test]
fn line_starts() {
    let mut start = LineStart::new(b">\t\tfoo");
    assert!(start.scan_blockquote_marker());
    assert_eq!((start.bytes_scanned(), start.remaining_space()), (2, 2));
    let mut other = start.clone();
    assert!(start.scan_space(4));
    assert_eq!((start.bytes_scanned(), start.remaining_space()), (3, 2));
    assert_eq!(other.scan_space_upto(9), 6);
    assert!(!other.is_at_eol());
    let mut task = LineStart::new(b"  [ ] a");
    assert_eq!((task.scan_task_list_marker(), task.bytes_scanned()), (Some(false), 5));
}

#[test]
fn parts() {
    assert_eq!(scan_link_dest("((a))", 0, 1), Some((5, "((a))")));
    assert_eq!(scan_link_dest("(((a)))", 0, 1), None);
    assert_eq!(scan_link_dest("[é](é\\)é)", 5, 31), Some((6, "é\\)é")));
    assert_eq!(scan_link_dest_bytes(b"a", 2, 31), None);
    assert_eq!(scan_link_title("é 'a\\'é\n' b", 3), Some((8, "a\\'é\n")));
    assert_eq!(scan_link_title("(a(b))", 0), None);
    assert_eq!(scan_link_title_bytes(b"\"a\r\r\"", 0), None);
    assert_eq!(scan_link_title_bytes(b"''", 3), None);
    assert_eq!(scan_autolink("<a:b>", 1), None);
    assert_eq!(scan_autolink_bytes(b"ab:", 4), None);
    assert_eq!(scan_wikilink_pipe("a|b]]", 0, 1), None);
    assert_eq!(scan_wikilink_pipe_bytes(b"", 1, 1), None);
    for start in [1, 3, usize::MAX] {
        assert!(catch_unwind(|| scan_link_dest("é", start, 31)).is_err());
        assert!(catch_unwind(|| scan_link_title("é", start)).is_err());
        assert!(catch_unwind(|| scan_autolink("é", start)).is_err());
        assert!(catch_unwind(|| scan_wikilink_pipe("é", start, 1)).is_err());
    }
}

#[test]
fn definitions() {
    let found = scan_reference_definition(b"[foo]: \n/url  \n'the title'  \nx", 31).unwrap();
    assert_eq!((found.label, found.destination, found.title, found.len), (1..4, 8..12, Some(16..25), 29));
    let found = scan_reference_definition(b"[foo]: /url\n\"title\" ok\n", 31).unwrap();
    assert_eq!((found.label, found.destination, found.title, found.len), (1..4, 7..11, None, 12));
    assert_eq!(scan_reference_definition(b"[foo]: /url \"title\" ok\n", 31), None);
    assert!(scan_reference_definition(b"[a]: (b)", 0).is_some());
    assert_eq!(scan_reference_definition(b"[a]: ((b))", 0), None);
    assert_eq!(scan_reference_definition(b"", 31), None);
}

#[test]
fn spans() {
    assert_eq!(scan_code_span("é`` foo ` bar ``", 2), Some((17, " foo ` bar ")));
    assert_eq!(scan_code_span("`foo``bar``", 0), None);
    assert_eq!(scan_code_span_bytes(b"`a`", 4), None);
    assert_eq!(scan_email_autolink("<foo+special@Bar.baz-bar0.com>", 1).unwrap().1, "foo+special@Bar.baz-bar0.com");
    assert_eq!(scan_email_autolink(r"<foo\+@bar.example.com>", 1), None);
    assert_eq!(scan_email_autolink_bytes(b"a@b>", 5), None);
    for start in [1, 3, usize::MAX] {
        assert!(catch_unwind(|| scan_code_span("é", start)).is_err());
        assert!(catch_unwind(|| scan_email_autolink("é", start)).is_err());
        assert!(catch_unwind(|| scan_delimiter_run("é", start)).is_err());
    }
}

/// Runs that are left-flanking, right-flanking, both and neither, as the specification has them.
#[test]
fn delimiter_runs() {
    let rows = [
        ("***abc", 0, Some((b'*', 3, true, false))),
        ("\"abc\"_", 5, Some((b'_', 1, false, true))),
        (" abc***def", 4, Some((b'*', 3, true, true))),
        ("a _ b", 2, Some((b'_', 1, false, false))),
        ("*€*charlie.", 4, Some((b'*', 1, true, false))),
        ("foo_bar", 3, Some((b'_', 1, false, false))),
        ("~~a", 0, None),
        ("", 0, None),
    ];
    for (text, place, expected) in rows {
        let found = scan_delimiter_run(text, place).map(|it| (it.byte, it.count, it.can_open, it.can_close));
        assert_eq!(found, expected, "{text}");
    }
    assert!(is_unicode_whitespace('\u{a0}') && !is_unicode_whitespace('\u{b}'));
    assert!(is_unicode_punctuation('🍔') && !is_unicode_punctuation('中'));
}

#[test]
fn large_numbers() {
    assert_eq!(calc_indent(b" ", usize::MAX / 4), (0, 1));
    assert!(catch_unwind(|| calc_indent(b" ", usize::MAX / 4 + 1)).is_err());
    let item = |indent| LineStart::new(b"- a").scan_list_marker_with_indent(indent);
    assert_eq!(item(usize::MAX - 16), Some((b'-', 0, usize::MAX - 14)));
    assert!(catch_unwind(|| item(usize::MAX - 15)).is_err());
    let definition = |indent| LineStart::new(b": a").scan_definition_list_definition_marker_with_indent(indent);
    assert_eq!(definition(usize::MAX - 16), Some(usize::MAX - 14));
    assert!(catch_unwind(|| definition(usize::MAX - 15)).is_err());
}

#[test]
fn tags() {
    assert_eq!(scan_html_block_inner(b"<foo bar>", &[]), Ok(Some((vec![], 9))));
    assert_eq!(scan_html_block_inner(b"<foo\n> bar>", &[]), Ok(Some((vec![], 6))));
    let long = format!("<a b='{}'\n> c>", "x".repeat(1000));
    let tag = scan_html_block_inner(long.as_bytes(), &[Skip::new(1008, 2)]);
    assert_eq!(tag, Ok(Some((long.replace("> c", "c").into_bytes(), long.len()))));
    assert_eq!(scan_html_block_inner(b"<a\nb>", &[Skip::new(9, 1)]), Err(BadSkips));
    assert_eq!(scan_html_block_inner(b"<a\nb>", &[Skip::new(3, 1), Skip::new(3, 1)]), Err(BadSkips));
    assert!(!BadSkips.to_string().is_empty());
    assert_eq!((Skip::new(3, 1).place(), Skip::new(3, 1).length()), (3, 1));
}

#[test]
fn guards() {
    let text = b"<!-- a --> <!b> <![CDATA[c]]> <?d?> <!-- e";
    let mut guard = HtmlScanGuard::new(text);
    for (place, end) in [(2, 10), (13, 15), (18, 29)] {
        assert_eq!(guard.scan_inline_html_comment(place), Some(end));
    }
    assert_eq!(guard.scan_inline_html_processing(32), Some(35));
    assert_eq!(guard.scan_inline_html_comment(38), None);
    for place in [0, 1, 3, 32, text.len(), text.len() + 1, usize::MAX] {
        assert_eq!(HtmlScanGuard::new(text).scan_inline_html_comment(place), None);
    }
    assert_eq!(HtmlScanGuard::new(text).scan_inline_html_processing(2), None);
    assert_ne!(guard, HtmlScanGuard::new(text));
    assert_eq!(HtmlScanGuard::default().scan_inline_html_comment(2), None);
}

fn is_borrowed(text: Cow<'_, str>) -> bool {
    matches!(text, Cow::Borrowed(_))
}

#[test]
fn unescaped() {
    assert!(is_borrowed(unescape("plain", false)));
    assert!(is_borrowed(unescape("", true)));
    assert_eq!(unescape("&nGt;&nLt;", false), "≫⃒≪⃒");
    assert_eq!(unescape("a\r\nb", false), "a\nb");
    assert_eq!(unescape(r"\\|", true), "|");
    assert_eq!(unescape(r"\\|", false), r"\|");
    let long = "&amp;".repeat(1000);
    assert_eq!(unescape(&long, false), "&".repeat(1000));
    for count in [42, 43] {
        // as much room as is enough: 252 and 258 bytes
        assert_eq!(unescape(&"&nGt;".repeat(count), false), "≫⃒".repeat(count));
    }
}

#[test]
fn labels() {
    let label = |text| scan_link_label_rest(text, &[], false).unwrap().unwrap();
    assert!(is_borrowed(label(" a b ]").1));
    assert_eq!(label(" a b ]"), (6, "a b".into()));
    assert!(!is_borrowed(label("a  b]").1));
    let long = "a".repeat(999) + "]";
    assert!(is_borrowed(label(&long).1));
    let wide = "é  ".repeat(300) + "]";
    let narrow = "é ".repeat(300);
    assert_eq!(label(&wide), (wide.len(), narrow.trim_end().into()));
    assert_eq!(scan_link_label_rest(r"a\|b]", &[], true), Ok(Some((5, "a|b".into()))));
    assert_eq!(scan_link_label_rest("a]", &[Skip::new(9, 1)], false), Err(BadSkips));
    assert_eq!(scan_link_label_rest("a\né]", &[Skip::new(2, 2)], false), Err(BadSkips));
}

#[test]
fn keys() {
    assert_eq!(label_key("ΑΓΩ"), "αγω");
    for count in [1, 42, 43, 1000] {
        assert_eq!(label_key(&"\u{390}".repeat(count)), "\u{3b9}\u{308}\u{301}".repeat(count));
    }
    assert!(labels_match("ΑΓΩ", "αγω") && !labels_match("a", "b"));
    let one = LinkLabel::new("ẞ".to_string());
    assert!(one == LinkLabel::new("SS") && one != LinkLabel::new("S"));
}

#[test]
fn runs() {
    let mut start = LineStart::new(b"\tx");
    let run = run_line(&mut start, &[LineCall::Upto(3), LineCall::Eol]);
    assert_eq!((run.answers, run.stop), (vec![LineAnswer::Upto(3)], Some((1, LineStop::SpacePending))));
    assert_eq!((start.bytes_scanned(), line_rest(&start)), (1, b" x".to_vec()));
    assert_eq!(run_line(&mut start, &[LineCall::Upto(3), LineCall::Eol]).answers[0], LineAnswer::Upto(1));
    let calls = [LineCall::Space(1), LineCall::Eol, LineCall::List(0), LineCall::Definition(2)];
    let run = run_line(&mut LineStart::new(b" - :  x"), &calls);
    let expected = [LineAnswer::Space(true), LineAnswer::Eol(false)];
    assert_eq!(run.answers[..2], expected);
    assert_eq!(run.answers[2..], [LineAnswer::List(Some((b'-', 0, 2))), LineAnswer::Definition(Some(5))]);
    let run = run_line(&mut LineStart::new(b"- x"), &[LineCall::Quote, LineCall::List(usize::MAX)]);
    assert_eq!((run.answers, run.stop), (vec![LineAnswer::Quote(false)], Some((1, LineStop::IndentTooLarge))));
    assert_eq!(line_rest(&LineStart::new(b"\t\r\t")), b"    \r\t");
    let stops = [([2, 2], HtmlStop::NotRising), ([2, 3], HtmlStop::NoOpener), ([2, 7], HtmlStop::InsideFind)];
    for (places, stop) in stops {
        let run = run_inline_html(b"<!-- <!a -->", &places);
        assert_eq!((run.answers, run.stop), (vec![Some(12)], Some((1, stop))));
    }
}
