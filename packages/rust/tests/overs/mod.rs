//! The rows of packages/skips.tsv, tags and labels over lines of which a table says what is left out.

use std::borrow::Cow;

use fillaqut::*;

use crate::tables::*;

/// What of the table stands after the text is before the end of a longer page.
fn page_of(text: &[u8], skips: &[Skip]) -> Vec<u8> {
    let end = skips.iter().map(|it| it.place() + it.length()).max().unwrap_or(0);
    let mut page = text.to_vec();
    page.resize(page.len().max(end), b' ');
    page
}

/// A label: the offset after it, where it starts, or `none` where it is made, and its text.
fn label(page: Page, bytes: &[u8], start: usize, is_in_table: bool) -> Option<(usize, Option<usize>, Vec<u8>)> {
    let (end, label) = page.scan_label(start, is_in_table)?;
    let start = match &label {
        Cow::Borrowed(text) => text.as_ptr() as usize - bytes.as_ptr() as usize,
        Cow::Owned(_) => usize::MAX,
    };
    Some((end, Some(start), label.as_bytes().to_vec()))
}

#[test]
fn rows_of_skips() {
    each_row("skips.tsv", |place, [call, text, arguments, skips, answer]| {
        let (text, arguments) = (read_text(text), numbers(arguments, ' '));
        let skips: Vec<Skip> = skips
            .split(' ')
            .filter(|it| !it.is_empty())
            .map(|it| numbers(it, ','))
            .map(|it| Skip::new(it[0], it[1]))
            .collect();
        if call == "check_skips" {
            let found = if Page::new(&text, &skips).is_ok() { "MDS_OK" } else { "MDS_BAD_SKIPS" };
            assert_eq!(found, answer, "{place}");
            return true;
        }
        let bytes = page_of(&text, &skips);
        let page = Page::new(&bytes, &skips).unwrap().up_to(text.len());
        let found = match (call, &arguments[..]) {
            ("scan_html_tag_over_lines", &[start]) => {
                page.scan_tag(start).map(|(end, text)| (end, None, text.unwrap_or_default()))
            }
            ("scan_link_label", &[start, is_in_table]) => label(page, &bytes, start, is_in_table == 1),
            _ => panic!("{place}: no such call"),
        };
        assert_eq!(found, text_of(answer), "{place}");
        true
    });
}
