//! The kinds of answers that differ. EXPECTED.md says of each which section decides it.

use beside::Note;

/// The kind of a call that is answered in two ways; the name of the call where it is of no known kind.
pub fn kind_of(note: &Note) -> &'static str {
    let (finds_more, finds_less) = (note.before == "None", note.swapped == "None");
    let input = &note.input[..];
    let opener = input.first().copied().unwrap_or(0);
    match note.call {
        "scan_blockquote_marker" if note.swapped.starts_with("(false") && input.contains(&b'\t') => "indents of a tab",
        "scan_blockquote_start" if finds_more && input.get(1) != Some(&b' ') => "block quotes without a space",
        "scan_list_marker" if is_wider_item(note) => "empty items of ordered lists",
        "scan_listitem" if finds_less && digits(input, 10) >= 10 => "numbers of ten digits",
        "scan_task_list_marker" if note.before.starts_with("(None") && is_box_before_eol(input) => {
            "boxes at the end of a line"
        }
        "scan_closing_code_fence" if finds_more && line(input).contains(&b'\t') => "tabs after a fence",
        "scan_table_head" if note.before.ends_with("[])") && note.swapped == "(0, [])" => "tables without a column",
        "scan_table_head" if !line(input).contains(&b'|') && note.swapped == "(0, [])" => {
            "delimiter rows without a pipe"
        }
        "scan_table_head" if has_empty_cell(line(input)) && note.swapped == "(0, [])" => "cells without a hyphen",
        "scan_table_head" if opener == b' ' && note.before.contains("[None, ") => "delimiter rows with an indent",
        "starts_html_block_type_6" if has_changed_name(input) => "names of HTML blocks",
        "scan_inline_html_comment" | "scan_inline_html_processing" | "scan_html_block_inner" if opener == b'\\' => {
            "openers with a backslash"
        }
        "scan_html_block_inner" if finds_more && input.starts_with(b"</") => "closing tags over lines",
        "scan_html_block_inner" if note.before.starts_with("Some(([60, ") => "tags over lines of a container",
        "scan_inline_html_comment" if input.starts_with(b"<!-") => "comments",
        "scan_inline_html_comment" if input.starts_with(b"<![CDATA[") => "CDATA sections",
        "scan_inline_html_comment" if input[2..].first().map_or(false, u8::is_ascii_alphabetic) => "declarations",
        "scan_entity" | "unescape" if input.windows(2).any(|it| it == b"&#") => "numbers of characters",
        "scan_link_dest" if finds_less && input.contains(&b'(') => "parentheses in destinations",
        "scan_refdef_title" => kind_of_title(note),
        "scan_link_label_rest" => kind_of_label(note),
        "labels" if note.before == "false" => "foldings of labels",
        call => call,
    }
}

fn line(input: &[u8]) -> &[u8] {
    input.split(|it| matches!(it, b'\n' | b'\r')).next().unwrap_or(input)
}

/// How many digits of the base stand at the front.
fn digits(input: &[u8], base: u32) -> usize {
    input.iter().take_while(|it| char::from(**it).is_digit(base)).count()
}

fn numbers(answer: &str) -> Vec<usize> {
    answer.split(|it: char| !it.is_ascii_digit()).filter_map(|it| it.parse().ok()).collect()
}

/// The same item at the same place, whose indent is one more.
fn is_wider_item(note: &Note) -> bool {
    match (&numbers(&note.before)[..], &numbers(&note.swapped)[..]) {
        ([one, two, indent, place @ ..], [other_one, other_two, wider, other_place @ ..]) => {
            (one, two, indent + 1, place) == (other_one, other_two, *wider, other_place)
        }
        _ => false,
    }
}

/// Whether a cell has no hyphen. A pipe at the front or at the end of the row makes none beside it.
fn has_empty_cell(row: &[u8]) -> bool {
    let row = row.trim_ascii();
    let row = row.strip_prefix(b"|").unwrap_or(row);
    let row = row.strip_suffix(b"|").unwrap_or(row);
    row.split(|it| *it == b'|').any(|it| !it.contains(&b'-'))
}

fn is_box_before_eol(input: &[u8]) -> bool {
    input.windows(2).any(|it| matches!(it, b"]\n" | b"]\r"))
}

fn has_changed_name(input: &[u8]) -> bool {
    let name = input.strip_prefix(b"/").unwrap_or(input);
    name.len() >= 6 && (name[..6].eq_ignore_ascii_case(b"search") || name[..6].eq_ignore_ascii_case(b"source"))
}

/// Of a title that one of the two finds.
fn kind_of_title(note: &Note) -> &'static str {
    let own = &note.input[..numbers(&note.before).first().map_or(0, |it| *it).min(note.input.len())];
    match note.before == "None" {
        true if !note.input.is_ascii() => "letters for white space in titles",
        false if own[0] == b'(' && has_unescaped(&own[1..], b'(') => "parentheses in titles",
        false if own.contains(&b'\r') => "line endings in titles",
        false if own.windows(2).any(|it| it == b"\\\n") => "backslashes before line endings",
        _ => note.call,
    }
}

fn has_unescaped(bytes: &[u8], wanted: u8) -> bool {
    let mut rest = bytes.iter();
    while let Some(byte) = rest.next() {
        match byte {
            b'\\' => drop(rest.next()),
            _ if *byte == wanted => return true,
            _ => (),
        }
    }
    false
}

fn kind_of_label(note: &Note) -> &'static str {
    let text = |answer: &str| answer.split_once("(\"").map(|(_, text)| text.trim_end_matches("\")))").to_string());
    let own = &note.input[..numbers(&note.before).first().map_or(0, |it| *it).min(note.input.len())];
    match (text(&note.before), text(&note.swapped)) {
        (Some(before), Some(swapped)) if before.trim_matches(' ') == swapped => "edges of labels",
        (Some(_), _) if own.windows(2).any(is_backslash_and_space) => "backslashes before white space",
        (Some(_), None) if String::from_utf8_lossy(own).chars().count() > 999 => "the length of labels",
        (None, Some(swapped)) if !swapped.is_ascii() => "the length of labels",
        _ => note.call,
    }
}

fn is_backslash_and_space(two: &[u8]) -> bool {
    two[0] == b'\\' && matches!(two[1], b'\t'..=b'\r' | b' ')
}
