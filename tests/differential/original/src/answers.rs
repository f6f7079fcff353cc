//! The answer of each call, as the cases have it.
use crate::linklabel::scan_link_label_rest;
use crate::parse::HtmlScanGuard;
use crate::scanners::*;
use crate::{CowStr, LinkType};
use std::fmt::Display;

/// The fields of a case: its call and its arguments.
type Fields<'a> = [&'a str];

fn bytes_of(digits: &str) -> Vec<u8> {
    if digits == "-" {
        return Vec::new();
    }
    (0..digits.len() / 2)
        .map(|i| u8::from_str_radix(&digits[2 * i..2 * i + 2], 16).unwrap())
        .collect()
}

fn hex(bytes: &[u8]) -> String {
    if bytes.is_empty() {
        return "-".into();
    }
    bytes.iter().map(|byte| format!("{byte:02x}")).collect()
}

fn or_none<T: Display>(value: Option<T>) -> String {
    value.map_or("none".into(), |value| value.to_string())
}

fn number(fields: &Fields, index: usize) -> usize {
    fields[index].parse().unwrap()
}

fn flag(fields: &Fields, index: usize) -> bool {
    fields[index] == "1"
}

/// How many bytes the handler of this name skips.
fn skipped(handler: &str, rest: &[u8]) -> usize {
    match handler {
        "bq" if rest.starts_with(b"> ") => 2,
        "sp" => rest.iter().take(4).take_while(|&&byte| byte == b' ').count(),
        "x" if rest.starts_with(b"x") => 1,
        _ => 0,
    }
}

/// The answer of the call that the fields name.
pub fn of(fields: &Fields) -> String {
    match fields[0] {
        "line" => line(&bytes_of(fields[1]), fields[2]),
        "unescape" | "wikilink" | "linkdest" | "autolink" | "label" => {
            text_answer(&String::from_utf8(bytes_of(fields[1])).unwrap(), fields)
        }
        "entity" | "type6" | "type7" | "htmlinner" | "inlinehtml" => {
            inline_answer(&bytes_of(fields[1]), fields)
        }
        _ => block_answer(&bytes_of(fields[1]), fields),
    }
}

fn line(bytes: &[u8], calls: &str) -> String {
    let mut start = LineStart::new(bytes);
    let step = |call| {
        let answer = line_answer(&mut start, call);
        format!("{answer} @{}+{}", start.bytes_scanned(), start.remaining_space())
    };
    calls.split(',').map(step).collect::<Vec<_>>().join(" ")
}

fn line_answer(start: &mut LineStart, call: &str) -> String {
    let (name, n) = match call.split_once(':') {
        Some((name, digits)) => (name, digits.parse().unwrap()),
        None => (call, 0),
    };
    match name {
        "space" => start.scan_space(n).to_string(),
        "upto" => start.scan_space_upto(n).to_string(),
        "all" => {
            start.scan_all_space();
            "-".into()
        }
        "eol" => start.is_at_eol().to_string(),
        "quote" => start.scan_blockquote_marker().to_string(),
        "list" => or_none(
            start
                .scan_list_marker_with_indent(n)
                .map(|(delimiter, first, indent)| format!("{delimiter}/{first}/{indent}")),
        ),
        "def" => or_none(start.scan_definition_list_definition_marker_with_indent(n)),
        "task" => or_none(start.scan_task_list_marker()),
        "tag" => or_none(start.scan_blockquote_tag().map(|kind| format!("{kind:?}"))),
        _ => panic!("no such call on a line: {name}"),
    }
}

fn block_answer(bytes: &[u8], fields: &Fields) -> String {
    match fields[0] {
        "eol" => or_none(scan_eol(bytes)),
        "blank" => or_none(scan_blank_line(bytes)),
        "nextline" => scan_nextline(bytes).to_string(),
        "wsnonl" => scan_whitespace_no_nl(bytes).to_string(),
        "chrepeat" => scan_ch_repeat(bytes, number(fields, 2) as u8).to_string(),
        "bqstart" => or_none(scan_blockquote_start(bytes)),
        "indent" => {
            let (place, columns) = calc_indent(bytes, number(fields, 2));
            format!("{place}/{columns}")
        }
        "hrule" => match scan_hrule(bytes) {
            Ok(length) => format!("ok {length}"),
            Err(place) => format!("err {place}"),
        },
        "atx" => or_none(scan_atx_heading(bytes).map(|level| format!("{level:?}"))),
        "setext" => or_none(scan_setext_heading(bytes).map(|(n, level)| format!("{n} {level:?}"))),
        "fence" => or_none(scan_code_fence(bytes).map(|(n, byte)| format!("{n} {byte}"))),
        "closefence" => or_none(scan_closing_code_fence(bytes, number(fields, 2) as u8, number(fields, 3))),
        "meta" => or_none(
            scan_metadata_block(bytes, flag(fields, 2), flag(fields, 3)).map(|(n, byte)| format!("{n} {byte}")),
        ),
        "closemeta" => or_none(scan_closing_metadata_block(bytes, number(fields, 2) as u8)),
        "listitem" => or_none(scan_listitem(bytes).map(|(n, delimiter, first, indent)| {
            format!("{n} {delimiter} {first} {indent}")
        })),
        "tablehead" => {
            let (length, alignments) = scan_table_head(bytes);
            format!("{length} {alignments:?}")
        }
        call => panic!("no such call: {call}"),
    }
}

fn inline_answer(bytes: &[u8], fields: &Fields) -> String {
    match fields[0] {
        "entity" => {
            let (length, text) = scan_entity(bytes);
            format!("{length} {}", or_none(text.map(|text| hex(text.as_bytes()))))
        }
        "type6" => starts_html_block_type_6(bytes).to_string(),
        "type7" => or_none(scan_html_type_7(bytes)),
        "htmlinner" => {
            let handler = |rest: &[u8]| skipped(fields[2], rest);
            let found = match fields[2] {
                "none" => scan_html_block_inner(bytes, None),
                _ => scan_html_block_inner(bytes, Some(&handler)),
            };
            or_none(found.map(|(buffer, length)| format!("{} {length}", hex(&buffer))))
        }
        _ => inline_html(bytes),
    }
}

/// What each place after an opener finds that isn't below the end of the last find, the guard kept throughout.
fn inline_html(bytes: &[u8]) -> String {
    let mut guard = HtmlScanGuard::default();
    let mut last_end = 0;
    let mut finds = Vec::new();
    for place in 2..=bytes.len() {
        if place < last_end {
            continue;
        }
        let found = match &bytes[place - 2..place] {
            b"<!" => scan_inline_html_comment(bytes, place, &mut guard),
            b"<?" => scan_inline_html_processing(bytes, place, &mut guard),
            _ => continue,
        };
        last_end = found.unwrap_or(last_end);
        finds.push(format!("{place}:{}", or_none(found)));
    }
    finds.join(" ")
}

fn text_answer(text: &str, fields: &Fields) -> String {
    match fields[0] {
        "unescape" => {
            let answer = unescape(CowStr::Borrowed(text), flag(fields, 2));
            let is_input = matches!(answer, CowStr::Borrowed(_));
            format!("{is_input} {}", hex(answer.as_bytes()))
        }
        "wikilink" => or_none(
            scan_wikilink_pipe(text, number(fields, 2), number(fields, 3))
                .map(|(place, before)| format!("{place} {}", hex(before.as_bytes()))),
        ),
        "linkdest" => or_none(
            scan_link_dest(text, number(fields, 2), number(fields, 3))
                .map(|(taken, raw)| format!("{taken} {}", hex(raw.as_bytes()))),
        ),
        // e-mail autolinks are no part of the library
        "autolink" => or_none(
            scan_autolink(text, number(fields, 2))
                .filter(|(_, _, kind)| !matches!(kind, LinkType::Email))
                .map(|(place, uri, kind)| format!("{place} {} {kind:?}", hex(uri.as_bytes()))),
        ),
        _ => {
            let handler = |rest: &[u8]| (fields[2] != "refuse").then(|| skipped(fields[2], rest));
            or_none(scan_link_label_rest(text, &handler, flag(fields, 3)).map(|(taken, label)| {
                let is_lent = matches!(label, CowStr::Borrowed(_));
                format!("{taken} {is_lent} {}", hex(label.as_bytes()))
            }))
        }
    }
}
