//! The rows of packages/rows.tsv, one call on one text each, which the tests of all packages share.

use fillaqut::*;

use crate::lines::line_answer;
use crate::tables::*;

const ALIGNMENTS: [Alignment; 4] = [Alignment::None, Alignment::Left, Alignment::Center, Alignment::Right];

/// A row: its call, its text, and of its other arguments up to two numbers or a second text.
struct Row {
    call: String,
    text: Vec<u8>,
    one: usize,
    two: usize,
    other: Vec<u8>,
    answer: String,
}

fn read_row([call, text, arguments, answer]: [&str; 4]) -> Row {
    let mut row =
        Row { call: call.into(), text: read_text(text), one: 0, two: 0, other: vec![], answer: answer.into() };
    if matches!(call, "scan_while" | "scan_rev_while" | "labels_match") {
        row.other = read_text(if arguments == "-" { "" } else { arguments });
        return row;
    }
    let numbers = numbers(arguments, ' ');
    assert!(numbers.len() <= 2, "too many arguments: {call} {arguments}");
    row.one = numbers.first().copied().unwrap_or(0);
    row.two = numbers.get(1).copied().unwrap_or(0);
    row
}

/// A length as the file has it.
fn length(found: Option<usize>) -> String {
    found.map_or("none".into(), |it| it.to_string())
}

fn fence(found: Option<(usize, u8)>) -> String {
    format!("length={} byte={}", length(found.map(|it| it.0)), found.map_or(0, |it| it.1))
}

/// A part of the text, where it ends or how many bytes it takes from the start on.
fn part(data: &[u8], start: usize, found: Option<(usize, &[u8])>) -> Option<String> {
    let (end, part) = found?;
    let at = part.as_ptr() as usize - data.as_ptr() as usize;
    Some(format!("end={} start={at} length={}", start + end, part.len()))
}

/// The calls whose answer is one number.
fn number(row: &Row) -> Option<String> {
    let data = &row.text[..];
    let byte = row.one as u8;
    Some(match &row.call[..] {
        "is_utf8" => usize::from(std::str::from_utf8(data).is_ok()).to_string(),
        "scan_ch" => scan_ch(data, byte).to_string(),
        "scan_ch_repeat" => scan_ch_repeat(data, byte).to_string(),
        "scan_while" => scan_while(data, &row.other).to_string(),
        "scan_rev_while" => scan_rev_while(data, &row.other).to_string(),
        "scan_whitespace_in_line" => scan_whitespace_no_nl(data).to_string(),
        "scan_eol" => length(scan_eol(data)),
        "scan_line" => scan_line(data).to_string(),
        "scan_nextline" => scan_nextline(data).to_string(),
        "scan_blank_line" => length(scan_blank_line(data)),
        "scan_blockquote_start" => length(scan_blockquote_start(data)),
        "scan_atx_heading" => scan_atx_heading(data).map_or(0, |level| level as usize).to_string(),
        "scan_closing_code_fence" => length(scan_closing_code_fence(data, byte, row.two)),
        "scan_closing_metadata_block" => length(scan_closing_metadata_block(data, byte)),
        "interrupts_paragraph" => usize::from(interrupts_paragraph(data)).to_string(),
        "starts_html_block_type_6" => usize::from(starts_html_block_type_6(data)).to_string(),
        "scan_html_type_7" => length(scan_html_type_7(data)),
        "scan_html_tag" => length(scan_html_tag(data)),
        "scan_html_block_start" => {
            let kind = scan_html_block_start(data);
            kind.map_or(0, |kind| 1 + HTML_KINDS.iter().position(|it| *it == kind).unwrap()).to_string()
        }
        _ => return None,
    })
}

/// The calls whose answer has fields and is never refused, but for the limit of `calc_indent`.
fn fields(row: &Row) -> Option<String> {
    let data = &row.text[..];
    Some(match &row.call[..] {
        "scan_code_fence" => fence(scan_code_fence(data)),
        "scan_metadata_block" => fence(scan_metadata_block(data, row.one == 1, row.two == 1)),
        "scan_hrule" => {
            let found = scan_hrule(data);
            format!("length={} none_before={}", length(found.ok()), found.err().unwrap_or(0))
        }
        "scan_setext_heading" => {
            let found = scan_setext_heading(data);
            format!("length={} level={}", length(found.map(|it| it.0)), found.map_or(0, |it| it.1 as usize))
        }
        "scan_listitem" => scan_listitem(data).map_or("length=none start=0 indent=0 delimiter=0".into(), |it| {
            format!("length={} start={} indent={} delimiter={}", it.length, it.start, it.indent, it.delimiter)
        }),
        _ => return None,
    })
}

/// The calls that may refuse a start or a limit, or find nothing: `None` then.
fn found(row: &Row) -> Option<String> {
    let (data, start) = (&row.text[..], row.one);
    match &row.call[..] {
        "scan_link_dest" => part(data, start, scan_link_dest_bytes(data, start, row.two)),
        "scan_link_title" => part(data, start, scan_link_title_bytes(data, start)),
        "scan_autolink" => part(data, 0, scan_autolink_bytes(data, start)),
        "scan_email_autolink" => part(data, 0, scan_email_autolink_bytes(data, start)),
        "scan_code_span" => part(data, 0, scan_code_span_bytes(data, start)),
        "scan_wikilink_pipe" => part(data, 0, scan_wikilink_pipe_bytes(data, start, row.two)),
        "calc_indent" => {
            let (place, columns) = (row.one <= usize::MAX / 4).then(|| calc_indent(data, row.one))?;
            Some(format!("place={place} columns={columns}"))
        }
        "scan_delimiter_run" => {
            let run = std::str::from_utf8(data)
                .ok()
                .filter(|it| it.is_char_boundary(start))
                .and_then(|it| scan_delimiter_run(it, start))?;
            let (open, close) = (usize::from(run.can_open), usize::from(run.can_close));
            Some(format!("byte={} count={} can_open={open} can_close={close}", run.byte, run.count))
        }
        "scan_inline_html" => {
            let mut guard = HtmlScanGuard::new(data);
            let end = guard.scan_inline_html_comment(start).or_else(|| guard.scan_inline_html_processing(start))?;
            Some(format!("end={end}"))
        }
        "scan_reference_definition" => definition(data, start, row.two),
        "line_list" | "line_definition" | "line_task" | "line_alert" => at_front(row),
        call => panic!("no such call: {call}"),
    }
}

/// A call at the front of a line, and how many bytes it has passed.
fn at_front(row: &Row) -> Option<String> {
    let mut start = LineStart::new(&row.text);
    let fields = line_answer(&mut start, &row.call, row.one)?;
    Some(format!("{fields} place={}", start.bytes_scanned()))
}

fn definition(data: &[u8], start: usize, max_next: usize) -> Option<String> {
    let found = scan_reference_definition(data.get(start..)?, max_next)?;
    let (label, destination) = (found.label, found.destination);
    let title = found.title.as_ref();
    Some(format!(
        "end={} label_start={} label_length={} destination_start={} destination_length={} title_start={} title_length={}",
        start + found.len,
        start + label.start,
        label.len(),
        start + destination.start,
        destination.len(),
        length(title.map(|it| start + it.start)),
        title.map_or(0, |it| it.len()),
    ))
}

/// The calls that make a text: how many bytes it takes, and the text; `None` for a call of another kind.
fn made(row: &Row) -> Option<Option<(usize, Vec<u8>)>> {
    let text = || std::str::from_utf8(&row.text).expect("a text that a `str` can hold");
    let is_in_table = row.one == 1;
    Some(match &row.call[..] {
        "scan_entity" => {
            let (taken, meaning) = scan_entity(&row.text);
            meaning.map(|meaning| (taken, meaning.as_bytes().to_vec()))
        }
        "scan_table_head" => {
            let (taken, columns) = scan_table_head(&row.text);
            let number = |column: &Alignment| ALIGNMENTS.iter().position(|it| it == column).unwrap() as u8;
            (taken != 0).then(|| (taken, columns.iter().map(number).collect()))
        }
        "unescape" => Some((row.text.len(), unescape(text(), is_in_table).as_bytes().to_vec())),
        "scan_link_label" => {
            let found = scan_link_label_rest(text(), &[], is_in_table).unwrap();
            found.map(|(taken, label)| (taken, label.as_bytes().to_vec()))
        }
        "label_key" => Some((row.text.len(), label_key(text()).into_bytes())),
        _ => return None,
    })
}

/// The calls whose answer is a status.
fn status(row: &Row) -> Option<&'static str> {
    let status = |is_so| if is_so { "MDS_OK" } else { "MDS_NOTHING" };
    match &row.call[..] {
        "ends_html_block" => {
            let kind = row.one.checked_sub(1).and_then(|it| HTML_KINDS.get(it));
            Some(kind.map_or("MDS_BAD_KIND", |kind| status(ends_html_block(&row.text, *kind))))
        }
        "labels_match" => {
            let (one, other) = (std::str::from_utf8(&row.text), std::str::from_utf8(&row.other));
            Some(status(labels_match(one.unwrap(), other.unwrap())))
        }
        _ => None,
    }
}

/// Whether the row is one that Rust's types leave out: a text that is not UTF-8 before a call that takes a `str`.
fn is_left_out(row: &Row) -> bool {
    let takes_str = ["scan_delimiter_run", "unescape", "scan_link_label", "labels_match", "label_key"];
    let are_texts = std::str::from_utf8(&row.text).is_ok() && std::str::from_utf8(&row.other).is_ok();
    takes_str.contains(&&row.call[..]) && !are_texts
}

fn check(row: &Row) {
    let title = format!("{} of {:?}", row.call, String::from_utf8_lossy(&row.text));
    if let Some(status) = status(row) {
        return assert_eq!(status, row.answer, "{title}");
    }
    if let Some(made) = made(row) {
        return assert_eq!(made, text_of(&row.answer).map(|(taken, _, text)| (taken, text)), "{title}");
    }
    let answer = number(row).or_else(|| fields(row)).or_else(|| found(row));
    // a line start's columns are its own
    let expected = row.answer.split(" pending=").next().filter(|it| !it.starts_with("MDS_"));
    assert_eq!(answer.as_deref(), expected, "{title}");
}

#[test]
fn rows_of_the_table() {
    each_row("rows.tsv", |_, columns| {
        let row = read_row(columns);
        let is_in = !is_left_out(&row);
        if is_in {
            check(&row);
        }
        is_in
    });
}
