//! The rows of packages/lines.tsv and packages/runs.tsv.

use std::panic::{catch_unwind, AssertUnwindSafe};

use fillaqut::*;

use crate::tables::*;

const ALERTS: [BlockQuoteKind; 5] = [
    BlockQuoteKind::Note,
    BlockQuoteKind::Tip,
    BlockQuoteKind::Important,
    BlockQuoteKind::Warning,
    BlockQuoteKind::Caution,
];

/// A call on a line start: `None` where it finds nothing.
pub fn line_answer(start: &mut LineStart, call: &str, number: usize) -> Option<String> {
    let ok = || "MDS_OK".to_owned();
    match call {
        "line_space" => start.scan_space(number).then(ok),
        "line_space_up_to" => Some(format!("columns={}", start.scan_space_upto(number))),
        "line_all_space" => {
            start.scan_all_space();
            Some(ok())
        }
        "line_is_at_end" => start.is_at_eol().then(ok),
        "line_quote" => start.scan_blockquote_marker().then(ok),
        "line_list" => start
            .scan_list_marker_with_indent(number)
            .map(|(byte, number, indent)| format!("delimiter={byte} start={number} indent={indent}")),
        "line_definition" => {
            let columns = start.scan_definition_list_definition_marker_with_indent(number);
            columns.map(|columns| format!("columns={columns}"))
        }
        "line_task" => start.scan_task_list_marker().map(|checked| format!("checked={}", usize::from(checked))),
        "line_alert" => start
            .scan_blockquote_tag()
            .map(|kind| format!("kind={}", 1 + ALERTS.iter().position(|it| *it == kind).unwrap())),
        call => panic!("no such call: {call}"),
    }
}

/// One call after the other; of the state the phase is a line start's own.
#[test]
fn rows_of_lines() {
    let (mut start, mut kept) = (LineStart::new(b""), LineStart::new(b""));
    each_row("lines.tsv", |place, [text, call, number, answer, state]| {
        if text != "+" {
            start = LineStart::new(read_text(text).leak());
        }
        match call {
            "copy" => kept = start.clone(),
            "resume" => start = kept.clone(),
            _ => {
                let number = numbers(number, ' ').first().copied().unwrap_or(0);
                let found = catch_unwind(AssertUnwindSafe(|| line_answer(&mut start, call, number)));
                let found = found.map(|it| it.unwrap_or_else(|| "MDS_NOTHING".into()));
                assert_eq!(found.unwrap_or_else(|_| "MDS_TOO_LARGE".into()), answer, "{place}");
            }
        }
        assert_eq!([start.bytes_scanned(), start.remaining_space()], numbers(state, ' ')[..2], "{place}");
        true
    });
}

/// A call of a run, or `None` of one that Rust has no word for.
fn line_call(word: &str) -> Option<LineCall> {
    let (name, number) = word.split_once('=').unwrap();
    let number = read_number(number);
    Some(match name {
        "space" => LineCall::Space(number),
        "space_up_to" => LineCall::Upto(number),
        "is_at_end" => LineCall::Eol,
        "quote" => LineCall::Quote,
        "list" => LineCall::List(number),
        "definition" => LineCall::Definition(number),
        _ => return None,
    })
}

/// An answer as C has it: whether something is found, its delimiter, its start and its number.
fn fields(answer: &LineAnswer) -> Vec<usize> {
    let (found, delimiter, start, number) = match *answer {
        LineAnswer::Space(it) | LineAnswer::Eol(it) | LineAnswer::Quote(it) => (it, 0, 0, 0),
        LineAnswer::Upto(columns) => (true, 0, 0, columns),
        LineAnswer::List(it) => it.map_or((false, 0, 0, 0), |(byte, start, indent)| (true, byte, start, indent)),
        LineAnswer::Definition(it) => (it.is_some(), 0, 0, it.unwrap_or(0)),
    };
    vec![usize::from(found), usize::from(delimiter), start as usize, number]
}

/// From the front of a line so many calls in one run, and the others in a second one.
fn run_in_parts(text: &[u8], calls: &[LineCall], first: usize) -> (Vec<Vec<usize>>, &'static str, usize, Vec<u8>) {
    let mut start = LineStart::new(text);
    let mut run = run_line(&mut start, &calls[..first]);
    if run.stop.is_none() {
        let more = run_line(&mut start, &calls[first..]);
        run.answers.extend(more.answers);
        run.stop = more.stop.map(|(before, stop)| (first + before, stop));
    }
    assert!(!run.stop.is_some_and(|(before, _)| before != run.answers.len()));
    let status = run.stop.map_or("MDS_OK", |(_, stop)| match stop {
        LineStop::SpacePending => "MDS_SPACE_PENDING",
        LineStop::IndentTooLarge => "MDS_TOO_LARGE",
    });
    (run.answers.iter().map(fields).collect(), status, start.bytes_scanned(), line_rest(&start))
}

fn is_html_run(place: &str, text: &[u8], given: &str, answers: &str, status: &str) {
    let run = run_inline_html(text, &numbers(given, ' '));
    let ends: Vec<usize> = run.answers.iter().map(|it| it.unwrap_or(usize::MAX)).collect();
    let found = run.stop.map_or("MDS_OK", |(_, stop)| match stop {
        HtmlStop::NoOpener => "MDS_NO_OPENER",
        HtmlStop::NotRising => "MDS_NOT_RISING",
        HtmlStop::InsideFind => "MDS_INSIDE_FIND",
    });
    assert_eq!((ends, found), (numbers(answers, ' '), status), "{place}");
}

/// Those that begin with numbers of a line start, or have a call that there is no word for, are left out.
#[test]
fn rows_of_runs() {
    each_row("runs.tsv", |place, [call, text, given, offset, rest, answers, status]| {
        let (text, rest) = (read_text(text), read_text(rest));
        match call {
            "run_inline_html" => is_html_run(place, &text, given, answers, status),
            "run_line" => {
                let words = given.split(' ').filter(|it| !it.is_empty());
                let Some(calls) = words.map(line_call).collect::<Option<Vec<_>>>() else { return false };
                let answers = answers.split(' ').filter(|it| !it.is_empty()).map(|it| numbers(it, ',')).collect();
                let expected = (answers, status, read_number(offset), rest);
                for first in 0..=calls.len() {
                    assert_eq!(run_in_parts(&text, &calls, first), expected, "{place}, {first} calls first");
                }
            }
            "line_rest" if given == "0 0 0" => assert_eq!(line_rest(&LineStart::new(&text)), rest, "{place}"),
            "line_rest" => return false,
            call => panic!("{place}: no such call: {call}"),
        }
        true
    });
}
