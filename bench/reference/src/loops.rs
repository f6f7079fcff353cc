//! The loops of `crates/bench_calls`, function for function, over the scanners of pulldown-cmark.
use crate::parse::HtmlScanGuard;
use crate::scanners::*;
use crate::strings::CowStr;
pub use crate::values::*;
use crate::{Alignment, BlockQuoteKind, HeadingLevel};

#[inline]
fn each<F: Fn(&[u8]) -> u64>(text: &[u8], at: &[usize], rounds: usize, call: &F) -> u64 {
    let mut sum: u64 = 0;
    for _ in 0..rounds {
        for place in at {
            if *place <= text.len() {
                sum = sum.wrapping_add(call(&text[*place..]));
            }
        }
    }
    sum
}
fn count(found: Option<usize>) -> u64 {
    match found {
        Some(n) => (n as u64).wrapping_add(1),
        None => 0,
    }
}
fn level(level: HeadingLevel) -> u64 {
    level as u64
}
pub fn two(a: usize, b: u64) -> u64 {
    (a as u64).wrapping_mul(7).wrapping_add(b).wrapping_add(1)
}

macro_rules! bytes {
    ($name:ident, $call:expr) => {
        #[inline(never)]
        pub fn $name(text: &[u8], at: &[usize], rounds: usize) -> u64 {
            each(text, at, rounds, &$call)
        }
    };
}
bytes!(empty, |b: &[u8]| if b.is_empty() { 0 } else { b[0] as u64 });
bytes!(hrule, |b: &[u8]| match scan_hrule(b) {
    Ok(n) => two(n, 1),
    Err(n) => two(n, 2),
});
bytes!(atx, |b: &[u8]| scan_atx_heading(b).map_or(0, level));
bytes!(setext, |b: &[u8]| scan_setext_heading(b).map_or(0, |(n, h)| two(n, level(h))));
bytes!(fence, |b: &[u8]| scan_code_fence(b).map_or(0, |(n, c)| two(n, c as u64)));
bytes!(closing_fence, |b: &[u8]| count(scan_closing_code_fence(b, b'`', 3)));
bytes!(metadata, |b: &[u8]| scan_metadata_block(b, true, true).map_or(0, |(n, c)| two(n, c as u64)));
bytes!(closing_metadata, |b: &[u8]| count(scan_closing_metadata_block(b, b'-')));
fn alignment(a: Alignment) -> u64 {
    match a {
        Alignment::None => 1,
        Alignment::Left => 2,
        Alignment::Center => 3,
        Alignment::Right => 4,
    }
}
fn head(b: &[u8]) -> u64 {
    let (n, columns) = scan_table_head(b);
    let mut sum: u64 = 0;
    for column in &columns {
        sum = sum.wrapping_mul(5).wrapping_add(alignment(*column));
    }
    two(n, sum)
}
bytes!(table_head, head);
bytes!(listitem, |b: &[u8]| scan_listitem(b)
    .map_or(0, |(n, c, start, indent)| two(n, c as u64).wrapping_add(two(start, indent as u64))));
bytes!(blank, |b: &[u8]| count(scan_blank_line(b)));
bytes!(nextline, |b: &[u8]| scan_nextline(b) as u64);
bytes!(indent, |b: &[u8]| {
    let (n, c) = calc_indent(b, 4);
    two(n, c as u64)
});
bytes!(indent_deep, |b: &[u8]| {
    let (n, c) = calc_indent(b, 1000000000);
    two(n, c as u64)
});
bytes!(quote_start, |b: &[u8]| count(scan_blockquote_start(b)));
bytes!(type_6, |b: &[u8]| starts_html_block_type_6(b) as u64);
bytes!(type_7, |b: &[u8]| count(scan_html_type_7(b)));
#[inline(never)]
pub fn classes(text: &[u8], _at: &[usize], rounds: usize) -> u64 {
    let mut sum: u64 = 0;
    for _ in 0..rounds {
        for b in text {
            if is_ascii_punctuation(*b) {
                sum = sum.wrapping_add(1);
            }
            if is_ascii_whitespace(*b) {
                sum = sum.wrapping_add(1);
            }
            if is_ascii_whitespace_no_nl(*b) {
                sum = sum.wrapping_add(1);
            }
        }
    }
    sum
}
bytes!(scan_while_, |b: &[u8]| scan_while(b, |c| c != b' ' && c != b'\n') as u64);
#[inline(never)]
pub fn rev_while(text: &[u8], at: &[usize], rounds: usize) -> u64 {
    let mut sum: u64 = 0;
    for _ in 0..rounds {
        for place in at {
            if *place <= text.len() {
                sum = sum.wrapping_add(scan_rev_while(&text[..*place], |c| c != b' ') as u64);
            }
        }
    }
    sum
}

fn place_of(line: &LineStart) -> u64 {
    two(line.bytes_scanned(), line.remaining_space() as u64)
}
bytes!(line_quote, |b: &[u8]| {
    let mut line = LineStart::new(b);
    line.scan_space_upto(3);
    let quote = line.scan_blockquote_marker();
    place_of(&line).wrapping_mul(2).wrapping_add(quote as u64)
});
fn list_answer(line: &mut LineStart) -> u64 {
    let indent = line.scan_space_upto(4);
    if indent >= 4 {
        return 1;
    }
    match line.scan_list_marker_with_indent(indent) {
        Some((c, start, indent)) => two(indent, c as u64).wrapping_add(start),
        None => 2,
    }
}
bytes!(line_list, |b: &[u8]| {
    let mut line = LineStart::new(b);
    let answer = list_answer(&mut line);
    place_of(&line).wrapping_mul(3).wrapping_add(answer)
});
bytes!(line_task, |b: &[u8]| {
    let mut line = LineStart::new(b);
    let answer = match line.scan_task_list_marker() {
        Some(checked) => {
            if checked {
                2
            } else {
                1
            }
        }
        None => 0,
    };
    place_of(&line).wrapping_mul(3).wrapping_add(answer)
});
bytes!(line_definition, |b: &[u8]| {
    let mut line = LineStart::new(b);
    let answer = match line.scan_definition_list_definition_marker_with_indent(0) {
        Some(n) => n as u64,
        None => 0,
    };
    place_of(&line).wrapping_mul(3).wrapping_add(answer)
});
fn kind(kind: BlockQuoteKind) -> u64 {
    kind as u64 + 1
}
bytes!(line_tag, |b: &[u8]| {
    let mut line = LineStart::new(b);
    let answer = line.scan_blockquote_tag().map_or(0, kind);
    place_of(&line).wrapping_mul(3).wrapping_add(answer)
});
bytes!(line_space, |b: &[u8]| {
    let mut line = LineStart::new(b);
    for _ in 0..1000 {
        if !line.scan_space(4) {
            break;
        }
    }
    place_of(&line)
});
bytes!(line_upto, |b: &[u8]| {
    let mut line = LineStart::new(b);
    let n = line.scan_space_upto(1000000000);
    place_of(&line).wrapping_add(n as u64)
});
bytes!(line_all, |b: &[u8]| {
    let mut line = LineStart::new(b);
    line.scan_all_space();
    let eol = line.is_at_eol();
    place_of(&line).wrapping_mul(2).wrapping_add(eol as u64)
});
bytes!(line_containers, |b: &[u8]| {
    let mut line = LineStart::new(b);
    let mut sum: u64 = 0;
    for _ in 0..100000 {
        let indent = line.scan_space_upto(3);
        if line.scan_blockquote_marker() {
            sum = sum.wrapping_add(1);
        } else if indent < 4 {
            match line.scan_list_marker_with_indent(indent) {
                Some((c, start, n)) => sum = sum.wrapping_add(two(n, c as u64)).wrapping_add(start),
                None => break,
            }
        } else {
            break;
        }
    }
    line.scan_all_space();
    let eol = line.is_at_eol();
    sum.wrapping_add(place_of(&line)).wrapping_add(eol as u64)
});

bytes!(entity, |b: &[u8]| {
    if b.is_empty() {
        return 0;
    }
    let (n, text) = scan_entity(b);
    match text {
        Some(text) => two(n, text.len() as u64),
        None => 0,
    }
});
fn unescaped(text: &str) -> u64 {
    let out = unescape(CowStr::Borrowed(text), false);
    let lent = matches!(&out, CowStr::Borrowed(_));
    two(out.len(), lent as u64)
}
#[macro_export]
macro_rules! stretches {
    ($name:ident, $call:expr) => {
        #[inline(never)]
        pub fn $name(text: &[u8], at: &[usize], rounds: usize) -> u64 {
            let Ok(text) = std::str::from_utf8(text) else { return 0 };
            let mut sum: u64 = 0;
            for _ in 0..rounds {
                let mut from = 0;
                for place in at {
                    let to = *place;
                    if from <= to && text.is_char_boundary(from) && text.is_char_boundary(to) {
                        sum = sum.wrapping_add($call(&text[from..to]));
                    }
                    from = to;
                }
            }
            sum
        }
    };
}
#[macro_export]
macro_rules! places {
    ($name:ident, $call:expr) => {
        #[inline(never)]
        pub fn $name(text: &[u8], at: &[usize], rounds: usize) -> u64 {
            let Ok(text) = std::str::from_utf8(text) else { return 0 };
            let mut sum: u64 = 0;
            for _ in 0..rounds {
                for place in at {
                    if text.is_char_boundary(*place) {
                        sum = sum.wrapping_add($call(text, *place));
                    }
                }
            }
            sum
        }
    };
}
stretches!(unescape_, unescaped);
fn unescaped_in_table(text: &str) -> u64 {
    let out = unescape(CowStr::Borrowed(text), true);
    let lent = matches!(&out, CowStr::Borrowed(_));
    two(out.len(), lent as u64)
}
stretches!(unescape_table, unescaped_in_table);
places!(link_dest, |text: &str, place| scan_link_dest(text, place, 32).map_or(0, |(n, d)| two(n, d.len() as u64)));
places!(link_dest_deep, |text: &str, place| scan_link_dest(text, place, usize::MAX)
    .map_or(0, |(n, d)| two(n, d.len() as u64)));
places!(autolink, |text: &str, place| scan_uri(text, place).map_or(0, |(n, d)| two(n, d.len() as u64)));
places!(wikilink, |text: &str, place| scan_wikilink_pipe(text, place, 80).map_or(0, |(n, d)| two(n, d.len() as u64)));
bytes!(tag, |b: &[u8]| scan_html_block_inner(b, None).map_or(0, |(text, n)| two(n, text.len() as u64)));
bytes!(tag_lines, |b: &[u8]| {
    let quote = |rest: &[u8]| -> usize {
        if rest.starts_with(b"> ") {
            2
        } else {
            0
        }
    };
    scan_html_block_inner(b, Some(&quote)).map_or(0, |(text, n)| two(n, text.len() as u64))
});
#[inline(never)]
pub fn inline_html(text: &[u8], at: &[usize], rounds: usize) -> u64 {
    let mut sum: u64 = 0;
    for _ in 0..rounds {
        let mut guard = HtmlScanGuard::default();
        let mut end = 0;
        for place in at {
            let place = *place;
            if place >= end && place > 0 && place <= text.len() {
                let found = if text[place - 1] == b'!' {
                    scan_inline_html_comment(text, place, &mut guard)
                } else {
                    scan_inline_html_processing(text, place, &mut guard)
                };
                if let Some(next) = found {
                    end = next;
                }
                sum = sum.wrapping_add(count(found));
            }
        }
    }
    sum
}
