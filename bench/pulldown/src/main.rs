//! What pulldown-cmark 0.9.2 does of a page, for `bench/pages` and `bench/corpora/run`: nothing, so that what reading it costs can be taken off,
//! the block pass alone, which `Parser::new` makes, all events, their ranges too, or HTML; with tables where `+tables` follows. Or whether the
//! page is UTF-8, by Rust's library. With ROUNDS it does it so many times, and prints the nanoseconds of a round too; with 0 it writes the HTML.
use pulldown_cmark::{Options, Parser, html::push_html};
use std::{env, fs, hint::black_box, io, io::Write, process::ExitCode, str, time::Instant};

/// How many bytes of HTML or how many events are made; the HTML is in memory that is used again.
fn made(passes: &str, page: &str, html: &mut String) -> Option<usize> {
    let (passes, options) = match passes.strip_suffix("+tables") {
        Some(passes) => (passes, Options::ENABLE_TABLES),
        None => (passes, Options::empty()),
    };
    html.clear();
    match passes {
        "none" => Some(page.len()),
        "utf8" => Some(str::from_utf8(black_box(page.as_bytes())).ok()?.len()),
        "blocks" => {
            drop(Parser::new_ext(page, options));
            Some(0)
        }
        "both" => Some(Parser::new_ext(page, options).count()),
        "ranges" => Some(Parser::new_ext(page, options).into_offset_iter().count()),
        "html" => {
            push_html(html, Parser::new_ext(page, options));
            Some(html.len())
        }
        _ => None,
    }
}

fn run(words: &[String]) -> Option<()> {
    let (passes, file, rounds) = match words {
        [passes, file] => (passes, file, 1),
        [passes, file, rounds] => (passes, file, rounds.parse::<u32>().ok()?),
        _ => return None,
    };
    let page = fs::read_to_string(file).ok()?;
    let mut html = String::new();
    if rounds == 0 {
        made(passes, &page, &mut html)?;
        return io::stdout().write_all(html.as_bytes()).ok();
    }
    let mut found = 0;
    let begin = Instant::now();
    for _ in 0..rounds {
        found = made(passes, &page, &mut html)?;
    }
    println!("{found} {}", begin.elapsed().as_nanos() / u128::from(rounds));
    Some(())
}

fn main() -> ExitCode {
    let words: Vec<String> = env::args().skip(1).collect();
    match run(&words) {
        Some(()) => ExitCode::SUCCESS,
        None => ExitCode::FAILURE,
    }
}
