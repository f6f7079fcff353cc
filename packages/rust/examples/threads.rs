//! Makes the HTML of many copies of a Markdown file in one to four threads, and prints how many megabytes a second that comes to, in the
//! best of some runs. Calls have no state, so the threads of the standard library are all that is needed.

use std::path::Path;
use std::time::Instant;
use std::{env, fs, process, thread};

use fillaqut::{html, Extensions};

const COPIES: usize = 24;
const RUNS: usize = 5;

/// The HTML of all pages in order, of which each thread makes as many.
fn html_of(pages: &[String], threads: usize) -> Vec<String> {
    let part = |pages: &[String]| pages.iter().map(|page| html(page, Extensions::default())).collect::<Vec<_>>();
    thread::scope(|scope| {
        let begun: Vec<_> =
            pages.chunks(pages.len().div_ceil(threads)).map(|pages| scope.spawn(move || part(pages))).collect();
        begun.into_iter().flat_map(|thread| thread.join().expect("no page makes a call panic")).collect()
    })
}

fn print_speed(page: String) {
    let pages = vec![page; COPIES];
    let bytes: usize = pages.iter().map(String::len).sum();
    let expected = vec![html(&pages[0], Extensions::default()); COPIES];
    for threads in 1..=4 {
        let took = (0..RUNS).map(|_| {
            let start = Instant::now();
            let found = html_of(&pages, threads);
            let took = start.elapsed().as_secs_f64();
            assert_eq!(found, expected);
            took
        });
        let best = took.fold(f64::INFINITY, f64::min);
        println!("{threads} threads: {:.0} MB/s", bytes as f64 / best / 1e6);
    }
}

fn main() {
    let Some(path) = env::args_os().nth(1) else {
        eprintln!("usage: threads FILE.md");
        process::exit(2);
    };
    match fs::read_to_string(&path) {
        Ok(page) => print_speed(page),
        Err(why) => {
            eprintln!("threads: {}: {why}", Path::new(&path).display());
            process::exit(2);
        }
    }
}
