//! Renders Markdown by both parsers.
//!
//!     compare html PARSER <FILE           what original or swapped renders of a text
//!     compare files FILE ..               which files they render differently
//!     compare fragments TEXTS COUNT       the same of made fragments, by the kind of the difference
//!     compare instructions FILE ..        renders each by both, in functions that callgrind tells apart

mod fragments;
mod kinds;
mod parsers;

use std::collections::BTreeMap;
use std::io::Read;

use fragments::{shrunk, Maker};
use parsers::{compared, render, Difference, Parser};

/// Of one kind: how many texts, and the shortest in which nothing of another kind differs.
#[derive(Default)]
struct Kind {
    texts: usize,
    shortest: Option<(String, bool)>,
}

/// What differs in the texts so far, by its kind.
#[derive(Default)]
struct Tally {
    texts: usize,
    bytes: usize,
    calls: u64,
    panics: usize,
    kinds: BTreeMap<&'static str, Kind>,
    answers: BTreeMap<&'static str, (usize, String)>,
}

impl Tally {
    fn add(&mut self, text: &str, is_smart: bool) -> Option<Difference> {
        let returned = compared(text, is_smart);
        self.texts += 1;
        self.bytes += text.len();
        self.calls += returned.calls;
        self.panics += usize::from(returned.has_panicked);
        for (kind, note) in returned.answers {
            let input = String::from_utf8_lossy(&note.input[..note.input.len().min(60)]).into_owned();
            let answer = || (0, format!("{}: {input:?}: {}, and {}", note.call, note.before, note.swapped));
            self.answers.entry(kind).or_insert_with(answer).0 += 1;
        }
        let difference = returned.difference?;
        let kind = self.kinds.entry(difference.kind).or_default();
        kind.texts += 1;
        if difference.is_alone() && kind.shortest.as_ref().map_or(true, |(other, _)| text.len() < other.len()) {
            kind.shortest = Some((text.to_string(), is_smart));
        }
        Some(difference)
    }

    fn tell(&self) {
        for (kind, (calls, first)) in &self.answers {
            println!("answers\t{kind}\t{calls}\t{first}");
        }
        for (name, kind) in &self.kinds {
            let (text, is_smart) = kind.shortest.clone().unwrap_or_default();
            let least = shrunk(&text, |it| {
                compared(it, is_smart).difference.map_or(false, |it| it.is_alone() && it.kind == *name)
            });
            let (one, other) = (render(Parser::Original, &least, is_smart), render(Parser::Swapped, &least, is_smart));
            println!("kind\t{name}\t{}\t{least:?}\t{one:?}\t{other:?}", kind.texts);
        }
        let differ: usize = self.kinds.values().map(|kind| kind.texts).sum();
        println!("all\t{}\t{}\t{differ}\t{}\t{}", self.texts, self.bytes, self.calls, self.panics);
    }
}

fn read(file: &str) -> String {
    let bytes = std::fs::read(file).unwrap_or_else(|why| {
        eprintln!("compare: {file}: {why}");
        std::process::exit(1)
    });
    String::from_utf8_lossy(&bytes).into_owned()
}

fn compare_files(files: &[String]) {
    let mut tally = Tally::default();
    for file in files {
        if let Some(difference) = tally.add(&read(file), false) {
            println!("file\t{file}\t{}", Vec::from_iter(difference.all).join(", "));
        }
    }
    tally.tell();
}

fn compare_fragments(texts: &str, count: usize) {
    let texts = read(texts);
    let mut maker = Maker::new(texts.split('\x1e').collect());
    let mut tally = Tally::default();
    for number in 0..count {
        tally.add(&maker.fragment(), number % 2 == 0);
    }
    tally.tell();
}

#[no_mangle]
#[inline(never)]
fn measured_original(text: &str) -> usize {
    render(Parser::Original, text, false).len()
}

#[no_mangle]
#[inline(never)]
fn measured_swapped(text: &str) -> usize {
    render(Parser::Swapped, text, false).len()
}

fn main() {
    let words: Vec<String> = std::env::args().skip(1).collect();
    let words: Vec<&str> = words.iter().map(String::as_str).collect();
    std::panic::set_hook(Box::new(|_| ()));
    match words[..] {
        ["html", parser] => {
            let mut text = String::new();
            std::io::stdin().read_to_string(&mut text).expect("standard input is UTF-8");
            let parser = if parser == "original" { Parser::Original } else { Parser::Swapped };
            print!("{}", render(parser, &text, false));
        }
        ["files", ..] => compare_files(&words[1..].iter().map(|it| it.to_string()).collect::<Vec<_>>()),
        ["fragments", texts, count] => compare_fragments(texts, count.parse().expect("a number")),
        ["instructions", _, ..] => {
            for parser in [Parser::Original, Parser::Swapped] {
                render(parser, &read(words[1]), false); // what is done once is not counted
            }
            for file in &words[1..] {
                let text = read(file);
                println!("{} {}", measured_original(&text), measured_swapped(&text));
            }
        }
        _ => std::process::exit(2),
    }
}
