//! Prints the headings of a Markdown file, each after the number of its line: also those in block quotes and list items, and not
//! what looks like one in code. (CommonMark 0.31.2, 4.2 and 4.3)

use std::path::Path;
use std::{env, fs, process};

use fillaqut::{scan_blocks, BlockKind, Extensions};

fn print_headings(page: &[u8]) {
    let asked = Extensions { tables: true, ..Extensions::default() };
    for block in scan_blocks(page, asked) {
        if let BlockKind::Heading(level) | BlockKind::Setext(level) = block.kind {
            let content = block.content();
            let lines: Vec<_> = String::from_utf8_lossy(&content).lines().map(|it| it.trim_end().to_owned()).collect();
            println!("{}: {} {}", block.lines.start + 1, "#".repeat(level as usize), lines.join(" "));
        }
    }
}

fn main() {
    let Some(path) = env::args_os().nth(1) else {
        eprintln!("usage: headings FILE.md");
        process::exit(2);
    };
    match fs::read(&path) {
        Ok(page) => print_headings(&page),
        Err(why) => {
            eprintln!("headings: {}: {why}", Path::new(&path).display());
            process::exit(2);
        }
    }
}
