//! Answers of pulldown-cmark's own scanners for cases on standard input, a line each: the case, `=>` and the answer.
//!
//! The three modules that answer are copied beside this crate when it is built (`build`). What they import from
//! their own crate stands here, as far as they use it.
mod answers;
pub mod entities;
#[path = "../upstream/linklabel.rs"]
#[allow(dead_code, unused_imports)]
mod linklabel;
pub mod parse;
pub mod puncttable;
#[path = "../upstream/scanners.rs"]
#[allow(dead_code, unused_imports)]
mod scanners;
#[path = "../upstream/strings.rs"]
#[allow(dead_code, unused_imports)]
mod strings;
mod values;

pub use strings::{CowStr, InlineStr};
pub use values::{Alignment, BlockQuoteKind, HeadingLevel, LinkType};

use std::io::{self, BufRead, BufWriter, Write};
use std::panic;

fn main() -> io::Result<()> {
    let mut output = BufWriter::new(io::stdout().lock());
    panic::set_hook(Box::new(|_| {}));
    for case in io::stdin().lock().lines() {
        let case = case?;
        let fields: Vec<&str> = case.split('\t').collect();
        let answer = panic::catch_unwind(|| answers::of(&fields)).unwrap_or("panic".into());
        writeln!(output, "{case}\t=>\t{answer}")?;
    }
    output.flush()
}
