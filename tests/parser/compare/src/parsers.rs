//! The parsers, and what their answers differ in.

use std::collections::BTreeSet;
use std::panic::{catch_unwind, AssertUnwindSafe};

use beside::Note;

use crate::kinds::kind_of;

#[derive(Clone, Copy)]
pub enum Parser {
    Original,
    Swapped,
    /// Both, call by call; it renders what the original does.
    Beside,
}

macro_rules! rendered {
    ($parser:ident, $text:expr, $is_smart:expr) => {{
        let mut options = $parser::Options::all();
        options.set($parser::Options::ENABLE_SMART_PUNCTUATION, $is_smart);
        let mut html = String::new();
        $parser::html::push_html(&mut html, $parser::Parser::new_ext($text, options));
        html
    }};
}

/// The HTML, with all extensions; where the parser panics, that.
pub fn render(parser: Parser, text: &str, is_smart: bool) -> String {
    let html = catch_unwind(AssertUnwindSafe(|| match parser {
        Parser::Original => rendered!(original, text, is_smart),
        Parser::Swapped => rendered!(swapped, text, is_smart),
        Parser::Beside => rendered!(beside, text, is_smart),
    }));
    html.unwrap_or_else(|_| PANIC.to_string())
}

const PANIC: &str = "a panic";

/// That two texts of HTML differ.
pub struct Difference {
    /// The kind of the first call that is answered in two ways.
    pub kind: &'static str,
    /// The kinds of all such calls.
    pub all: BTreeSet<&'static str>,
}

impl Difference {
    /// Whether nothing of another kind is answered in two ways.
    pub fn is_alone(&self) -> bool {
        self.all.len() <= 1
    }
}

/// What a text shows.
pub struct Returned {
    /// How many calls were made on both.
    pub calls: u64,
    /// Each that is answered in two ways, with its kind.
    pub answers: Vec<(&'static str, Note)>,
    /// Whether the swapped parser panics, and the original does not.
    pub has_panicked: bool,
    pub difference: Option<Difference>,
}

/// Renders the text by both, and makes each call of it on both.
pub fn compared(text: &str, is_smart: bool) -> Returned {
    let (original, swapped) = (render(Parser::Original, text, is_smart), render(Parser::Swapped, text, is_smart));
    let beside = render(Parser::Beside, text, is_smart);
    let (calls, notes) = beside::take_notes();
    let answers: Vec<_> = notes.into_iter().map(|note| (kind_of(&note), note)).collect();
    let all = answers.iter().map(|it| it.0).collect();
    let first = match answers.first() {
        _ if beside != original => "the original's answers render otherwise",
        Some((kind, _)) => kind,
        None => "no call differs",
    };
    let difference = (original != swapped).then_some(Difference { kind: first, all });
    let has_panicked = swapped == PANIC && original != PANIC;
    Returned { calls, answers, has_panicked, difference }
}
