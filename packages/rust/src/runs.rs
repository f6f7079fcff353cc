//! Many calls in one: on a line start, and of inline HTML. Sections in brackets are those of CommonMark 0.31.2.

use alloc::vec;
use alloc::vec::Vec;

use crate::line::LineStart;
use crate::raw::{self, ffi};
use crate::values::found;

/// A call of a run on a line start.
#[derive(Clone, Copy, Debug, PartialEq, Eq)]
pub enum LineCall {
    /// So many columns of space, or fewer where there are fewer.
    Space(usize),
    /// At most so many columns of space.
    Upto(usize),
    /// Whether the line ends there.
    Eol,
    /// A block quote marker.
    Quote,
    /// A list item's marker at that indent.
    List(usize),
    /// A definition's marker at that indent.
    Definition(usize),
}

/// What such a call answers.
#[derive(Clone, Copy, Debug, PartialEq, Eq)]
pub enum LineAnswer {
    /// Whether there were as many columns.
    Space(bool),
    /// How many columns were taken.
    Upto(usize),
    /// Whether the line ends there.
    Eol(bool),
    /// Whether there is a marker.
    Quote(bool),
    /// The delimiter, the number of an ordered item, and the indent of what the item holds.
    List(Option<(u8, u64, usize)>),
    /// The indent of what the definition holds.
    Definition(Option<usize>),
}

/// Why a run on a line start stops.
#[derive(Clone, Copy, Debug, PartialEq, Eq)]
pub enum LineStop {
    /// Columns of a tab are pending, and the call takes no space.
    SpacePending,
    /// The indent is above `usize::MAX - 16`.
    IndentTooLarge,
}

/// What a run on a line start comes to.
#[derive(Clone, Debug, PartialEq, Eq)]
pub struct LineRun {
    /// Of each call before the run stopped.
    pub answers: Vec<LineAnswer>,
    /// Before which call the run stopped, and why.
    pub stop: Option<(usize, LineStop)>,
}

fn call_of(call: LineCall) -> ffi::LineCall {
    let (kind, number) = match call {
        LineCall::Space(count) => (ffi::SPACE, count),
        LineCall::Upto(count) => (ffi::UPTO, count),
        LineCall::Eol => (ffi::EOL, 0),
        LineCall::Quote => (ffi::QUOTE, 0),
        LineCall::List(indent) => (ffi::LIST, indent),
        LineCall::Definition(indent) => (ffi::DEFINITION, indent),
    };
    ffi::LineCall { kind, number }
}

fn answer_of(call: LineCall, returned: ffi::LineAnswer) -> LineAnswer {
    match call {
        LineCall::Space(_) => LineAnswer::Space(returned.found),
        LineCall::Upto(_) => LineAnswer::Upto(returned.number),
        LineCall::Eol => LineAnswer::Eol(returned.found),
        LineCall::Quote => LineAnswer::Quote(returned.found),
        LineCall::List(_) => {
            LineAnswer::List(returned.found.then_some((returned.delimiter, returned.start, returned.number)))
        }
        LineCall::Definition(_) => LineAnswer::Definition(returned.found.then_some(returned.number)),
    }
}

/// Makes the calls in turn from the line start on, as on the line with its tabs written out to stops of four, and leaves it
/// where the run stopped. (2.2)
///
/// ```
/// use fillaqut::{line_rest, run_line, LineAnswer, LineCall, LineStart};
/// let mut start = LineStart::new(b">\t- x");
/// let run = run_line(&mut start, &[LineCall::Quote, LineCall::Upto(1)]);
/// assert_eq!(run.answers, [LineAnswer::Quote(true), LineAnswer::Upto(1)]);
/// assert_eq!((start.bytes_scanned(), run.stop, &line_rest(&start)[..]), (2, None, &b" - x"[..]));
/// ```
pub fn run_line(start: &mut LineStart, calls: &[LineCall]) -> LineRun {
    let given: Vec<_> = calls.iter().copied().map(call_of).collect();
    let mut answers = vec![ffi::LineAnswer::default(); calls.len()];
    let run = raw::run_line(start.bytes, &mut start.numbers, &given, &mut answers);
    let stop = match run.status {
        ffi::SPACE_PENDING => Some((run.count, LineStop::SpacePending)),
        ffi::TOO_LARGE => Some((run.count, LineStop::IndentTooLarge)),
        _ => None,
    };
    let returned = calls.iter().zip(&answers[..run.count]).map(|(call, returned)| answer_of(*call, *returned));
    LineRun { answers: returned.collect(), stop }
}

/// What is left of the bytes from the line start on: its pending columns as spaces, then the bytes from its place on, their
/// tabs before a line ending written out. (2.2)
///
/// ```
/// use fillaqut::{line_rest, LineStart};
/// assert_eq!(line_rest(&LineStart::new(b"a\tb\n\tc")), b"a   b\n\tc");
/// ```
#[must_use]
pub fn line_rest(start: &LineStart) -> Vec<u8> {
    let mut rest = vec![0; raw::line_rest(start.bytes, &start.numbers, &mut []).length];
    raw::line_rest(start.bytes, &start.numbers, &mut rest);
    rest
}

/// Why a run of inline HTML stops.
#[derive(Clone, Copy, Debug, PartialEq, Eq)]
pub enum HtmlStop {
    /// No `<!` or `<?` ends at the place.
    NoOpener,
    /// The place is not above the one before it.
    NotRising,
    /// The place is inside what was found before it.
    InsideFind,
}

/// What a run of inline HTML finds.
#[derive(Clone, Debug, PartialEq, Eq)]
pub struct HtmlRun {
    /// The offset after what begins at each of the places, before the run stopped.
    pub answers: Vec<Option<usize>>,
    /// Before which place the run stopped, and why.
    pub stop: Option<(usize, HtmlStop)>,
}

/// The offset after the comment, CDATA section, declaration or processing instruction that begins at each of the places in
/// turn. The scans at k places of n bytes pass over at most 4n + 8k bytes. (6.6)
///
/// ```
/// let run = fillaqut::run_inline_html(b"<!a> <? <!-- b -->", &[2, 7, 10]);
/// assert_eq!((run.answers, run.stop), (vec![Some(4), None, Some(18)], None));
/// ```
pub fn run_inline_html(bytes: &[u8], places: &[usize]) -> HtmlRun {
    let mut ends = vec![0; places.len()];
    let run = raw::run_inline_html(bytes, places, &mut ends);
    let stop = match run.status {
        ffi::NO_OPENER => Some((run.count, HtmlStop::NoOpener)),
        ffi::NOT_RISING => Some((run.count, HtmlStop::NotRising)),
        ffi::INSIDE_FIND => Some((run.count, HtmlStop::InsideFind)),
        _ => None,
    };
    HtmlRun { answers: ends[..run.count].iter().copied().map(found).collect(), stop }
}
