//! Makes each call of the passes twice: as `before`, and over the crate `fillaqut`. The first answer is given on. Where
//! the second is another, it is noted.

use std::cell::{Cell, RefCell};
use std::fmt::Debug;
use std::hash::{Hash, Hasher};

mod before;
mod label;
mod swapped;

pub(crate) use crate::puncttable::is_punctuation;
pub(crate) use before::scan_email;

pub(crate) use swapped::HtmlScanGuard as SwappedGuard;

use crate::parse::HtmlScanGuard;
use crate::strings::CowStr;
use crate::{Alignment, HeadingLevel, LinkType};

/// A call that is answered in two ways.
pub struct Note {
    /// Its name.
    pub call: &'static str,
    /// What it is given, from its place on.
    pub input: Vec<u8>,
    /// What the original answers.
    pub before: String,
    /// What stands in its place answers.
    pub swapped: String,
}

thread_local! {
    static CALLS: Cell<u64> = Cell::new(0);
    static NOTES: RefCell<Vec<Note>> = RefCell::new(Vec::new());
    static LABELS: RefCell<Vec<String>> = RefCell::new(Vec::new());
}

/// How many calls were made, and those that are answered in two ways, since it was asked last.
pub fn take_notes() -> (u64, Vec<Note>) {
    LABELS.with(|labels| labels.take());
    (CALLS.with(|calls| calls.replace(0)), NOTES.with(|notes| notes.take()))
}

fn note(call: &'static str, input: &[u8], before: &impl Debug, swapped: &impl Debug) {
    let (before, swapped) = (format!("{before:?}"), format!("{swapped:?}"));
    let input = input[..input.len().min(4100)].to_vec();
    NOTES.with(|notes| notes.borrow_mut().push(Note { call, input, before, swapped }));
}

fn compared<T: PartialEq + Debug>(call: &'static str, input: &[u8], before: T, swapped: T) -> T {
    CALLS.with(|calls| calls.set(calls.get() + 1));
    if before != swapped {
        note(call, input, &before, &swapped);
    }
    before
}

macro_rules! of_a_byte {
    ($($name:ident)*) => {$(
        pub(crate) fn $name(byte: u8) -> bool {
            compared(stringify!($name), &[byte], before::$name(byte), swapped::$name(byte))
        }
    )*};
}

macro_rules! by_a_closure {
    ($($name:ident)*) => {$(
        pub(crate) fn $name(bytes: &[u8], mut accepts: impl FnMut(u8) -> bool) -> usize {
            let before = before::$name(bytes, &mut accepts);
            compared(stringify!($name), bytes, before, swapped::$name(bytes, accepts))
        }
    )*};
}

by_a_closure! { scan_while scan_rev_while }

of_a_byte! { is_ascii_whitespace is_ascii_whitespace_no_nl is_ascii_punctuation }

macro_rules! of_bytes {
    ($($name:ident($($given:ident: $type:ty),*) -> $answer:ty;)*) => {$(
        pub(crate) fn $name(bytes: &[u8] $(, $given: $type)*) -> $answer {
            compared(stringify!($name), bytes, before::$name(bytes $(, $given)*), swapped::$name(bytes $(, $given)*))
        }
    )*};
}

of_bytes! {
    scan_ch(byte: u8) -> usize;
    scan_ch_repeat(byte: u8) -> usize;
    scan_whitespace_no_nl() -> usize;
    scan_eol() -> Option<usize>;
    scan_blank_line() -> Option<usize>;
    scan_nextline() -> usize;
    scan_closing_code_fence(fence: u8, count: usize) -> Option<usize>;
    scan_hrule() -> Result<usize, usize>;
    scan_atx_heading() -> Option<HeadingLevel>;
    scan_setext_heading() -> Option<(usize, HeadingLevel)>;
    scan_table_head() -> (usize, Vec<Alignment>);
    scan_code_fence() -> Option<(usize, u8)>;
    scan_blockquote_start() -> Option<usize>;
    scan_empty_list() -> bool;
    scan_entity() -> (usize, Option<CowStr<'static>>);
    starts_html_block_type_6() -> bool;
    scan_html_type_7() -> Option<usize>;
    scan_html_block_inner(handler: Option<&dyn Fn(&[u8]) -> usize>) -> Option<(Vec<u8>, usize)>;
}

/// Of an item, what the passes ask: its delimiter, its number, and whether it is empty.
pub(crate) fn scan_listitem(bytes: &[u8]) -> Option<(usize, u8, usize, usize)> {
    let (before, swapped) = (before::scan_listitem(bytes), swapped::scan_listitem(bytes));
    let asked = |item: (usize, u8, usize, usize)| (item.1, item.2, before::scan_empty_list(&bytes[item.0..]));
    compared("scan_listitem", bytes, before.map(asked), swapped.map(asked));
    before
}

pub(crate) fn unescape(input: &str) -> CowStr<'_> {
    compared("unescape", input.as_bytes(), before::unescape(input), swapped::unescape(input))
}

pub(crate) fn scan_link_dest(data: &str, start: usize, max: usize) -> Option<(usize, &str)> {
    let answers = (before::scan_link_dest(data, start, max), swapped::scan_link_dest(data, start, max));
    compared("scan_link_dest", &data.as_bytes()[start..], answers.0, answers.1)
}

pub(crate) fn scan_refdef_title(text: &str) -> Option<(usize, &str)> {
    compared("scan_refdef_title", text.as_bytes(), before::scan_refdef_title(text), swapped::scan_refdef_title(text))
}

pub(crate) fn scan_autolink(text: &str, start: usize) -> Option<(usize, CowStr<'_>, LinkType)> {
    let answers = (before::scan_autolink(text, start), swapped::scan_autolink(text, start));
    compared("scan_autolink", &text.as_bytes()[start..], answers.0, answers.1)
}

pub(crate) fn scan_link_label_rest<'text>(
    text: &'text str,
    handler: &dyn Fn(&[u8]) -> Option<usize>,
) -> Option<(usize, CowStr<'text>)> {
    let answers = (label::scan_link_label_rest(text, handler), swapped::scan_link_label_rest(text, handler));
    compared("scan_link_label_rest", text.as_bytes(), answers.0, answers.1)
}

/// From the byte before the `!` or `?` on.
fn opened(bytes: &[u8], ix: usize) -> &[u8] {
    &bytes[ix.saturating_sub(2)..]
}

pub(crate) fn scan_inline_html_comment<'input>(
    bytes: &'input [u8],
    ix: usize,
    guard: &mut HtmlScanGuard<'input>,
) -> Option<usize> {
    let swapped = swapped::scan_inline_html_comment(bytes, ix, &mut guard.swapped);
    compared("scan_inline_html_comment", opened(bytes, ix), before::scan_inline_html_comment(bytes, ix, guard), swapped)
}

pub(crate) fn scan_inline_html_processing<'input>(
    bytes: &'input [u8],
    ix: usize,
    guard: &mut HtmlScanGuard<'input>,
) -> Option<usize> {
    let swapped = swapped::scan_inline_html_processing(bytes, ix, &mut guard.swapped);
    compared(
        "scan_inline_html_processing",
        opened(bytes, ix),
        before::scan_inline_html_processing(bytes, ix, guard),
        swapped,
    )
}

/// Both starts of a line. Where their numbers have parted nothing more is compared.
#[derive(Clone)]
pub(crate) struct LineStart<'line> {
    bytes: &'line [u8],
    before: before::LineStart<'line>,
    swapped: swapped::LineStart<'line>,
    have_parted: bool,
}

macro_rules! of_a_line {
    ($($name:ident($($given:ident: $type:ty),*) -> $answer:ty;)*) => {$(
        pub(crate) fn $name(&mut self $(, $given: $type)*) -> $answer {
            let answers = (self.before.$name($($given),*), self.swapped.$name($($given),*));
            self.compare(stringify!($name), &answers.0, &answers.1);
            answers.0
        }
    )*};
}

impl<'line> LineStart<'line> {
    pub(crate) fn new(bytes: &[u8]) -> LineStart {
        let (before, swapped) = (before::LineStart::new(bytes), swapped::LineStart::new(bytes));
        LineStart { bytes, before, swapped, have_parted: false }
    }

    of_a_line! {
        scan_space(count: usize) -> bool;
        scan_space_upto(count: usize) -> usize;
        scan_all_space() -> ();
        scan_blockquote_marker() -> bool;
        scan_list_marker() -> Option<(u8, u64, usize)>;
        scan_task_list_marker() -> Option<bool>;
    }

    fn compare<T: PartialEq + Debug>(&mut self, call: &'static str, before: &T, swapped: &T) {
        let before = (before, self.before.bytes_scanned(), self.before.remaining_space());
        let swapped = (swapped, self.swapped.bytes_scanned(), self.swapped.remaining_space());
        if !self.have_parted {
            self.have_parted = before != swapped;
            compared(call, self.bytes, before, swapped);
        }
    }

    pub(crate) fn is_at_eol(&self) -> bool {
        let (before, swapped) = (self.before.is_at_eol(), self.swapped.is_at_eol());
        if !self.have_parted {
            compared("is_at_eol", self.bytes, before, swapped);
        }
        before
    }

    pub(crate) fn bytes_scanned(&self) -> usize {
        self.before.bytes_scanned()
    }

    pub(crate) fn remaining_space(&self) -> usize {
        self.before.remaining_space()
    }
}

/// A label, which is compared with all others of the text as it is made.
#[derive(Clone)]
pub(crate) struct UniCase<'text>(unicase::UniCase<CowStr<'text>>);

impl<'text> UniCase<'text> {
    pub(crate) fn new(label: CowStr<'text>) -> Self {
        let made = swapped::UniCase::new(label.clone());
        let label = unicase::UniCase::new(label);
        LABELS.with(|labels| {
            let mut labels = labels.borrow_mut();
            for other in labels.iter() {
                let before = unicase::UniCase::new(&**label) == unicase::UniCase::new(&**other);
                compared("labels", label.as_bytes(), before, made == swapped::UniCase::new(other.as_str().into()));
            }
            labels.push(label.to_string());
        });
        UniCase(label)
    }
}

impl AsRef<str> for UniCase<'_> {
    fn as_ref(&self) -> &str {
        &self.0
    }
}

impl PartialEq for UniCase<'_> {
    fn eq(&self, other: &Self) -> bool {
        self.0 == other.0
    }
}

impl Eq for UniCase<'_> {}

impl Hash for UniCase<'_> {
    fn hash<H: Hasher>(&self, state: &mut H) {
        self.0.hash(state);
    }
}
