//! A place in a line that is read column by column. Sections in brackets are those of CommonMark 0.31.2.

use core::fmt;

use crate::raw::{self, ffi};
use crate::values::BlockQuoteKind;

/// A place in a line, whose tabs go to stops of four columns. The bytes begin at the front of the line, and may go on after
/// it.
///
/// ```
/// use fillaqut::LineStart;
///
/// let mut start = LineStart::new(b">\t- item");
/// assert!(start.scan_blockquote_marker());
/// assert_eq!(start.scan_space_upto(4), 2);
/// assert_eq!(start.scan_list_marker_with_indent(2), Some((b'-', 0, 4)));
/// assert_eq!(start.bytes_scanned(), 4);
/// ```
#[derive(Clone)]
pub struct LineStart<'line> {
    pub(crate) bytes: &'line [u8],
    pub(crate) numbers: raw::LineStart,
}

impl fmt::Debug for LineStart<'_> {
    fn fmt(&self, f: &mut fmt::Formatter<'_>) -> fmt::Result {
        f.debug_struct("LineStart").field("numbers", &self.numbers).finish_non_exhaustive()
    }
}

/// Whether there is what was asked for. The numbers are those that the calls have left, which are never refused.
fn stated(status: u32) -> bool {
    status == ffi::OK
}

impl<'line> LineStart<'line> {
    /// The front of a line.
    ///
    /// ```
    /// assert_eq!(fillaqut::LineStart::new(b"a").bytes_scanned(), 0);
    /// ```
    #[inline]
    #[must_use]
    pub fn new(bytes: &'line [u8]) -> Self {
        LineStart { bytes, numbers: raw::LineStart::default() }
    }

    /// Takes so many columns of space, or fewer where there are fewer: whether there were as many. (2.2)
    ///
    /// ```
    /// assert!(!fillaqut::LineStart::new(b"  a").scan_space(3));
    /// ```
    #[inline]
    pub fn scan_space(&mut self, count: usize) -> bool {
        if self.has_no_space() {
            return count == 0;
        }
        stated(raw::line_space(self.bytes, &mut self.numbers, count))
    }

    /// Takes at most so many columns of space, and answers how many. (2.2)
    ///
    /// ```
    /// assert_eq!(fillaqut::LineStart::new(b"  a").scan_space_upto(4), 2);
    /// ```
    #[inline]
    pub fn scan_space_upto(&mut self, count: usize) -> usize {
        if self.has_no_space() {
            return 0;
        }
        raw::line_space_up_to(self.bytes, &mut self.numbers, count).columns
    }

    /// Drops pending columns, and passes all spaces and tabs, each as one column.
    ///
    /// ```
    /// let mut start = fillaqut::LineStart::new(b" \t a");
    /// start.scan_all_space();
    /// assert_eq!(start.bytes_scanned(), 3);
    /// ```
    #[inline]
    pub fn scan_all_space(&mut self) {
        if !self.has_no_space() {
            raw::line_all_space(self.bytes, &mut self.numbers);
        }
    }

    /// Whether the line ends there. Pending columns are looked past.
    ///
    /// ```
    /// assert!(fillaqut::LineStart::new(b"\r").is_at_eol());
    /// ```
    #[inline]
    #[must_use]
    pub fn is_at_eol(&self) -> bool {
        let is = matches!(self.bytes.get(self.numbers.place), None | Some(b'\n' | b'\r'));
        debug_assert_eq!(is, stated(raw::line_is_at_end(self.bytes, &self.numbers)));
        is
    }

    /// Passes a block quote marker and at most one column of space. (5.1)
    ///
    /// ```
    /// assert!(fillaqut::LineStart::new(b"> a").scan_blockquote_marker());
    /// ```
    #[inline]
    pub fn scan_blockquote_marker(&mut self) -> bool {
        stated(raw::line_quote(self.bytes, &mut self.numbers))
    }

    /// Passes a list item's marker at an indent of so many columns, and the columns that belong to it: the delimiter, the
    /// number of an ordered item, and the indent of what the item holds. `None` too where a thematic break begins. (5.2)
    ///
    /// # Panics
    ///
    /// Where the indent is above `usize::MAX - 16`.
    ///
    /// ```
    /// use fillaqut::LineStart;
    /// assert_eq!(LineStart::new(b"10) a").scan_list_marker_with_indent(0), Some((b')', 10, 4)));
    /// assert_eq!(LineStart::new(b"* * *").scan_list_marker_with_indent(0), None);
    /// ```
    #[inline]
    pub fn scan_list_marker_with_indent(&mut self, indent: usize) -> Option<(u8, u64, usize)> {
        let item = raw::line_list(self.bytes, &mut self.numbers, indent);
        assert!(item.status != ffi::TOO_LARGE, "the indent is too large: {indent}");
        stated(item.status).then_some((item.delimiter, item.start, item.indent))
    }

    /// Passes a definition's marker at an indent of so many columns: the indent of what it holds. (An extension of
    /// pulldown-cmark)
    ///
    /// # Panics
    ///
    /// Where the indent is above `usize::MAX - 16`.
    ///
    /// ```
    /// use fillaqut::LineStart;
    /// assert_eq!(LineStart::new(b": a").scan_definition_list_definition_marker_with_indent(0), Some(2));
    /// ```
    #[inline]
    pub fn scan_definition_list_definition_marker_with_indent(&mut self, indent: usize) -> Option<usize> {
        let returned = raw::line_definition(self.bytes, &mut self.numbers, indent);
        assert!(returned.status != ffi::TOO_LARGE, "the indent is too large: {indent}");
        stated(returned.status).then_some(returned.columns)
    }

    /// Passes a task list item's box: whether it is checked. (GitHub Flavored Markdown 0.29, 5.3)
    ///
    /// ```
    /// assert_eq!(fillaqut::LineStart::new(b"[x] a").scan_task_list_marker(), Some(true));
    /// ```
    #[inline]
    pub fn scan_task_list_marker(&mut self) -> Option<bool> {
        let task = raw::line_task(self.bytes, &mut self.numbers);
        stated(task.status).then_some(task.checked)
    }

    /// Passes the line of an alert. (An extension of GitHub)
    ///
    /// ```
    /// use fillaqut::{BlockQuoteKind, LineStart};
    /// assert_eq!(LineStart::new(b"[!tip]\n").scan_blockquote_tag(), Some(BlockQuoteKind::Tip));
    /// ```
    #[inline]
    pub fn scan_blockquote_tag(&mut self) -> Option<BlockQuoteKind> {
        let alert = raw::line_alert(self.bytes, &mut self.numbers);
        stated(alert.status).then(|| BlockQuoteKind::of(alert.kind)).flatten()
    }

    /// How many bytes of the line have been passed.
    ///
    /// ```
    /// let mut start = fillaqut::LineStart::new(b"> a");
    /// start.scan_blockquote_marker();
    /// assert_eq!(start.bytes_scanned(), 2);
    /// ```
    #[inline]
    #[must_use]
    pub fn bytes_scanned(&self) -> usize {
        self.numbers.place
    }

    /// Columns of the last tab that have not been taken.
    ///
    /// ```
    /// let mut start = fillaqut::LineStart::new(b"\ta");
    /// start.scan_space(1);
    /// assert_eq!(start.remaining_space(), 3);
    /// ```
    #[inline]
    #[must_use]
    pub fn remaining_space(&self) -> usize {
        self.numbers.pending
    }

    /// Whether no space can be taken, as most often: nothing is pending, and a byte follows that is none. It is returned without a
    /// call of the library, and compared with one where there are debug assertions.
    #[inline]
    fn has_no_space(&self) -> bool {
        let byte = self.bytes.get(self.numbers.place);
        let is = self.numbers.pending == 0 && !matches!(byte, None | Some(b' ' | b'\t'));
        debug_assert!(!is || raw::line_space_up_to(self.bytes, &mut self.numbers.clone(), usize::MAX).columns == 0);
        is
    }
}
