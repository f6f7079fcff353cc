//! The extensions of `packages/extensions.tsv`, as `packages/extensions` has written them.

use crate::raw::ffi;

/// What a page or a text is read with beside CommonMark; by default nothing. What a call has no use for changes nothing
/// there, as tables in the text of a block.
#[derive(Clone, Copy, Debug, Default, PartialEq, Eq, Hash)]
pub struct Extensions {
    /// A header row, a delimiter row under it, and the rows after these are a table. (GitHub Flavored Markdown 0.29, 4.10)
    pub tables: bool,
    /// `[^label]:` begins a footnote definition, which goes on with blank lines and lines indented by four columns. (GitHub)
    pub footnotes: bool,
    /// Text between `~` and `~`, or `~~` and `~~`, is struck through. (GitHub Flavored Markdown 0.29, 6.5)
    pub strikethrough: bool,
    /// A list item that begins with `[ ]` or `[x]` is a task. (GitHub Flavored Markdown 0.29, 5.3)
    pub tasks: bool,
    /// `:` begins a definition of the paragraph before it, at once or after one blank line. (PHP Markdown Extra)
    pub definition_lists: bool,
    /// `[[target]]` and `[[target|text]]` are links, and after `!` images. (Obsidian)
    pub wikilinks: bool,
}

impl Extensions {
    /// Their bits, as C has them.
    pub(crate) fn bits(self) -> u32 {
        let asked = [
            (self.tables, ffi::TABLES),
            (self.footnotes, ffi::FOOTNOTES),
            (self.strikethrough, ffi::STRIKETHROUGH),
            (self.tasks, ffi::TASKS),
            (self.definition_lists, ffi::DEFINITION_LISTS),
            (self.wikilinks, ffi::WIKILINKS),
        ];
        asked.iter().map(|(is_asked, bit)| if *is_asked { *bit } else { 0 }).sum()
    }

    /// The name of one that is asked for, and that events and HTML are not built of yet.
    pub(crate) fn not_built(self) -> Option<&'static str> {
        let asked: &[(bool, &'static str)] =
            &[(self.footnotes, "footnotes"), (self.definition_lists, "definition_lists")];
        asked.iter().find(|(is_asked, _)| *is_asked).map(|(_, name)| *name)
    }
}
