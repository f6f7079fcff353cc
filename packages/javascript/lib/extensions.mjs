/** The extensions of packages/extensions.tsv, as packages/extensions has written them. */
import * as c from "./c.mjs";

/** @typedef {"tables" | "footnotes" | "strikethrough" | "tasks" | "definition-lists" | "wikilinks"} Extension what is read beside CommonMark */
/** @typedef {"tables" | "strikethrough" | "tasks" | "wikilinks"} BuiltExtension one that events and HTML are built of */

/** @type {Record<Extension, number>} */
export const BITS = {
    tables: c.TABLES, // A header row, a delimiter row under it, and the rows after these are a table. (GitHub Flavored Markdown 0.29, 4.10)
    footnotes: c.FOOTNOTES, // `[^label]:` begins a footnote definition, which goes on with blank lines and lines indented by four columns. (GitHub)
    strikethrough: c.STRIKETHROUGH, // Text between `~` and `~`, or `~~` and `~~`, is struck through. (GitHub Flavored Markdown 0.29, 6.5)
    tasks: c.TASKS, // A list item that begins with `[ ]` or `[x]` is a task. (GitHub Flavored Markdown 0.29, 5.3)
    "definition-lists": c.DEFINITION_LISTS, // `:` begins a definition of the paragraph before it, at once or after one blank line. (PHP Markdown Extra)
    wikilinks: c.WIKILINKS, // `[[target]]` and `[[target|text]]` are links, and after `!` images. (Obsidian)
};

/**
 * Those that events and HTML are not built of yet.
 * @type {Set<Extension>}
 */
export const NOT_BUILT = new Set(["footnotes", "definition-lists"]);
