/** The inlines of a text. Sections in brackets are those of CommonMark 0.31.2. */
import * as c from "./c.mjs";
import { Blocks } from "./blocks.mjs";
import { NONE } from "./engine.mjs";
import { bitsOf, listOf, optionsOf } from "./given.mjs";
import { Views } from "./views.mjs";

/** @typedef {import("./blocks.mjs").Span} Span */
/** @typedef {"text" | "escape" | "reference" | "html" | "softBreak" | "hardBreak"} PlainKind delimiters in no emphasis and brackets of no link are text */
/** @typedef {"emphasis" | "emphasisEnd" | "strong" | "strongEnd"} EmphasisKind what begins, or the innermost that has begun ends */
/** @typedef {EmphasisKind | "strikethrough" | "strikethroughEnd" | "linkEnd"} MarkKind the same */
/** @typedef {{ kind: PlainKind | MarkKind, start: number, stop: number }} PlainInline */
/** @typedef {{ kind: "code" | "uri" | "email", start: number, stop: number, content: Span }} FilledInline between backticks or angle brackets */
/** @typedef {{ kind: "link" | "image", start: number, stop: number, link: Link }} LinkStart its left bracket, after an `!`, or all before a wikilink's text */
/** @typedef {PlainInline | FilledInline | LinkStart} Inline */

/** @typedef {{ target: "inline", end: number, destination: Span, title: Span | null }} InlineLink a destination in parentheses (6.3) */
/** @typedef {{ target: "full" | "collapsed" | "shortcut", end: number, label: Span }} ReferenceLink its label, or its text, which is one */
/** @typedef {{ target: "wiki", end: number, destination: Span }} WikiLink its target, which is shown where it has no text */
/** @typedef {InlineLink | ReferenceLink | WikiLink} Link where it leads, and the place after all of it; the parts are as they are written */

/** @type {Record<number, Inline["kind"]>} */
const KINDS = {
    [c.INLINE_TEXT]: "text",
    [c.INLINE_ESCAPE]: "escape",
    [c.INLINE_REFERENCE]: "reference",
    [c.INLINE_CODE]: "code",
    [c.INLINE_URI]: "uri",
    [c.INLINE_EMAIL]: "email",
    [c.INLINE_HTML]: "html",
    [c.INLINE_SOFT_BREAK]: "softBreak",
    [c.INLINE_HARD_BREAK]: "hardBreak",
    [c.INLINE_EMPHASIS]: "emphasis",
    [c.INLINE_EMPHASIS_END]: "emphasisEnd",
    [c.INLINE_STRONG]: "strong",
    [c.INLINE_STRONG_END]: "strongEnd",
    [c.INLINE_LINK]: "link",
    [c.INLINE_IMAGE]: "image",
    [c.INLINE_LINK_END]: "linkEnd",
    [c.INLINE_STRIKETHROUGH]: "strikethrough",
    [c.INLINE_STRIKETHROUGH_END]: "strikethroughEnd",
};
/** @type {Record<number, ReferenceLink["target"]>} */
const TARGETS = { [c.TARGET_FULL]: "full", [c.TARGET_COLLAPSED]: "collapsed", [c.TARGET_SHORTCUT]: "shortcut" };
const { size: SIZE } = c.STRUCTS.inline;

/**
 * The inlines of a text, with its lines and blocks.
 * @template {string | Uint8Array} Made
 * @extends {Blocks<Made>}
 */
export class Inlines extends Blocks {
    /**
     * The inlines between two places, in order: of the content of a paragraph or a heading, as a leaf block has it. Joined, they are
     * the text, and they nest: each that begins ends. Text may stand in several, one after another.
     *
     * `labels` are those that are defined, each as `scanLinkLabel` answers it; what refers to a label that matches none of them is
     * text. Of `extensions` "strikethrough" and "wikilinks" are read in a text; the others change nothing. NotUtf8. (6)
     * @param {number} [at]
     * @param {number} [end]
     * @param {{ labels?: (string | Uint8Array)[], extensions?: import("./extensions.mjs").Extension[] }} [options]
     * @returns {Generator<Inline, void, void>}
     */
    scanInlines(at = 0, end = this.length, options = {}) {
        const { labels, extensions } = optionsOf(options, "labels", "extensions");
        const bits = bitsOf(extensions);
        const [from, to] = this.limits(at, end);
        return this.#each(from, this.#rows(from, to, new Views("a label", listOf("labels", labels ?? [])), bits));
    }

    /**
     * @param {number} from
     * @param {number} to
     * @param {Views} labels
     * @param {number} bits
     * @returns {Record<string, number>[]}
     */
    #rows(from, to, labels, bits) {
        const { engine } = this;
        for (let capacity = Math.ceil((to - from) / 16) + 8; ; ) {
            engine.bring(this.block, labels.block);
            const views = labels.listed(engine);
            const at = engine.room(capacity * SIZE);
            const given = [this.block.address + from, to - from, views, labels.length, bits, at, capacity];
            const { status, count } = engine.calls.scanInlines(...given);
            if (status !== c.TOO_SHORT) {
                this.isAnswered(status, from, to);
                return Array.from({ length: count }, (_, index) => engine.read("inline", at + index * SIZE));
            }
            capacity = count;
        }
    }

    /**
     * @param {number} from
     * @param {Record<string, number>[]} rows
     * @returns {Generator<Inline, void, void>}
     */
    *#each(from, rows) {
        for (const row of rows) yield this.#inline(from, row);
    }

    /**
     * @param {number} from
     * @param {Record<string, number>} row
     * @returns {any}
     */
    #inline(from, row) {
        const { start, stop } = this.#span(from + row.start, row.length);
        const kind = KINDS[row.kind];
        if (kind === "link" || kind === "image") return { kind, start, stop, link: this.#link(from, row) };
        if (kind !== "code" && kind !== "uri" && kind !== "email") return { kind, start, stop };
        const sides = kind === "code" ? row.count : 1;
        return { kind, start, stop, content: this.#span(from + row.start + sides, row.length - 2 * sides) };
    }

    /**
     * @param {number} from
     * @param {Record<string, number>} row
     * @returns {Link}
     */
    #link(from, row) {
        const end = this.placeOf(from + row.end);
        if (row.target in TARGETS) return { target: TARGETS[row.target], end, label: this.#span(from + row.labelStart, row.labelLength) };
        const destination = this.#span(from + row.destinationStart, row.destinationLength);
        if (row.target === c.TARGET_WIKI) return { target: "wiki", end, destination };
        const title = row.titleStart === NONE ? null : this.#span(from + row.titleStart, row.titleLength);
        return { target: "inline", end, destination, title };
    }

    /**
     * @param {number} start
     * @param {number} length
     * @returns {Span}
     */
    #span(start, length) {
        return { start: this.placeOf(start), stop: this.placeOf(start + length) };
    }
}
