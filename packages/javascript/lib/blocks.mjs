/** Lines, and the blocks that begin in them. Sections in brackets are those of CommonMark 0.31.2. */
import * as c from "./c.mjs";
import { Block, NONE } from "./engine.mjs";
import { isAnswer } from "./errors.mjs";
import { byteOf, bytesOf, flagOf, optionsOf, sizeOf } from "./given.mjs";
import { LineStart } from "./line_start.mjs";
import { Pages } from "./pages.mjs";

/** @typedef {{ end: number, delimiter: string, start: number, indent: number }} ListItem `indent` is that of marker and space */
/** @typedef {{ end: number, level: number }} Underline */
/** @typedef {{ end: number, character: string }} Fence */
/** @typedef {{ start: number, stop: number }} Span the places of the first byte and after the last */
/** @typedef {{ end: number, label: Span, destination: Span, title: Span | null }} ReferenceDefinition its parts as they are written */
/** @typedef {"none" | "left" | "center" | "right"} Alignment */
/** @typedef {{ end: number, alignments: Alignment[] }} TableHead */

/** @type {Record<number, Alignment>} */
const ALIGNMENTS = { [c.ALIGN_NONE]: "none", [c.ALIGN_LEFT]: "left", [c.ALIGN_CENTER]: "center", [c.ALIGN_RIGHT]: "right" };

/**
 * The scanners of lines and blocks. Each begins at the place `at`, and reads up to the place `end` at most; options stand after
 * these. What stands alone in an answer is the offset after what was scanned; null says that nothing of the kind stands there.
 * @template {string | Uint8Array} Made
 * @extends {Pages<Made>}
 */
export class Blocks extends Pages {
    /** Whether the bytes are UTF-8. */
    isUtf8(at = 0, end = this.length) {
        return /** @type {boolean} */ (this.scan("isUtf8", at, end));
    }

    /**
     * The offset after this ASCII character, or byte, where it is the first one.
     * @param {string | number} character
     */
    scanCh(character, at = 0, end = this.length) {
        return this.#place("scanCh", at, end, byteOf("character", character));
    }

    /**
     * The offset after as many of this ASCII character, or byte, as stand there.
     * @param {string | number} character
     */
    scanChRepeat(character, at = 0, end = this.length) {
        return this.#place("scanChRepeat", at, end, byteOf("character", character));
    }

    /**
     * The offset after as many bytes there as are among the accepted ones: ASCII characters, or any bytes of a text of bytes.
     * @param {string | Uint8Array} accepted
     */
    scanWhile(accepted, at = 0, end = this.length) {
        return this.#place("scanWhile", at, end, ...this.#accepted(accepted));
    }

    /**
     * The place before as many bytes, up to the place `end`, as are among the accepted ones.
     * @param {string | Uint8Array} accepted
     */
    scanRevWhile(accepted, at = 0, end = this.length) {
        const count = /** @type {number} */ (this.scan("scanRevWhile", at, end, ...this.#accepted(accepted)));
        return this.placeOf(this.inBytes(end) - count);
    }

    /**
     * Where accepted bytes stand in the module's memory, and how many they are.
     * @param {string | Uint8Array} accepted
     */
    #accepted(accepted) {
        const block = new Block(bytesOf("accepted", accepted));
        if (this.isString && block.bytes.some((byte) => byte > 127)) throw new RangeError("`accepted` has more than ASCII characters, for a string");
        this.engine.bring(this.block, block);
        return [block.address, block.bytes.length];
    }

    /** The offset after the white space there that ends no line. */
    scanWhitespaceInLine(at = 0, end = this.length) {
        return this.#place("scanWhitespaceInLine", at, end);
    }

    /** The offset after the line ending there, or there at the end. (2.1) */
    scanEol(at = 0, end = this.length) {
        return this.after("scanEol", at, end);
    }

    /** The offset after the line and its ending, LF, CR LF or CR. (2.1) */
    scanLine(at = 0, end = this.length) {
        return this.#place("scanLine", at, end);
    }

    /** The offset after the first LF, or the end where there is none. It knows LF alone. */
    scanNextline(at = 0, end = this.length) {
        return this.#place("scanNextline", at, end);
    }

    /** The offset after the rest of the line with its ending, where that is blank. (4.9) */
    scanBlankLine(at = 0, end = this.length) {
        return this.after("scanBlankLine", at, end);
    }

    /** The offset after a block quote marker, `>` and at most one space. (5.1) */
    scanBlockquoteStart(at = 0, end = this.length) {
        return this.after("scanBlockquoteStart", at, end);
    }

    /**
     * The list item that begins there. Thematic breaks are items to it; LineStart's listItem knows better. (5.2)
     * @returns {ListItem | null}
     */
    scanListitem(at = 0, end = this.length) {
        const { length, delimiter, start, indent } = this.scan("scanListitem", at, end);
        const after = this.afterLength(at, length);
        return after === null ? null : { end: after, delimiter: String.fromCharCode(delimiter), start, indent };
    }

    /**
     * The columns of the spaces and tabs, up to a limit where there is one, and the place of the last byte that was looked at.
     * TooLarge where the limit is. (2.2)
     * @param {number} [at]
     * @param {number} [end]
     * @param {{ limit?: number | bigint }} [options]
     * @returns {{ place: number, columns: number }}
     */
    calcIndent(at = 0, end = this.length, options = {}) {
        const { limit = Number.MAX_SAFE_INTEGER } = optionsOf(options, "limit");
        const found = this.scan("calcIndent", at, end, sizeOf("limit", limit));
        isAnswer(found.status);
        return { place: this.placeOf(this.inBytes(at) + found.place), columns: found.columns };
    }

    /** A line start at the front of the line that begins there. */
    lineStart(at = 0, end = this.length) {
        return new LineStart(this.engine, this, this.limits(at, end), (bytes) => this.made(bytes));
    }

    /** The offset after a thematic break and its line ending. (4.1) */
    scanHrule(at = 0, end = this.length) {
        return this.afterLength(at, this.scan("scanHrule", at, end).length);
    }

    /** Where no thematic break begins: one begins at no place from this one on and before the answer. (4.1) */
    noHruleBefore(at = 0, end = this.length) {
        return this.placeOf(this.inBytes(at) + this.scan("scanHrule", at, end).noneBefore);
    }

    /** The level of an ATX heading, 1 to 6, which has as many `#`. (4.2) */
    scanAtxHeading(at = 0, end = this.length) {
        return /** @type {number} */ (this.scan("scanAtxHeading", at, end)) || null;
    }

    /**
     * A setext heading's underline: the offset after its line, and its level. (4.3)
     * @returns {Underline | null}
     */
    scanSetextHeading(at = 0, end = this.length) {
        const { length, level } = this.scan("scanSetextHeading", at, end);
        const after = this.afterLength(at, length);
        return after === null ? null : { end: after, level };
    }

    /** An opening code fence, without its info string. (4.5) */
    scanCodeFence(at = 0, end = this.length) {
        return this.#fence("scanCodeFence", at, end);
    }

    /**
     * The offset after the fence that closes one of `count` of the character, with the spaces and tabs after it; at the end of
     * the text that end. (4.5)
     * @param {string | number} character
     * @param {number | bigint} count
     */
    scanClosingCodeFence(character, count, at = 0, end = this.length) {
        return this.after("scanClosingCodeFence", at, end, byteOf("character", character), sizeOf("count", count));
    }

    /**
     * The opening line of a metadata block, of `---` where `yaml` is true and of `+++` where `pluses` is; each is false where it is
     * not given. (An extension of pulldown-cmark)
     * @param {number} [at]
     * @param {number} [end]
     * @param {{ yaml?: boolean, pluses?: boolean }} [options]
     */
    scanMetadataBlock(at = 0, end = this.length, options = {}) {
        const { yaml = false, pluses = false } = optionsOf(options, "yaml", "pluses");
        return this.#fence("scanMetadataBlock", at, end, flagOf("yaml", yaml), flagOf("pluses", pluses));
    }

    /**
     * The offset after what closes a metadata block that was opened by the character.
     * @param {string | number} character
     */
    scanClosingMetadataBlock(character, at = 0, end = this.length) {
        return this.after("scanClosingMetadataBlock", at, end, byteOf("character", character));
    }

    /** Whether the line can interrupt a paragraph, after at most three columns of indent. (4.8) */
    interruptsParagraph(at = 0, end = this.length) {
        return /** @type {boolean} */ (this.scan("interruptsParagraph", at, end));
    }

    /**
     * A link reference definition, in the content of a paragraph: its lines without the markers of containers and without indent.
     * Parentheses may stand in each other `maxNext` + 1 deep, 32 where it is not given. (4.7)
     * @param {number} [at]
     * @param {number} [end]
     * @param {{ maxNext?: number | bigint }} [options]
     * @returns {ReferenceDefinition | null}
     */
    scanReferenceDefinition(at = 0, end = this.length, options = {}) {
        const { maxNext = 31 } = optionsOf(options, "maxNext");
        const [from, to] = this.limits(at, end);
        this.engine.bring(this.block);
        const found = this.engine.calls.scanReferenceDefinition(this.block.address, to, from, sizeOf("maxNext", maxNext));
        if (!isAnswer(found.status)) return null;
        return {
            end: this.placeOf(found.end),
            label: this.#span(found.labelStart, found.labelLength),
            destination: this.#span(found.destinationStart, found.destinationLength),
            title: found.titleStart === NONE ? null : this.#span(found.titleStart, found.titleLength),
        };
    }

    /**
     * The delimiter row of a table: the offset after it, and how its columns are aligned. (GitHub Flavored Markdown 0.29, 4.10)
     * @returns {TableHead | null}
     */
    scanTableHead(at = 0, end = this.length) {
        const line = this.scanLine(at, end); // a column has a byte of the line, so its bytes are room enough
        const capacity = this.inBytes(line) - this.inBytes(at);
        const [found, alignments] = this.written("scanTableHead", at, end, capacity);
        if (!isAnswer(found.status)) return null;
        return { end: this.placeOf(this.inBytes(at) + found.taken), alignments: Array.from(alignments, (number) => ALIGNMENTS[number]) };
    }

    /**
     * @param {number} start
     * @param {number} length
     * @returns {Span}
     */
    #span(start, length) {
        return { start: this.placeOf(start), stop: this.placeOf(start + length) };
    }

    /**
     * The offset after what is always there, of no bytes too.
     * @param {string} name
     * @param {number} at
     * @param {number} end
     * @param {...unknown} given
     */
    #place(name, at, end, ...given) {
        return /** @type {number} */ (this.after(name, at, end, ...given));
    }

    /**
     * @param {string} name
     * @param {number} at
     * @param {number} end
     * @param {...unknown} given
     * @returns {Fence | null}
     */
    #fence(name, at, end, ...given) {
        const { length, byte } = this.scan(name, at, end, ...given);
        return length === NONE ? null : { end: /** @type {number} */ (this.afterLength(at, length)), character: String.fromCharCode(byte) };
    }
}
