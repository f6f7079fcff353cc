/** The blocks of a page, and their content. Sections in brackets are those of CommonMark 0.31.2. */
import * as c from "./c.mjs";
import { isAnswer } from "./errors.mjs";
import { bitsOf, optionsOf } from "./given.mjs";
import { Source } from "./source.mjs";

/** @typedef {"break" | "heading" | "setext" | "indented" | "fenced" | "html" | "table" | "definition" | "paragraph"} RealKind */
/** @typedef {"blank" | RealKind} BlockKind blank lines in a row are no block, and come as one */
/** @typedef {{ kind: "quote", place: number }} BlockQuote its marker stands at the place (5.1) */
/** @typedef {{ kind: "item", place: number, delimiter: string, start: number, width: number }} Item (5.2) */
/** @typedef {{ kind: "footnote", place: number }} Footnote a footnote definition, with the extension "footnotes" (GitHub) */
/** @typedef {{ kind: "termDefinition", place: number, width: number }} TermDefinition of the paragraph before it, with "definition-lists" */
/** @typedef {BlockQuote | Item | Footnote | TermDefinition} Container */
/** @typedef {{ delimiter: string, start: number, isLoose: boolean, depth: number, line: number, lines: number }} List (5.3) */

/** @type {Record<number, BlockKind>} */
const KINDS = {
    [c.BLOCK_BLANK]: "blank",
    [c.BLOCK_BREAK]: "break",
    [c.BLOCK_HEADING]: "heading",
    [c.BLOCK_SETEXT]: "setext",
    [c.BLOCK_INDENTED]: "indented",
    [c.BLOCK_FENCED]: "fenced",
    [c.BLOCK_HTML]: "html",
    [c.BLOCK_TABLE]: "table",
    [c.BLOCK_DEFINITION]: "definition",
    [c.BLOCK_PARAGRAPH]: "paragraph",
};
const { size: SIZE, read } = c.STRUCTS.block;
const HALF = 2 ** 32;

/** Structs that were copied from the module's memory. */
class Rows {
    /** @param {Uint8Array} bytes */
    constructor(bytes) {
        this.bytes = bytes;
        this.view = new DataView(bytes.buffer, bytes.byteOffset, bytes.length);
    }

    /** @param {number} at */
    uint8(at) {
        return this.view.getUint8(at);
    }

    /** @param {number} at */
    uint32(at) {
        return this.view.getUint32(at, true);
    }

    /** @param {number} at */
    size(at) {
        return this.uint32(at) + this.uint32(at + 4) * HALF;
    }

    /**
     * The bytes of one of them.
     * @param {number} index
     */
    row(index) {
        return this.bytes.subarray(index * SIZE, (index + 1) * SIZE);
    }
}

/**
 * A leaf block, in its containers.
 * @template {string | Uint8Array} Made
 */
export class Leaf {
    #content;

    /**
     * @param {{ placeOf: (byte: number) => number }} source
     * @param {number} from where the page begins, in bytes
     * @param {any} returned
     * @param {Container[]} containers
     * @param {number} kept
     * @param {() => Made} content
     */
    constructor(source, from, returned, containers, kept, content) {
        /** @type {BlockKind} */
        this.kind = KINDS[returned.kind];
        /** The containers that it stands in, outermost first. */
        this.containers = containers;
        /** How many of these its first line goes on with; it begins the others. */
        this.kept = kept;
        /** How many lines of the page stand before it, and how many it has. */
        this.line = returned.line;
        this.lines = returned.lines;
        /** The place of its first line, and the one after its last. */
        this.start = source.placeOf(from + returned.start);
        this.stop = source.placeOf(from + returned.start + returned.bytes);
        /** The columns of space in its first line after its containers, at most four, and the place after these. */
        this.indent = returned.indent;
        this.place = source.placeOf(from + returned.place);
        /** The level of a heading, 1 to 6. */
        this.level = this.kind === "heading" || this.kind === "setext" ? returned.number : null;
        /** Of an HTML block the number of its start condition. (4.6) */
        this.htmlKind = this.kind === "html" ? returned.number : null;
        /** Of fenced code the character of its fence, and how many stand there. */
        this.fence = this.kind === "fenced" ? { character: String.fromCharCode(returned.byte), count: returned.count } : null;
        /** How many columns a table has. */
        this.columns = this.kind === "table" ? returned.count : null;
        this.#content = content;
    }

    /**
     * Of a paragraph, a heading or a definition its text, without what stands for containers and without white space at the ends of
     * all and before each line. Of code and HTML their lines, without containers, indent and fences. Else nothing.
     */
    content() {
        return this.#content();
    }
}

/**
 * The blocks of a text.
 * @template {string | Uint8Array} Made
 * @extends {Source<Made>}
 */
export class Pages extends Source {
    /**
     * The leaf blocks of the page between two places, from the first to the last, with the containers that they stand in. Their
     * lines, joined, are the page. A paragraph that begins with link reference definitions comes in parts, each definition as a
     * block of its own. Of `extensions` "tables", "footnotes" and "definition-lists" begin blocks; the others change nothing. (3, 4, 5)
     * @param {number} [at]
     * @param {number} [end]
     * @param {{ extensions?: import("./extensions.mjs").Extension[] }} [options]
     */
    scanBlocks(at = 0, end = this.length, options = {}) {
        const bits = bitsOf(optionsOf(options, "extensions").extensions);
        const [from, to] = this.limits(at, end);
        return this.#leaves(from, to, this.#rows(from, to, bits));
    }

    /**
     * The lists of the page between two places, each where it ends: a list in an item comes before the list of that item. `depth` is
     * how many containers a list stands in, `line` how many lines stand before it, and `lines` how many it has. A loose one has a
     * blank line between two of its items, or between two blocks directly in one. `extensions` is as of `scanBlocks`. (5.3)
     * @param {number} [at]
     * @param {number} [end]
     * @param {{ extensions?: import("./extensions.mjs").Extension[] }} [options]
     * @returns {List[]}
     */
    scanLists(at = 0, end = this.length, options = {}) {
        const bits = bitsOf(optionsOf(options, "extensions").extensions);
        const [from, to] = this.limits(at, end);
        const { size } = c.STRUCTS.list;
        for (let capacity = Math.ceil((to - from) / 32) + 8; ; ) {
            this.engine.bring(this.block);
            const first = this.engine.room(capacity * size);
            const { status, count } = this.engine.calls.scanLists(this.block.address + from, to - from, bits, first, capacity);
            if (status !== c.TOO_SHORT) {
                isAnswer(status);
                return Array.from({ length: count }, (_, index) => listOf(this.engine.read("list", first + index * size)));
            }
            capacity = count;
        }
    }

    /**
     * @param {number} from
     * @param {number} to
     * @param {number} bits
     */
    #rows(from, to, bits) {
        for (let capacity = Math.ceil((to - from) / 32) + 8; ; ) {
            this.engine.bring(this.block);
            const at = this.engine.room(capacity * SIZE);
            const { status, count } = this.engine.calls.scanBlocks(this.block.address + from, to - from, bits, at, capacity);
            if (status !== c.TOO_SHORT) {
                isAnswer(status);
                return new Rows(this.engine.heap.bytes.slice(at, at + count * SIZE));
            }
            capacity = count;
        }
    }

    /**
     * The leaf blocks, with the containers that are open. These are copied where they have changed since the block before.
     * @param {number} from
     * @param {number} to
     * @param {Rows} rows
     */
    *#leaves(from, to, rows) {
        /** @type {{ index: number, container: Container }[]} */
        const open = [];
        let kept = 0;
        /** @type {{ index: number, container: Container }[] | null} */
        let same = null;
        for (let index = 0; index * SIZE < rows.bytes.length; index++) {
            const returned = read(rows, index * SIZE);
            if (returned.kind in KINDS) {
                same ??= [...open];
                yield this.#leaf(from, to, rows, index, returned, same, kept);
                kept = open.length;
                continue;
            }
            same = null;
            if (returned.kind !== c.BLOCK_END) open.push({ index, container: this.#container(from, returned) });
            else {
                open.pop();
                kept = open.length;
            }
        }
    }

    /**
     * @param {number} from
     * @param {number} to
     * @param {Rows} rows
     * @param {number} index
     * @param {any} returned
     * @param {{ index: number, container: Container }[]} open
     * @param {number} kept
     */
    #leaf(from, to, rows, index, returned, open, kept) {
        const structs = [index, ...open.map((entry) => entry.index)].map((number) => rows.row(number));
        const content = () => this.contentOf(from, to, structs, kept, returned.bytes);
        return new Leaf(this, from, returned, open.map((entry) => entry.container), kept, content);
    }

    /**
     * @param {number} from
     * @param {any} returned
     * @returns {Container}
     */
    #container(from, returned) {
        return containerOf(returned, this.placeOf(from + returned.place));
    }

    /**
     * The content of a leaf block of the page between two places in bytes, whose struct stands before those of its containers.
     * @package
     * @param {number} from
     * @param {number} to
     * @param {Uint8Array[]} structs
     * @param {number} kept
     * @param {number} size
     */
    contentOf(from, to, structs, kept, size) {
        for (let capacity = size; ; ) {
            this.engine.bring(this.block);
            const at = this.engine.room(structs.length * SIZE);
            const buffer = this.engine.room(capacity);
            structs.forEach((struct, index) => this.engine.heap.bytes.set(struct, at + index * SIZE));
            const given = [at, at + SIZE, structs.length - 1, kept, buffer, capacity];
            const { status, length } = this.engine.calls.blockContent(this.block.address + from, to - from, ...given);
            if (status !== c.TOO_SHORT) {
                isAnswer(status);
                return this.made(this.engine.heap.bytes.subarray(buffer, buffer + length));
            }
            capacity = length;
        }
    }
}

/**
 * A container that begins at the place.
 * @param {any} returned
 * @param {number} place
 * @returns {Container}
 */
export function containerOf(returned, place) {
    if (returned.kind === c.BLOCK_QUOTE) return { kind: "quote", place };
    if (returned.kind === c.BLOCK_FOOTNOTE) return { kind: "footnote", place };
    if (returned.kind === c.BLOCK_TERM_DEFINITION) return { kind: "termDefinition", place, width: returned.width };
    return { kind: "item", place, delimiter: String.fromCharCode(returned.byte), start: returned.number, width: returned.width };
}

/**
 * @param {any} returned
 * @returns {List}
 */
function listOf({ delimiter, start, isLoose, depth, line, end }) {
    return { delimiter: String.fromCharCode(delimiter), start, isLoose, depth, line, lines: end - line };
}
