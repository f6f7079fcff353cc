/**
 * What the parser sees of a page, block by block and line by line: what each container takes of a line, what the block has there,
 * and what stands in paragraphs, headings and cells. It is no whole parser: what makes links of brackets is left to the reader.
 */
import { Line } from "./containers.mjs";
import { decode, Inline, Joined } from "./paragraph.mjs";

/** How many lines are read in a step. */
const STEP = 100;
/** By whether a colon stands before the hyphens, 1, and after them, 2. */
const ALIGNMENTS = ["none", "left", "right", "center"];
const HTML = ["", "raw text", "comment", "processing instruction", "declaration", "CDATA", "block", "tag alone"];
const [TAB, SPACE, VT, FF, LF, CR, PIPE, BACKSLASH, COLON] = [..."\t \v\f\n\r|\\:"].map((character) => character.charCodeAt(0));
const ENCODER = new TextEncoder();
const WHITE = new Set([TAB, SPACE, VT, FF, LF, CR]);

export class Reading {
    /** @type {any[]} Of each line where it stands, what its containers took, and its block. */
    lines = [];
    /** @type {any[]} */
    headings = [];
    /** @type {any[]} */
    tables = [];
    /** @type {any[]} Definitions, references, links and inline HTML. */
    found = [];
    /** What the scans for inline HTML passed over, and what they may at most. */
    passed = 0;
    bound = 0;
    scans = 0;

    /**
     * @param {any} scanners
     * @param {string} data
     * @param {string[]} [extensions] tables, or nothing
     */
    constructor(scanners, data, extensions = ["tables"]) {
        this.scanners = scanners;
        this.extensions = extensions;
        this.page = scanners.text(data);
    }

    /** Reads the page, in steps. */
    *read() {
        for (const block of this.page.scanBlocks(0, this.page.length, { extensions: this.extensions })) {
            for (const _ of this.#readBlock(block)) if (this.lines.length % STEP === 0) yield;
        }
        this.#resolve();
    }

    /** Where each label leads. */
    #resolve() {
        const known = new Map();
        for (const entry of this.found) if (entry.kind === "definition" && !known.has(entry.key)) known.set(entry.key, entry);
        this.found = this.found.filter((entry) => entry.kind !== "shortcut" || known.has(entry.key));
        for (const entry of this.found) {
            if (entry.kind === "reference" || entry.kind === "shortcut") entry.target = known.get(entry.key)?.target ?? null;
        }
    }

    /** Reads a block, a line a step. */
    *#readBlock(block) {
        const joined = new Joined();
        for (let index = 0, at = block.start; index < block.lines; index++) {
            const line = new Line(this.page, at);
            const number = this.lines.length + 1;
            line.goOn(index === 0 ? block.containers.slice(0, block.kept) : block.containers);
            if (index === 0) line.begin(block.containers.slice(block.kept));
            const returned = this.#returned(block, line, index, joined);
            this.lines.push({ number, at, end: line.end, taken: line.taken, block: returned, from: line.start.place });
            at = line.end;
            yield;
        }
        if (joined.count > 0) this.#readText(block, joined);
    }

    /**
     * What a block has in a line, as a call returns it. The words of a paragraph are added to those before.
     * @param {any} block
     * @param {Line} line
     * @param {number} index
     * @param {Joined} joined
     */
    #returned(block, line, index, joined) {
        if (block.kind === "html" && index > 0) return this.#inHtml(line, block.htmlKind);
        const lineStart = { place: line.start.place, pending: line.start.pending };
        const columns = line.take("indent", "upto", 4);
        if (line.isBlank()) return this.#call(line, "blank", "scanBlankLine");
        switch (block.kind) {
            case "break": return this.#call(line, "break", "scanHrule");
            case "heading": return this.#atx(line, block);
            case "indented": return { ...this.#block(line, "indented code", "upto", [4], columns), lineStart };
            case "fenced": return index === 0 ? this.#call(line, `fence ${block.fence.character}`, "scanCodeFence") : this.#inFence(line, block, columns);
            case "html": return this.#call(line, `HTML: ${HTML[block.htmlKind]}`, "scanHtmlBlockStart");
            case "table": return this.#inTable(line, block, index);
            case "setext": if (index === block.lines - 1) return this.#call(line, `underline of ${index}`, "scanSetextHeading");
        }
        joined.add(...this.#trimmed(line.start.place, line.end));
        return this.#call(line, index > 0 ? "goes on" : block.kind === "setext" ? "paragraph" : block.kind, "interruptsParagraph");
    }

    /**
     * What this call returns of what is left of the line.
     * @param {Line} line
     * @param {string} name
     * @param {string} call
     */
    #call(line, name, call) {
        const given = [line.start.place, line.end];
        return this.#block(line, name, call, given, this.page[call](...given));
    }

    /**
     * A block of a line that is returned by this call.
     * @param {Line} line
     * @param {string} name
     * @param {string} call
     * @param {unknown[]} given all that the call is given
     * @param {unknown} answer
     */
    #block(line, name, call, given, answer) {
        return { name, call, given, answer, at: line.start.place, end: line.end };
    }

    /** A line of fenced code, which may close it. (4.5) */
    #inFence(line, { fence }, columns) {
        const given = [fence.character, fence.count, line.start.place, line.end];
        const end = columns < 4 ? this.page.scanClosingCodeFence(...given) : null;
        return this.#block(line, end === null ? "code" : "fence ends", "scanClosingCodeFence", given, end);
    }

    /** A later line of an HTML block, which it may end. (4.6) */
    #inHtml(line, kind) {
        const given = [kind, line.start.place, line.end];
        const ends = this.page.endsHtmlBlock(...given);
        return this.#block(line, ends ? "HTML ends" : `HTML ${kind}`, "endsHtmlBlock", given, ends);
    }

    /** An ATX heading, without its opening and its closing sequence. (4.2) */
    #atx(line, block) {
        const returned = this.#call(line, `heading ${block.level}`, "scanAtxHeading");
        const [from] = this.#trimmed(line.start.place + block.level, line.end);
        const joined = new Joined();
        joined.add(from, from + ENCODER.encode(block.content()).length);
        this.#heading(block, joined, returned);
        return returned;
    }

    #heading(block, joined, { call, given }) {
        const inline = this.#inline(joined);
        const text = decode(inline.bytes).replaceAll("\n", " ");
        const places = { from: joined.inPage(0), to: joined.inPage(joined.length) };
        this.headings.push({ number: block.line + 1, level: block.level, text, call, given, answer: block.level, ...places });
        this.#keep(inline);
    }

    /** The words of a paragraph, a setext heading or a definition. (4.3, 4.7, 4.8) */
    #readText(block, joined) {
        if (block.kind === "setext") return this.#heading(block, joined, this.lines.at(-1).block);
        const inline = this.#inline(joined);
        if (block.kind === "definition") inline.definition();
        this.#keep(inline);
    }

    /** The bytes between two places without the white space at both ends. */
    #trimmed(from, to) {
        while (to > from && WHITE.has(this.page.bytes[to - 1])) to--;
        while (from < to && WHITE.has(this.page.bytes[from])) from++;
        return [from, to];
    }

    /** @param {Joined} joined */
    #inline(joined) {
        return new Inline(this.scanners, this.page, joined);
    }

    /** Reads what is left of a text, and keeps what was found in it. */
    #keep(inline) {
        inline.read();
        for (const entry of inline.found) this.found.push(entry);
        this.scans += inline.scans;
        this.passed += inline.guard.passed;
        this.bound += 4 * inline.bytes.length + 8 * inline.scans;
    }

    /** A row of a table: the header, the delimiter row, or another. (GitHub Flavored Markdown 0.29, 4.10) */
    #inTable(line, block, index) {
        const number = this.lines.length + 1;
        if (index === 1) return this.#tableHead(line, block);
        const [from, to] = this.#trimmed(line.start.place, line.end);
        const cells = this.#cells(from, to).slice(0, block.columns);
        cells.forEach((cell) => this.#keepCell(cell));
        if (index === 0) this.tables.push({ number, rows: [] });
        this.tables.at(-1).rows.push({ number, cells });
        const answer = cells.map((cell) => cell.text);
        const name = `${index === 0 ? "header" : "row"} of ${cells.length}`;
        return { ...this.#block(line, name, "unescape", [from, to, { inTable: true }], answer), isOfCells: true };
    }

    /** The delimiter row of a table. `scanTableHead` knows none with tabs beside its hyphens; its cells tell the alignments then. */
    #tableHead(line, block) {
        const returned = this.#call(line, `table of ${block.columns}`, "scanTableHead");
        const { call, given, answer } = returned;
        const { alignments, end } = /** @type {any} */ (answer) ?? { alignments: this.#alignments(line), end: line.end };
        Object.assign(this.tables.at(-1), { alignments, call, given, answer, from: line.start.place, to: end });
        return returned;
    }

    /** How the cells of a delimiter row align their columns. */
    #alignments(line) {
        const { bytes } = this.page;
        const cells = this.#cells(...this.#trimmed(line.start.place, line.end));
        return cells.map(({ from, to }) => ALIGNMENTS[Number(bytes[from] === COLON) + 2 * Number(bytes[to - 1] === COLON)]);
    }

    /** The cells of a row, which pipes part that no backslash stands before. */
    #cells(from, to) {
        const { bytes } = this.page;
        let begin = bytes[from] === PIPE ? from + 1 : from;
        const cells = [];
        for (let at = begin; at <= to; at++) {
            if (at + 1 < to && bytes[at] === BACKSLASH) at++;
            else if (at === to ? begin < to : bytes[at] === PIPE) {
                cells.push(this.#cell(...this.#trimmed(begin, at)));
                begin = at + 1;
            }
        }
        return cells;
    }

    /** Keeps what is found in a cell. */
    #keepCell({ from, to }) {
        const joined = new Joined();
        joined.add(from, to);
        this.#keep(this.#inline(joined));
    }

    #cell(from, to) {
        const given = [from, to, { inTable: true }];
        return { from, to, text: this.page.unescape(...given), call: "unescape", given };
    }
}
