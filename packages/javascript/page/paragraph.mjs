/** The text of a paragraph, a heading or a cell, without what its containers took; and what stands in it. */

/** The bytes that a backslash escapes. (2.4) */
const PUNCTUATION = new Set([..."!\"#$%&'()*+,-./:;<=>?@[\\]^_`{|}~"].map((character) => character.charCodeAt(0)));
const [LF, BACKSLASH, BACKTICK, LESS, OPEN, CLOSE, PAREN] = [..."\n\\`<[]("].map((character) => character.charCodeAt(0));
const [EXCLAMATION, QUESTION] = [..."!?"].map((character) => character.charCodeAt(0));

/** Lines of a text, one after another with LF between them, and where they stand in the page. */
export class Joined {
    /** @type {{ from: number, to: number, at: number }[]} */
    #lines = [];
    length = 0;

    /**
     * @param {number} from
     * @param {number} to
     */
    add(from, to) {
        if (this.#lines.length > 0) this.length++;
        this.#lines.push({ from, to, at: this.length });
        this.length += to - from;
    }

    get count() {
        return this.#lines.length;
    }

    /**
     * All bytes.
     * @param {any} page
     */
    bytes(page) {
        const made = new Uint8Array(this.length).fill(LF);
        for (const { from, to, at } of this.#lines) made.set(page.bytes.subarray(from, to), at);
        return made;
    }

    /**
     * The place in the page of a place in the text.
     * @param {number} place
     */
    inPage(place) {
        let low = 0;
        let high = this.#lines.length;
        while (high - low > 1) {
            const middle = (low + high) >> 1;
            if (this.#lines[middle].at <= place) low = middle;
            else high = middle;
        }
        const { from, to, at } = this.#lines[low];
        return Math.min(from + place - at, to);
    }
}

/** Goes through such a text, which is a link reference definition (4.7), or has what stands in inline text. */
export class Inline {
    /** @type {Set<number>} */
    #unclosed = new Set();

    /**
     * @param {any} scanners
     * @param {any} page
     * @param {Joined} joined
     */
    constructor(scanners, page, joined) {
        this.scanners = scanners;
        this.joined = joined;
        this.text = scanners.text(joined.bytes(page));
        this.bytes = this.text.bytes;
        this.guard = this.text.htmlScanGuard();
        this.place = 0;
        /** @type {any[]} */
        this.found = [];
        this.scans = 0;
    }

    /**
     * Notes an answer about the bytes between two places.
     * @param {string} kind
     * @param {number} from
     * @param {number} to
     * @param {string} call
     * @param {unknown[]} given
     * @param {unknown} answer
     * @param {Record<string, unknown>} more
     */
    note(kind, from, to, call, given, answer, more = {}) {
        const inPage = { from: this.joined.inPage(from), to: this.joined.inPage(to) };
        this.found.push({ kind, ...inPage, call, given, answer, joined: this.joined, ...more });
    }

    /**
     * The label whose opening bracket stands at the place.
     * @param {number} place
     */
    label(place) {
        if (this.bytes[place] !== OPEN) return null;
        const found = this.text.scanLinkLabel(place + 1);
        return found && { ...found, text: decode(found.text), key: decode(this.scanners.labelKey(found.text)) };
    }

    /**
     * The end of white space with at most one line ending.
     * @param {number} place
     */
    #spaceEnd(place) {
        const end = this.text.scanWhitespaceInLine(place);
        return this.bytes[end] === LF ? this.text.scanWhitespaceInLine(end + 1) : end;
    }

    /** Notes the definition that the text is. (4.7) */
    definition() {
        const found = this.text.scanReferenceDefinition();
        const label = found && this.label(found.label.start - 1);
        if (!label) return;
        const target = decode(this.text.unescape(found.destination.start, found.destination.stop));
        const given = [found.label.start];
        this.note("definition", 0, found.end, "scanLinkLabel", given, plain(label), { label: label.text, key: label.key, target });
        this.place = found.end;
    }

    /** Goes through what is left of the text. */
    read() {
        let depth = 0;
        while (this.place < this.bytes.length) {
            const byte = this.bytes[this.place];
            if (byte === OPEN) {
                depth++;
                this.#shortcut();
            } else if (byte === CLOSE && depth > 0) {
                depth--;
                this.place = this.#linkEnd();
            } else this.place += this.#length(byte);
        }
    }

    /** A label that may refer to a definition by itself. (6.3) */
    #shortcut() {
        const label = this.label(this.place);
        if (label) {
            this.note("shortcut", this.place, label.end, "scanLinkLabel", [this.place + 1], plain(label), { label: label.text, key: label.key });
        }
        this.place++;
    }

    /** The offset after a closing bracket, and what makes a link of it. (6.3) */
    #linkEnd() {
        const next = this.place + 1;
        const label = this.label(next);
        if (label) {
            this.note("reference", next, label.end, "scanLinkLabel", [next + 1], plain(label), { label: label.text, key: label.key });
            return label.end;
        }
        if (this.bytes[next] !== PAREN) return next;
        const start = this.#spaceEnd(next + 1);
        const part = this.text.scanLinkDest(start);
        if (!part) return next;
        const target = decode(this.text.unescape(part.start, part.stop));
        this.note("link", start, part.end, "scanLinkDest", [start], part, { label: "", target });
        return part.end;
    }

    /**
     * How many bytes the escape, code span, autolink or HTML at the place takes; else 1. (2.4, 6.1, 6.5, 6.6)
     * @param {number} byte
     */
    #length(byte) {
        if (byte === BACKSLASH) return PUNCTUATION.has(this.bytes[this.place + 1]) ? 2 : 1;
        if (byte === BACKTICK) return this.#codeLength();
        return byte === LESS ? this.#angleLength() : 1;
    }

    /** How many bytes a code span takes, or its backticks where nothing closes it, which is then known of as many. (6.1) */
    #codeLength() {
        const begin = this.text.scanChRepeat("`", this.place);
        const count = begin - this.place;
        let open = this.#unclosed.has(count) ? -1 : this.bytes.indexOf(BACKTICK, begin);
        while (open >= 0) {
            const end = this.text.scanChRepeat("`", open);
            if (end - open === count) return end - this.place;
            open = this.bytes.indexOf(BACKTICK, end);
        }
        this.#unclosed.add(count);
        return count;
    }

    #angleLength() {
        const at = this.place;
        const link = this.text.scanAutolink(at + 1);
        if (link) {
            this.note("link", at, link.end, "scanAutolink", [at + 1], link, { label: "", target: decode(this.bytes.subarray(link.start, link.stop)) });
            return link.end - at;
        }
        const tag = this.text.scanHtmlTagOverLines(at);
        if (tag) {
            this.note("html", at, tag.end, "scanHtmlTagOverLines", [at], tag.end);
            return tag.end - at;
        }
        const next = this.bytes[at + 1];
        if (next !== EXCLAMATION && next !== QUESTION) return 1;
        this.scans++;
        const end = this.guard.scan(at + 2);
        if (end === null) return 1;
        this.note("html", at, end, "scanInlineHtml", [at + 2], end);
        return end - at;
    }
}

const DECODER = new TextDecoder("utf-8", { ignoreBOM: true });

/** @param {Uint8Array} bytes */
export function decode(bytes) {
    return DECODER.decode(bytes);
}

/** An answer without the key, which is another call's. */
function plain({ end, text, start }) {
    return { end, text, start };
}
