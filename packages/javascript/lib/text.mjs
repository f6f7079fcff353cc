/** Inline text, HTML, and texts that are made. Sections in brackets are those of CommonMark 0.31.2. */
import * as c from "./c.mjs";
import { Block, NONE } from "./engine.mjs";
import { isAnswer } from "./errors.mjs";
import { eventsOf } from "./events.mjs";
import { builtBitsOf, flagOf, listOf, optionsOf, sizeOf, wrongType } from "./given.mjs";
import { AskedHtml, SETTING_NAMES } from "./html_settings.mjs";
import { Inlines } from "./inlines.mjs";
import { ended } from "./line_start.mjs";

const ASTERISK = 42;
const REFERENCE_ROOM = 6;
/** A label has at most 999 characters. */
const LABEL_ROOM = 4 * 999;
/** For HTML, besides twice the text. */
const HTML_ROOM = 64;

/** @typedef {{ end: number, start: number, stop: number }} Part its own bytes are those from `start` to `stop` */
/** @typedef {1 | 2 | 3 | 4 | 5 | 6 | 7} HtmlBlockKind the number of a start condition */
/** @typedef {import("./extensions.mjs").BuiltExtension} BuiltExtension */
/** @typedef {import("./html_settings.mjs").HtmlSetting} HtmlSetting */

/**
 * A text, with the scanners of lines and blocks, and those of inline text.
 * @template {string | Uint8Array} Made
 * @extends {Inlines<Made>}
 */
export class Text extends Inlines {
    /**
     * A link destination; angle brackets are not among its own bytes. Parentheses may stand in each other `maxNext` + 1 deep, 32
     * where it is not given. An empty one without brackets is one too. (6.3)
     * @param {number} [at]
     * @param {number} [end]
     * @param {{ maxNext?: number | bigint }} [options]
     */
    scanLinkDest(at = 0, end = this.length, options = {}) {
        const { maxNext = 31 } = optionsOf(options, "maxNext");
        return this.#part("scanLinkDest", at, end, sizeOf("maxNext", maxNext));
    }

    /** A link title; the quotes or parentheses around it are not among its own bytes. It may go on over lines, of which none is
     * blank. (6.3) */
    scanLinkTitle(at = 0, end = this.length) {
        return this.#part("scanLinkTitle", at, end);
    }

    /** The absolute URI of the autolink whose `<` stands just before the place. (6.5) */
    scanAutolink(at = 0, end = this.length) {
        return this.#part("scanAutolink", at, end);
    }

    /** The email address of the autolink whose `<` stands just before the place. (6.5) */
    scanEmailAutolink(at = 0, end = this.length) {
        return this.#part("scanEmailAutolink", at, end);
    }

    /**
     * The code span that begins at the place, as if no backtick stood before that; its backtick strings are not among its own
     * bytes. Where no later string closes it, all of the text is read for that: a caller notes where the last string of each
     * length begins, and asks only where such a one is still to come. (6.1)
     */
    scanCodeSpan(at = 0, end = this.length) {
        return this.#part("scanCodeSpan", at, end);
    }

    /**
     * The delimiter run that begins at the place, in the text that begins at `begin`, where it is given: the place after it, its
     * character, and whether it can open and close emphasis. The caller asks where no unescaped character of its kind stands just
     * before it. NotUtf8 where no character of UTF-8 stands beside it. (6.2)
     * @param {number} [at]
     * @param {number} [end]
     * @param {{ begin?: number }} [options]
     * @returns {{ end: number, character: "*" | "_", canOpen: boolean, canClose: boolean } | null}
     */
    scanDelimiterRun(at = 0, end = this.length, options = {}) {
        const { begin = 0 } = optionsOf(options, "begin");
        const [from, to] = this.limits(at, end);
        const before = this.inBytes(begin, "begin");
        if (before > from) throw new RangeError(`\`begin\` is ${begin}, which is after \`at\`, ${at}`);
        this.engine.bring(this.block);
        const found = this.engine.calls.scanDelimiterRun(this.block.address + before, to - before, from - before);
        if (!isAnswer(found.status)) return null;
        const { byte, canOpen, canClose } = found;
        return { end: this.placeOf(from + found.count), character: byte === ASTERISK ? "*" : "_", canOpen, canClose };
    }

    /** What stands before the first pipe from the place on. (An extension of pulldown-cmark) */
    scanWikilinkPipe(at = 0, end = this.length) {
        const [from, to] = this.limits(at, end);
        return this.#part("scanWikilinkPipe", at, end, to - from);
    }

    /** Whether an HTML block that a name of start condition 6 opens begins there, after the `<`. (4.6) */
    startsHtmlBlockType6(at = 0, end = this.length) {
        return /** @type {boolean} */ (this.scan("startsHtmlBlockType6", at, end));
    }

    /** The offset after the tag that stands alone in the rest of its line. (4.6, start condition 7) */
    scanHtmlType7(at = 0, end = this.length) {
        return this.after("scanHtmlType7", at, end);
    }

    /**
     * The kind of the HTML block that begins there, after the indent of its line. (4.6)
     * @returns {HtmlBlockKind | null}
     */
    scanHtmlBlockStart(at = 0, end = this.length) {
        return this.scan("scanHtmlBlockStart", at, end) || null;
    }

    /**
     * Whether the line ends an HTML block of this kind: as its last line, or as the blank line after it. (4.6)
     * @param {HtmlBlockKind} kind
     */
    endsHtmlBlock(kind, at = 0, end = this.length) {
        if (typeof kind !== "number") throw wrongType("kind", kind, "a number");
        if (!Number.isInteger(kind) || kind < c.HTML_RAW_TEXT || kind > c.HTML_TAG_ALONE) throw new RangeError(`\`kind\` is ${kind}, and not 1 to 7`);
        return isAnswer(this.scan("endsHtmlBlock", at, end, kind));
    }

    /** The offset after an open or closing tag that holds no line ending. (6.6) */
    scanHtmlTag(at = 0, end = this.length) {
        return this.after("scanHtmlTag", at, end);
    }

    /**
     * A table of what is left out at the fronts of lines, the markers and the indent of their containers: at each place so many
     * bytes, all of them ASCII. It is made once for a page. BadSkips where it is not of this text.
     * @param {[place: number | bigint, length: number | bigint][]} rows
     */
    skips(rows) {
        const listed = listOf("rows", rows).map((row) => {
            const [place, length] = listOf("a row", /** @type {(number | bigint)[]} */ (row));
            return [this.anyInBytes(place, "place"), sizeOf("length", length)];
        });
        const made = new Skips(this, listed);
        this.engine.bring(this.block, made.block);
        isAnswer(this.engine.calls.checkSkips(this.block.address, this.bytes.length, made.block.address, made.length));
        return made;
    }

    /**
     * An open or closing tag, over lines of which the skips are left out: the offset after it, and what it is without them, or
     * null where none are. (6.6)
     * @param {number} [at]
     * @param {number} [end]
     * @param {{ skips?: Skips | null }} [options]
     * @returns {{ end: number, text: Made | null } | null}
     */
    scanHtmlTagOverLines(at = 0, end = this.length, options = {}) {
        const { skips = null } = optionsOf(options, "skips");
        const [from, to] = this.limits(at, end);
        const given = [from, ...this.#table(skips)];
        const { address } = this.block;
        let found = this.engine.calls.scanHtmlTagOverLines(address, to, ...given, 0, 0);
        let text = null;
        if (found.status === c.TOO_SHORT) {
            const buffer = this.engine.room(found.length);
            found = this.engine.calls.scanHtmlTagOverLines(address, to, ...given, buffer, found.length);
            text = this.made(this.engine.heap.bytes.subarray(buffer, buffer + found.length));
        }
        return isAnswer(found.status) ? { end: this.placeOf(found.end), text } : null;
    }

    /** What the scans for inline HTML of this text, up to the end, know of it. */
    htmlScanGuard(end = this.length) {
        const [, to] = this.limits(0, end);
        return new HtmlScanGuard((at, numbers) => this.#scanInlineHtml(at, to, numbers));
    }

    /**
     * @param {number | bigint} at
     * @param {number} to
     * @param {Record<string, number>} numbers
     */
    #scanInlineHtml(at, to, numbers) {
        const { engine } = this;
        const place = this.anyInBytes(at, "at");
        engine.bring(this.block);
        engine.write("htmlGuard", engine.guard, numbers);
        const found = engine.calls.scanInlineHtml(this.block.address, to, place, engine.guard);
        Object.assign(numbers, engine.read("htmlGuard", engine.guard));
        return { status: found.status, end: this.placeOf(found.end), passed: found.passed };
    }

    /**
     * The offset after what begins at each of the places in turn, or null, as an HtmlScanGuard finds them. Before a place that
     * is refused the run stops: NoOpener, NotRising or InsideFind, whose `run` has the ends that were found before. (6.6)
     * @param {(number | bigint)[]} places
     */
    runInlineHtml(places, end = this.length) {
        const { engine } = this;
        const [, to] = this.limits(0, end);
        const listed = listOf("places", places).map((place) => this.anyInBytes(place, "a place"));
        engine.bring(this.block);
        const given = engine.numbers(listed);
        const buffer = engine.room(8 * listed.length);
        const found = engine.calls.runInlineHtml(this.block.address, to, given, listed.length, buffer, listed.length);
        const ends = listed.slice(0, found.count).map((_, index) => engine.size(buffer + 8 * index));
        return ended(found.status, ends.map((place) => (place === NONE ? null : this.placeOf(place))));
    }

    /**
     * A character reference: a number, or an entity of HTML. The first byte is taken for its `&`. Empty where there are no
     * bytes. (2.5)
     * @returns {{ end: number, text: Made } | null}
     */
    scanEntity(at = 0, end = this.length) {
        const [found, text] = this.written("scanEntity", at, end, REFERENCE_ROOM);
        return isAnswer(found.status) ? { end: this.placeOf(this.inBytes(at) + found.taken), text: this.made(text) } : null;
    }

    /**
     * The text with its backslash escapes and character references resolved, and without CR; in a cell of a table two
     * backslashes and a pipe give the pipe. NotUtf8. (2.4, 2.5)
     * @param {number} [at]
     * @param {number} [end]
     * @param {{ inTable?: boolean }} [options]
     */
    unescape(at = 0, end = this.length, options = {}) {
        const { inTable = false } = optionsOf(options, "inTable");
        const [from, to] = this.limits(at, end);
        const capacity = to - from + Math.floor((to - from) / 5);
        const [found, text] = this.written("unescape", at, end, capacity, flagOf("inTable", inTable));
        this.isAnswered(found.status, from, to);
        return this.made(text);
    }

    /**
     * The link label whose opening bracket stands just before the place, over lines of which the skips of the page are left
     * out: the offset after its closing bracket, its words, joined by one space, and the place where they stand as they are, or
     * null. In a cell of a table a pipe loses the backslash before it. (6.3)
     * @param {number} [at]
     * @param {number} [end]
     * @param {{ inTable?: boolean, skips?: Skips | null }} [options]
     * @returns {{ end: number, text: Made, start: number | null } | null}
     */
    scanLinkLabel(at = 0, end = this.length, options = {}) {
        const { inTable = false, skips = null } = optionsOf(options, "inTable", "skips");
        const [from, to] = this.limits(at, end);
        const given = [from, flagOf("inTable", inTable), ...this.#table(skips)];
        const length = Math.min(to - from, LABEL_ROOM);
        const buffer = this.engine.room(length);
        const found = this.engine.calls.scanLinkLabel(this.block.address, to, ...given, buffer, length);
        if (!isAnswer(found.status)) return null;
        const text = this.made(this.engine.heap.bytes.subarray(buffer, buffer + found.length));
        return { end: this.placeOf(found.end), text, start: found.start === NONE ? null : this.placeOf(found.start) };
    }

    /**
     * The HTML of the text, a page, safe for pages by people who are not trusted: raw HTML is written as text, links and images lead to
     * addresses that are relative or have one of the schemes http, https, mailto and tel, others being written as empty, and links say
     * `rel="nofollow noopener"`. All else is as the examples of CommonMark have it. (3 to 6)
     *
     * Bytes that are not UTF-8 are read with U+FFFD in the place of each part that is wrong, as a TextDecoder reads them; with `strict` they
     * are NotUtf8. `schemes`, `rawHtml`, `rel` and `imagesAsLinks` ask for other HTML, which is as safe.
     * @param {{ extensions?: BuiltExtension[] } & HtmlSetting} [options]
     */
    html(options = {}) {
        const { extensions, ...setting } = optionsOf(options, "extensions", ...SETTING_NAMES);
        const asked = builtBitsOf(extensions);
        return Object.keys(setting).length > 0 ? this.#htmlBy("htmlWith", asked, new AskedHtml(setting)) : this.#htmlBy("html", asked);
    }

    /**
     * The HTML of the text, a page, as the examples write it: raw HTML stands in it as it is, and links lead anywhere. It is for text of
     * one's own, and `html` for text by others. `strict` is as of `html`. (3 to 6)
     * @param {{ extensions?: BuiltExtension[], strict?: boolean }} [options]
     */
    htmlUnsafe(options = {}) {
        const { extensions, strict = false } = optionsOf(options, "extensions", "strict");
        if (flagOf("strict", strict)) this.checkUtf8();
        return this.#htmlBy("htmlUnsafe", builtBitsOf(extensions));
    }

    /**
     * The HTML that this call writes with these bits of extensions, and with a setting where it takes one.
     * @param {string} call
     * @param {number} asked
     * @param {AskedHtml | null} [setting]
     */
    #htmlBy(call, asked, setting = null) {
        const { engine } = this;
        const size = this.bytes.length;
        for (let capacity = 2 * size + HTML_ROOM; ; ) {
            engine.bring(...(setting ? [this.block, setting.block] : [this.block]));
            const given = [this.block.address, size, asked, ...(setting ? [setting.listed(engine)] : [])];
            const buffer = engine.room(capacity);
            const { status, length } = engine.calls[call](...given, buffer, capacity);
            if (status !== c.TOO_SHORT) {
                this.isAnswered(status);
                return this.made(engine.heap.bytes.subarray(buffer, buffer + length));
            }
            capacity = length;
        }
    }

    /**
     * The events of the text, a page, in order: where each element begins and ends, and what stands in it. Each that begins ends, and
     * they nest; so do their places, which are those of the text. `extensions` is as of `html`. NotUtf8. (3 to 6)
     * @param {{ extensions?: BuiltExtension[] }} [options]
     * @returns {import("./events.mjs").Event<Made>[]}
     */
    events(options = {}) {
        return eventsOf(this, this.engine, builtBitsOf(optionsOf(options, "extensions").extensions));
    }

    /** The key of the whole text as a label: two labels match exactly where their keys are equal. NotUtf8. (6.3) */
    labelKey() {
        const [found, key] = this.written("labelKey", 0, this.length, 3 * this.bytes.length);
        this.isAnswered(found.status);
        return this.made(key);
    }

    /**
     * The address of the table and how many rows it has. The text is then there too.
     * @param {Skips | null} skips
     */
    #table(skips) {
        if (skips === null) {
            this.engine.bring(this.block);
            return [0, 0];
        }
        if (!(skips instanceof Skips)) throw wrongType("skips", skips, "what `skips` has made");
        if (!skips.isOf(this)) throw new TypeError("`skips` are of another text");
        this.engine.bring(this.block, skips.block);
        return [skips.block.address, skips.length];
    }

    /**
     * @param {string} name
     * @param {number} at
     * @param {number} end
     * @param {...unknown} given
     * @returns {Part | null}
     */
    #part(name, at, end, ...given) {
        const [from, to] = this.limits(at, end);
        this.engine.bring(this.block);
        const found = this.engine.calls[name](this.block.address, to, from, ...given);
        if (!isAnswer(found.status)) return null;
        return { end: this.placeOf(found.end), start: this.placeOf(found.start), stop: this.placeOf(found.start + found.length) };
    }
}

/** A table of what is left out of a text. */
export class Skips {
    #of;
    #block;

    /**
     * @param {import("./source.mjs").Source<any>} of
     * @param {(number | bigint)[][]} rows places and lengths in bytes
     */
    constructor(of, rows) {
        this.#of = of;
        this.length = rows.length;
        this.#block = new Block(new Uint8Array(16 * rows.length));
        const view = new DataView(this.#block.bytes.buffer);
        rows.forEach(([place, length], index) => {
            view.setBigUint64(16 * index, BigInt(place), true);
            view.setBigUint64(16 * index + 8, BigInt(length), true);
        });
    }

    /**
     * Whether it is the table of this text.
     * @param {import("./source.mjs").Source<any>} text
     */
    isOf(text) {
        return this.#of === text;
    }

    /**
     * The table as the engine brings it to the module's memory.
     * @package
     */
    get block() {
        return this.#block;
    }
}

/**
 * What the scans of one text have searched in vain, so that none of them searches it again: k scans at rising places of n bytes,
 * each at or after the end that was found before it, pass over at most 4n + 8k bytes.
 */
export class HtmlScanGuard {
    #scan;
    /** @type {Record<string, number>} */
    #numbers = { comment: 0, cdata: 0, declaration: 0, processing: 0 };
    /** How many bytes the scans have passed over. */
    passed = 0;

    /** @param {(at: number | bigint, numbers: Record<string, number>) => { status: number, end: number, passed: number }} scan */
    constructor(scan) {
        this.#scan = scan;
    }

    /**
     * The offset after the comment, CDATA section, declaration or processing instruction whose `<!` or `<?` ends at the place.
     * NoOpener where none ends there. (6.6)
     * @param {number | bigint} at
     */
    scan(at) {
        const found = this.#scan(at, this.#numbers);
        this.passed += found.passed;
        return isAnswer(found.status) ? found.end : null;
    }
}
