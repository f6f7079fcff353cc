/** The events of a page. Sections in brackets are those of CommonMark 0.31.2. */
import * as c from "./c.mjs";

/** @typedef {import("./blocks.mjs").Alignment} Alignment */
/** @typedef {"paragraph" | "quote" | "htmlBlock" | "item" | "tableHead" | "tableRow" | "tableCell" | "emphasis" | "strong" | "strikethrough"} PlainElement */
/** @typedef {PlainElement | "heading" | "codeBlock" | "list" | "table" | "link" | "image"} Element */
/** @typedef {"inline" | "reference" | "collapsed" | "shortcut" | "autolink" | "email" | "wiki" | "wikiPiped"} LinkKind how a link or an image is written */

/** @typedef {{ start: number, stop: number }} Place where its source begins, and where it stops; both events of an element have that of the whole */
/** @typedef {{ kind: "start", element: PlainElement } & Place} PlainStart */
/** @typedef {{ kind: "start", element: "heading", level: number } & Place} HeadingStart (4.2, 4.3) */
/**
 * @template Made
 * @typedef {{ kind: "start", element: "codeBlock", info: Made | null } & Place} CodeStart its info string, or null of indented code (4.4, 4.5)
 */
/** @typedef {{ kind: "start", element: "list", number: number | null } & Place} ListStart of an ordered one the number of its first item (5.3) */
/** @typedef {{ kind: "start", element: "table", alignments: Alignment[] } & Place} TableStart (GitHub Flavored Markdown 0.29, 4.10) */
/**
 * @template Made
 * @typedef {{ kind: "start", element: "link" | "image", link: LinkKind, destination: Made, title: Made, label: Made } & Place} LinkStart
 * where it leads; of a reference its label, as it is written, else an empty text (6.3 to 6.5)
 */
/** @typedef {{ kind: "end", element: PlainElement | "codeBlock" | "table" | "link" | "image" } & Place} PlainEnd */
/** @typedef {{ kind: "end", element: "heading", level: number } & Place} HeadingEnd */
/** @typedef {{ kind: "end", element: "list", isOrdered: boolean } & Place} ListEnd */
/** @typedef {PlainEnd | HeadingEnd | ListEnd} End the element ends that has begun last, of those that have not ended */
/**
 * @template Made
 * @typedef {{ kind: "text" | "code" | "html" | "inlineHtml", text: Made } & Place} TextEvent escapes and references of a text are resolved
 */
/** @typedef {{ kind: "softBreak" | "hardBreak" | "rule" } & Place} BreakEvent a line ending, one that is kept, or a thematic break (6.7, 6.8, 4.1) */
/** @typedef {{ kind: "task", checked: boolean } & Place} TaskEvent the box of a list item (GitHub Flavored Markdown 0.29, 5.3) */
/**
 * @template Made
 * @typedef {PlainStart | HeadingStart | CodeStart<Made> | ListStart | TableStart | LinkStart<Made> | End | TextEvent<Made> | BreakEvent | TaskEvent} Event
 */

const DECODER = new TextDecoder("utf-8", { ignoreBOM: true });
/** For events and for texts, besides what their page's length says. */
const ROOM = 64;
const { size: SIZE } = c.STRUCTS.event;
/** @type {Record<number, Alignment>} */
const ALIGNMENTS = { [c.ALIGN_NONE]: "none", [c.ALIGN_LEFT]: "left", [c.ALIGN_CENTER]: "center", [c.ALIGN_RIGHT]: "right" };
/** @type {Record<number, string>} */
const KINDS = {
    [c.EVENT_TEXT]: "text",
    [c.EVENT_CODE]: "code",
    [c.EVENT_HTML]: "html",
    [c.EVENT_INLINE_HTML]: "inlineHtml",
    [c.EVENT_SOFT_BREAK]: "softBreak",
    [c.EVENT_HARD_BREAK]: "hardBreak",
    [c.EVENT_RULE]: "rule",
};
/** @type {Record<number, Element>} */
const ELEMENTS = {
    [c.ELEMENT_PARAGRAPH]: "paragraph",
    [c.ELEMENT_HEADING]: "heading",
    [c.ELEMENT_QUOTE]: "quote",
    [c.ELEMENT_CODE_BLOCK]: "codeBlock",
    [c.ELEMENT_HTML_BLOCK]: "htmlBlock",
    [c.ELEMENT_LIST]: "list",
    [c.ELEMENT_ITEM]: "item",
    [c.ELEMENT_TABLE]: "table",
    [c.ELEMENT_TABLE_HEAD]: "tableHead",
    [c.ELEMENT_TABLE_ROW]: "tableRow",
    [c.ELEMENT_TABLE_CELL]: "tableCell",
    [c.ELEMENT_EMPHASIS]: "emphasis",
    [c.ELEMENT_STRONG]: "strong",
    [c.ELEMENT_STRIKETHROUGH]: "strikethrough",
    [c.ELEMENT_LINK]: "link",
    [c.ELEMENT_IMAGE]: "image",
};
/** @type {Record<number, LinkKind>} */
const LINKS = {
    [c.LINK_INLINE]: "inline",
    [c.LINK_REFERENCE]: "reference",
    [c.LINK_COLLAPSED]: "collapsed",
    [c.LINK_SHORTCUT]: "shortcut",
    [c.LINK_AUTOLINK]: "autolink",
    [c.LINK_EMAIL]: "email",
    [c.LINK_WIKI]: "wiki",
    [c.LINK_WIKI_PIPED]: "wikiPiped",
};

/**
 * The events of a text, a page that is read with these bits of extensions.
 * @param {import("./source.mjs").Source<any>} page
 * @param {import("./engine.mjs").Engine} engine
 * @param {number} bits
 */
export function eventsOf(page, engine, bits) {
    const { length } = page.bytes;
    for (let count = Math.ceil(length / 8) + ROOM, size = length + ROOM; ; ) {
        engine.bring(page.block);
        const [records, texts] = [engine.room(count * SIZE), engine.room(size)];
        const found = engine.calls.events(page.block.address, length, bits, records, count, texts, size);
        if (found.status !== c.TOO_SHORT) {
            page.isAnswered(found.status);
            const words = wordsOf(engine.heap.bytes.subarray(texts, texts + found.length), page.isString);
            return Array.from({ length: found.count }, (_, index) => eventOf(engine.read("event", records + index * SIZE), page, words));
        }
        ({ count, length: size } = found);
    }
}

/**
 * What answers so many bytes of the texts from one on, as a string where it is to be one.
 * @param {Uint8Array} texts
 * @param {boolean} isString
 * @returns {(start: number, length: number) => any}
 */
function wordsOf(texts, isString) {
    if (!isString) return (start, length) => texts.slice(start, start + length);
    const whole = DECODER.decode(texts);
    if (whole.length === texts.length) return (start, length) => whole.slice(start, start + length);
    return (start, length) => DECODER.decode(texts.subarray(start, start + length));
}

/**
 * An event of C's struct.
 * @param {Record<string, number>} event
 * @param {import("./source.mjs").Source<any>} page
 * @param {(start: number, length: number) => any} words
 * @returns {any}
 */
function eventOf(event, page, words) {
    const [start, stop] = [page.placeOf(event.start), page.placeOf(event.end)];
    if (event.kind === c.EVENT_START) return { kind: "start", element: ELEMENTS[event.element], start, stop, ...held(event, words) };
    if (event.kind === c.EVENT_END) return { kind: "end", element: ELEMENTS[event.element], start, stop, ...ended(event) };
    if (event.kind === c.EVENT_TASK) return { kind: "task", checked: event.detail === 1, start, stop };
    const kind = KINDS[event.kind];
    if (event.kind >= c.EVENT_SOFT_BREAK) return { kind, start, stop };
    return { kind, text: words(event.textStart, event.textLength), start, stop };
}

/**
 * What the end of an element says besides.
 * @param {Record<string, number>} event
 */
function ended({ element, detail }) {
    if (element === c.ELEMENT_HEADING) return { level: detail };
    return element === c.ELEMENT_LIST ? { isOrdered: detail === 1 } : {};
}

/**
 * What the start of an element says besides.
 * @param {Record<string, number>} event
 * @param {(start: number, length: number) => any} words
 */
function held(event, words) {
    const text = () => words(event.textStart, event.textLength);
    switch (event.element) {
        case c.ELEMENT_HEADING: return { level: event.detail };
        case c.ELEMENT_CODE_BLOCK: return { info: event.detail === 1 ? text() : null };
        case c.ELEMENT_LIST: return { number: event.detail === 1 ? event.number : null };
        case c.ELEMENT_TABLE: return { alignments: Array.from(text(), (of) => ALIGNMENTS[typeof of === "string" ? of.charCodeAt(0) : of]) };
        case c.ELEMENT_LINK:
        case c.ELEMENT_IMAGE: {
            const [title, label] = [words(event.titleStart, event.titleLength), words(event.labelStart, event.labelLength)];
            return { link: LINKS[event.detail], destination: text(), title, label };
        }
        default: return {};
    }
}
