/**
 * The safe HTML of a text, and of each of its elements where its source stands. HTML says nothing of sources, and events have no
 * elements; but the elements of safe HTML are those that events write, in the same order.
 */

/** @typedef {import("../lib/events.mjs").Event<string>} Event */
/** @typedef {[name: string, start: number, stop: number]} Source an element's name, and where its source stands */

/** What is read beside CommonMark. */
export const EXTENSIONS = /** @type {("tables" | "strikethrough" | "tasks")[]} */ (["tables", "strikethrough", "tasks"]);

/** The elements of each event that holds others, but for lists, headings and rows. */
const OF_ELEMENT = {
    paragraph: ["p"],
    quote: ["blockquote"],
    codeBlock: ["pre", "code"],
    item: ["li"],
    table: ["table"],
    tableHead: ["thead", "tr"],
    emphasis: ["em"],
    strong: ["strong"],
    strikethrough: ["del"],
    link: ["a"],
    image: ["img"],
};
const OF_KIND = { code: ["code"], hardBreak: ["br"], rule: ["hr"], task: ["input"] };

/**
 * The elements that events write, in the order in which they begin; images as links, where they are written so.
 * @param {Event[]} events
 * @param {boolean} [imagesAsLinks]
 * @returns {Source[]}
 */
export function sourcesOf(events, imagesAsLinks = false) {
    /** @type {Source[]} */
    const found = [];
    let images = 0; // an image shows the texts that it holds, and none of their elements
    let rows = 0;
    for (const event of events) {
        if (event.kind === "start" && event.element === "table") rows = 0;
        if (images === 0) {
            for (const name of namesOf(event, rows)) found.push([imagesAsLinks && name === "img" ? "a" : name, event.start, event.stop]);
        }
        if (event.kind === "end" && event.element === "tableRow") rows += 1;
        if (event.kind === "end" && event.element === "tableHead") rows = 1;
        if (event.element === "image") images += event.kind === "start" ? 1 : -1;
    }
    return found;
}

/**
 * The names of the elements that an event begins, in a table that has had so many rows.
 * @param {any} event
 * @param {number} rows
 */
function namesOf(event, rows) {
    if (event.kind !== "start") return OF_KIND[event.kind] ?? [];
    switch (event.element) {
        case "heading": return [`h${event.level}`];
        case "list": return [event.number === null ? "ul" : "ol"];
        case "tableRow": return rows === 1 ? ["tbody", "tr"] : ["tr"];
        case "tableCell": return [rows === 0 ? "th" : "td"];
        default: return OF_ELEMENT[event.element] ?? [];
    }
}

/**
 * The safe HTML of a text, and its elements.
 * @param {import("../fillaqut.mjs").Scanners} scanners
 * @param {string} text
 * @param {{ extensions?: any[] } & import("../fillaqut.mjs").HtmlSetting} [options] those of `html`
 */
export function rendered(scanners, text, options = { extensions: EXTENSIONS }) {
    const page = text.replaceAll("\0", "\ufffd"); // as `html` reads it, and `events` does not (2.3)
    const events = scanners.events(page, { extensions: options.extensions });
    return { html: scanners.html(page, options), sources: sourcesOf(events, options.imagesAsLinks) };
}
