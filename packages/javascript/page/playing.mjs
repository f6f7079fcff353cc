/** What the calls of the package answer of a text, for the panes that show it whole: HTML, events, blocks, links, and how long they take. */
import { NOT_BUILT } from "../lib/extensions.mjs";
import { rendered } from "./rendered.mjs";

/** @typedef {import("./options.mjs").Asked} Asked */
/** @typedef {import("../fillaqut.mjs").Scanners} Scanners */

/** Of each list so many are returned, and of HTML and of each text so many characters. */
const MOST = 1000;
const MOST_HTML = 200_000;
const SHOWN = 200;
/** For how many milliseconds a call is made again and again, and how often at most. */
const SPENT = 150;
const MOST_RUNS = 1000;

/** The options of events and of HTML. */
function built({ extensions }) {
    return { extensions: /** @type {any} */ (extensions.filter((name) => !NOT_BUILT.has(/** @type {any} */ (name)))) };
}

function safe({ rawHtml, rel, imagesAsLinks, ...asked }) {
    return { ...built(asked), rawHtml, rel, imagesAsLinks };
}

/** @type {(scanners: Scanners, page: string, asked: Asked) => string} */
const htmlOf = (scanners, page, asked) => (asked.isSafe ? scanners.html(page, safe(asked)) : scanners.htmlUnsafe(page, built(asked)));

function cut(text, most = SHOWN) {
    return text.length > most ? `${text.slice(0, most)}…` : text;
}

/** A list, of which no more is returned than is drawn. */
function list(all, draw) {
    return { count: all.length, first: all.slice(0, MOST).map(draw) };
}

/** What an event says beside its name and its range. */
function detailOf(event) {
    const { kind, element, start, stop, link, ...more } = event;
    const said = Object.entries(link ? { written: link, ...more } : more);
    return Object.fromEntries(said.map(([name, value]) => [name, typeof value === "string" ? cut(value) : value]));
}

/** Each event with how many elements it stands in. */
function eventsOf(scanners, page, asked) {
    let open = 0;
    const all = scanners.events(page, built(asked)).map((event) => {
        const depth = event.kind === "end" ? --open : open;
        if (event.kind === "start") open++;
        return { event, depth };
    });
    return list(all, ({ event, depth }) => {
        const { kind: name, element = null, start, stop } = event;
        return { name, element, start, stop, depth, detail: detailOf(event) };
    });
}

/** A container by its name. */
function containerOf(container) {
    if (container.kind !== "item") return container.kind;
    return /[.)]/.test(container.delimiter) ? `item ${container.start}${container.delimiter}` : `item ${container.delimiter}`;
}

function blocksOf(scanners, page, asked) {
    const all = [...scanners.text(page, { units: "utf-16" }).scanBlocks(0, page.length, { extensions: asked.extensions })];
    return list(all, (block) => ({
        kind: block.level === null ? block.kind : `${block.kind} ${block.level}`,
        line: block.line + 1,
        lines: block.lines,
        start: block.start,
        stop: block.stop,
        containers: block.containers.map(containerOf),
        content: cut(String(block.content())),
    }));
}

/** The links and images among the events, each with the texts that it holds. */
function linksOf(scanners, page, asked) {
    /** @type {any[]} */
    const all = [];
    /** @type {any[]} */
    const open = [];
    for (const event of /** @type {any[]} */ (scanners.events(page, built(asked)))) {
        const isLink = event.element === "link" || event.element === "image";
        if (isLink && event.kind === "start") {
            open.push({ ...event, text: "" });
            all.push(open.at(-1));
        } else if (isLink) open.pop();
        else if (event.kind === "text" || event.kind === "code") open.forEach((link) => (link.text += event.text));
    }
    return list(all, ({ element, link, start, stop, destination, title, label, text }) => ({
        element, link, start, stop, destination: cut(destination), title: cut(title), label: cut(label), text: cut(text),
    }));
}

/** How long a call takes: the shortest and the middle one of its runs, in milliseconds. */
function timed(call) {
    const times = [];
    for (let spent = 0; times.length < MOST_RUNS && (spent < SPENT || times.length === 0);) {
        const begun = performance.now();
        call();
        times.push(performance.now() - begun);
        spent += times.at(-1);
    }
    times.sort((one, other) => one - other);
    return { runs: times.length, best: times[0], middle: times[times.length >> 1] };
}

function timesOf(scanners, page, asked) {
    const calls = {
        html: () => scanners.html(page, safe(asked)),
        htmlUnsafe: () => scanners.htmlUnsafe(page, built(asked)),
        events: () => scanners.events(page, built(asked)),
        scanBlocks: () => Array.from(scanners.text(page).scanBlocks(0, undefined, { extensions: asked.extensions })),
    };
    const bytes = new TextEncoder().encode(page).length;
    return { bytes, calls: Object.entries(calls).map(([name, call]) => ({ name, ...timed(call) })) };
}

/** What each pane shows. */
const PANES = {
    rendered: (scanners, page, asked) => (asked.isSafe ? rendered(scanners, page, safe(asked)) : { html: htmlOf(scanners, page, asked), sources: null }),
    html: (scanners, page, asked) => {
        const html = htmlOf(scanners, page, asked);
        return { html: cut(html, MOST_HTML), length: html.length };
    },
    events: eventsOf,
    blocks: blocksOf,
    links: linksOf,
    timing: timesOf,
};

/**
 * What a pane shows of a text. NUL is read as U+FFFD, as HTML has it (2.3).
 * @param {Scanners} scanners
 * @param {string} text
 * @param {{ pane: string, asked: Asked }} of
 */
export function played(scanners, text, { pane, asked }) {
    const page = text.replaceAll("\0", "\ufffd");
    const begun = performance.now();
    const found = PANES[pane](scanners, page, asked);
    return { pane, asked, ...found, milliseconds: performance.now() - begun };
}
