/** What the calls answer of a whole text, as elements: HTML, events, blocks, links, and how long they take. */
import { answers, drawList, element, note } from "./drawing.mjs";

/** How much deeper an event stands for each element that it is in, and at most. */
const INDENT = 0.9;
const DEEPEST = 12;

/** An answer of a list, which stands between two places in UTF-16 units, with what is said where it is chosen. */
function entry(name, what, { start, stop }, ...said) {
    const made = element("button", { class: "entry", type: "button", tabindex: "-1" }, element("span", { class: "number" }, name), what);
    answers.set(made, { from: start, to: stop, inUnits: true, said: [...said, element("p", { id: "units" }, `UTF-16 units ${start} to ${stop}`)] });
    return made;
}

function what(...parts) {
    return element("span", { class: "what" }, ...parts);
}

const code = (text) => element("code", {}, text);

function range({ start, stop }) {
    return `${start}–${stop}`;
}

/** What an answer says beside its name: of a text the text alone. */
function detail({ text, ...named }) {
    if (text !== undefined) return JSON.stringify(text);
    return Object.entries(named).filter(([, value]) => value !== null && value !== "").map(([name, value]) => `${name} ${JSON.stringify(value)}`).join(", ");
}

function drawnEvents(events) {
    return drawList(events, "There are no events.", (event) => {
        const more = detail(event.detail);
        const drawn = what(element("b", {}, event.name), event.element ? ` ${event.element} ` : " ", element("span", { class: "leads" }, more));
        drawn.style.paddingLeft = `${INDENT * Math.min(event.depth, DEEPEST)}rem`;
        return entry(range(event), drawn, event, element("p", {}, code([event.name, event.element].filter(Boolean).join(" ")), more && `: ${more}`));
    });
}

function drawnBlocks(blocks) {
    return drawList(blocks, "There are no blocks.", (block) => {
        const inside = block.containers.join(" › ");
        const lines = block.lines === 1 ? `line ${block.line}` : `lines ${block.line} to ${block.line + block.lines - 1}`;
        const drawn = what(inside && element("span", { class: "leads" }, `${inside} › `), element("b", {}, block.kind), ` ${block.content}`);
        return entry(range(block), drawn, block, element("p", {}, code(block.kind), `, ${lines}${inside && `, in ${inside}`}`));
    });
}

function drawnLinks(links) {
    return drawList(links, "There are no links and no images.", (link) => {
        const leads = link.destination ? `→ ${link.destination}` : "→ here";
        const drawn = what(element("b", {}, link.element), ` ${link.text} `, element("span", { class: "leads" }, leads));
        const parts = detail({ kind: link.link, title: link.title, label: link.label });
        return entry(range(link), drawn, link, element("p", {}, code(link.element), ` to `, code(link.destination), `, ${parts}`));
    });
}

function drawnHtml({ html, length }) {
    return [note(length > html.length ? `The beginning of ${length} characters` : `${length} characters`), element("pre", { class: "written" }, code(html))];
}

function drawnTiming({ bytes, calls }) {
    const head = element("tr", {}, ...["Call", "Best", "Middle", "Runs", "MB/s"].map((word) => element("th", { scope: "col" }, word)));
    const rows = calls.map(({ name, best, middle, runs }) => {
        const speed = best > 0 ? (bytes / best / 1000).toFixed(1) : "?";
        const cells = [`${best.toFixed(2)} ms`, `${middle.toFixed(2)} ms`, String(runs), speed].map((word) => element("td", {}, word));
        return element("tr", {}, element("th", { scope: "row" }, code(name)), ...cells);
    });
    const words = `Each call on these ${bytes} bytes, here, by the clock of the browser, which it may round. MB/s are of the best run.`;
    return [note(words), element("table", {}, head, ...rows)];
}

/** What is drawn of each pane. */
export const DRAWN_PANES = { html: drawnHtml, events: drawnEvents, blocks: drawnBlocks, links: drawnLinks, timing: drawnTiming };
