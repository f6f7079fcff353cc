/** The page: the text at one side, what the parser makes of it at the other, and the keys that go through it. */
import { answers, drawnAnswer, drawnLabels, drawnOutline, drawnRow, drawnScans, drawnTables, element } from "./drawing.mjs";
import { fill, newFrame, unsafeFrame } from "./frame.mjs";
import { fragmentOf, heldBy, MOST_LINKED } from "./link.mjs";
import { Marks } from "./marks.mjs";
import { ask, askedBy, settle as settleOptions, wordOf } from "./options.mjs";
import { DRAWN_PANES } from "./panes.mjs";
import { theoremOf } from "./theorems.mjs";

const SAMPLE = `# Tabs are columns
>\t- A tab after a quote: the quote takes one
>\t  column of it, the item what is left.

A paragraph with a [link][two words], an <em>inline</em> tag,
a <!-- comment -->, ~~some~~ *emphasis*, and
<https://commonmark.org>; [not this](javascript:alert(1))

[two words]: /somewhere "A title"

1. one
   - [x] two
\t- three, after a tab

| column | aligned |
|--------|:-------:|
| a \\| b | c       |

\`\`\`c
> no quote in code
\`\`\`
<div onclick="alert(2)">
`;
/** What is drawn of the text that was read, and not asked for by itself. */
const DRAWN = { outline: drawnOutline, tables: drawnTables, labels: drawnLabels, scans: drawnScans };
/** Rows that are drawn beyond what is in sight. */
const BEYOND = 10;
const DELAY = 120;

const IDS = ["text", "file", "marks", "view", "report", "answer", "views", "options", "theorem", "share", "shared"];
const [text, file, under, view, report, answer, views, options, theorem, share, shared] = IDS.map((id) => document.getElementById(id));
const state = { view: "rendered", seen: null, id: 0, timer: 0, shown: null, asked: askedBy(options) };
const marks = new Marks(text, under);
const worker = new Worker(new URL("worker.mjs", import.meta.url), { type: "module" });

/** The page's state, for who reads it: whether what is drawn is of the text that stands there. */
function settle(name) {
    document.body.dataset.state = name;
}

function read() {
    settle("reading");
    state.id += 1;
    worker.postMessage({ kind: "read", id: state.id, text: text.value, extensions: state.asked.extensions });
}

function rowHeight() {
    return parseFloat(getComputedStyle(document.documentElement).fontSize) * 1.75;
}

/** Asks for the rows that are in sight. */
function askRows() {
    if (state.view !== "lines" || !state.seen) return;
    const height = rowHeight();
    const count = Math.ceil(view.clientHeight / height) + 2 * BEYOND;
    const first = Math.max(0, Math.min(Math.floor(view.scrollTop / height) - BEYOND, state.seen.lines - count));
    worker.postMessage({ kind: "rows", id: state.id, first, count });
}

function drawRows({ rows }) {
    if (state.view !== "lines") return;
    const current = position(document.activeElement);
    const height = rowHeight();
    const space = element("div");
    space.style.height = `${state.seen.lines * height}px`;
    const drawn = rows.map((row) => {
        const made = drawnRow(row);
        made.style.top = `${(row.number - 1) * height}px`;
        return made;
    });
    const { scrollLeft, scrollTop } = view;
    view.replaceChildren(space, ...drawn);
    Object.assign(view, { scrollLeft, scrollTop });
    reachable();
    if (current) view.querySelector(`[data-line="${current.line}"]`)?.querySelectorAll("button")[current.index]?.focus({ preventScroll: true });
    settle("drawn");
}

/** Where the focus is among the rows. */
function position(button) {
    const row = button?.closest?.(".row");
    return row && { line: row.dataset.line, index: [...row.querySelectorAll("button")].indexOf(button) };
}

/** Asks for what the pane shows of the text, once there is a frame for safe HTML. */
async function askPane() {
    const { id, asked } = state;
    if (state.view === "rendered" && asked.isSafe) {
        if (!view.contains(state.shown?.frame ?? null)) {
            state.shown = newFrame(point);
            view.replaceChildren(state.shown.frame);
        }
        await state.shown.stands;
    }
    if (id === state.id) worker.postMessage({ kind: "play", id, text: text.value, of: { pane: state.view, asked } });
}

function drawPane(found) {
    if (state.view !== found.pane) return;
    if (found.pane !== "rendered") {
        view.replaceChildren(...DRAWN_PANES[found.pane](found));
        reachable();
    } else if (found.asked.isSafe) {
        const areKnown = fill(state.shown.frame, found);
        answer.replaceChildren(...(areKnown ? [] : [element("p", {}, "Where these elements stand in the text is not known.")]));
    } else view.replaceChildren(unsafeFrame(found.html));
    say(`${state.read}; ${found.pane} in ${found.milliseconds.toFixed(1)} ms`);
    settle("drawn");
}

/** Says which theorem the pane stands on, and whether its HTML is safe. */
function drawTheorem() {
    const { words, at } = theoremOf(state.view, state.asked.isSafe);
    const isUnsafe = at === "unsafe";
    theorem.classList.toggle("unsafe", isUnsafe);
    view.classList.toggle("unsafe", isUnsafe);
    theorem.replaceChildren(`${words} `, element("a", { href: `page/theorems.html#${at}` }, "Where it is proved"));
}

/** Marks the source of an element, and says where it stands. */
function point(name, start, stop) {
    marks.show(start, stop);
    answer.replaceChildren(element("p", {}, element("code", {}, `<${name}>`), ` has its source at ${start} to ${stop}`));
}

function draw() {
    if (!state.seen) return;
    drawTheorem();
    if (state.view === "lines") {
        askRows();
        return;
    }
    if (!DRAWN[state.view]) {
        askPane();
        return;
    }
    view.replaceChildren(...DRAWN[state.view](state.seen));
    reachable();
    settle("drawn");
}

/** One of the answers can be reached by the tabulator, and from it the others by arrows. */
function reachable() {
    const first = view.querySelector("button");
    if (first) first.tabIndex = 0;
}

function say(words, isRefused = false) {
    report.textContent = words;
    report.classList.toggle("refused", isRefused);
}

/** Asks for the text of the file that was chosen. */
async function open() {
    const [chosen] = file.files;
    if (!chosen) return;
    const bytes = new Uint8Array(await chosen.arrayBuffer());
    settle("reading");
    state.id += 1;
    worker.postMessage({ kind: "open", id: state.id, bytes });
    file.value = "";
}

function heard({ data }) {
    if (data.id !== state.id) return;
    if (data.kind === "rows") drawRows(data);
    else if (data.kind === "play") drawPane(data);
    else if (data.kind === "open") {
        text.value = data.text;
        marks.clear();
        read();
    } else if (data.kind === "refused") {
        say(`${data.name}: ${data.message}. What is drawn is of the text before.`, true);
        settle("refused");
    } else {
        state.seen = data;
        state.read = `${data.lines} lines, ${data.bytes} bytes, read in ${Math.round(data.milliseconds)} ms`;
        say(state.read);
        answer.replaceChildren();
        draw();
    }
}

/** Marks the bytes of an answer in the text, and says what it is. */
function show(button) {
    const found = answers.get(button);
    if (!found) return;
    view.querySelectorAll("[aria-current]").forEach((other) => other.removeAttribute("aria-current"));
    button.setAttribute("aria-current", "true");
    answer.replaceChildren(...drawnAnswer(found));
    marks.show(...(found.inUnits ? [found.from, found.to] : [marks.unitOf(found.from), marks.unitOf(found.to)]));
}

function choose(tab) {
    for (const child of views.children) {
        child.setAttribute("aria-selected", String(child === tab));
        child.tabIndex = child === tab ? 0 : -1;
    }
    view.setAttribute("aria-labelledby", tab.id);
    view.scrollTop = 0;
    state.view = tab.id.replace("tab-", "");
    view.className = state.view;
    answer.replaceChildren();
    drawTheorem();
    settle("reading");
    draw();
}

/** The answer to which an arrow goes from another one. */
function next(from, key) {
    const row = from.closest(".row");
    const all = [...(row ?? view).querySelectorAll("button")];
    const step = { ArrowLeft: -1, ArrowUp: -1, ArrowRight: 1, ArrowDown: 1 }[key];
    if (!row || key === "ArrowLeft" || key === "ArrowRight") return all[all.indexOf(from) + step];
    const other = view.querySelector(`[data-line="${Number(row.dataset.line) + step}"]`);
    const buttons = other?.querySelectorAll("button") ?? [];
    return buttons[Math.min(all.indexOf(from), buttons.length - 1)];
}

function moved(event) {
    if (!event.key.startsWith("Arrow") || event.target.tagName !== "BUTTON") return;
    event.preventDefault();
    const to = next(event.target, event.key);
    if (!to) return;
    event.target.tabIndex = -1;
    to.tabIndex = 0;
    to.focus();
    show(to);
}

function movedTab(event) {
    const step = { ArrowLeft: -1, ArrowRight: 1 }[event.key];
    if (!step) return;
    event.preventDefault();
    const tabs = [...views.children];
    const tab = tabs[(tabs.indexOf(event.target) + step + tabs.length) % tabs.length];
    tab.focus();
    choose(tab);
}

/** Reads the text again with what the form asks for. */
function askAgain() {
    settleOptions(options);
    state.asked = askedBy(options);
    drawTheorem();
    read();
}

/** Puts the text with its options into the address, and copies that where the browser lets it. */
async function shareText() {
    const fragment = await fragmentOf(text.value, wordOf(state.asked));
    if (!fragment) {
        shared.textContent = `A link holds ${MOST_LINKED} characters at most.`;
        return;
    }
    history.replaceState(null, "", fragment);
    const isCopied = await navigator.clipboard?.writeText(location.href).then(() => true, () => false);
    shared.textContent = `The text is in the address of this page now${isCopied ? ", which is copied" : ""}: after its #, what browsers send nowhere.`;
}

/** Takes the text that the address holds, and says whether it holds one. Its HTML is shown safe. */
async function takeLinked() {
    try {
        const held = await heldBy(location.hash);
        if (!held) return false;
        text.value = held.text;
        ask(options, held.options);
        return true;
    } catch (why) {
        shared.textContent = `The text of this address can't be read: ${why.message}`;
        return false;
    }
}

async function begin() {
    text.value = SAMPLE;
    await takeLinked();
    askAgain();
}

worker.onmessage = heard;
worker.onerror = (event) => say(`The parser can't be had: ${event.message ?? "the worker has stopped"}`, true);
file.addEventListener("change", open);
text.addEventListener("input", () => {
    settle("reading");
    marks.clear();
    shared.textContent = "";
    clearTimeout(state.timer);
    state.timer = setTimeout(read, DELAY);
});
options.addEventListener("change", askAgain);
share.addEventListener("click", shareText);
addEventListener("hashchange", async () => (await takeLinked()) && askAgain());
view.addEventListener("scroll", () => requestAnimationFrame(askRows));
view.addEventListener("click", (event) => show(event.target.closest("button")));
view.addEventListener("keydown", moved);
views.addEventListener("click", (event) => event.target.role !== "tablist" && choose(event.target.closest("button")));
views.addEventListener("keydown", movedTab);
addEventListener("resize", askRows);
say("Reading …");
begin();
