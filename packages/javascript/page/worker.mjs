/** Reads texts beside the page, so that it never waits: answers what is in a text, the rows that are in sight, and what a pane shows of it. */
import { load, NotUtf8, Refusal } from "../fillaqut.mjs";
import { MOST_COLUMNS, rowOf, shortened } from "./columns.mjs";
import { decode } from "./paragraph.mjs";
import { Reading } from "./reading.mjs";
import { played } from "./playing.mjs";

/** Of each list so many are returned. */
const MOST = 1000;
/** How many bytes of a line, or of a text that was scanned, are shown. */
const SHOWN = 1000;
/** How many lines are read at most: what is known of them takes memory. */
const MOST_LINES = 250_000;
/** How many UTF-16 units of a text are shown as a whole at most: a browser takes long to render more. */
const MOST_RENDERED = 1_000_000;
/** So many milliseconds are read before another text is heard of. */
const PAUSE = 50;

/** @type {any} */
let scanners = null;
/** @type {Reading | null} */
let reading = null;
let turn = 0;

const pause = () => new Promise((resolve) => setTimeout(resolve));

/** The bytes between two places as a text, cut where it is long. */
function cut(from, to) {
    const { page } = reading;
    return decode(page.bytes.subarray(from, Math.min(to, from + SHOWN)));
}

/** An answer as it is returned: of the text that it is of, of a heading and of where a label leads no more than the beginning. */
function returned({ joined, ...answer }) {
    for (const name of ["text", "target"]) if (answer[name]?.length > SHOWN) answer[name] = `${answer[name].slice(0, SHOWN)}…`;
    return joined ? { ...answer, joinedText: decode(joined.bytes(reading.page).subarray(0, 4 * SHOWN)) } : answer;
}

/** A table as it is returned, without what is long in it. */
function returnedTable(table) {
    const rows = table.rows.slice(0, MOST).map(({ number, cells }) => ({ number, cells: cells.slice(0, MOST_COLUMNS) }));
    return { ...table, rows, width: table.alignments.length, alignments: shortened(table.alignments), answer: shortened(table.answer) };
}

/** What a text has, apart from its lines. */
function summary() {
    const found = (...kinds) => reading.found.filter((entry) => kinds.includes(entry.kind));
    const list = (all, sent = returned) => ({ count: all.length, first: all.slice(0, MOST).map(sent) });
    return {
        lines: reading.lines.length,
        bytes: reading.page.length,
        headings: list(reading.headings),
        tables: list(reading.tables, returnedTable),
        labels: list(found("definition", "reference", "shortcut", "link")),
        html: list(found("html")),
        passed: reading.passed,
        bound: reading.bound,
        scans: reading.scans,
    };
}

/** A text has more lines than the page reads. */
class TooManyLines extends Refusal {}

/** Reads a text, with tables or without, as long as no other one comes. */
async function read(text, extensions) {
    const mine = ++turn;
    const begun = performance.now();
    let last = begun;
    const next = new Reading(scanners, text, extensions.filter((name) => name === "tables"));
    for (const _ of next.read()) {
        if (next.lines.length > MOST_LINES) throw new TooManyLines(`the page reads ${MOST_LINES} lines at most`);
        if (performance.now() - last < PAUSE) continue;
        await pause();
        if (mine !== turn) return null;
        last = performance.now();
    }
    reading = next;
    return { ...summary(), milliseconds: performance.now() - begun };
}

/** A text is longer than what the page renders. */
class TooLong extends Refusal {}

/** What a pane shows of a text. */
function shown(text, of) {
    if (text.length > MOST_RENDERED) throw new TooLong(`the page renders ${MOST_RENDERED} characters at most`);
    return played(scanners, text, of);
}

/** What is drawn of the lines from one on. */
function rows(first, count) {
    return reading.lines.slice(first, first + count).map((line) => rowOf(cut(line.at, line.end), line));
}

/** The bytes of a file as a text. */
function opened(bytes) {
    if (!scanners.text(bytes).isUtf8()) throw new NotUtf8("the file is not UTF-8");
    return { text: decode(bytes) };
}

async function answer({ kind, ...given }) {
    scanners ??= await load();
    if (kind === "open") return opened(given.bytes);
    if (kind === "read") return read(given.text, given.extensions);
    if (kind === "play") return shown(given.text, given.of);
    return { first: given.first, rows: reading ? rows(given.first, given.count) : [] };
}

self.onmessage = async ({ data }) => {
    try {
        const found = await answer(data);
        if (found) self.postMessage({ kind: data.kind, id: data.id, ...found });
    } catch (why) {
        self.postMessage({ kind: "refused", id: data.id, name: why.name, message: why.message });
    }
};
