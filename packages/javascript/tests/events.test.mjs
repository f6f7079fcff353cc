/** The events of pages, on the rows of packages/pages.tsv; and by `html` each example of CommonMark 0.31.2. */
import assert from "node:assert/strict";
import { readFileSync } from "node:fs";
import { test } from "node:test";
import * as mds from "../fillaqut.mjs";
import { MODULE } from "./module.mjs";
import { extensionsOf, pages } from "./tables.mjs";
import { hold } from "./totals.mjs";
import { TOP } from "./tree.mjs";

const scanners = await mds.load(MODULE);
const FENCE = "`".repeat(32);
const NAMES = { quote: "block quote", wiki: "wikilink", wikiPiped: "piped wikilink" };

const words = (name) => NAMES[name] ?? name.replace(/[A-Z]/g, (letter) => ` ${letter.toLowerCase()}`);
const text = (value) => (typeof value === "string" ? value : Buffer.from(value).toString());
const quoted = (value) => ` "${text(value).replaceAll("\n", "\\n")}"`;

/** The line of an event, as the rows have it. */
function lineOf(event, byteOf) {
    let line = `${byteOf(event.start)} ${byteOf(event.stop)} `;
    if (event.kind === "task") line += event.checked ? "checked " : "unchecked ";
    line += words(event.kind);
    if (event.element) line += ` ${words(event.element)}`;
    line += (event.alignments ?? []).map((of) => ` ${of}`).join("");
    if (event.link) line += ` ${words(event.link)}${quoted(event.destination)}${quoted(event.title)}${event.label.length ? quoted(event.label) : ""}`;
    if ((event.number ?? null) !== null) line += ` ${event.number}`;
    if (typeof event.text === typeof event.info) assert.equal(event.text, undefined);
    if ((event.text ?? event.info ?? null) !== null) line += quoted(event.text ?? event.info);
    return `${line}\n`;
}

/** The lines of events, of which a heading has its level at both ends. */
function linesOf(events, byteOf = (place) => place) {
    const levels = [];
    return events.map((event) => {
        if (event.element === "heading" && event.kind === "start") levels.push(event.level);
        const line = lineOf(event, byteOf);
        return event.element === "heading" ? line.replace("\n", ` ${event.kind === "start" ? event.level : levels.pop()}\n`) : line;
    }).join("");
}

test("each row", () => {
    const rows = pages("events");
    for (const row of rows) {
        const { page, answer, where } = row;
        const extensions = extensionsOf(row);
        const inBytes = (place) => Buffer.byteLength(page.slice(0, place));
        assert.equal(linesOf(scanners.events(page, { extensions }), inBytes), answer, where);
        assert.equal(linesOf(scanners.text(page).events({ extensions })), answer, where);
        assert.equal(linesOf(scanners.events(new TextEncoder().encode(page), { extensions })), answer, where);
    }
    hold("events", rows.length);
});

test("each example of the specification", () => {
    const spec = readFileSync(new URL("tests/commonmark/spec-0.31.2.txt", TOP), "utf8").replaceAll("→", "\t");
    const examples = spec.split(`\n${FENCE} example\n`).slice(1).map((example) => example.split(FENCE)[0].match(/^(?:\.\n|([^]*?\n)\.\n)([^]*)$/));
    for (const [, page = "", expected] of examples) assert.equal(scanners.htmlUnsafe(page), expected);
    hold("examples_by_html", examples.length);
});

test("places are those of the string", () => {
    const [, first, start, second] = scanners.events("🍔 *é*");
    assert.deepEqual([first, start.start, second], [
        { kind: "text", text: "🍔 ", start: 0, stop: 3 }, 3, { kind: "text", text: "é", start: 4, stop: 5 },
    ]);
    assert.deepEqual(scanners.events("***"), [{ kind: "rule", start: 0, stop: 3 }]);
});

test("both events of a heading say its level, and the end of a list whether it is ordered", () => {
    const found = scanners.events("## a\n\n3. b\n   - c\n");
    assert.deepEqual(found.filter((event) => event.element === "heading").map((event) => event.level), [2, 2]);
    const lists = found.filter((event) => event.element === "list").map(({ kind, number, isOrdered }) => [kind, number, isOrdered]);
    assert.deepEqual(lists, [["start", 3, undefined], ["start", null, undefined], ["end", undefined, false], ["end", undefined, true]]);
});

test("more events, and longer texts, than the first rooms hold", () => {
    assert.equal(scanners.events("a\n".repeat(5000)).filter((event) => event.kind === "softBreak").length, 4999);
    const links = scanners.events(`${"[a]\n".repeat(20)}\n[a]: ${"b".repeat(5000)}\n`).filter((event) => event.link);
    assert.deepEqual([links.length, links[19].destination], [20, "b".repeat(5000)]);
});

test("what is refused", () => {
    assert.deepEqual(scanners.events(""), []);
    assert.throws(() => scanners.events(new Uint8Array([97, 255])), { name: "NotUtf8", index: 1 });
    assert.throws(() => scanners.events("\ud800"), mds.LoneSurrogate);
    assert.throws(() => scanners.events("a", { extensions: ["footnote"] }), { name: "TypeError", message: /there is no extension/ });
    assert.throws(() => scanners.events("a", { extensions: ["footnotes"] }), { name: "TypeError", message: /not built of the extension "footnotes" yet/ });
    assert.throws(() => scanners.events("a", { safe: true }), { name: "TypeError", message: /safe/ });
    assert.throws(() => scanners.events(null), TypeError);
});
