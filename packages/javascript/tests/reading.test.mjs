/** The page's reading in Node: what it says of definitions and underlines, and that it reads each kind of line after each other. */
import assert from "node:assert/strict";
import { test } from "node:test";
import { load } from "../fillaqut.mjs";
import { rowOf } from "../page/columns.mjs";
import { Reading } from "../page/reading.mjs";
import { MODULE } from "./module.mjs";
import { madePages } from "./pages.mjs";
import { hold } from "./totals.mjs";
import { readWhole } from "./whole.mjs";

const scanners = await load(MODULE);
const read = (text) => readWhole(Reading, scanners, text);
const blocks = (text) => read(text).lines.map((line) => line.block.name);
const headings = (text) => read(text).headings.map(({ number, level, text: words }) => [number, level, words]);
const labels = (text) => read(text).found.map(({ kind, key, target }) => [kind, key, target]);

test("an underline of definitions alone is text", () => {
    // The specification's example at the end of 4.7: the underline begins the paragraph that the reference goes on.
    const text = "[foo]: /url\n===\n[foo]\n";
    assert.deepEqual(blocks(text), ["definition", "paragraph", "goes on"]);
    assert.deepEqual(headings(text), []);
    assert.deepEqual(labels(text), [["definition", "foo", "/url"], ["shortcut", "foo", "/url"]]);
    assert.deepEqual(blocks("[foo]: /url\n===\n"), ["definition", "paragraph"]);
    assert.deepEqual(blocks("[foo]: /url\n[bar]:\n/url\n===\n"), ["definition", "definition", "goes on", "paragraph"]);
    assert.deepEqual(blocks("> [foo]: /url\n> ===\n"), ["definition", "paragraph"]);
    assert.deepEqual(blocks("- [foo]: /url\n  ===\n"), ["definition", "paragraph"]);
});

test("and may itself have an underline, or be a thematic break", () => {
    assert.deepEqual(headings("[foo]: /url\n===\n===\n"), [[2, 1, "==="]]); // 4.3
    assert.deepEqual(headings("[foo]: /url\n===\n---\n"), [[2, 2, "==="]]);
    assert.deepEqual(blocks("[foo]: /url\n---\n"), ["definition", "break"]); // 4.1: no heading can be made of it
    assert.deepEqual(headings("[foo]: /url\n---\n"), []);
});

test("an underline of more than definitions makes a heading of the rest", () => {
    const text = "[foo]: /url\nbar\n===\n[foo]\n"; // 4.7
    assert.deepEqual(headings(text), [[2, 1, "bar"]]);
    assert.deepEqual(blocks(text), ["definition", "paragraph", "underline of 1", "paragraph"]);
    assert.deepEqual(labels(text), [["definition", "foo", "/url"], ["shortcut", "foo", "/url"]]);
});

test("of a long line no more is sent than what is drawn", () => {
    for (const [text, taken] of [[">".repeat(20_000), 200], [`${"* ".repeat(10_000)}a`, 100]]) { // a `>` takes a column, and `* ` two
        const [line] = read(text).lines;
        assert.ok(line.taken.length >= 10_000);
        const row = rowOf(text.slice(0, 1000), line);
        assert.equal(row.taken.length, taken);
        assert.equal(row.columns.strips.map((strip) => strip.text).join("").length, 200);
        assert.ok(JSON.stringify(row).length < 50_000);
    }
    const wide = read(`${"|a".repeat(1000)}\n${"|-".repeat(1000)}\n${"|b".repeat(1000)}`).lines.map((row) => rowOf("|", row).block);
    assert.deepEqual(wide.map((block) => block.name), ["header of 1000", "table of 1000", "row of 1000"]);
    assert.deepEqual([wide[1].answer.alignments, wide[2].answer].map((answer) => [answer.length, answer[200]]), [[201, "…"], [201, "…"]]);
    const [line] = read("> a\n").lines;
    const { taken, ...row } = rowOf("> a\n", line);
    assert.deepEqual([taken, row.at, row.end, row.block.name], [line.taken, 0, 4, "paragraph"]);
});

test("each kind of line is read after each other", () => {
    let tried = 0;
    for (const page of madePages()) {
        read(page);
        tried++;
    }
    hold("made_pages", tried);
});
