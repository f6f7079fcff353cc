/** The lists of pages, on the rows of packages/pages.tsv. */
import assert from "node:assert/strict";
import { test } from "node:test";
import * as mds from "../fillaqut.mjs";
import { MODULE } from "./module.mjs";
import { pages } from "./tables.mjs";
import { hold } from "./totals.mjs";

const scanners = await mds.load(MODULE);
const described = (list) => `${list.delimiter}${list.start}@${list.depth}:${list.line + 1}-${list.line + list.lines} ${list.isLoose ? "loose" : "tight"}`;
const all = (text, extensions, at, end) => text.scanLists(at, end, { extensions }).map(described).join(" ");

test("each row, by itself, as bytes and inside of other text", () => {
    const rows = pages("scan_lists");
    for (const { page, words, answer, where } of rows) {
        assert.equal(all(scanners.text(page), words), answer, where);
        assert.equal(all(scanners.text(Buffer.from(page)), words), answer, where);
        assert.equal(all(scanners.text(`- é\n${page}- b\n`, { units: "utf-16" }), words, 4, 4 + page.length), answer, where);
    }
    hold("scan_lists", rows.length);
});

test("many lists, and none", () => {
    const found = scanners.text("- a\n+ a\n".repeat(1000)).scanLists();
    assert.deepEqual([found.length, found[1999].line, found[1999].lines], [2000, 1999, 1]);
    assert.deepEqual(scanners.text("").scanLists(), []);
    assert.throws(() => scanners.text("a").scanLists(2), RangeError);
});
