/** Pages that come piece by piece have the blocks of the whole page, on the pages of packages/pages.tsv. */
import assert from "node:assert/strict";
import { test } from "node:test";
import * as mds from "../fillaqut.mjs";
import { MODULE } from "./module.mjs";
import { pages } from "./tables.mjs";

const scanners = await mds.load(MODULE);

/** What a block is, and where it stands. */
function returned(block) {
    const { kind, line, lines, start, stop, place, indent, level, htmlKind, fence, columns, containers, kept } = block;
    return { kind, line, lines, start, stop, place, indent, level, htmlKind, fence, columns, containers, kept, content: `${Buffer.from(block.content())}` };
}

/** The blocks of the page, of which so many bytes come at a time. */
function fed(page, extensions, size) {
    const reader = scanners.blockReader({ extensions });
    const found = [];
    for (let at = 0; at < page.length; at += size) found.push(...reader.feed(page.subarray(at, at + size)).map(returned));
    return [...found, ...reader.close().map(returned)];
}

test("each page that has no definitions, in pieces of each size", () => {
    const plain = pages("scan_blocks").map((row) => ({ page: Buffer.from(row.page), extensions: row.words })).filter(({ page }) => !page.includes("]:"));
    assert.ok(plain.length > 25);
    for (const { page, extensions } of plain) {
        const expected = [...scanners.text(page).scanBlocks(0, page.length, { extensions })].map(returned);
        for (let size = 1; size <= page.length; size++) assert.deepEqual(fed(page, extensions, size), expected, `${page}`);
    }
});

test("a paragraph that begins with definitions is one block, and footnotes are asked for", () => {
    const [block, ...others] = scanners.blockReader().feed("[a]: b\nc\n# d\n");
    assert.deepEqual([block.kind, block.lines, `${Buffer.from(block.content())}`, others], ["paragraph", 2, "[a]: b\nc", []]);
    const reader = scanners.blockReader({ extensions: ["footnotes"] });
    const [first, second] = [...reader.feed("[^a]: b\n\n"), ...reader.feed("    c"), ...reader.close()].filter((leaf) => leaf.kind === "paragraph");
    assert.deepEqual([first.containers, second.containers, second.kept], [[{ kind: "footnote", place: 0 }], first.containers, 1]);
    assert.throws(() => scanners.blockReader({ extensions: "footnotes" }), TypeError);
    assert.throws(() => scanners.blockReader().feed(1), TypeError);
});

test("definition lists are asked for", () => {
    const page = "apple\n\n: red\n: round\n  fruit";
    const reader = scanners.blockReader({ extensions: ["definition-lists"] });
    const found = [...page].flatMap((character) => reader.feed(character));
    const containers = [...found, ...reader.close()].map((block) => block.containers);
    const definition = (/** @type {number} */ place) => [{ kind: "termDefinition", place, width: 2 }];
    assert.deepEqual(containers, [[], [], definition(7), definition(13)]);
    assert.throws(() => scanners.blockReader({ extensions: ["definitionLists"] }), { name: "TypeError", message: /no extension "definitionLists"/ });
});

test("deep nesting, and a long block", () => {
    const reader = scanners.blockReader();
    const found = reader.feed(">".repeat(1000));
    for (let index = 0; index < 10_000; index++) found.push(...reader.feed("a\n"));
    const [block] = reader.close();
    assert.deepEqual([found.length, block.containers.length, block.lines, block.content().length], [0, 1000, 10_000, 19_999]);
});

test("a reader that is closed reads no more", () => {
    const reader = scanners.blockReader();
    reader.feed("a");
    assert.equal(reader.close().length, 1);
    assert.throws(() => reader.feed("b"), { name: "Ended", message: /the page has ended/ });
    assert.throws(() => reader.close(), mds.Ended);
});
