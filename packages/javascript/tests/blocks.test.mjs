/** The blocks of pages and their content, on the rows of packages/pages.tsv. What they say is made of the leaf blocks and their containers. */
import assert from "node:assert/strict";
import { test } from "node:test";
import * as mds from "../fillaqut.mjs";
import { MODULE } from "./module.mjs";
import { pages } from "./tables.mjs";
import { hold } from "./totals.mjs";

const scanners = await mds.load(MODULE);

function containerWord(container, at) {
    const { kind, delimiter, start, width, place } = container;
    if (kind === "termDefinition") return `term${width}@${place - at}`;
    return kind === "item" ? `item${delimiter}${start},${width}@${place - at}` : `${kind}@${place - at}`;
}

function leafWord(block) {
    const fence = block.fence && `${block.fence.character}${block.fence.count}`;
    return `${block.kind}${block.level ?? block.htmlKind ?? block.columns ?? fence ?? ""}:${block.line + 1}-${block.line + block.lines}`;
}

/** What begins and ends, and what stands there; and the contents. */
function described(text, extensions, at = 0, end = text.length) {
    const said = [];
    const contents = [];
    let depth = 0;
    for (const block of text.scanBlocks(at, end, { extensions })) {
        for (; depth > block.kept; depth--) said.push("end");
        for (const container of block.containers.slice(block.kept)) said.push(containerWord(container, at));
        said.push(leafWord(block));
        contents.push(`${Buffer.from(block.content())}|`);
        depth = block.containers.length;
    }
    for (; depth > 0; depth--) said.push("end");
    return [said.join(" "), contents.join("")];
}

/** What is described of a page by itself, inside of other text, as bytes and in UTF-16 units. */
const ways = (page, extensions) => [
    described(scanners.text(page), extensions),
    described(scanners.text(Buffer.from(page)), extensions),
    described(scanners.text(`é🍔${page}- é`), extensions, 6, 6 + Buffer.byteLength(page)),
    described(scanners.text(`é🍔${page}- é`, { units: "utf-16" }), extensions, 3, 3 + page.length),
];

for (const [which, call] of ["scan_blocks", "block_content"].entries()) {
    test(`each row of ${call}`, () => {
        const rows = pages(call);
        for (const { page, words, answer, where } of rows) {
            for (const found of ways(page, words)) assert.equal(found[which], answer, where);
        }
        hold(call, rows.length);
    });
}

test("the fields of blocks", () => {
    const [first, second, third] = scanners.text("> é\n\n1) ```` é\n", { units: "utf-16" }).scanBlocks();
    const { start, stop, place, indent, kept } = first;
    assert.deepEqual({ start, stop, place, indent, kept }, { start: 0, stop: 4, place: 2, indent: 0, kept: 0 });
    assert.deepEqual([second.kind, second.start, second.stop, second.containers], ["blank", 4, 5, []]);
    assert.deepEqual([third.start, third.stop, third.place, third.line, third.lines], [5, 15, 8, 2, 1]);
    assert.deepEqual(first.containers, [{ kind: "quote", place: 0 }]);
    assert.deepEqual(third.containers, [{ kind: "item", place: 5, delimiter: ")", start: 1, width: 3 }]);
    assert.deepEqual([third.fence, third.level, third.htmlKind, third.columns], [{ character: "`", count: 4 }, null, null, null]);
});

test("extensions of blocks and lists", () => {
    const text = scanners.text("|a|\n|-|\n");
    const kinds = (extensions) => Array.from(text.scanBlocks(0, text.length, { extensions }), (block) => block.kind);
    assert.deepEqual([kinds(["tables", "wikilinks"]), kinds([]), kinds(undefined)], [["table"], ["paragraph"], ["paragraph"]]);
    assert.deepEqual(kinds(["footnotes", "strikethrough", "tasks", "definition-lists", "wikilinks"]), ["paragraph"]);
    const unknown = { name: "TypeError", message: /no extension "definitionLists", but tables/ };
    for (const call of ["scanBlocks", "scanLists"]) {
        assert.throws(() => text[call](0, 1, { extensions: ["definitionLists"] }), unknown);
        assert.throws(() => text[call](0, 1, { extensions: "tables" }), { name: "TypeError", message: /extensions/ });
        assert.throws(() => text[call](0, 1, { tables: true }), { name: "TypeError", message: /tables/ });
    }
});

test("content of any bytes, longer than its lines, and after other texts", () => {
    const text = scanners.text(Buffer.from("> \xff\n>\t\t\xfe\n\n>\t\tc", "latin1"));
    const blocks = [...text.scanBlocks()];
    const longer = [...scanners.text(` \`\`\`\n${"\ta\n".repeat(2000)}`).scanBlocks()]; // of each tab one column is indent (4.5)
    assert.deepEqual(longer.map((block) => block.content()), ["   a\n".repeat(2000)]);
    scanners.text("x".repeat(3_000_000)).scanBlocks();
    assert.deepEqual(blocks.map((block) => Buffer.from(block.content()).toString("latin1")), ["\xff\n\xfe", "", "  c"]);
});

test("deep and long pages", () => {
    const [block, ...others] = scanners.text(`${">".repeat(100_000)}a`).scanBlocks();
    assert.deepEqual([block.containers.length, block.place, block.content(), others], [100_000, 100_000, "a", []]);
    assert.equal([...scanners.text("> a\n\n".repeat(10_000)).scanBlocks()].length, 20_000);
    assert.deepEqual([...scanners.text("").scanBlocks()], []);
    assert.throws(() => scanners.text("a").scanBlocks(2), RangeError);
});
