/**
 * Prints the headings of a Markdown file, each after the number of its line: also those in block quotes and list items, and not what
 * looks like one in code. (CommonMark 0.31.2, 4.2 and 4.3)
 *
 *     node headings.mjs FILE.md
 */
import { readFile } from "node:fs/promises";
import { argv, exit } from "node:process";
import { load } from "../fillaqut.mjs"; // where the package is installed, "fillaqut"

/** @param {import("../fillaqut.mjs").Text<Uint8Array>} page */
function printHeadings(page) {
    for (const block of page.scanBlocks(0, page.length, { extensions: ["tables"] })) {
        if (!block.level) continue;
        const lines = new TextDecoder().decode(block.content()).split(/[ \t]*(?:\r\n|\r|\n)/);
        console.log(`${block.line + 1}: ${"#".repeat(block.level)} ${lines.join(" ")}`);
    }
}

const [, , path] = argv;
if (!path) {
    console.error("usage: node headings.mjs FILE.md");
    exit(2);
}
try {
    printHeadings((await load()).text(await readFile(path)));
} catch (why) {
    console.error(`headings.mjs: ${why.message}`);
    exit(2);
}
