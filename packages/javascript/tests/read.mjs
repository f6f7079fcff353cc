#!/usr/bin/env node
/**
 * Reads pages that others have written, as the page does, and says how many: none may throw.
 *
 *     packages/javascript/tests/read.mjs examples    those of the specification, as many as packages/javascript/totals says
 *     packages/javascript/tests/read.mjs disk        the Markdown files of this disk, up to 1 MB each
 */
import { load } from "../fillaqut.mjs";
import { Reading } from "../page/reading.mjs";
import { MODULE } from "./module.mjs";
import { examples, filesOfDisk } from "./pages.mjs";
import { hold } from "./totals.mjs";
import { readWhole } from "./whole.mjs";

/** What is read by this name, or null where it is not on this machine. */
const PAGES = { examples, disk: filesOfDisk };
const [name] = process.argv.slice(2);

if (!Object.hasOwn(PAGES, name ?? "")) {
    console.error("usage: packages/javascript/tests/read.mjs examples|disk");
    process.exit(2);
}
const pages = PAGES[name]();
if (pages === null) {
    console.log("packages/javascript/test: the specification's examples are NOT TRIED, as no file has them (Debian: librust-pulldown-cmark-dev)");
    process.exit(0);
}
const scanners = await load(MODULE);
const texts = pages.filter((page) => page !== null);
let lines = 0;
for (const text of texts) lines += readWhole(Reading, scanners, text).lines.length;
if (name === "examples") hold("examples_of_spec", texts.length);
if (lines === 0) throw new Error(`${name}: there was no line to read`);
console.log(`${name}: ${texts.length} pages of ${lines} lines read, ${pages.length - texts.length} left out that are not UTF-8`);
