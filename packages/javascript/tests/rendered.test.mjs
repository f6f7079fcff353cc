/** The page's safe HTML in Node: its elements, in order, are those of which the page knows the sources, on made pages and examples. */
import assert from "node:assert/strict";
import { readFileSync } from "node:fs";
import { test } from "node:test";
import { load } from "../fillaqut.mjs";
import { rendered } from "../page/rendered.mjs";
import { MODULE } from "./module.mjs";
import { madePages } from "./pages.mjs";
import { hold } from "./totals.mjs";
import { TOP } from "./tree.mjs";

const scanners = await load(MODULE);
const EXAMPLE = /^`{32} example\n([^]*?)^\.\n/gm;

/** The names of the elements that begin in safe HTML, in which each `<` is that of a tag. */
const namesOf = (html) => Array.from(html.matchAll(/<([a-z][a-z0-9]*)/g), ([, name]) => name);

function agrees(text) {
    const { html, sources } = rendered(scanners, text);
    assert.deepEqual(sources.map(([name]) => name), namesOf(html), text);
    for (const [, start, stop] of sources) assert.ok(start <= stop && stop <= text.length, text);
}

test("sources of elements", () => {
    const { html, sources } = rendered(scanners, "# 🍔 *a*\n<b>\n");
    assert.equal(html, "<h1>🍔 <em>a</em></h1>\n&lt;b&gt;\n");
    assert.deepEqual(sources, [["h1", 0, 9], ["em", 5, 8]]);
    const names = rendered(scanners, "|a|\n|-|\n|![*b*](c)|\n|d|\n").sources.map(([name]) => name);
    assert.deepEqual(names, ["table", "thead", "tr", "th", "tbody", "tr", "td", "img", "tr", "td"]);
});

test("sources of images that are written as links, and of wikilinks", () => {
    const options = { extensions: ["wikilinks"], imagesAsLinks: true };
    const { html, sources } = rendered(scanners, "![a *b*](c)\n[[d]]\n", options);
    assert.deepEqual(sources.map(([name]) => name), namesOf(html));
    assert.deepEqual(sources, [["p", 0, 18], ["a", 0, 11], ["a", 12, 17]]);
});

test("each example of the specification", () => {
    const spec = readFileSync(new URL("tests/commonmark/spec-0.31.2.txt", TOP), "utf8").replaceAll("→", "\t");
    const pages = Array.from(spec.matchAll(EXAMPLE), ([, page]) => page);
    pages.forEach(agrees);
    hold("examples_rendered", pages.length);
});

test("each kind of line after each other", () => {
    for (const page of madePages()) agrees(page);
});
