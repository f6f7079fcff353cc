/** What the page says of contracts stands in the crate: each function has the words in its clauses, and each call is one of them. */
import assert from "node:assert/strict";
import { readdirSync, readFileSync } from "node:fs";
import { test } from "node:test";
import { FUNCTIONS } from "../lib/c.mjs";
import { CONTRACTS } from "../page/contracts.mjs";
import { TOP } from "./tree.mjs";

const FOLDER = new URL("crates/markdown_scanners_c/src/", TOP);
const PAGE = new URL("../page/", import.meta.url);

test("the words of contracts that the page names", () => {
    const source = readdirSync(FOLDER).filter((file) => file.endsWith(".rt")).map((file) => readFileSync(new URL(file, FOLDER), "utf8")).join("");
    const symbols = Object.values(FUNCTIONS).map(([symbol]) => symbol);
    for (const { symbol, section, url, words } of Object.values(CONTRACTS)) {
        assert.ok(symbols.includes(symbol), symbol);
        const [, clauses] = new RegExp(`extern "C" fn ${symbol}\\(([\\s\\S]*?)\\n\\{`).exec(source);
        for (const word of words) assert.match(clauses, new RegExp(`ensures[\\s\\S]*\\b${word}\\b`), `${word} of ${symbol}`);
        assert.match(section, /^\d\.\d+ /);
        assert.match(url, /^https:\/\/(spec\.commonmark\.org\/0\.31\.2|github\.github\.com\/gfm)\/#/);
    }
});

test("each call that the page makes and shows has a contract", () => {
    const source = ["containers", "paragraph", "reading"].map((name) => readFileSync(new URL(`${name}.mjs`, PAGE), "utf8")).join("");
    const named = new Set([...source.matchAll(/"((?:scan|ends|interrupts|unescape)\w*)"/g)].map(([, name]) => name));
    assert.ok(named.size > 10);
    assert.deepEqual([...named].filter((name) => !(name in CONTRACTS)), []);
});
