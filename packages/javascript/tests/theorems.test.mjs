/** What the page of theorems quotes stands in the pages that it names, and so do the names of files, clauses and lemmas. */
import assert from "node:assert/strict";
import { execFileSync } from "node:child_process";
import { existsSync, readFileSync } from "node:fs";
import { test } from "node:test";
import { fileURLToPath } from "node:url";
import { ALL } from "../page/theorems.mjs";
import { TOP } from "./tree.mjs";

const PAGE = readFileSync(new URL("../page/theorems.html", import.meta.url), "utf8");

/** A text of Markdown without the marks of emphasis and code, its white space one space. */
function plain(text) {
    return text.replace(/[*`]/g, "").replace(/\s+/g, " ").trim();
}

test("each quotation stands where it is from", () => {
    const quoted = [...PAGE.matchAll(/<blockquote data-from="([^"]+)">([^]*?)<\/blockquote>/g)];
    assert.ok(quoted.length > 6);
    for (const [, from, written] of quoted) {
        const words = plain(written.replaceAll("&gt;", ">"));
        assert.ok(plain(readFileSync(new URL(from, TOP), "utf8")).includes(words), `${from}: ${words}`);
    }
});

test("each name in it is one of the tree", () => {
    const names = [...PAGE.matchAll(/<code>([^<]+)<\/code>/g)].map(([, name]) => name).filter((name) => name !== "safe");
    assert.ok(names.length > 6);
    for (const name of names) {
        if (/[/.]/.test(name)) assert.ok(existsSync(new URL(name, TOP)), name);
        else assert.ok(execFileSync("grep", ["-rlw", "--include=*.rt", "--include=*.antt", name, fileURLToPath(new URL("crates", TOP))]).length > 0, name);
    }
});

test("each pane's theorem has its section", () => {
    const ids = [...PAGE.matchAll(/<section id="(\w+)">/g)].map(([, id]) => id);
    for (const { words, at } of ALL) assert.ok(ids.includes(at) && words.length > 50, at);
});
