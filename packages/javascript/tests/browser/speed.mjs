#!/usr/bin/env node
/**
 * How fast a file is read in Chromium, by the page's reading on each module that is there and by markdown-it (Debian's
 * node-markdown-it), where that is there: MB/s, the best of ten runs.
 *
 *     packages/javascript/tests/browser/speed.mjs FILE.md
 */
import { existsSync, readFileSync } from "node:fs";
import { createRequire } from "node:module";
import { join } from "node:path";
import { fileURLToPath } from "node:url";
import { Browser, serve } from "./chromium.mjs";

const OTHER = "/usr/share/nodejs/markdown-it/index.js";
const MODULES = ["fillaqut.wasm", "fillaqut64.wasm"];
const PACKAGE = fileURLToPath(new URL("../..", import.meta.url));
const [file] = process.argv.slice(2);

/** A module of Node and all that it requires, as one script that sets a global name. */
function bundle(name, entry) {
    const modules = new Map();
    const add = (path) => {
        if (modules.has(path)) return;
        const source = path.startsWith("/") ? readFileSync(path, "utf8") : ""; // Node's own, which parsing does without
        const isData = path.endsWith(".json");
        const names = isData ? [] : [...source.matchAll(/^(?!\s*(?:\*|\/\/)).*require\(['"]([^'"]+)['"]\)/gm)].map(([, id]) => id);
        const paths = Object.fromEntries(names.map((id) => [id, createRequire(path).resolve(id.endsWith("/") ? `${id}index.js` : id)]));
        modules.set(path, { body: isData ? `module.exports = ${source}` : source, paths });
        Object.values(paths).forEach(add);
    };
    add(entry);
    const row = ([path, { body, paths }]) => `${JSON.stringify(path)}: [(module, exports, require) => {${body}\n}, ${JSON.stringify(paths)}]`;
    const rows = [...modules].map(row);
    return `const modules = {${rows.join(",\n")}}, made = {};
        function load(path) {
            if (!made[path]) {
                const module = (made[path] = { exports: {} });
                modules[path][0](module, module.exports, (it) => load(modules[path][1][it]));
            }
            return made[path].exports;
        }
        globalThis.${name} = load(${JSON.stringify(entry)});`;
}

const other = existsSync(OTHER) ? Buffer.from(bundle("markdownit", OTHER)) : Buffer.from("");
const served = await serve(PACKAGE, (path) => {
    if (path === "/speed.md") return readFileSync(file);
    if (path === "/speed.html") return Buffer.from("<!doctype html><script src='markdown-it.js'></script>");
    return path === "/markdown-it.js" ? other : null;
});

/** In the page: the best of ten runs of each. */
async function measured(modules) {
    const { load } = await import("/fillaqut.mjs");
    const { Reading } = await import("/page/reading.mjs");
    const all = await Promise.all(modules.map((module) => load(new URL(module, location.href))));
    const text = await (await fetch("/speed.md")).text();
    const best = (call) => {
        const times = Array.from({ length: 10 }, () => {
            const begun = performance.now();
            call();
            return performance.now() - begun;
        });
        return new TextEncoder().encode(text).length / Math.min(...times) / 1000;
    };
    const ours = all.map((scanners) => best(() => {
        const reading = new Reading(scanners, text);
        for (const _ of reading.read());
    }));
    const theirs = globalThis.markdownit ? best(() => globalThis.markdownit().parse(text, {})) : null;
    return { ours, theirs, bytes: new TextEncoder().encode(text).length };
}

const browser = new Browser();
await browser.open(`${served.url}speed.html`, { width: 800, height: 600 });
const modules = MODULES.filter((module) => existsSync(join(PACKAGE, module)));
const { ours, theirs, bytes } = await browser.ask(measured, modules);
const said = modules.map((module, index) => `the page's reading on ${module} ${ours[index].toFixed(2)} MB/s`);
console.log(`${bytes} bytes: ${said.join(", ")}, markdown-it ${theirs?.toFixed(2) ?? "is not there"}`);
await browser.close();
served.close();
