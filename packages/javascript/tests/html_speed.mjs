#!/usr/bin/env node
/**
 * How fast a file becomes HTML in Node, by each module that is there and by markdown-it (Debian's node-markdown-it), where that is
 * there: MB/s, the best of RUNS runs.
 *
 *     node --experimental-wasm-memory64 packages/javascript/tests/html_speed.mjs FILE.md [RUNS]
 */
import { existsSync, readFileSync } from "node:fs";
import { createRequire } from "node:module";
import { argv } from "node:process";
import { load } from "../fillaqut.mjs";

const OTHER = "/usr/share/nodejs/markdown-it/index.js";
const PACKAGE = new URL("..", import.meta.url);
const [, , file, runs = "10"] = argv;
const bytes = readFileSync(file);
const page = bytes.toString("utf8");

/** MB/s of the best run. */
function rate(call) {
    const times = Array.from({ length: Number(runs) }, () => {
        const begun = performance.now();
        call();
        return performance.now() - begun;
    });
    return bytes.length / Math.min(...times) / 1000;
}

/** Prints how fast calls are, or why they are not tried. */
async function print(name, making) {
    try {
        const call = await making();
        console.log(`${rate(call).toFixed(2).padStart(8)}  ${name}`);
    } catch (why) {
        console.log(`${"-".padStart(8)}  ${name}: NOT TRIED: ${why.message}`);
    }
}

for (const name of ["fillaqut.wasm", "fillaqut64.wasm"]) {
    const extensions = ["tables", "strikethrough", "tasks"];
    for (const [call, options] of [["html", {}], ["htmlUnsafe", {}], ["html", { extensions }]]) {
        await print(`${name} ${call} ${JSON.stringify(options)}`, async () => {
            const markdown = await load(new URL(name, PACKAGE));
            return () => markdown[call](page, options);
        });
    }
}
for (const preset of ["commonmark", "default"]) {
    await print(`markdown-it, ${preset}`, () => {
        if (!existsSync(OTHER)) throw new Error("it is not installed");
        const other = createRequire(OTHER)(OTHER)(preset);
        return () => other.render(page);
    });
}
