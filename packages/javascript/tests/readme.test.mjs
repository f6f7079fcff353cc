/** The examples of the package's README and of the repository's: after `//` stands what a line answers. */
import assert from "node:assert/strict";
import { readFileSync } from "node:fs";
import { test } from "node:test";
import { load } from "../fillaqut.mjs";
import { MODULE } from "./module.mjs";
import { hold } from "./totals.mjs";

const AsyncFunction = (async () => null).constructor;

/** How many lines of a README's example answer what stands after them. */
async function answered(readme) {
    const [, example] = /```js\n([\s\S]*?)```/.exec(readFileSync(new URL(readme, import.meta.url), "utf8"));
    const lines = example.split("\n").filter((line) => line && !line.startsWith("import"));
    const body = lines.map((line) => line.replace(/^(.*); \/\/ (?!JavaScript:)(.*)$/, "returned.push([$1, $2]);")).join("\n");
    const returned = [];
    await new AsyncFunction("load", "returned", body)(() => load(MODULE), returned);
    returned.forEach(([found, expected]) => assert.deepEqual(found, expected));
    return returned.length;
}

test("the example of the README", async () => hold("examples", await answered("../README.md")));

test("the example of the repository's README", async () => assert.equal(await answered("../../../README.md"), 1));
