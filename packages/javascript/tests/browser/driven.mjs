/** The page in a headless Chromium, with the module that MODULE names, and what drives it: for the tests of the page. */
import { readFileSync } from "node:fs";
import { fileURLToPath } from "node:url";
import { MODULE } from "../module.mjs";
import { TOP } from "../tree.mjs";
import { Browser, serve } from "./chromium.mjs";

export const PACKAGE = fileURLToPath(new URL("../..", import.meta.url));
export const LIBRARY = fileURLToPath(new URL("out/libfillaqut.so.0", TOP));
export const DESK = { width: 1280, height: 820 };

let served;
/** @type {Browser} */
export let browser;
/** What the page threw, and what its policy refused, since it was opened. */
export let faults = [];
/** The paths that were asked for since then. */
export let asked = [];

/** The package with these bytes as its module, and with no other one; else with that of MODULE. */
export function servedWith(module = readFileSync(MODULE), wide = undefined) {
    return serve(PACKAGE, (path) => {
        asked.push(path);
        if (path === "/fillaqut64.wasm") return wide;
        return path === "/fillaqut.wasm" ? module : null;
    });
}

export async function start() {
    served = await servedWith();
    browser = new Browser();
    browser.on("Runtime.exceptionThrown", (event) => faults.push(event.exceptionDetails.exception?.description));
    browser.on("Log.entryAdded", ({ entry }) => /Content Security Policy/.test(entry.text) && faults.push(entry.text));
}

export async function stop() {
    await browser.close();
    served.close();
}

/** Waits until the page says of itself that it is so. */
export async function settled(name) {
    for (let tries = 0; tries < 4000; tries++) {
        if ((await browser.ask(() => document.body.dataset.state)) === name) return;
        await new Promise((resolve) => setTimeout(resolve, 50));
    }
    throw new Error(`the page is not ${name}: ${await report()}`);
}

export const report = () => browser.ask(() => document.getElementById("report").textContent);

export const urlOf = (path) => `${served.url}${path}`;

export async function open(size = DESK, url = served.url) {
    await browser.open("about:blank", size); // where a fragment alone differs a browser opens nothing anew
    faults = [];
    asked = [];
    await browser.open(url, size);
    await browser.send("Log.enable");
}

/** Types a text in place of what stands there. */
export async function type(text) {
    await browser.ask(() => {
        const area = document.getElementById("text");
        area.focus();
        area.select();
    });
    await browser.send("Input.insertText", { text });
    await settled("drawn");
}

/** Puts a text there that is too long to be typed, or that can't be. */
export async function fill(text) {
    await browser.ask((typed) => {
        const area = document.getElementById("text");
        area.value = typed;
        area.dispatchEvent(new Event("input"));
    }, text);
}

export async function choose(name) {
    await browser.ask((tab) => document.getElementById(`tab-${tab}`).click(), name);
    await settled("drawn");
}

/** Clicks what this selector finds in the form, and waits until what is asked for is drawn. */
export async function click(selector) {
    await browser.ask((of) => document.querySelector(of).click(), selector);
    await settled("drawn");
}
