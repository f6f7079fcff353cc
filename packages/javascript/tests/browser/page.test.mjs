/**
 * The page in a headless Chromium: what is drawn of the lines of a text that is typed, and what the C functions answer of them; keys, 1 MB, and
 * bad input. packages/javascript/totals has how many answers are compared. With SCREENSHOT set it is written there.
 */
import assert from "node:assert/strict";
import { execFileSync } from "node:child_process";
import { mkdtempSync, readFileSync, rmSync, writeFileSync } from "node:fs";
import { tmpdir } from "node:os";
import { join } from "node:path";
import { after, before, test } from "node:test";
import { fileURLToPath } from "node:url";
import { MODULE, naming, ofOtherVersion } from "../module.mjs";
import { examples, filesOfDisk, madePages } from "../pages.mjs";
import { hold } from "../totals.mjs";
import { TOP } from "../tree.mjs";
import { serve } from "./chromium.mjs";
import { browser, choose, DESK, faults, fill, LIBRARY, open, PACKAGE, report, servedWith, settled, start, stop, type } from "./driven.mjs";
import { MADE, TYPED } from "./typed.mjs";

const NATIVE = fileURLToPath(new URL("native.py", import.meta.url));
const OUTLINE = fileURLToPath(new URL("packages/c/examples/outline.py", TOP));

const scratch = mkdtempSync(join(tmpdir(), "page-"));

before(start);

after(async () => {
    await stop();
    rmSync(scratch, { recursive: true });
});

/** In the page: what is drawn of the lines that are in sight, each answer as it is shown when it is clicked. */
function drawnRows() {
    const words = (id) => document.getElementById(id).textContent;
    const answer = (button) => {
        button.click();
        const [, call, given] = /^(\w+)\((.*)\)$/.exec(words("call"));
        const [from, to] = words("bytes").match(/\d+/g).map(Number);
        return { name: button.textContent, call, given: JSON.parse(`[${given}]`), answer: JSON.parse(words("found")), from, to };
    };
    return [...document.querySelectorAll(".row")].map((row) => ({
        number: Number(row.dataset.line),
        block: answer(row.querySelector(".block")),
        taken: [...row.querySelectorAll("button.strip")].map(answer),
        text: row.querySelector(".strips").textContent,
    }));
}

/** In the page: what is drawn of a list, each answer as it is shown. */
function drawnEntries() {
    const words = (id) => document.getElementById(id)?.textContent ?? null;
    return [...document.querySelectorAll("#view button")].map((button) => {
        button.click();
        const [, call, given] = /^(\w+)\((.*)\)$/.exec(words("call"));
        const [from, to] = words("bytes").match(/\d+/g).map(Number);
        const parts = [".number", ".what"].map((part) => button.querySelector(part)?.textContent ?? button.textContent);
        const marked = [...document.querySelectorAll("#marks mark")].map((mark) => mark.textContent).join("\n");
        return { parts, call, given: JSON.parse(`[${given}]`), answer: JSON.parse(words("found")), of: words("of"), from, to, marked };
    });
}

/** In the page: scrolls the list to a line, and waits until that is drawn. */
async function scrollTo(line) {
    const view = document.getElementById("view");
    view.scrollTop = (line - 1) * document.querySelector(".row").offsetHeight;
    while (!view.querySelector(`[data-line="${line}"]`)) await new Promise((resolve) => setTimeout(resolve, 10));
}

/** All lines, as the list is scrolled through. */
async function allRows(count) {
    const rows = new Map();
    for (let line = 1; line <= count; line++) {
        if (rows.has(line)) continue;
        await browser.ask(scrollTo, line);
        for (const row of await browser.ask(drawnRows)) rows.set(row.number, row);
    }
    return [...rows.values()].sort((one, other) => one.number - other.number);
}

/** What the C functions answer of these calls. */
function native(text, calls) {
    const input = [text, ...calls].map((value) => JSON.stringify(value)).join("\n");
    const said = execFileSync("python3", [NATIVE], { input, encoding: "utf8", env: { ...process.env, FILLAQUT_LIBRARY: LIBRARY } });
    return said.trim().split("\n").map((line) => JSON.parse(line));
}

/** Compares what is drawn of a text with what C answers, and says how many answers these are. */
function compare(text, drawn, calls) {
    const found = native(text, calls);
    assert.equal(found.length, drawn.length);
    drawn.forEach((answer, index) => assert.deepEqual(answer, found[index], JSON.stringify(calls[index])));
    return drawn.length;
}

/** The places of the lines, in bytes, each with its ending. */
function linesOf(text) {
    const bytes = Buffer.from(text);
    const lines = [];
    for (let at = 0; at < bytes.length; at = lines.at(-1).end) lines.push({ at, end: (bytes.indexOf("\n", at) + 1 || bytes.length) });
    return lines;
}

/** Types a text, compares what is drawn of its lines, and says how many answers these are. */
async function typeAndCompare(text) {
    await type(text);
    const lines = linesOf(text);
    assert.match(await report(), new RegExp(`^${lines.length} lines, ${Buffer.byteLength(text)} bytes`));
    const rows = await allRows(lines.length);
    const taken = rows.map((row) => row.taken.map(({ answer, from, to }) => ({ answer, from, to })));
    compare(text, taken, rows.map((row, index) => ({ ...lines[index], taken: row.taken.map(({ call, given }) => ({ call, given })) })));
    const blocks = rows.map((row) => row.block).filter((block) => block.call !== "upto" && block.call !== "unescape");
    compare(text, blocks.map((block) => block.answer), blocks.map((block) => ({ call: block.call, given: block.given })));
    blocks.forEach((block) => assert.deepEqual(block.given.slice(-2), [block.from, block.to]));
    return taken.flat().length + blocks.length;
}

test("each line that is drawn is what the C functions answer", async () => {
    await open();
    await settled("drawn");
    await choose("lines");
    hold("drawn_made", await typeAndCompare(MADE));
    hold("drawn_lines", await typeAndCompare(TYPED));
    assert.deepEqual(faults, []);
});

test("columns are drawn to their tab stops", async () => {
    const rows = await allRows(linesOf(TYPED).length);
    const at = TYPED.slice(0, TYPED.indexOf(">\t\tfoo")).split("\n").length - 1;
    const drawn = (index) => rows[at + index].taken.map((part) => part.name);
    assert.deepEqual([drawn(0), rows[at].text], [[">→", "··→·"], ">→··→···foo"]);
    assert.deepEqual([drawn(1), rows[at + 1].text], [[">→", "··", "-·"], ">→··-·a tab after a quote"]);
});

test("headings, definitions and references are those of the outline in C", async () => {
    writeFileSync(join(scratch, "typed.md"), TYPED);
    const said = outline(join(scratch, "typed.md"));
    await choose("outline");
    const headings = (await browser.ask(drawnEntries)).map((entry) => `${entry.parts[0]}: ${"#".repeat(entry.answer)} ${entry.parts[1]}`);
    assert.deepEqual(headings, said.filter((line) => /^\d+: #/.test(line)));
    await choose("labels");
    const labels = await browser.ask(drawnEntries);
    const definitions = labels.filter((label) => label.parts[0] === "definition").map((label) => label.parts[1].replace(" → ", ": "));
    assert.deepEqual(definitions, said.filter((line) => /^\d+: \[.*\]: /.test(line)).map((line) => line.replace(/^\d+: /, "")));
    const missing = labels.filter((label) => label.parts[0] === "reference" && label.parts[1].endsWith("leads nowhere"));
    const expected = said.filter((line) => line.endsWith("has no definition")).map((line) => /\[.*\]/.exec(line)[0]);
    assert.deepEqual(missing.map((label) => /\[.*\]/.exec(label.parts[1])[0]), expected);
    hold("drawn_outline", headings.length + definitions.length + missing.length);
});

/** The lines of the outline, whose status is 1 where a label has no definition. */
function outline(file) {
    try {
        return execFileSync("python3", [OUTLINE, file], { encoding: "utf8" }).trim().split("\n");
    } catch (why) {
        if (why.status !== 1) throw why;
        return why.stdout.trim().split("\n");
    }
}

test("labels, links, HTML and cells are what the C functions answer", async () => {
    let tried = 0;
    for (const name of ["labels", "scans", "tables"]) {
        await choose(name);
        const entries = await browser.ask(drawnEntries);
        const calls = entries.map(({ call, given, of }) => (of === null ? { call, given } : { call, given, of }));
        tried += compare(TYPED, entries.map((entry) => entry.answer), calls);
        const bytes = Buffer.from(TYPED);
        assert.deepEqual(entries.map((entry) => entry.marked), entries.map((entry) => bytes.subarray(entry.from, entry.to).toString().replace(/\n$/, "")));
    }
    hold("drawn_inline", tried);
    await choose("scans");
    const [scans, passed, , , bound] = (await browser.ask(() => document.querySelector(".note").textContent)).match(/\d+/g).map(Number);
    assert.ok(scans > 100 && passed > 0 && passed <= bound, `${passed} of ${bound}`);
});

test("a click marks the bytes, and names a section and a contract", async () => {
    await choose("labels");
    await browser.ask(() => document.querySelector("#view button").click());
    const marked = await browser.ask(() => [...document.querySelectorAll("#marks mark")].map((mark) => mark.textContent).join("\n"));
    assert.equal(marked, "[Two  words]");
    const words = await browser.ask(() => document.getElementById("answer").textContent);
    assert.match(words, /6\.3 Links.*mds_scan_link_label.*IsScannedLabel/);
});

test("a click names the place that the call was given", async () => {
    await choose("lines");
    await type("a\n\n## b\n>\t- c\n");
    const shownAnswer = (line, part) => browser.ask((number, index) => {
        document.querySelector(`[data-line="${number}"]`).querySelectorAll("button")[index].click();
        return document.querySelector("#answer p").textContent;
    }, line, part);
    assert.equal(await shownAnswer(1, 0), "interruptsParagraph(0, 2) answers false");
    assert.equal(await shownAnswer(3, 0), "scanAtxHeading(3, 8) answers 2");
    assert.equal(await shownAnswer(4, 1), "quote() of a line start at 8 answers true");
    assert.equal(await shownAnswer(4, 2), "upto(4) of a line start at 10 with 2 columns pending answers 2"); // of a tab from column 1 to 4
    await type(TYPED);
});

test("keys go through tabs and answers", async () => {
    await choose("lines");
    await browser.ask(() => document.getElementById("view").focus());
    await browser.key("Tab");
    const focused = () => browser.ask(() => [document.activeElement.closest(".row")?.dataset.line, document.getElementById("call")?.textContent]);
    const [first] = await focused();
    await browser.key("ArrowDown");
    const [second, call] = await focused();
    assert.equal(Number(second), Number(first) + 1);
    assert.ok(call.length > 0);
    await browser.ask(() => document.getElementById("tab-lines").focus());
    await browser.key("ArrowRight");
    await settled("drawn");
    assert.equal(await browser.ask(() => document.activeElement.id), "tab-outline");
});

/** In the page: the middle of the first element of this name in the frame. */
function middleOf(name) {
    const frame = document.querySelector("#view iframe");
    const [outer, inner] = [frame, frame.contentDocument.querySelector(name)].map((element) => element.getBoundingClientRect());
    return { x: outer.x + inner.x + inner.width / 2, y: outer.y + inner.y + inner.height / 2 };
}

/** In the page: what the frame has. */
function inFrame() {
    const frame = document.querySelector("#view iframe");
    const marks = [...document.querySelectorAll("#marks mark")].map((mark) => mark.textContent).join("\n");
    const pointed = [...frame.contentDocument.querySelectorAll("[data-pointed]")].map((element) => element.localName);
    return { html: frame.contentDocument.body.innerHTML, sandbox: frame.getAttribute("sandbox"), marks, pointed };
}

/** Points at the first element of this name in the frame. */
async function pointAt(name) {
    await browser.send("Input.dispatchMouseEvent", { type: "mouseMoved", ...(await browser.ask(middleOf, name)) });
    return browser.ask(inFrame);
}

test("safe HTML is rendered, and what is pointed at has its source marked", async () => {
    await open();
    await settled("drawn");
    await choose("rendered");
    await type("# 🍔 *é* b\n\n<script>document.title = 1</script>\n\n- [x] ~~c~~\n- [d](https://e.f)\n\n|g|\n|-|\n|h|\n");
    const { html, sandbox } = await browser.ask(inFrame);
    assert.equal(sandbox, "allow-same-origin");
    assert.match(html, /^<h1>🍔 <em>é<\/em> b<\/h1>\n&lt;script&gt;/);
    assert.match(html, /<li><input checked="" disabled="" type="checkbox"> <del>c<\/del><\/li>/);
    for (const [name, expected] of [["em", "*é*"], ["h1", "# 🍔 *é* b"], ["del", "~~c~~"], ["a", "[d](https://e.f)"], ["td", "h"]]) {
        const found = await pointAt(name);
        assert.deepEqual([found.pointed, found.marks], [[name], expected]);
    }
    const at = { ...(await browser.ask(middleOf, "a")), button: "left", clickCount: 1 };
    for (const kind of ["mousePressed", "mouseReleased"]) await browser.send("Input.dispatchMouseEvent", { type: kind, ...at });
    assert.equal((await browser.ask(inFrame)).html.includes("https://e.f"), true);
    assert.equal(await browser.ask(() => document.querySelector("#view iframe").contentWindow.location.href), "about:srcdoc");
    await type("*again*");
    assert.deepEqual((await browser.ask(inFrame)).html, "<p><em>again</em></p>\n");
    assert.equal((await pointAt("em")).marks, "*again*");
    assert.equal(await browser.ask(() => document.title), "fillaqut: a playground");
    assert.deepEqual(faults, []);
});

test("what is longer than a browser renders soon is not rendered", async () => {
    await fill(`${"a".repeat(99)}\n`.repeat(12_000));
    await settled("refused");
    assert.match(await report(), /^TooLong: the page renders 1000000 characters at most/);
    await choose("lines");
});

test("1 MB is read without a stall", async () => {
    await open();
    await settled("drawn");
    await choose("lines");
    const text = TYPED.slice(0, TYPED.indexOf("<!-- <!--")).repeat(600).slice(0, 1_000_000);
    const most = await longestWait(text);
    console.log(`# 1 MB: ${await report()}; the page never waited longer than ${Math.round(most)} ms`);
    assert.match(await report(), / 1\d{6} bytes/);
    const [, , milliseconds] = (await report()).match(/\d+/g).map(Number);
    assert.ok(most < milliseconds / 2, `the page waited ${most} ms`);
    await overtaken(text, milliseconds);
});

/** Fills in a text, and answers the longest time that the page waited until it was drawn, in milliseconds. */
async function longestWait(text) {
    await browser.ask((typed) => {
        const area = document.getElementById("text");
        area.value = typed;
        area.getBoundingClientRect();
    }, text);
    return browser.ask(async () => {
        await new Promise((resolve) => setTimeout(resolve, 500));
        document.getElementById("text").dispatchEvent(new Event("input"));
        let last = performance.now();
        let most = 0;
        while (document.body.dataset.state !== "drawn") {
            await new Promise((resolve) => setTimeout(resolve));
            most = Math.max(most, performance.now() - last);
            last = performance.now();
        }
        return most;
    });
}

/** A text that comes while a longer one is read is what is drawn, also when that one would have been read. */
async function overtaken(text, milliseconds) {
    await fill(text);
    await new Promise((resolve) => setTimeout(resolve, 400));
    await type("# new");
    await new Promise((resolve) => setTimeout(resolve, milliseconds));
    await browser.ask(() => document.getElementById("view").dispatchEvent(new Event("scroll")));
    await new Promise((resolve) => setTimeout(resolve, 300));
    assert.deepEqual((await browser.ask(drawnRows)).map((row) => row.text), ["# new"]);
}

test("of a line of 1 MB the page is sent what it draws", async () => {
    await open();
    await settled("drawn");
    await choose("lines");
    for (const [name, text] of [[">", ">".repeat(1_000_000)], ["* ", `${"* ".repeat(500_000)}a`]]) {
        const most = await longestWait(text);
        console.log(`# 1 MB of \`${name}\`: ${await report()}; the page never waited longer than ${Math.round(most)} ms`);
        const milliseconds = Number(/in (\d+) ms/.exec(await report())[1]);
        assert.ok(most < milliseconds / 2, `the page waited ${most} ms`);
        const columns = await browser.ask(() => [...document.querySelectorAll(".row button.strip")].map((strip) => strip.textContent).join(""));
        assert.equal(columns.length, 200);
    }
    await fill(`# ${"a".repeat(1_000_000)}\n\n[b]: /${"c".repeat(1_000_000)}\n`);
    await settled("drawn");
    for (const [name, expected] of [["outline", /^a{1000}…$/], ["labels", /^\[b\] → \/c{999}…$/]]) {
        await choose(name);
        assert.match(await browser.ask(() => document.querySelector("#view .what").textContent), expected);
    }
});

test("the page says by file: that it has to be served", async () => {
    await open(DESK, new URL("../../index.html", import.meta.url).href);
    assert.match(await report(), /Serve this folder/);
});

test("bad input has a message, and the page goes on", async () => {
    await open();
    await settled("drawn");
    await fill("a\ud800b");
    await settled("refused");
    assert.match(await report(), /^LoneSurrogate: .* at index 1/);
    await type("# again");
    assert.match(await report(), /^1 lines, 7 bytes/);
    await choosing([0x61, 0xff]);
    await settled("refused");
    assert.match(await report(), /^NotUtf8: the file is not UTF-8/);
    await choosing([...Buffer.from("## é")]);
    await settled("drawn");
    assert.match(await report(), /^1 lines, 5 bytes/);
    await fill("\n".repeat(300_000));
    await settled("refused");
    assert.match(await report(), /^TooManyLines: /);
    await fill("# and again");
    await settled("drawn");
    assert.match(await report(), /^1 lines, 11 bytes/);
});

/** Chooses a file of these bytes. */
async function choosing(bytes) {
    await browser.ask((content) => {
        const files = new DataTransfer();
        files.items.add(new File([new Uint8Array(content)], "chosen.md"));
        const file = document.getElementById("file");
        file.files = files.files;
        document.body.dataset.state = "reading";
        file.dispatchEvent(new Event("change"));
    }, bytes);
}

test("10 MB are read, and another text after them", async () => {
    await open();
    await settled("drawn");
    await choose("lines");
    await fill(`${"A line of [some] words, as <b>they</b> are. ".repeat(4)}\n\n`.repeat(57_000));
    await settled("drawn");
    assert.match(await report(), /^114000 lines, 10\d{6} bytes/);
    await fill("# again");
    await settled("drawn");
    assert.match(await report(), /^1 lines, 7 bytes/);
});

test("a module that is missing or of another version has a message", async () => {
    const other = ofOtherVersion(readFileSync(MODULE));
    const missing = await serve(PACKAGE, (path) => (path.endsWith(".wasm") ? undefined : null));
    const broken = await servedWith(Buffer.from("none"));
    for (const [changed, message] of [[missing, /^ModuleMissing: .*404/], [await servedWith(other), /^WrongVersion: .* 9\./], [broken, /^BadModule: /]]) {
        await open(DESK, changed.url);
        await settled("refused");
        assert.match(await report(), message);
        changed.close();
    }
});

test("of two modules the 64-bit one is taken where the browser runs it", async () => {
    const module = readFileSync(MODULE);
    const changed = await servedWith(naming(module, "fillaqut64.wasm"), ofOtherVersion(module));
    await open(DESK, changed.url);
    const isWide = await browser.ask(() => WebAssembly.validate(new Uint8Array([0, 97, 115, 109, 1, 0, 0, 0, 5, 3, 1, 4, 1])));
    await settled(isWide ? "refused" : "drawn");
    assert.match(await report(), isWide ? /^WrongVersion: / : /^\d+ lines/);
    changed.close();
});

test("a policy needs `wasm-unsafe-eval`, and a URL is one from the page's on", async () => {
    for (const [policy, expected] of [["'self'", "BadModule"], ["'self' 'wasm-unsafe-eval'", "1"]]) {
        const head = `<!doctype html><meta http-equiv="Content-Security-Policy" content="script-src ${policy}">`;
        const changed = await serve(PACKAGE, (path) => {
            if (path === "/a/page.html") return Buffer.from(head);
            return path === "/a/module.wasm" ? readFileSync(MODULE) : null;
        });
        await open(DESK, `${changed.url}a/page.html`);
        const found = await browser.ask(async () => {
            const { load } = await import("/fillaqut.mjs");
            return load("module.wasm").then((loaded) => String(loaded.text("# a").scanAtxHeading()), (why) => why.name);
        });
        assert.equal(found, expected);
        changed.close();
    }
});

test("a picture", async () => {
    await open({ width: 1100, height: 760 });
    await settled("drawn");
    await pointAt("a");
    const picture = await browser.screenshot();
    assert.ok(picture.length > 20_000 && picture.length < 200_000, `${picture.length} bytes`);
    if (process.env.SCREENSHOT) writeFileSync(process.env.SCREENSHOT, picture);
});

test("a file with an underline of definitions alone is drawn", async () => {
    await open();
    await settled("drawn");
    await choose("lines");
    await type("[foo]: /url\n===\n[foo]\n");
    const rows = await browser.ask(drawnRows);
    assert.deepEqual(rows.map((row) => [row.text, row.block.name]), [["[foo]: /url", "definition"], ["===", "paragraph"], ["[foo]", "goes on"]]);
    assert.deepEqual(faults, []);
});

/** In the page: reads texts as its worker does, and says how many. */
async function readAll(texts) {
    const { load } = await import("/fillaqut.mjs");
    const { Reading } = await import("/page/reading.mjs");
    const { readWhole } = await import("/tests/whole.mjs");
    const scanners = await load();
    return texts.map((text) => readWhole(Reading, scanners, text)).length;
}

/** These texts in parts of about a megabyte. */
function* inParts(texts) {
    let part = [];
    let length = 0;
    for (const text of texts) {
        part.push(text);
        length += text.length;
        if (length < 1_000_000) continue;
        yield part;
        part = [];
        length = 0;
    }
    if (part.length > 0) yield part;
}

/** Opens an empty page beside the package: the policy of the page lets its worker alone read the module. */
async function openEmpty() {
    const module = readFileSync(MODULE);
    const given = { "/empty.html": Buffer.from("<!doctype html>"), "/fillaqut.wasm": module, "/fillaqut64.wasm": undefined };
    const beside = await serve(PACKAGE, (path) => (path in given ? given[path] : null));
    await open(DESK, `${beside.url}empty.html`);
    return beside;
}

test("pages of each kind, the specification's examples and the files of this disk are read", async () => {
    const beside = await openEmpty();
    const count = async (texts) => {
        let tried = 0;
        for (const part of inParts(texts)) tried += await browser.ask(readAll, part);
        return tried;
    };
    hold("made_pages", await count(madePages()));
    const written = examples();
    if (written) hold("examples_of_spec", await count(written));
    assert.ok((await count(filesOfDisk().filter((file) => file !== null))) > 0);
    beside.close();
});
