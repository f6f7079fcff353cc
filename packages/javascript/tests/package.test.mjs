/**
 * What no row of packages/c/tests says: bytes of each number, places in UTF-16 units, bad input, large texts, and modules that
 * are broken.
 */
import assert from "node:assert/strict";
import { cpSync, mkdtempSync, readFileSync, rmSync, writeFileSync } from "node:fs";
import { tmpdir } from "node:os";
import { join } from "node:path";
import { test } from "node:test";
import { fileURLToPath, pathToFileURL } from "node:url";
import { inspect } from "node:util";
import { FUNCTIONS, VERSION } from "../lib/c.mjs";
import * as mds from "../fillaqut.mjs";
import { IS_WIDE, MODULE, naming, ofOtherVersion } from "./module.mjs";
import { TOP } from "./tree.mjs";

const PACKAGE = fileURLToPath(new URL("..", import.meta.url));
/** What the specification of WebAssembly 3.0 has as a module with a 64-bit memory. */
const WIDE_MEMORY = Buffer.from("0061736d010000000503010401", "hex");
const scanners = await mds.load(MODULE);
const text = (data, how) => scanners.text(data, how);

test("each byte has its class", () => {
    const isIn = (characters) => Array.from({ length: 256 }, (_, byte) => byte < 128 && characters.includes(String.fromCharCode(byte)));
    const found = (call) => Array.from({ length: 256 }, (_, byte) => call(byte));
    assert.deepEqual(found((byte) => scanners.isWhitespace(byte)), isIn(" \t\n\v\f\r"));
    assert.deepEqual(found((byte) => scanners.isWhitespaceInLine(byte)), isIn(" \t\v\f"));
    assert.deepEqual(found((byte) => scanners.isPunctuation(byte)), isIn("!\"#$%&'()*+,-./:;<=>?@[\\]^_`{|}~"));
});

test("the classes of Unicode characters", () => {
    // as this engine's own tables have them, of planes that have long been assigned
    for (let code = 0; code < 0x2000; code++) {
        const character = String.fromCodePoint(code);
        if (/\p{Cn}/u.test(character)) continue;
        assert.equal(scanners.isUnicodeWhitespace(code), /[\t\n\f\r\p{Zs}]/u.test(character), code.toString(16));
        assert.equal(scanners.isUnicodePunctuation(character), /[\p{P}\p{S}]/u.test(character), code.toString(16));
    }
    assert.deepEqual([0xd800, 0x110000, 2 ** 32 - 1].filter((code) => scanners.isUnicodePunctuation(code)), []);
    assert.ok(scanners.isUnicodePunctuation("🍔") && scanners.isUnicodeWhitespace("\u3000"));
});

test("what is no byte, number, place or text is refused", () => {
    for (const value of [-1, 256, 1.5, "é", "ab", ""]) assert.throws(() => scanners.isWhitespace(value), RangeError);
    for (const value of [-1, 2 ** 32, 1.5, "ab", ""]) assert.throws(() => scanners.isUnicodeWhitespace(value), RangeError);
    for (const begin of [-1, 2, 0.5]) assert.throws(() => text("a*b").scanDelimiterRun(1, 3, { begin }), RangeError);
    for (const number of [-1, 2 ** 53, 1.5, -1n, 2n ** 64n]) {
        assert.throws(() => text(" ").calcIndent(0, 1, { limit: number }), RangeError);
        assert.throws(() => text(" ").lineStart().space(number), RangeError);
        assert.throws(() => text("<!").htmlScanGuard().scan(number), RangeError);
        assert.throws(() => text("").scanLinkDest(0, 0, { maxNext: number }), RangeError);
        assert.throws(() => text("").scanReferenceDefinition(0, 0, { maxNext: number }), RangeError);
    }
    for (const [at, end] of [[2, 2], [-1, 1], [0, 2], [1, 0], [0.5, 1]]) assert.throws(() => text("a").scanLine(at, end), RangeError);
    for (const kind of [0, 8, 1.5]) assert.throws(() => text("<a>").endsHtmlBlock(kind), RangeError);
    assert.throws(() => text("é").scanLine(1), RangeError);
    assert.throws(() => text("é").scanWhile("é"), RangeError);
    assert.throws(() => text("🍔", { units: "utf-16" }).scanLine(1), RangeError);
});

/** Of calls that are given something of another type, or an unknown word, what their message has to name. */
const WRONG = [
    ["`at` is", [(page) => page.scanLine("0"), (page) => page.scanLinkLabel({}), (page) => page.slice(null), (page) => page.htmlScanGuard().scan("2")]],
    ["`end` is", [(page) => page.scanLine(0, "1"), (page) => page.scanLinkDest(0, { maxNext: 3 }), (page) => page.unescape(0, true)]],
    ["`end` is", [(page) => page.scanLinkLabel(0, { inTable: true }), (page) => page.htmlScanGuard(null), (page) => page.runInlineHtml([], "1")]],
    ["`begin` is", [(page) => page.scanDelimiterRun(0, 1, { begin: "0" })]],
    ["`character` is", [() => scanners.isUnicodePunctuation(null)]],
    ["`character` is", [() => scanners.isWhitespace(null), (page) => page.scanCh({}), (page) => page.scanClosingCodeFence(undefined, 3)]],
    ["`accepted` is", [(page) => page.scanWhile(32)]],
    ["`count` is", [(page) => page.scanClosingCodeFence("`", "3"), (page) => page.lineStart().upto("4"), (page) => page.lineStart().space(null)]],
    ["`indent` is", [(page) => page.lineStart().listItem(), (page) => page.lineStart().definition("0")]],
    ["`kind` is", [(page) => page.endsHtmlBlock("6")]],
    ["`options` is", [(page) => page.scanLinkDest(0, 1, 6), (page) => page.unescape(0, 1, true), (page) => page.scanLinkLabel(0, 1, null)]],
    ["`options` is", [(page) => page.scanHtmlTagOverLines(0, 1, page.skips([])), (page) => page.calcIndent(0, 1, 4), () => text("a", "utf-16")]],
    ["`limit` is", [(page) => page.calcIndent(0, 1, { limit: "4" })]],
    ["`maxNext` is", [(page) => page.scanLinkDest(0, 1, { maxNext: null })]],
    ["`inTable` is", [(page) => page.unescape(0, 1, { inTable: 1 }), (page) => page.scanLinkLabel(0, 1, { inTable: "yes" })]],
    ["`yaml` is", [(page) => page.scanMetadataBlock(0, 1, { yaml: 1 })]],
    ["`pluses` is", [(page) => page.scanMetadataBlock(0, 1, { pluses: "true" })]],
    ["`skips` is", [(page) => page.scanLinkLabel(0, 1, { skips: [[0, 1]] }), (page) => page.scanHtmlTagOverLines(0, 1, { skips: {} })]],
    ["`rows` is", [(page) => page.skips("0"), (page) => page.skips(null)]],
    ["`a row` is", [(page) => page.skips([0, 1])]],
    ["`places` is", [(page) => page.runInlineHtml(2)]],
    ["`data` is", [() => text(null), () => text(1), () => text(["a"]), () => text(new ArrayBuffer(1))]],
    ["`units` is", [() => text("a", { units: "utf-32" }), () => text("a", { units: null })]],
    ["`one` is", [() => scanners.labelsMatch(1, "a")]],
    ["`other` is", [() => scanners.labelsMatch("a", null)]],
    ["no option unit", [() => text("a", { unit: "utf-16" })]],
    ["no option intable", [(page) => page.unescape(0, 1, { intable: true }), (page) => page.scanLinkLabel(0, 1, { intable: true })]],
    ["no option inTable", [(page) => page.scanHtmlTagOverLines(0, 1, { inTable: true }), (page) => page.scanLinkDest(0, 1, { inTable: true })]],
    ["no option max", [(page) => page.calcIndent(0, 1, { max: 3 })]],
    ["no option toml", [(page) => page.scanMetadataBlock(0, 1, { toml: true })]],
    ["`calls` is", [(page) => page.lineStart().run("quote"), (page) => page.lineStart().run({})]],
    ['"quote"', [(page) => page.lineStart().run(["quote"])]],
    ['"quotes"', [(page) => page.lineStart().run([["quotes"]])]],
    ['"toString"', [(page) => page.lineStart().run([["toString"]]), (page) => page.lineStart().run([["eol"], ["toString"]])]],
    ['"__proto__"', [(page) => page.lineStart().run([["__proto__"]])]],
    ["the number of upto", [(page) => page.lineStart().run([["upto"]]), (page) => page.lineStart().run([["upto", "3"]])]],
];

test("what is of another type, and unknown words, are refused by their names", () => {
    for (const [words, calls] of WRONG) {
        for (const call of calls) {
            assert.throws(() => call(text("> a")), (why) => why instanceof TypeError && why.message.includes(words), `${words}: ${call}`);
        }
    }
});

test("the end stands after the place, and options after both", () => {
    const page = text("&amp;x&amp;y"); // from 5 to 11 stands `x&amp;`
    assert.equal(page.unescape(5, 11), "x&");
    assert.equal(text("\\\\|").unescape(0, 3, { inTable: true }), "|"); // two backslashes and a pipe, in a cell
    assert.deepEqual(text("xx[a]").scanLinkLabel(3), { end: 5, text: "a", start: 3 });
    assert.equal(text("xx[a]").scanLinkLabel(3, 4), null);
    assert.equal(text("[b](c(d)e)").scanLinkDest(4, 6), null); // the parenthesis of `c(` is open (6.3)
    assert.deepEqual(text("[b](c(d)e)").scanLinkDest(4, 5), { end: 5, start: 4, stop: 5 });
    assert.deepEqual(text("((a))").scanLinkDest(0, 5, { maxNext: 1 }), { end: 5, start: 0, stop: 5 });
    assert.equal(text("((a))").scanLinkDest(0, 5, { maxNext: 0 }), null);
    assert.deepEqual(text("a|b").scanWikilinkPipe(0), { end: 2, start: 0, stop: 1 });
    assert.equal(text("a|b").scanWikilinkPipe(0, 1), null);
    assert.equal(text("x<a>").scanHtmlTagOverLines(1).end, 4);
    assert.equal(text("x<a>").scanHtmlTagOverLines(1, 3), null);
    assert.deepEqual(text("b*a*").scanDelimiterRun(1), { end: 2, character: "*", canOpen: true, canClose: true }); // (6.2)
    assert.deepEqual(text("b*a*").scanDelimiterRun(1, 4, { begin: 1 }), { end: 2, character: "*", canOpen: true, canClose: false });
    assert.deepEqual(text("b*a*").scanDelimiterRun(1, 2), { end: 2, character: "*", canOpen: false, canClose: true });
    assert.equal(text("[a]: (b)").scanReferenceDefinition(0, 8, { maxNext: 0 }).end, 8);
    assert.equal(text("[a]: ((b))").scanReferenceDefinition(0, 10, { maxNext: 0 }), null);
    assert.equal(text("\t x").calcIndent().columns, 5); // a tab goes to column 4
    assert.equal(text("      x").calcIndent(0, 7, { limit: 3 }).columns, 3);
    assert.equal(text("---\na\n---").scanMetadataBlock(), null);
    assert.equal(text("---\na\n---").scanMetadataBlock(0, 9, { yaml: true }).character, "-");
    assert.equal(text("+++\na\n+++").scanMetadataBlock(0, 9, { yaml: true }), null);
});

test("what is written of a text has nothing of the module's memory", () => {
    const page = text("> a");
    const row = page.skips([[0, 2]]);
    for (const value of [page, row, page.lineStart(), page.htmlScanGuard(), scanners]) {
        assert.ok(JSON.stringify(value).length < 100, JSON.stringify(value).slice(0, 100));
        assert.ok(inspect(value, { depth: 9 }).length < 100);
        assert.ok(!Object.keys(value).includes("engine") && !("engine" in { ...value }));
    }
    assert.equal(JSON.stringify(page), '{"isString":true,"length":3}');
    assert.deepEqual([...page.bytes], [0x3e, 0x20, 0x61]);
});

test("refusals have names", () => {
    const named = (call, kind, name) => assert.throws(call, (why) => why instanceof kind && why.name === name && why.message.length > 0);
    named(() => text(Buffer.from("a\xff", "latin1")).unescape(), mds.NotUtf8, "NotUtf8");
    named(() => scanners.labelKey(Buffer.from("\xff", "latin1")), mds.NotUtf8, "NotUtf8");
    named(() => text(Buffer.from("\xff", "latin1"), { units: "utf-16" }), mds.NotUtf8, "NotUtf8");
    named(() => text("").scanEntity(), mds.Empty, "Empty");
    named(() => text("").calcIndent(0, 0, { limit: 2n ** 64n - 1n }), mds.TooLarge, "TooLarge");
    named(() => text("> a").skips([[0, 2], [0, 1]]), mds.BadSkips, "BadSkips");
    named(() => text("a").htmlScanGuard().scan(1), mds.NoOpener, "NoOpener");
    assert.throws(() => text("<!a>").runInlineHtml([2, 2]), (why) => why instanceof mds.NotRising && why.run[0] === 4);
    assert.throws(() => text("\tx").lineStart().run([["upto", 3], ["eol"]]), (why) => why instanceof mds.SpacePending && why.run[0] === 3);
    assert.throws(() => text("<a>").scanHtmlTagOverLines(0, 3, { skips: text("<a>").skips([]) }), /of another text/);
});

test("a lone surrogate is refused, and the next text is scanned", () => {
    for (const [data, index] of [["a\ud800b", 1], ["\udc00", 0], ["🍔\ud83c", 2]]) {
        assert.throws(() => text(data), (why) => why instanceof mds.LoneSurrogate && why.index === index);
    }
    assert.equal(text("# 🍔").scanAtxHeading(), 1);
});

test("places of UTF-16 units are those of the string", () => {
    const data = `${"é🍔ẞa".repeat(1500)}\n# b`;
    const page = text(data, { units: "utf-16" });
    assert.equal(page.length, data.length);
    assert.equal(page.scanLine(), data.indexOf("\n") + 1);
    assert.equal(page.scanAtxHeading(data.indexOf("#")), 1);
    assert.equal(page.slice(7495, 7500), data.slice(7495, 7500));
    assert.equal(text(Buffer.from(data), { units: "utf-16" }).length, data.length);
    assert.equal(text("\ufeffa").slice(), "\ufeffa");
    assert.deepEqual(text("🍔[é](ü)", { units: "utf-16" }).scanLinkDest(6), { end: 7, start: 6, stop: 7 });
});

test("a text is its own copy, and made texts are as what it is made of", () => {
    const bytes = Buffer.from("# a");
    const page = text(bytes);
    bytes.fill(0x20);
    assert.equal(page.scanAtxHeading(), 1);
    assert.deepEqual(text(Buffer.from("&amp;")).unescape(), new Uint8Array([38]));
    assert.equal(text("&amp;").unescape(), "&");
});

test("all entities of HTML", () => {
    const names = new URL("packages/entities/", TOP);
    const expected = readFileSync(new URL("meanings", names), "utf8");
    const found = readFileSync(new URL("asked", names), "utf8").split("\n").slice(0, -1).map((line) => meaning(line));
    assert.equal(`${found.join("\n")}\n`, expected);
});

/** What a line of packages/entities/asked means. */
function meaning(line) {
    if (line.startsWith("text ")) return text(line.slice(5)).unescape();
    return text(`&${line};`).scanEntity()?.text ?? "none";
}

test("10 MB are scanned, and many texts in turn", () => {
    const line = "> - a [b](c) &amp; <!-- d -->\n";
    const page = text(line.repeat(350_000));
    assert.equal(page.length, 10_500_000);
    let lines = 0;
    for (let at = 0; at < page.length; at = page.scanLine(at)) lines++;
    assert.equal(lines, 350_000);
    assert.equal(page.unescape().length, page.length - 4 * lines);
    for (let count = 0; count < 300; count++) assert.equal(text("a".repeat(10_000 + count)).scanChRepeat("a"), 10_000 + count);
    assert.equal(page.scanBlockquoteStart(), 2);
    assert.equal(page.runInlineHtml(Array.from({ length: 100_000 }, (_, index) => index * 30 + 21)).at(-1), 99_999 * 30 + 29);
});

test("a module that stops begins anew", () => stopping(2 ** 32 - 16));

test("an address of 64 bits is no other one", { skip: !IS_WIDE }, () => stopping(2 ** 40));

/** Scans a line at an address at which there is no memory, and then one that is there. */
async function stopping(address) {
    const { Engine } = await import("../lib/engine.mjs");
    const engine = new Engine(new WebAssembly.Module(readFileSync(MODULE)));
    const page = { bytes: Buffer.from("ab\nc"), address: 0, turn: 0 };
    assert.throws(() => engine.calls.scanLine(address, 10), mds.ModuleFault);
    engine.bring(page);
    assert.equal(engine.calls.scanLine(page.address, 4), 3);
}

test("of two modules the 64-bit one is taken where the engine runs it", async () => {
    const folder = mkdtempSync(join(tmpdir(), "package-"));
    for (const name of ["fillaqut.mjs", "lib"]) cpSync(join(PACKAGE, name), join(folder, name), { recursive: true });
    writeFileSync(join(folder, "fillaqut.wasm"), naming(readFileSync(MODULE), "wide.wasm"));
    const { load, loadSync } = await import(pathToFileURL(join(folder, "fillaqut.mjs")));
    const isRead = async () => [await load(), loadSync()].every((made) => made.text("# a").scanAtxHeading() === 1);
    assert.ok(await isRead()); // where it is not there
    writeFileSync(join(folder, "wide.wasm"), "none");
    assert.ok(await isRead());
    writeFileSync(join(folder, "wide.wasm"), ofOtherVersion(readFileSync(MODULE)));
    if (WebAssembly.validate(WIDE_MEMORY)) {
        await assert.rejects(isRead, { name: "WrongVersion" });
        assert.throws(loadSync, { name: "WrongVersion" });
    } else {
        assert.ok(await isRead());
    }
    rmSync(folder, { recursive: true });
});

test("a module that is missing, broken or of another version", async () => {
    const bytes = readFileSync(MODULE);
    const other = ofOtherVersion(bytes);
    await assert.rejects(mds.load(new URL("none.wasm", MODULE)), { name: "ModuleMissing" });
    await assert.rejects(mds.load("/none.wasm"), { name: "ModuleMissing", message: /pathToFileURL/ });
    await assert.rejects(mds.load("data:text/plain,none"), { name: "BadModule" });
    for (const source of [5, null, {}]) await assert.rejects(mds.load(source), (why) => why instanceof TypeError && why.message.includes("`source` is"));
    await assert.rejects(mds.load(bytes.subarray(0, 1000)), { name: "BadModule" });
    await assert.rejects(mds.load(Buffer.from("0061736d01000000", "hex")), { name: "BadModule" });
    await assert.rejects(mds.load(other), (why) => why.name === "WrongVersion" && why.message.includes(VERSION));
    assert.equal((await mds.load(bytes)).text("# a").scanAtxHeading(), 1);
    assert.equal((await mds.load(await WebAssembly.compile(bytes))).text("# a").scanAtxHeading(), 1);
});

test("modules are loaded at once", () => {
    const bytes = readFileSync(MODULE);
    for (const source of [bytes, bytes.buffer.slice(bytes.byteOffset, bytes.byteOffset + bytes.length), new WebAssembly.Module(bytes), MODULE]) {
        assert.equal(mds.loadSync(source).text("# a").scanAtxHeading(), 1);
    }
    for (const source of [5, null, {}, "fillaqut.wasm"]) assert.throws(() => mds.loadSync(source), { name: "TypeError", message: /`source` is/ });
    assert.throws(() => mds.loadSync(new URL("none.wasm", MODULE)), { name: "ModuleMissing" });
    assert.throws(() => mds.loadSync(bytes.subarray(0, 1000)), { name: "BadModule" });
    assert.throws(() => mds.loadSync(ofOtherVersion(bytes)), { name: "WrongVersion" });
});

test("a bundle that has no URL can be imported, and given the module", async () => {
    const folder = mkdtempSync(join(tmpdir(), "bundle-"));
    cpSync(join(PACKAGE, "lib"), join(folder, "lib"), { recursive: true });
    const source = readFileSync(join(PACKAGE, "fillaqut.mjs"), "utf8");
    assert.ok(source.includes('new URL("./fillaqut.wasm", import.meta.url)')); // as bundlers look for it
    writeFileSync(join(folder, "bundle.mjs"), source.replaceAll("import.meta", "({})"));
    const { load } = await import(pathToFileURL(join(folder, "bundle.mjs")));
    await assert.rejects(load(), { name: "ModuleMissing" });
    await assert.rejects(load("./none.wasm"), { name: "ModuleMissing" });
    assert.equal((await load(readFileSync(MODULE))).text("# a").scanAtxHeading(), 1);
    assert.equal((await load(MODULE)).text("# a").scanAtxHeading(), 1);
    assert.equal((await load(MODULE.href)).text("# a").scanAtxHeading(), 1);
    rmSync(folder, { recursive: true });
});

test("each function is called, and the package has one version", () => {
    const names = ["source", "blocks", "events", "inlines", "line_start", "pages", "readers", "text"];
    const files = names.map((name) => new URL(`../lib/${name}.mjs`, import.meta.url));
    const sources = [...files, new URL("../fillaqut.mjs", import.meta.url)].map((file) => readFileSync(file, "utf8")).join("");
    const missing = Object.keys(FUNCTIONS).filter((name) => !new RegExp(`"${name}"|calls\\.${name}\\b`).test(sources));
    assert.deepEqual(missing, []);
    assert.equal(JSON.parse(readFileSync(new URL("../package.json", import.meta.url), "utf8")).version, VERSION);
    assert.equal(mds.VERSION, VERSION);
});
