/** The memory that a module is given: blocks that grow, move and are given back, and what is refused. */
import assert from "node:assert/strict";
import { test } from "node:test";
import { Heap } from "../lib/heap.mjs";
import * as mds from "../fillaqut.mjs";
import { MODULE } from "./module.mjs";

const PAGE = 65536;
const scanners = await mds.load(MODULE);

test("the last block grows where it stands, another one moves", () => {
    const heap = new Heap(new WebAssembly.Memory({ initial: 1, maximum: 4 }), 16);
    const first = heap.take(10);
    const last = heap.take(10);
    assert.deepEqual([first, last], [16, 32]);
    heap.bytes.fill(7, first, first + 10);
    assert.equal(heap.resize(last, 10, 20, 16), last);
    const moved = heap.resize(first, 10, 40, 16);
    assert.ok(moved >= last + 20);
    assert.deepEqual([...heap.bytes.subarray(moved, moved + 12)], [...Array(10).fill(7), 0, 0]);
});

test("only the last block is given back by itself", () => {
    const heap = new Heap(new WebAssembly.Memory({ initial: 1, maximum: 4 }), 16);
    const [first, last] = [heap.take(10), heap.take(10)];
    heap.give(first);
    assert.equal(heap.take(1), last + 16);
    heap.give(last + 16);
    assert.equal(heap.take(1), last + 16);
});

test("what a memory has no room for is refused, and less is given", () => {
    const heap = new Heap(new WebAssembly.Memory({ initial: 1, maximum: 3 }), 16);
    for (const size of [3 * PAGE, 2 ** 40, 2 ** 63]) assert.equal(heap.take(size), null);
    const at = heap.take(2 * PAGE);
    assert.equal(at, 16);
    assert.equal(heap.resize(at, 2 * PAGE, 4 * PAGE, 16), null);
    heap.bytes[at + 2 * PAGE - 1] = 1;
    assert.equal(heap.bytes.length, 3 * PAGE);
});

test("memory that is refused within a call has an error, and the next call has it", () => {
    const [leaf] = scanners.text("> a\n".repeat(100)).scanBlocks();
    const calls = [
        () => scanners.text("a &amp; b").unescape(),
        () => scanners.text("[a\n b]").scanLinkLabel(1),
        () => scanners.labelKey("Straße"),
        () => scanners.text("|-|").scanTableHead(),
        () => scanners.text("<!a>").runInlineHtml([2]),
        () => [...scanners.text("> a\n".repeat(100)).scanBlocks()].map((block) => block.line),
        () => leaf.content(),
        () => scanners.text("- a\n".repeat(100)).scanLists(),
        () => scanners.html("*a*"),
        () => scanners.html("<ftp:a>", { schemes: ["ftp"], rawHtml: "omitted" }),
        () => [...scanners.text("*[a]*").scanInlines(0, 5, { labels: ["A"], extensions: ["strikethrough"] })],
    ];
    for (const call of calls) {
        const expected = call();
        assert.throws(() => refusing(call), mds.OutOfMemory);
        assert.deepEqual(call(), expected);
    }
});

test("after a large page its memory is given back, and what is used goes on", async () => {
    const own = await mds.load(MODULE);
    const { engine } = own.text("");
    const page = own.text("# a\n".repeat(2_000_000));
    const start = own.text("> b").lineStart();
    assert.ok(start.quote());
    assert.equal(page.html().length, 2_000_000 * "<h1>a</h1>\n".length);
    assert.ok(engine.heap.bytes.length > 2 ** 26);
    for (let count = 0; count < 100; count++) assert.equal(own.html("*c*"), "<p><em>c</em></p>\n");
    assert.ok(engine.heap.bytes.length < 2 ** 23, `${engine.heap.bytes.length}`);
    assert.deepEqual([start.place, start.pending, start.eol()], [2, 0, false]);
    assert.equal(page.scanAtxHeading(4), 1);
});

test("a large text that is used again and again stays where it is", async () => {
    const own = await mds.load(MODULE);
    const { engine } = own.text("");
    const page = own.text("a\n".repeat(40_000_000));
    for (let count = 0; count < 1000; count++) assert.deepEqual([page.scanLine(count * 2), own.labelKey("A")], [count * 2 + 2, "a"]);
    const { heap } = engine;
    for (let count = 0; count < 10; count++) own.labelKey("A");
    assert.equal(engine.heap, heap);
    assert.ok(heap.bytes.length > 2 ** 26);
});

/** Makes a call while the functions of the module are refused memory; the buffers that they are given are there. */
function refusing(call) {
    const { engine } = scanners.text("");
    const { calls, heap } = engine;
    engine.calls = Object.fromEntries(Object.entries(calls).map(([name, original]) => [name, without(heap, original)]));
    try {
        return call();
    } finally {
        engine.calls = calls;
    }
}

/** A call during which the heap takes nothing. */
function without(heap, call) {
    return (...given) => {
        heap.take = () => null;
        try {
            return call(...given);
        } finally {
            delete heap.take;
        }
    };
}

test("a guard counts what its scans pass over", () => {
    const text = scanners.text("<!-- a\n".repeat(1000));
    const guard = text.htmlScanGuard();
    for (let at = 2; at < text.length; at += 7) assert.equal(guard.scan(at), null);
    assert.ok(guard.passed >= text.length - 4 && guard.passed <= 4 * text.length + 8 * 1000, `${guard.passed}`);
});
