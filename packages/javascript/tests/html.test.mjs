/** The HTML of pages, on the rows of packages/pages.tsv. */
import assert from "node:assert/strict";
import { test } from "node:test";
import * as mds from "../fillaqut.mjs";
import { MODULE } from "./module.mjs";
import { extensionsOf, pages, settingOf } from "./tables.mjs";
import { hold } from "./totals.mjs";

const scanners = await mds.load(MODULE);

function areRows(rows, call) {
    for (const row of rows) {
        const { page, answer, where } = row;
        const options = { extensions: extensionsOf(row), ...settingOf(row) };
        assert.equal(scanners[call](page, options), answer, where);
        assert.equal(scanners.text(page, { units: "utf-16" })[call](options), answer, where);
        assert.equal(Buffer.from(scanners[call](new TextEncoder().encode(page), options)).toString(), answer, where);
    }
}

test("each row of html_unsafe", () => {
    const rows = pages("html_unsafe");
    areRows(rows, "htmlUnsafe");
    hold("html_unsafe", rows.length);
});

test("each row of html", () => {
    const rows = pages("html");
    areRows(rows, "html");
    hold("html", rows.length);
});

test("settings", () => {
    const link = (address, text) => `<p><a href="${address}" rel="nofollow noopener">${text}</a></p>\n`;
    assert.deepEqual(mds.DEFAULT_SCHEMES, ["http", "https", "mailto", "tel"]);
    for (const schemes of [mds.DEFAULT_SCHEMES, ["ftp", "HTTPS"], undefined]) {
        assert.equal(scanners.html("<https://a>", { schemes }), link("https://a", "https://a"));
    }
    for (const schemes of [["ftp"], ["https:"], [""], []]) {
        assert.equal(scanners.html("<https://a>", { schemes }), link("", "https://a"));
        assert.equal(scanners.text("[a](b)").html({ schemes }), link("b", "a"));
    }
    assert.equal(scanners.html("a<b>", { rawHtml: "escaped", schemes: ["é", ""] }), "<p>a&lt;b&gt;</p>\n");
    assert.equal(scanners.html("[a](b)<c>", { rel: false, rawHtml: "omitted" }), '<p><a href="b">a</a></p>\n');
});

test("settings that are refused", () => {
    for (const rawHtml of ["kept", "Escaped", "", "toString", null, 1]) {
        assert.throws(() => scanners.html("a", { rawHtml }), { name: "TypeError", message: /`rawHtml` is .*, and not "escaped" or "omitted"/ });
    }
    for (const schemes of ["http", null, {}, [1], [null]]) assert.throws(() => scanners.html("a", { schemes }), { name: "TypeError", message: /scheme/ });
    assert.throws(() => scanners.html("a", { schemes: ["\ud800"] }), mds.LoneSurrogate);
    for (const given of [1, 0, null, "no"]) {
        assert.throws(() => scanners.html("a", { rel: given }), { name: "TypeError", message: /`rel` is/ });
        assert.throws(() => scanners.html("a", { imagesAsLinks: given }), { name: "TypeError", message: /`imagesAsLinks` is/ });
        assert.throws(() => scanners.html("a", { strict: given }), { name: "TypeError", message: /`strict` is/ });
        assert.throws(() => scanners.htmlUnsafe("a", { strict: given }), { name: "TypeError", message: /`strict` is/ });
    }
    for (const name of ["schemes", "rawHtml", "rel", "imagesAsLinks"]) {
        assert.throws(() => scanners.htmlUnsafe("a", { [name]: undefined }), { name: "TypeError", message: new RegExp(name) });
    }
});

test("html is safe", () => {
    assert.equal(scanners.html("<script>"), "&lt;script&gt;\n");
    assert.equal(scanners.htmlUnsafe("<script>"), "<script>\n");
    assert.throws(() => scanners.html("a", { safe: false }), { name: "TypeError", message: /safe/ });
    assert.throws(() => scanners.html("a", { unsafe: true }), { name: "TypeError", message: /unsafe/ });
});

test("unknown extensions", () => {
    assert.equal(scanners.htmlUnsafe("[[a|b]]", { extensions: ["wikilinks"] }), '<p><a href="a">b</a></p>\n');
    for (const extension of ["table", "Tables", "", "toString", 2, null]) {
        assert.throws(() => scanners.html("a", { extensions: ["tables", extension] }), { name: "TypeError", message: /there is no extension/ });
    }
    for (const extension of ["footnotes", "definition-lists"]) {
        const why = { name: "TypeError", message: `events and HTML are not built of the extension "${extension}" yet` };
        assert.throws(() => scanners.html("a", { extensions: [extension] }), why);
        assert.throws(() => scanners.htmlUnsafe("a", { extensions: ["tables", extension] }), why);
    }
    assert.throws(() => scanners.html("a", { extensions: "tables" }), { name: "TypeError", message: /extensions/ });
});

/** Bytes that are wrong in each way, alone and between others. */
function* wrongPages() {
    const bytes = [0x41, 0x80, 0xbf, 0xc2, 0xe0, 0xed, 0xf0, 0xf4, 0xff];
    const wrong = [[0xe2, 0x82], [0xed, 0xa0, 0x80], [0xf0, 0x9f, 0x8d], [0xf4, 0x90, 0x80, 0x80], ...bytes.flatMap((one) => bytes.map((other) => [one, other]))];
    for (const middle of wrong) {
        yield new Uint8Array(middle);
        yield new Uint8Array([35, 32, 60, 98, 62, 91, ...middle, 93, 40, 98, 41, 10, 0xf0, 0x9f]);
    }
}

/** The index of the first byte that a decoder refuses: no longer front can be read as a text that goes on. */
function firstWrong(page) {
    const decodes = (length) => {
        try {
            return new TextDecoder("utf-8", { fatal: true, ignoreBOM: true }).decode(page.subarray(0, length)) !== null;
        } catch {
            return false;
        }
    };
    const lengths = Array.from({ length: page.length + 1 }, (_, length) => length).filter(decodes);
    return lengths.at(-1);
}

test("pages that are not UTF-8", () => {
    for (const page of wrongPages()) {
        const text = new TextDecoder("utf-8", { ignoreBOM: true }).decode(page);
        for (const options of [{}, { rel: false }, { rawHtml: "omitted", strict: false }]) {
            assert.equal(Buffer.from(scanners.html(page, options)).toString(), scanners.html(text, options));
        }
        assert.equal(Buffer.from(scanners.htmlUnsafe(page)).toString(), scanners.htmlUnsafe(text));
        const index = firstWrong(page);
        if (index === page.length) {
            assert.equal(Buffer.from(scanners.html(page, { strict: true })).toString(), scanners.html(text, { strict: true }));
            continue;
        }
        for (const call of ["html", "htmlUnsafe"]) assert.throws(() => scanners[call](page, { strict: true }), { name: "NotUtf8", index });
    }
});

test("pages that are refused", () => {
    assert.throws(() => scanners.html(new Uint8Array([97, 255]), { strict: true }), { name: "NotUtf8", index: 1 });
    assert.throws(() => scanners.html("\ud800"), mds.LoneSurrogate);
    assert.throws(() => scanners.html(null), TypeError);
});

test("HTML that is longer than its first room", () => {
    const address = `/${"b".repeat(4999)}`;
    const page = `${"[a]\n".repeat(20)}\n[a]: ${address}\n`;
    const expected = `<p>${Array(20).fill(`<a href="${address}">a</a>`).join("\n")}</p>\n`;
    assert.equal(scanners.htmlUnsafe(page), expected);
    assert.equal(scanners.html(page, { rel: false }), expected);
});
