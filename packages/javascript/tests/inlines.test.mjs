/** The inlines of texts, on the rows of packages/pages.tsv. */
import assert from "node:assert/strict";
import { test } from "node:test";
import * as mds from "../fillaqut.mjs";
import { MODULE } from "./module.mjs";
import { asked, pages } from "./tables.mjs";
import { hold } from "./totals.mjs";

const scanners = await mds.load(MODULE);
const MARKS = {
    softBreak: "\n",
    hardBreak: "<br>",
    emphasis: "<em>",
    emphasisEnd: "</em>",
    strong: "<strong>",
    strongEnd: "</strong>",
    strikethrough: "<del>",
    strikethroughEnd: "</del>",
    linkEnd: "</>",
};

/** What is said of the inlines between two places of a text, where these extensions are asked for. */
function described(text, { extensions, definitions }, at = 0, end = text.length) {
    const part = ({ start, stop }) => Buffer.from(text.slice(start, stop)).toString();
    const meaning = (word) => scanners.text(word).unescape();
    const target = (link) => {
        if (link.target === "inline") return [part(link.destination), link.title ? part(link.title) : ""];
        const label = text.scanLinkLabel(link.label.start, end);
        assert.equal(label.end, link.label.stop + 1);
        return definitions.find(([name]) => scanners.labelsMatch(name, label.text)).slice(1);
    };
    const said = (inline) => {
        if (inline.kind in MARKS) return MARKS[inline.kind];
        if (inline.link?.target === "wiki") return `<${inline.kind === "image" ? "img" : "a"} ${part(inline.link.destination)}|>`;
        if (inline.link) return `<${inline.kind === "image" ? "img" : "a"} ${target(inline.link).map(meaning).join("|")}>`;
        if (inline.kind === "code") return `<code>${part(inline.content).replace(/\n/g, " ").replace(/^ (.*[^ ].*) $/, "$1")}</code>`;
        if (inline.content) return `<a ${inline.kind === "email" ? "mailto:" : ""}${part(inline.content)}|>${part(inline.content)}</>`;
        if (inline.kind === "html") return `<html>${part(inline)}</html>`;
        return inline.kind === "text" ? part(inline) : meaning(part(inline));
    };
    return Array.from(text.scanInlines(at, end, { labels: definitions.map(([name]) => name), extensions }), said).join("");
}

test("each row, by itself, inside of other text, as bytes and in UTF-16 units", () => {
    const rows = pages("scan_inlines");
    for (const row of rows) {
        const { page: text, answer, where } = row;
        const [bytes, inside, options] = [Buffer.from(text), `é🍔[${text}]*é`, asked(row)];
        assert.equal(described(scanners.text(text), options), answer, where);
        assert.equal(described(scanners.text(bytes), options), answer, where);
        assert.equal(described(scanners.text(inside), options, 7, 7 + bytes.length), answer, where);
        assert.equal(described(scanners.text(inside, { units: "utf-16" }), options, 4, 4 + text.length), answer, where);
    }
    hold("scan_inlines", rows.length);
});

test("the fields of inlines", () => {
    const [image, text, end, ...others] = scanners.text("![é](<b> 'c')", { units: "utf-16" }).scanInlines();
    const span = (start, stop) => ({ start, stop });
    assert.deepEqual(image, { kind: "image", ...span(0, 2), link: { target: "inline", end: 13, destination: span(6, 7), title: span(10, 11) } });
    assert.deepEqual([text, end, others], [{ kind: "text", ...span(2, 3) }, { kind: "linkEnd", ...span(3, 13) }, []]);
    const first = (given, labels) => [...scanners.text(given).scanInlines(0, given.length, { labels })][0];
    assert.equal(first("[a](b)").link.title, null);
    assert.deepEqual(first("[a][b]", ["B"]).link, { target: "full", end: 6, label: span(4, 5) });
    assert.deepEqual(first("[b][]", ["c", "B"]).link, { target: "collapsed", end: 5, label: span(1, 2) });
    assert.deepEqual(first("[b]", [new Uint8Array([66])]).link, { target: "shortcut", end: 3, label: span(1, 2) });
    const contents = Array.from(scanners.text("``a``<bb:c><d@e>").scanInlines(), (inline) => inline.content);
    assert.deepEqual(contents, [span(2, 3), span(6, 10), span(12, 15)]);
});

test("strikethrough, where it is asked for: examples of GitHub Flavored Markdown 0.29", () => {
    const marks = { strikethrough: "<del>", strikethroughEnd: "</del>" };
    const part = (text, { kind, start, stop }) => marks[kind] ?? text.slice(start, stop);
    const struck = (text, extensions) =>
        Array.from(scanners.text(text).scanInlines(0, text.length, { extensions }), (inline) => part(text, inline)).join("");
    const text = "~~Hi~~ Hello, ~there~ world!"; // 491
    assert.equal(struck(text, ["strikethrough"]), "<del>Hi</del> Hello, <del>there</del> world!");
    assert.equal(struck(text, ["tables", "footnotes", "tasks", "definition-lists", "wikilinks"]), text);
    assert.equal(struck(text), text);
    for (const line of ["This ~~has a", "new paragraph~~."]) assert.equal(struck(line, ["strikethrough"]), line); // 492
    assert.throws(() => struck(text, ["strike"]), { name: "TypeError", message: /no extension "strike", but tables/ });
    assert.throws(() => struck(text, "strikethrough"), { name: "TypeError", message: /extensions/ });
    assert.throws(() => scanners.text(text).scanInlines(0, 1, { strikethrough: true }), { name: "TypeError", message: /strikethrough/ });
});

test("wikilinks, where they are asked for", () => {
    const span = (start, stop) => ({ start, stop });
    const inlines = (text, extensions) => [...scanners.text(text).scanInlines(0, text.length, { extensions })];
    const [image, text, end, link, last] = inlines("![[ab|c]][[d]]", ["wikilinks"]);
    assert.deepEqual(image, { kind: "image", ...span(0, 6), link: { target: "wiki", end: 9, destination: span(3, 5) } });
    assert.deepEqual([text, end], [{ kind: "text", ...span(6, 7) }, { kind: "linkEnd", ...span(7, 9) }]);
    assert.deepEqual(link, { kind: "link", ...span(9, 12), link: { target: "wiki", end: 14, destination: span(11, 12) } });
    assert.deepEqual(last, { kind: "linkEnd", ...span(12, 14) });
    const kinds = (text, extensions) => new Set(inlines(text, extensions).map((inline) => inline.kind));
    for (const none of ["[[]]", "[[a]", "[[a|b](c)"]) assert.deepEqual(kinds(none, ["wikilinks"]), new Set(["text"]));
    assert.deepEqual(kinds("~[[a]]~", []), new Set(["text"]));
    assert.deepEqual(kinds("~[[a]]~", ["wikilinks"]), new Set(["text", "link", "linkEnd"]));
    assert(kinds("~[[a]]~", ["strikethrough", "wikilinks"]).has("strikethrough"));
});

test("many inlines and labels", () => {
    const text = `${"*a ".repeat(5000)}${"b*".repeat(5000)}[9999]`;
    const labels = Array.from({ length: 10_000 }, (_, index) => `${index}`);
    const kinds = Array.from(scanners.text(text).scanInlines(0, text.length, { labels }), (inline) => inline.kind);
    assert.equal(kinds.filter((kind) => kind === "emphasisEnd").length, 5000);
    assert.deepEqual(kinds.slice(-3), ["link", "text", "linkEnd"]);
    assert.deepEqual([...scanners.text("").scanInlines()], []);
});

test("what is refused of texts and labels", () => {
    const given = (labels) => () => scanners.text("[a]").scanInlines(0, 3, { labels });
    for (const value of ["a", {}, [1]]) assert.throws(given(value), TypeError);
    assert.throws(given(["\ud800"]), mds.LoneSurrogate);
    assert.throws(given([new Uint8Array([255])]), { name: "NotUtf8", index: null });
    assert.throws(() => scanners.text(new Uint8Array([255, 97, 128])).scanInlines(1), { name: "NotUtf8", index: 2 });
    assert.throws(() => scanners.text("a").scanInlines(2), RangeError);
    assert.throws(() => scanners.text("a").scanInlines(0, 1, { label: [] }), TypeError);
});
