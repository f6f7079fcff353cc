/**
 * The panes of the page in a headless Chromium: what they show is what the C functions answer, by each extension and setting; that unsafe HTML
 * runs and loads nothing; a link that holds a text; keys, names and focus; 360 pixels, and both colour schemes. packages/javascript/totals has
 * how many answers are compared.
 */
import assert from "node:assert/strict";
import { execFileSync } from "node:child_process";
import { readFileSync } from "node:fs";
import { after, before, test } from "node:test";
import { fileURLToPath } from "node:url";
import { hold } from "../totals.mjs";
import { TOP } from "../tree.mjs";
import { asked, browser, choose, click, DESK, faults, fill, LIBRARY, open, report, settled, start, stop, type, urlOf } from "./driven.mjs";
import { TYPED } from "./typed.mjs";

const NATIVE = fileURLToPath(new URL("native_panes.py", import.meta.url));
const PANES = ["rendered", "html", "events", "blocks", "links", "timing", "lines", "outline", "tables", "labels", "scans"];
const GITHUB = ["tables", "strikethrough", "tasks"];
const SETTING = { rawHtml: "escaped", rel: true, imagesAsLinks: false };
/** With the characters of TYPED that have one UTF-16 unit each: offsets are those of characters then. */
const PAGE = `${TYPED.replaceAll("🍔", "é")}\n![an *image*](b "c") ~~d~~ [[e]]\n\n[^f]: g\n\nh\n: i\n`;

before(start);
after(stop);

/** The rows of the table of extensions, by their names. */
function table() {
    const rows = readFileSync(new URL("packages/extensions.tsv", TOP), "utf8").split("\n").filter((line) => line && !line.startsWith("#"));
    return rows.map((row) => row.split("\t")).map(([name, , , built]) => ({ name, isBuilt: built === "yes" }));
}

/** What the C functions answer of a text. */
function native(text, extensions = GITHUB, setting = SETTING) {
    const input = `${JSON.stringify({ text, extensions, setting })}\n`;
    return JSON.parse(execFileSync("python3", [NATIVE], { input, encoding: "utf8", env: { ...process.env, FILLAQUT_LIBRARY: LIBRARY }, maxBuffer: 2 ** 28 }));
}

const htmlShown = () => browser.ask(() => document.querySelector("#view .written").textContent);

/** In the page: the entries of a list, each with the units that it says and with what is marked when it is chosen. */
function entries() {
    return [...document.querySelectorAll("#view button.entry")].map((button) => {
        button.click();
        const [, start, stop] = /units (\d+) to (\d+)$/.exec(document.getElementById("units").textContent).map(Number);
        const { selectionStart, selectionEnd } = document.getElementById("text");
        const [number, what] = [...button.children].map((part) => part.textContent);
        return { number, what, name: document.querySelector("#answer code").textContent, start, stop, selectionStart, selectionEnd };
    });
}

async function opened(size = DESK, url = undefined) {
    await open(size, url);
    await settled("drawn");
}

test("each extension has a box, and changes what is drawn", async () => {
    await opened();
    const all = () => Array.from(document.querySelectorAll('[name="extension"]'), (box) => [box.value, box.checked, box.labels[0].textContent]);
    const boxes = await browser.ask(all);
    assert.deepEqual(boxes.map(([name]) => name), table().map(({ name }) => name));
    assert.deepEqual(boxes.filter(([, checked]) => checked).map(([name]) => name), GITHUB);
    for (const [index, { isBuilt }] of table().entries()) assert.equal(boxes[index][2].includes("of blocks alone"), !isBuilt);
    // The words of the table in examples that show each: GitHub Flavored Markdown 0.29, 4.10, 5.3 and 6.5, and Obsidian's links.
    const shown = { tables: ["|a|\n|-|\n", "<table>"], strikethrough: ["~~a~~", "<del>"], tasks: ["- [x] a", "<input"], wikilinks: ["[[a]]", '<a href="a"'] };
    await choose("html");
    for (const [name, [text, part]] of Object.entries(shown)) {
        await type(text);
        const isTicked = GITHUB.includes(name);
        assert.equal((await htmlShown()).includes(part), isTicked, name);
        await click(`[value="${name}"]`);
        assert.equal((await htmlShown()).includes(part), !isTicked, name);
    }
    await choose("blocks");
    for (const [name, text, container] of [["footnotes", "[^a]: b\n", "footnote"], ["definition-lists", "a\n: b\n", "termDefinition"]]) {
        await type(text);
        for (const isTicked of [false, true]) {
            const found = await browser.ask(entries);
            assert.equal(found.some((entry) => entry.what.startsWith(`${container} › `)), isTicked, name);
            if (!isTicked) await click(`[value="${name}"]`);
        }
    }
    assert.deepEqual(faults, []);
});

test("HTML is what the C functions answer, with each setting", async () => {
    await opened();
    await choose("html");
    await type(PAGE);
    let tried = 0;
    const compare = async (expected) => {
        assert.equal(await htmlShown(), expected);
        tried++;
    };
    await compare(native(PAGE).html);
    for (const [box, setting] of [["omitted", { rawHtml: "omitted" }], ["rel", { rel: false }], ["images", { imagesAsLinks: true }]]) {
        await click(`[name="${box}"]`);
        await compare(native(PAGE, GITHUB, { ...SETTING, ...setting }).html);
        await click(`[name="${box}"]`);
    }
    await click('[value="unsafe"]');
    await compare(native(PAGE).unsafe);
    for (const { name } of table()) if (!GITHUB.includes(name)) await click(`[value="${name}"]`);
    await compare(native(PAGE, table().map(({ name }) => name)).unsafe);
    hold("panes_html", tried);
});

test("events and blocks are what the C functions answer, and their ranges are marked", async () => {
    await opened();
    await type(PAGE);
    const expected = native(PAGE);
    let tried = 0;
    await choose("events");
    const events = await browser.ask(entries);
    const named = expected.events.map(([kind, of, start, stop]) => [of ? `${kind} ${of}` : kind, start, stop]);
    assert.deepEqual(events.map(({ name, start, stop }) => [name, start, stop]), named.slice(0, 1000));
    await choose("blocks");
    const blocks = await browser.ask(entries);
    assert.deepEqual(blocks.map(({ name, start, stop }) => [name.split(" ")[0], start, stop]), expected.blocks.slice(0, 1000));
    for (const { number, start, stop, selectionStart, selectionEnd } of [...events, ...blocks]) {
        assert.deepEqual([number, selectionStart, selectionEnd], [`${start}–${stop}`, start, stop]);
        tried++;
    }
    assert.ok(tried > 100);
    hold("panes_listed", tried);
});

test("links and images are listed with where they lead", async () => {
    await opened();
    await type('[a *b*](/c "d") ![e](f) <https://g.h> [i]\n\n[i]: j\n');
    await choose("links");
    const found = await browser.ask(entries);
    assert.deepEqual(found.map(({ what, start, stop }) => [what, start, stop]), [
        ["link a b → /c", 0, 15], ["image e → f", 16, 23], ["link https://g.h → https://g.h", 24, 37], ["link i → j", 38, 41],
    ]);
    await type("no link");
    assert.equal(await browser.ask(() => document.querySelector("#view").textContent), "There are no links and no images.");
});

test("long lists and long HTML are drawn in part", async () => {
    await opened();
    await choose("events");
    await fill("a\n\n".repeat(2000));
    await settled("drawn");
    assert.equal(await browser.ask(() => document.querySelectorAll("#view .entry").length), 1000);
    assert.ok((await browser.ask(() => document.getElementById("view").clientHeight)) < DESK.height, "the pane is as long as its list");
    assert.match(await browser.ask(() => document.querySelector("#view").textContent), /and 5000 more$/); // three events of each paragraph
    await choose("html");
    await fill(`${"b".repeat(999)}\n`.repeat(300));
    await settled("drawn");
    assert.match(await browser.ask(() => document.querySelector("#view .note").textContent), /^The beginning of 300007 characters$/);
    assert.equal((await htmlShown()).length, 200_001);
});

test("times are measured of each call", async () => {
    await opened();
    await choose("timing");
    const rows = await browser.ask(() => [...document.querySelectorAll("#view tr")].map((row) => [...row.children].map((cell) => cell.textContent)));
    assert.deepEqual(rows.map(([name]) => name), ["Call", "html", "htmlUnsafe", "events", "scanBlocks"]);
    for (const [, best, middle, runs] of rows.slice(1)) assert.ok(parseFloat(best) <= parseFloat(middle) && Number(runs) >= 1, `${best} ${middle} ${runs}`);
    assert.match(await report(), /bytes, read in \d+ ms; timing in [\d.]+ ms$/);
});

/** What tries to run, to load and to leave, in HTML that is not made safe. */
const HOSTILE = `<script>parent.document.title = "ran"; top.document.title = "ran"; fetch("/leak1");</script>
<img src="/leak2" onerror="parent.document.title = 'ran'">
<link rel="stylesheet" href="/leak3"><style>@import "/leak4"; body { background: url(/leak5) }</style>
<iframe src="/leak6"></iframe><object data="/leak7"></object><embed src="/leak8">
<meta http-equiv="refresh" content="0;url=/leak9"><base href="http://127.0.0.1:1/">
<form action="/leak10"><button id="leak">Send</button></form><video src="/leak11" autoplay></video>
<svg><script href="/leak12"></script></svg><a id="leave" href="/leak13">leave</a>
`;

test("unsafe HTML is said to be so, and its frame runs nothing, loads nothing and leads nowhere", async () => {
    await opened();
    const mode = () => browser.ask(() => [document.getElementById("theorem").className, document.getElementById("theorem").textContent.split(":")[0]]);
    assert.deepEqual(await mode(), ["", "Safe"]);
    await type(HOSTILE);
    assert.equal(await browser.ask(() => document.querySelector("#view iframe").sandbox.value), "allow-same-origin");
    await click('[value="unsafe"]');
    assert.deepEqual(await mode(), ["unsafe", "UNSAFE"]);
    assert.equal(await browser.ask(() => document.querySelector("#view iframe").sandbox.value), "");
    assert.equal(await browser.ask(() => document.querySelector("#view iframe").contentDocument), null);
    await new Promise((resolve) => setTimeout(resolve, 1500));
    const { x, y } = await browser.ask(() => document.querySelector("#view iframe").getBoundingClientRect().toJSON());
    for (let down = 20; down < 300; down += 10) await pressAt(x + 30, y + down);
    await new Promise((resolve) => setTimeout(resolve, 500));
    assert.deepEqual(asked.filter((path) => path.includes("leak")), []);
    assert.equal(await browser.ask(() => document.title), "fillaqut: a playground");
    assert.deepEqual(await browser.ask(() => [...document.querySelectorAll("[data-safe]")].map((box) => box.disabled)), [true, true, true]);
    await click('[value="safe"]');
    assert.deepEqual(await mode(), ["", "Safe"]);
    const raw = () => document.querySelector("#view iframe").contentDocument.body.querySelectorAll("script,img,iframe,style,form,svg").length;
    assert.equal(await browser.ask(raw), 0);
});

async function pressAt(x, y) {
    for (const kind of ["mousePressed", "mouseReleased"]) await browser.send("Input.dispatchMouseEvent", { type: kind, x, y, button: "left", clickCount: 1 });
}

test("a link holds the text and the options, and its HTML is safe", async () => {
    await opened();
    const text = "# é 🍔\n\n\t- a & b = c#d\r\n";
    await type(text.replaceAll("\r\n", "\n"));
    for (const selector of ['[value="wikilinks"]', '[value="tasks"]', '[name="rel"]', '[name="images"]', '[value="unsafe"]']) await click(selector);
    await browser.ask(() => document.getElementById("share").click());
    await browser.ask(async () => {
        while (!location.hash) await new Promise((resolve) => setTimeout(resolve, 10));
    });
    const fragment = await browser.ask(() => location.hash);
    assert.match(fragment, /^#o=tables\.strikethrough\.wikilinks\.norel\.images&t=[\w-]+$/);
    assert.match(await browser.ask(() => document.getElementById("shared").textContent), /after its #, what browsers send nowhere\.$/);
    assert.ok(asked.every((path) => !path.includes("#") && !path.includes("t=")));
    await opened(DESK, urlOf(fragment));
    assert.equal(await browser.ask(() => document.getElementById("text").value), text.replaceAll("\r\n", "\n"));
    const form = await browser.ask(() => [...new FormData(document.getElementById("options"))].map((pair) => pair.join("=")));
    assert.deepEqual(form, ["extension=tables", "extension=strikethrough", "extension=wikilinks", "html=safe", "images=on"]);
    assert.deepEqual(faults, []);
});

test("a link that can't be read is said to be so, and another one is followed", async () => {
    await opened(DESK, urlOf("#o=tables&t=AAAA"));
    assert.match(await browser.ask(() => document.getElementById("shared").textContent), /^The text of this address can't be read: /);
    assert.match(await browser.ask(() => document.getElementById("text").value), /^# Tabs are columns/);
    const made = await browser.ask(async () => (await import("/page/link.mjs")).fragmentOf("*new*", "tables"));
    await browser.ask((fragment) => { location.hash = fragment; }, made);
    await browser.ask(async () => {
        const isNew = () => document.getElementById("text").value === "*new*" && document.body.dataset.state === "drawn";
        while (!isNew()) await new Promise((resolve) => setTimeout(resolve, 10));
    });
    assert.match(await report(), /^1 lines, 5 bytes/);
    const bomb = await browser.ask(async () => {
        const { heldBy } = await import("/page/link.mjs");
        const packed = await new Response(new Blob(["a".repeat(5_000_000)]).stream().pipeThrough(new CompressionStream("deflate-raw"))).arrayBuffer();
        const letters = btoa(String.fromCharCode(...new Uint8Array(packed))).replaceAll("+", "-").replaceAll("/", "_").replaceAll("=", "");
        return heldBy(`#o=&t=${letters}`).then(() => "read", (why) => why.message);
    });
    assert.equal(bomb, "the link holds too long a text");
    await fill("a".repeat(300_000));
    await settled("drawn");
    await browser.ask(() => document.getElementById("share").click());
    await new Promise((resolve) => setTimeout(resolve, 200));
    assert.equal(await browser.ask(() => document.getElementById("shared").textContent), "A link holds 200000 characters at most.");
});

/** In the page: what has the focus, by its id, value or name; and whether a ring is drawn around it, or around what it stands in. */
function focused() {
    const on = document.activeElement;
    const rings = [on, on.closest(".open")].filter((of) => of).map((of) => getComputedStyle(of));
    const hasRing = rings.some(({ outlineStyle, outlineWidth }) => outlineStyle !== "none" && parseFloat(outlineWidth) > 0);
    return { name: on.id || (on.value !== "on" && on.value) || on.name || on.tagName.toLowerCase(), hasRing };
}

test("the tabulator goes through all controls in the order of the page, and each shows the focus", async () => {
    await opened();
    await choose("events");
    await browser.ask(() => document.body.focus());
    const order = [];
    for (let presses = 0; presses < 24 && !order.at(-1)?.isLast; presses++) {
        await browser.key("Tab");
        const found = await browser.ask(focused);
        assert.ok(found.hasRing, `${found.name} shows no focus`);
        order.push({ ...found, isLast: order.at(-1)?.name === "view" });
    }
    const names = table().map(({ name }) => name);
    const expected = [...names, "summary", "safe", "omitted", "rel", "images", "share", "file", "text", "tab-events", "a", "view", "button"];
    assert.deepEqual(order.map(({ name }) => name), expected);
});

test("boxes are ticked by the space key, and tabs and answers are chosen by arrows", async () => {
    await opened();
    await choose("html");
    await type("[[a]]");
    await browser.ask(() => document.querySelector('[value="wikilinks"]').focus());
    await browser.key(" ");
    await settled("drawn");
    assert.match(await htmlShown(), /^<p><a href="a"/);
    await browser.ask(() => document.getElementById("tab-html").focus());
    await browser.key("ArrowRight");
    await settled("drawn");
    assert.equal(await browser.ask(() => document.activeElement.id), "tab-events");
    await browser.ask(() => document.querySelector("#view button").focus());
    await browser.key("ArrowDown");
    assert.equal(await browser.ask(() => document.getElementById("units").textContent), "UTF-16 units 0 to 5");
    assert.equal(await browser.ask(() => document.querySelector("[aria-current] .what").textContent.slice(0, 10)), "start link");
});

test("all that can be used has a role and a name", async () => {
    await opened();
    let tried = 0;
    for (const pane of PANES) {
        await choose(pane);
        const { nodes } = await browser.send("Accessibility.getFullAXTree");
        const used = nodes.filter(({ ignored, properties }) => !ignored && properties?.some(({ name, value }) => name === "focusable" && value.value));
        for (const { role, name } of used.filter((node) => node.role.value !== "RootWebArea")) {
            assert.ok(role.value && name?.value, `${pane}: ${role.value} has no name`);
            tried++;
        }
        const panel = nodes.find(({ role }) => role?.value === "tabpanel");
        assert.equal(panel.name.value.toLowerCase(), pane);
    }
    assert.ok(tried > 200);
});

/** In the page: the texts in sight whose colour differs too little from what is under them, of this and of what stands around. */
function pale(least) {
    const channels = (colour) => colour.match(/[\d.]+/g).map(Number);
    const linear = (part) => (part <= 0.03928 * 255 ? part / 255 / 12.92 : ((part / 255 + 0.055) / 1.055) ** 2.4);
    const light = ([red, green, blue]) => 0.2126 * linear(red) + 0.7152 * linear(green) + 0.0722 * linear(blue);
    const under = (of) => {
        for (let at = of; at; at = at.parentElement) {
            const found = channels(getComputedStyle(at).backgroundColor);
            if (found.length < 4 || found[3] === 1) return found;
        }
        return [255, 255, 255];
    };
    const hasText = (of) => [...of.childNodes].some((node) => node.nodeType === 3 && node.data.trim());
    const isText = (of) => hasText(of) && of.checkVisibility() && !of.closest("#marks, :has(> :disabled), script");
    const all = [...document.querySelectorAll("body *")].filter(isText);
    const found = all.map((of) => {
        const [one, other] = [channels(getComputedStyle(of).color), under(of)].map(light).sort((a, b) => b - a);
        return { of: `${of.tagName}.${of.className} ${of.textContent.slice(0, 20)}`, contrast: (one + 0.05) / (other + 0.05) };
    });
    return { tried: found.length, pale: found.filter(({ contrast }) => contrast < least) };
}

test("at 360 pixels and at 1280, in light and in dark, nothing is too wide or too pale", async () => {
    for (const dark of [false, true]) {
        for (const width of [360, 1280]) {
            await opened({ width, height: 800, dark });
            const style = await browser.ask(() => ["backgroundColor", "color"].map((property) => getComputedStyle(document.body)[property]));
            const [paper, ink] = style.map((color) => Number(/\d+/.exec(color)[0]));
            assert.ok(dark ? paper < 60 && ink > 180 : paper > 200 && ink < 80);
            await browser.ask(() => { document.querySelector("details").open = true; });
            await click('[value="unsafe"]');
            for (const pane of PANES) {
                await choose(pane);
                assert.ok((await browser.ask(() => document.documentElement.scrollWidth)) <= width, `${pane} is wider than ${width} pixels`);
                const found = await browser.ask(pale, 4.5); // WCAG 2.2, 1.4.3
                assert.ok(found.tried > 20);
                assert.deepEqual(found.pale, [], `${pane}, ${dark ? "dark" : "light"}`);
            }
        }
    }
});

test("each pane says which theorem it stands on, and the page of theorems has it", async () => {
    await opened();
    const links = [];
    for (const pane of [...PANES, "unsafe"]) {
        if (pane === "unsafe") await click('[value="unsafe"]');
        else await choose(pane);
        links.push(await browser.ask(() => document.querySelector("#theorem a").getAttribute("href")));
        assert.ok((await browser.ask(() => document.getElementById("theorem").textContent.length)) > 50, pane);
    }
    await choose("rendered");
    assert.match(await browser.ask(() => document.querySelector("#theorem a").href), /#unsafe$/);
    await open(DESK, urlOf("page/theorems.html"));
    const ids = await browser.ask(() => [...document.querySelectorAll("section")].map((of) => `page/theorems.html#${of.id}`));
    links.forEach((link) => assert.ok(ids.includes(link), link));
    assert.equal(await browser.ask(() => getComputedStyle(document.body).maxWidth), "768px"); // its style sheet is there
    assert.deepEqual(faults, []);
});

test("the page's policy lets nothing but its own files in, and its panes need no more", async () => {
    await opened();
    for (const pane of PANES) await choose(pane);
    assert.deepEqual(faults, []);
    const found = await browser.ask(async () => {
        const script = document.createElement("script");
        script.textContent = "document.title = 'ran'";
        document.body.append(script);
        const fetched = await fetch("/index.html").then(() => "fetched", () => "refused");
        return [document.title, fetched];
    });
    assert.deepEqual(found, ["fillaqut: a playground", "refused"]);
    assert.ok(faults.length >= 2);
});
