/**
 * Has Chromium read pieces of HTML, many to a document, and prints as JSON what it finds in them that safe HTML may not have: the
 * grammar of docs/SAFE_HTML.md, as the browser's own parser and URL parser see it, scripts that run, and what is asked for.
 *
 *     node tests/html/browser.mjs TEXTS.json
 */
import { readFileSync } from "node:fs";
import { Browser, serve } from "../../packages/javascript/tests/browser/chromium.mjs";

const { texts, together } = JSON.parse(readFileSync(process.argv[2], "utf8"));
const SIZE = { width: 800, height: 600 };
const LONGEST = 20_000;
// In the document before all others: whatever it calls says so.
const HOOKS = `var told = 0;
    for (const name of ["alert", "confirm", "prompt", "print", "open", "msgbox"]) window[name] = () => { told++; };`;

/** The pieces that stand in one document, each in an element of its own. */
function documentOf(first, last) {
    const sections = texts.slice(first, last).map(({ html }, at) => `<section data-text="${first + at}">${html}</section>`);
    return `<!doctype html><html><head><meta charset="utf-8"><script src="/hooks.js"></script></head><body>${sections.join("\n")}</body></html>`;
}

/** In the page: what stands in the sections, and in each text by itself, that safe HTML may not have. */
function judged(first, last, htmls) {
    const NAMES = "p h1 h2 h3 h4 h5 h6 blockquote ul ol li pre code table thead tbody tr th td em strong del sup sub a hr br img input".split(" ");
    const PROTOCOLS = ["http:", "https:", "mailto:", "tel:"];
    const isAny = () => true;
    const isOf = (...values) => (value) => values.includes(value);
    const isAligned = isOf("left", "center", "right");
    const ATTRIBUTES = {
        a: { href: isAny, title: isAny, rel: isOf("nofollow noopener") },
        img: { src: isAny, alt: isAny, title: isAny },
        code: { class: (value) => value.startsWith("language-") },
        ol: { start: (value) => /^[0-9]+$/.test(value) },
        th: { align: isAligned },
        td: { align: isAligned },
        input: { type: isOf("checkbox"), checked: isOf(""), disabled: isOf("") },
    };
    const found = [];
    const counts = { elements: 0, addresses: 0 };

    const judgeAddress = (text, value) => {
        counts.addresses++;
        let protocol = null;
        try {
            protocol = new URL(value, "http://127.0.0.1/a/b").protocol;
        } catch {
            return; // no URL, which leads nowhere
        }
        if (!PROTOCOLS.includes(protocol)) found.push({ text, sort: "address", detail: value });
    };
    const judgeAttribute = (text, element, { name, value }) => {
        const isRight = (ATTRIBUTES[element.localName] ?? {})[name];
        if (!isRight?.(value)) found.push({ text, sort: "attribute", detail: `${element.localName} ${name}=${value}` });
        else if (name === "href" || name === "src") judgeAddress(text, value);
    };
    const judgeElement = (text, element) => {
        counts.elements++;
        const isHtml = element.namespaceURI === "http://www.w3.org/1999/xhtml";
        if (!isHtml || !NAMES.includes(element.localName)) found.push({ text, sort: "element", detail: element.nodeName });
        for (const attribute of element.attributes) judgeAttribute(text, element, attribute);
    };
    const judge = (text, root) => {
        const walker = root.ownerDocument.createTreeWalker(root, NodeFilter.SHOW_ALL);
        while (walker.nextNode()) {
            const node = walker.currentNode;
            if (node.nodeType === Node.ELEMENT_NODE) judgeElement(text, node);
            else if (node.nodeType !== Node.TEXT_NODE) found.push({ text, sort: "node", detail: node.nodeName });
        }
    };
    const judgeOutside = (within) => {
        const text = first;
        const [html, head, body] = [within.documentElement, within.head, within.body];
        const isBare = html.attributes.length === 0 && body.attributes.length === 0 && html.children.length === 2;
        if (!isBare) found.push({ text, sort: "place", detail: "attributes of html or body, or other children" });
        return { head, body };
    };

    const { head, body } = judgeOutside(document);
    if (head.children.length !== 2) found.push({ text: first, sort: "place", detail: "another element in the head" });
    const sections = [...body.children];
    const isInOrder = sections.every((section, at) => section.localName === "section" && section.dataset.text === String(first + at));
    const text = [...body.childNodes].filter((node) => node.nodeType === Node.TEXT_NODE).map((node) => node.data).join("");
    if (!isInOrder || sections.length !== last - first || text.trim()) found.push({ text: first, sort: "place", detail: "the sections are others" });
    for (const section of sections) judge(Number(section.dataset.text ?? first), section);
    htmls.forEach((html, at) => {
        const parsed = new DOMParser().parseFromString(html, "text/html");
        judgeOutside(parsed);
        if (parsed.head.children.length) found.push({ text: first + at, sort: "place", detail: "an element in the head of its own" });
        judge(first + at, parsed.body);
    });
    if (window.told) found.push({ text: first, sort: "script", detail: `${window.told} calls of functions that tell` });
    return { found, ...counts };
}

const documents = [];
for (let first = 0; first < texts.length; first += together) documents.push([first, Math.min(first + together, texts.length)]);
const said = { read: 0, elements: 0, addresses: 0, images: 0, found: [] };
let current = null;
const find = (sort, detail, text = current[0]) => said.found.push({ sort, detail: String(detail).slice(0, 200), page: texts[text].page });

const served = await serve("/nowhere", (path) => {
    if (path === "/hooks.js") return Buffer.from(HOOKS);
    const number = /^\/document(\d+)\.html$/.exec(path);
    return number ? Buffer.from(documentOf(...documents[Number(number[1])])) : undefined;
});
const browser = new Browser();

/** Nothing leaves: of what is asked for the documents and their hooks are answered, and the rest fails. */
function asked({ requestId, request, resourceType }) {
    const isOurs = /^(document\d+\.html|hooks\.js)$/.test(request.url.slice(served.url.length)) && request.url.startsWith(served.url);
    if (isOurs) return browser.send("Fetch.continueRequest", { requestId });
    const isImage = resourceType === "Image" && /^https?:/.test(request.url);
    if (isImage) said.images++;
    else if (!request.url.endsWith("/favicon.ico")) find("request", `${resourceType} ${request.url}`);
    return browser.send("Fetch.failRequest", { requestId, errorReason: "BlockedByClient" });
}

/** A script that is compiled: our own are that of the hooks and those without a URL, which the protocol runs. */
function compiled({ url }) {
    if (url && url !== `${served.url}hooks.js`) find("script", `of ${url}`);
}

/** Reads one document, and says whether it could be judged. */
async function reads(number) {
    current = documents[number];
    const late = new Promise((_, reject) => setTimeout(() => reject(new Error("the document takes too long")), LONGEST).unref());
    try {
        await Promise.race([browser.open(`${served.url}document${number}.html`, SIZE), late]);
        const htmls = texts.slice(...current).map(({ html }) => html);
        const { found, elements, addresses } = await Promise.race([browser.ask(judged, ...current, htmls), late]);
        found.forEach((finding) => find(finding.sort, finding.detail, finding.text));
        said.elements += elements;
        said.addresses += addresses;
        said.read += htmls.length;
    } catch (why) {
        find("place", `the document is not read: ${why.message}`);
    }
}

browser.on("Fetch.requestPaused", (request) => asked(request).catch(() => null));
browser.on("Debugger.scriptParsed", compiled);
browser.on("Page.javascriptDialogOpening", ({ message }) => {
    find("script", `a dialog: ${message}`);
    browser.send("Page.handleJavaScriptDialog", { accept: true }).catch(() => null);
});
await browser.open("about:blank", SIZE);
await browser.send("Fetch.enable", { patterns: [{ urlPattern: "*" }] });
await browser.send("Debugger.enable");
for (let number = 0; number < documents.length; number++) await reads(number);
await browser.close();
served.close();
console.log(JSON.stringify(said));
