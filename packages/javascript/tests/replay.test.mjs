/**
 * The worked rows and the answers of pulldown-cmark 0.13.6 that crates/tests_replay stores, and what the package answers.
 * packages/javascript/totals has how many there are. Left out are labels whose text ends at a line ending, since no call of C
 * ends one there, texts with a name that the table of the cases may not have, and heads of lines, for which C has no call.
 */
import assert from "node:assert/strict";
import { readFileSync } from "node:fs";
import { test } from "node:test";
import { scanners } from "./c_calls.mjs";
import { hold } from "./totals.mjs";
import { TOP } from "./tree.mjs";

const CASES = new URL("crates/tests_replay/stdin", TOP);
/** The entities that the cases know. */
const ENTITIES = ["amp", "lt", "gt", "quot", "copy", "AElig", "ngE", "frac34"];
const NAMES = { none: "None", left: "Left", center: "Center", right: "Right" };
/** The kinds of HTML blocks, from the first condition on. */
const KINDS = ["RawText", "Comment", "Processing", "Declaration", "Cdata", "BlockName", "TagAlone"];

const bytesOf = (hex) => Buffer.from(hex === "-" ? "" : hex, "hex");
const hexOf = (bytes) => Buffer.from(bytes).toString("hex") || "-";
const orNone = (found) => `${found ?? "none"}`;
const level = (number) => (number === null ? "none" : `H${number}`);
const fence = (found) => (found ? `${found.end} ${found.character.charCodeAt(0)}` : "none");

/** What a handler of this name skips at the front of a line. */
const SKIPPED = {
    zero: () => 0,
    bq: (rest) => (rest.subarray(0, 2).equals(Buffer.from("> ")) ? 2 : 0),
    sp: (rest) => /^ {0,4}/.exec(rest.subarray(0, 4).toString("latin1"))[0].length,
    x: (rest) => (rest[0] === 0x78 ? 1 : 0),
};

/** What the handler skips, as a table of the page. */
function skipsOf(text, bytes, handler) {
    const rows = [];
    for (const found of bytes.toString("latin1").matchAll(/\r\n|\r|\n/g)) {
        const place = found.index + found[0].length;
        rows.push([place, SKIPPED[handler](bytes.subarray(place))]);
    }
    return text.skips(rows);
}

function hrule(text) {
    const end = text.scanHrule();
    return end === null ? `err ${text.noHruleBefore()}` : `ok ${end}`;
}

function listItem(text) {
    const found = text.scanListitem();
    return found ? `${found.end} ${found.delimiter.charCodeAt(0)} ${found.start} ${found.indent}` : "none";
}

function tableHead(text) {
    const found = text.scanTableHead();
    return found ? `${found.end} [${found.alignments.map((alignment) => NAMES[alignment]).join(", ")}]` : "0 []";
}

function setext(text) {
    const found = text.scanSetextHeading();
    return found ? `${found.end} H${found.level}` : "none";
}

function part(text, found) {
    return found ? `${found.end} ${hexOf(text.slice(found.start, found.stop))}` : "none";
}

/** How many bytes are taken is returned, and not the place. */
function linkDest(text, at, maxNext) {
    const found = text.scanLinkDest(Number(at), text.length, { maxNext: BigInt(maxNext) });
    return part(text, found && { ...found, end: found.end - Number(at) });
}

function wikilink(text, at, count) {
    const stop = Math.min(Number(at) + Number(count), text.length);
    return part(text, text.scanWikilinkPipe(Number(at), stop));
}

function autolink(text, at) {
    const found = text.scanAutolink(Number(at));
    return found ? `${part(text, found)} Autolink` : "none";
}

function entity(text) {
    const found = text.scanEntity();
    return found ? `${found.end} ${hexOf(found.text)}` : "0 none";
}

function tag(text, bytes, handler) {
    if (handler === "none") return text.scanHtmlTag() === null ? "none" : `- ${text.scanHtmlTag()}`;
    const found = text.scanHtmlTagOverLines(0, text.length, { skips: skipsOf(text, bytes, handler) });
    return found ? `${hexOf(found.text ?? "")} ${found.end}` : "none";
}

function label(text, bytes, handler, inTable) {
    const found = text.scanLinkLabel(0, text.length, { inTable: inTable === "1", skips: skipsOf(text, bytes, handler) });
    return found ? `${found.end} ${found.start !== null} ${hexOf(found.text)}` : "none";
}

function inlineHtml(text, bytes) {
    const guard = text.htmlScanGuard();
    const returned = [];
    let last = 0;
    for (const found of bytes.toString("latin1").matchAll(/<[!?]/g)) {
        const place = found.index + 2;
        if (place < last) continue;
        const end = guard.scan(place);
        last = end ?? last;
        returned.push(`${place}:${orNone(end)}`);
    }
    return returned.join(" ");
}

const LINE_CALLS = {
    space: (start, n) => start.space(n),
    upto: (start, n) => start.upto(n),
    list: (start, n) => {
        const found = start.listItem(n);
        return found ? `${found.delimiter.charCodeAt(0)}/${found.start}/${found.indent}` : "none";
    },
    def: (start, n) => orNone(start.definition(n)),
    all: (start) => start.allSpace() ?? "-",
    eol: (start) => start.eol(),
    quote: (start) => start.quote(),
    task: (start) => orNone(start.task()),
    tag: (start) => orNone(start.alert()).replace(/^(?!none)./, (letter) => letter.toUpperCase()),
    restlen: (start) => `${start.rest().length}`,
    rest: (start, count) => written(Buffer.from(start.rest()), Number(count)),
};

/** What is left of a line over so many `#`, as a case has it. */
function written(rest, count) {
    if (rest.length > count) return `err/${rest.length}/${"23".repeat(count)}`;
    return `ok/${rest.length}/${rest.toString("hex")}${"23".repeat(count - rest.length)}`;
}

function line(text, _, calls) {
    const start = text.lineStart();
    const steps = calls.split(",").map((call) => {
        const [name, number] = call.split(":");
        const returned = LINE_CALLS[name](start, number && BigInt(number));
        return `${returned} @${start.place}+${start.pending}`;
    });
    return steps.join(" ");
}

const CALLS = {
    eol: (text) => orNone(text.scanEol()),
    blank: (text) => orNone(text.scanBlankLine()),
    nextline: (text) => orNone(text.scanNextline()),
    wsnonl: (text) => orNone(text.scanWhitespaceInLine()),
    spacestabs: (text) => orNone(text.scanWhile(" \t")),
    chrepeat: (text, _, byte) => orNone(text.scanChRepeat(Number(byte))),
    indent: (text, _, max) => Object.values(text.calcIndent(0, text.length, { limit: BigInt(max) })).join("/"),
    bqstart: (text) => orNone(text.scanBlockquoteStart()),
    hrule,
    atx: (text) => level(text.scanAtxHeading()),
    setext,
    fence: (text) => fence(text.scanCodeFence()),
    closefence: (text, _, byte, count) => orNone(text.scanClosingCodeFence(Number(byte), BigInt(count))),
    meta: (text, _, yaml, pluses) => fence(text.scanMetadataBlock(0, text.length, { yaml: yaml === "1", pluses: pluses === "1" })),
    closemeta: (text, _, byte) => orNone(text.scanClosingMetadataBlock(Number(byte))),
    listitem: listItem,
    tablehead: tableHead,
    entity,
    unescape: (text, _, inTable) => hexOf(text.unescape(0, text.length, { inTable: inTable === "1" })),
    wikilink: (text, _, at, count) => wikilink(text, at, count),
    linkdest: (text, _, at, maxNext) => linkDest(text, at, maxNext),
    linktitle: (text) => orNone(text.scanLinkTitle()?.end ?? null),
    autolink: (text, _, at) => autolink(text, at),
    linelength: (text) => `${text.scanLine()}`,
    interrupts: (text) => `${text.interruptsParagraph()}`,
    htmlstart: (text) => KINDS[text.scanHtmlBlockStart() - 1] ?? "none",
    htmlends: (text, _, kind) => `${text.endsHtmlBlock(Number(kind))}`,
    type6: (text) => `${text.startsHtmlBlockType6()}`,
    type7: (text) => orNone(text.scanHtmlType7()),
    htmlinner: tag,
    inlinehtml: inlineHtml,
    label,
    line,
};

/** Whether the package can answer as the case does: numbers that are answered are exact up to 2^53. */
function isAlike(name, bytes, more, answer) {
    if (name === "linehead" || more.includes("refuse")) return false;
    if (name === "line") return answer.match(/\d+/g).every((number) => Number.isSafeInteger(Number(number)));
    if (name !== "entity" && name !== "unescape") return true;
    return [...bytes.toString("latin1").matchAll(/([A-Za-z][A-Za-z0-9]*);/g)].every(([, reference]) => ENTITIES.includes(reference));
}

/** The calls of C don't say whether a text that is made is the text itself. */
function wantedOf(name, answer) {
    return name === "unescape" ? answer.split(" ")[1] : answer;
}

test("the cases of tests_replay", () => {
    let tried = 0;
    for (const row of readFileSync(CASES, "latin1").trimEnd().split("\n")) {
        const [given, answer] = row.split("\t=>\t");
        const [name, hex, ...more] = given.split("\t");
        const bytes = bytesOf(hex);
        if (!isAlike(name, bytes, more, answer)) continue;
        assert.equal(CALLS[name](scanners.text(bytes), bytes, ...more), wantedOf(name, answer), row);
        tried++;
    }
    hold("replay", tried);
});
