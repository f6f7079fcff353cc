/** Reads the tables of packages, files *.tsv, which the tests of all packages share. What it can't read is an error. */
import assert from "node:assert/strict";
import { readFileSync } from "node:fs";
import * as c from "../lib/c.mjs";
import { TOP } from "./tree.mjs";

const LARGEST = 2n ** 64n - 1n;
const ESCAPES = { n: "\n", r: "\r", t: "\t", "\\": "\\" };
const WORDS = { max: LARGEST, none: LARGEST, true: true, false: false };
/** The calls whose one argument is a second text. */
const TAKE_TEXTS = ["scan_while", "scan_rev_while", "labels_match"];
/** The calls whose answer is a status. */
const ANSWER_STATUSES = ["ends_html_block", "labels_match"];
const STATUSES = [
    "OK", "NOTHING", "NOT_UTF8", "PAST_END", "BAD_SKIPS", "TOO_LARGE", "EMPTY", "NO_OPENER", "NOT_RISING", "INSIDE_FIND", "SPACE_PENDING",
    "BAD_KIND",
];
const RUN_CALLS = ["space", "space_up_to", "is_at_end", "quote", "list", "definition"];
const PAGE_CALLS = ["scan_blocks", "block_content", "scan_lists", "scan_inlines", "html_unsafe", "html", "events"];
/** The names of the statuses, by their numbers. */
export const NAMES = Object.fromEntries(STATUSES.map((name) => [c[name], `MDS_${name}`]));

/** The bytes of a text as the file has it. */
export function readText(text) {
    const made = text.replace(/\\(?:x([0-9a-f]{2})|(.?))/g, (escape, digits, kind) => {
        if (digits) return String.fromCharCode(parseInt(digits, 16));
        assert.ok(kind in ESCAPES, `no escape: ${escape}`);
        return ESCAPES[kind];
    });
    return Buffer.from(made, "latin1");
}

function readNumber(word) {
    if (word in WORDS) return WORDS[word];
    const number = BigInt(word);
    return number > 2n ** 53n ? number : Number(number);
}

const wordsOf = (text) => text.split(" ").filter(Boolean);
const numbersOf = (text) => wordsOf(text).map(readNumber);
const readParts = (word) => word.split(",").map(readNumber);

/** Each row of a table: where it stands, and its columns. */
function columnsOf(table, count) {
    const lines = readFileSync(new URL(`packages/${table}`, TOP), "utf8").trimEnd().split("\n");
    return lines.flatMap((text, index) => {
        if (text.startsWith("#")) return [];
        const columns = text.split("\t");
        const where = `packages/${table}, line ${index + 1}`;
        assert.equal(columns.length, count, where);
        return [[where, ...columns]];
    });
}

function readArguments(call, text) {
    if (TAKE_TEXTS.includes(call)) return [readText(text === "-" ? "" : text)];
    return numbersOf(text);
}

export function rows() {
    return columnsOf("rows.tsv", 4).map(([where, call, data, given, answer]) => (
        { where, call, data: readText(data), given: readArguments(call, given), answer }));
}

/** The rows of lines.tsv; `data` is null where the call goes on with the line before. */
export function lines() {
    return columnsOf("lines.tsv", 5).map(([where, data, call, given, answer, state]) => (
        { where, data: data === "+" ? null : readText(data), call, given: numbersOf(given), answer, state: numbersOf(state) }));
}

/** A call of a run: its kind, which may be one that no call has, and its number. */
function runCall(word) {
    const [name, number] = word.split("=");
    return [RUN_CALLS.includes(name) ? RUN_CALLS.indexOf(name) : readNumber(name), readNumber(number)];
}

export function runs() {
    return columnsOf("runs.tsv", 7).map(([where, call, data, given, offset, rest, answers, status]) => {
        const isLine = call === "run_line";
        return {
            where, call, data: readText(data), given: isLine ? wordsOf(given).map(runCall) : numbersOf(given),
            offset: offset === "" ? null : readNumber(offset), rest: readText(rest),
            answers: isLine ? wordsOf(answers).map(readParts) : numbersOf(answers), status,
        };
    });
}

/** The rows of skips.tsv. */
export function overs() {
    return columnsOf("skips.tsv", 5).map(([where, call, data, given, skips, answer]) => (
        { where, call, data: readText(data), given: numbersOf(given), skips: wordsOf(skips).map(readParts), answer }));
}

/** The rows of pages.tsv of a call, with the words of what is asked for. */
export function pages(call) {
    const all = columnsOf("pages.tsv", 5);
    for (const [where, name] of all) assert.ok(PAGE_CALLS.includes(name), `${where}: there is no such call`);
    return all.filter(([, name]) => name === call).map(([where, , data, asked, answer]) => (
        { where, page: `${readText(data)}`, words: wordsOf(asked), answer: `${readText(answer)}` }));
}

/** The extensions of a page that a row asks for, by the package's names. */
export const extensionsOf = ({ words }) => words.filter((word) => !word.includes("="));

/** What a row of pages.tsv has HTML written with. */
export function settingOf({ words }) {
    const fields = Object.fromEntries(words.filter((word) => word.includes("=")).map((word) => word.split("=")));
    const { scheme, raw_html: rawHtml, rel, images_as_links: imagesAsLinks, ...others } = fields;
    assert.deepEqual([others, rel ?? "none", imagesAsLinks ?? "yes"], [{}, "none", "yes"]);
    return {
        ...(scheme !== undefined && { schemes: [scheme] }),
        ...(rawHtml && { rawHtml }),
        ...(rel && { rel: false }),
        ...(imagesAsLinks && { imagesAsLinks: true }),
    };
}

/** What a row of pages.tsv asks for: extensions, and definitions, each a label, a destination and a title. */
export function asked({ words }) {
    const texts = words.filter((word) => word.includes("=")).map((word) => `${readText(word.slice(word.indexOf("=") + 1))}`);
    const definitions = [];
    for (let at = 0; at < texts.length; at += 3) definitions.push(texts.slice(at, at + 3));
    return { extensions: words.filter((word) => !word.includes("=")), definitions };
}

function printedNumber(number) {
    const found = BigInt(number);
    return found === LARGEST ? "none" : String(found);
}

/** The answer of a row: of a text how many bytes are taken, where it starts, where that is said, and its digits; any other as the file
 * has it, but for the phase of a line start, which the package doesn't show. */
export function expected({ answer }) {
    const found = /^(?:taken|end)=(\d+)(?: start=(\w+))? text=(.*)$/.exec(answer);
    return found ? [found[1], found[2], readText(found[3]).toString("hex")] : answer.replace(/ phase=\d$/, "");
}

/** What a call has answered, in the same form. */
export function answered({ call }, answer) {
    if (ANSWER_STATUSES.includes(call)) return NAMES[answer];
    if (typeof answer !== "object") return printedNumber(answer);
    const { status = c.OK, text, ...fields } = answer;
    if (status !== c.OK) {
        assert.ok(!text && Object.values(fields).every((value) => Number(value) === 0), NAMES[status]);
        return NAMES[status];
    }
    if (text !== undefined) return [String(fields.taken), fields.start === undefined ? undefined : printedNumber(fields.start), text];
    return Object.entries(fields).map(([name, value]) => `${name}=${printedNumber(value)}`).join(" ");
}
