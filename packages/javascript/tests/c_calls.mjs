/**
 * Each function of the header by its name, as the package's calls answer it: what C would answer is made of the package's
 * answer. What C gives is given three times: as bytes by itself, inside of other bytes, and, where it is UTF-8, as a string
 * whose places are those of UTF-16 units, after characters of several bytes. All must answer alike.
 */
import * as c from "../lib/c.mjs";
import * as mds from "../fillaqut.mjs";
import { MODULE } from "./module.mjs";

export const NONE = 2n ** 64n - 1n;
export const scanners = await mds.load(MODULE);

const BEFORE = Buffer.from("<!>\xff", "latin1");
export const AFTER = Buffer.from("-->]");
const BEFORE_UNITS = "é🍔\n";
const STATUSES = [
    [mds.NotUtf8, c.NOT_UTF8],
    [RangeError, c.PAST_END],
    [mds.BadSkips, c.BAD_SKIPS],
    [mds.TooLarge, c.TOO_LARGE],
    [mds.Empty, c.EMPTY],
    [mds.OutOfMemory, c.NO_MEMORY],
    [mds.NoOpener, c.NO_OPENER],
    [mds.NotRising, c.NOT_RISING],
    [mds.InsideFind, c.INSIDE_FIND],
    [mds.SpacePending, c.SPACE_PENDING],
];

/** The bytes of what a call has made. */
export const bytesOf = (made) => Buffer.from(made);

/** Numbers of C as numbers of JavaScript, so that they can be compared. */
export function plain(answer) {
    if (typeof answer === "bigint") return Number(answer);
    if (Buffer.isBuffer(answer)) return answer.toString("hex");
    if (answer === null || typeof answer !== "object") return answer;
    if (Array.isArray(answer)) return answer.map(plain);
    return Object.fromEntries(Object.entries(answer).map(([key, value]) => [key, plain(value)]));
}

/** A text of the bytes that C is given. */
class Given {
    constructor(text, at, end) {
        Object.assign(this, { text, at, end });
    }

    /** The place in the bytes of C of a place of the text. */
    place(place) {
        return bytesOf(this.text.slice(this.at, place)).length;
    }

    /** What C has as a length. */
    length(end) {
        return end === null ? NONE : this.place(end);
    }

    /** The place of the text of a place in the bytes of C, or one that the text has not. */
    placeIn(place) {
        const bytes = bytesOf(this.text.slice(this.at, this.end));
        return place > bytes.length ? this.text.length + 1 : this.at + this.text.made(bytes.subarray(0, Number(place))).length;
    }
}

function isText(data) {
    return Buffer.from(data.toString("utf8"), "utf8").equals(data);
}

/** Whether a place, if this is one, is inside of a character. */
function isInside(data, place) {
    return typeof place === "number" && (data[place] & 0xc0) === 0x80;
}

/** The ways in which bytes are given, with these numbers, of which a string has no place inside of a character. */
export function ways(data, numbers = []) {
    const made = [new Given(scanners.text(data), 0, data.length)];
    const inside = Buffer.concat([BEFORE, data, AFTER]);
    made.push(new Given(scanners.text(inside), BEFORE.length, BEFORE.length + data.length));
    if (isText(data) && !numbers.some((number) => isInside(data, number))) {
        const text = scanners.text(BEFORE_UNITS + data.toString("utf8") + AFTER, { units: "utf-16" });
        made.push(new Given(text, BEFORE_UNITS.length, text.length - AFTER.length));
    }
    return made;
}

/** The status that C would answer, and the answer or the refusal. */
export function outcomeOf(call) {
    try {
        const found = call();
        return [found === null ? c.NOTHING : c.OK, found];
    } catch (why) {
        const row = STATUSES.find(([kind]) => why instanceof kind);
        if (!row) throw why;
        return [row[1], why];
    }
}

const ends = (name) => (d, ...given) => d.length(d.text[name](...given, d.at, d.end));
const whole = (name) => (d, ...given) => d.text[name](...given, d.at, d.end);
const code = (character) => character.charCodeAt(0);

function listItem(d) {
    const found = d.text.scanListitem(d.at, d.end);
    if (!found) return { length: NONE, start: 0, indent: 0, delimiter: 0 };
    return { length: d.length(found.end), start: found.start, indent: found.indent, delimiter: code(found.delimiter) };
}

function indent(d, limit) {
    const [status, found] = outcomeOf(() => d.text.calcIndent(d.at, d.end, { limit }));
    const isOk = status === c.OK;
    return { status, place: isOk ? d.place(found.place) : 0, columns: isOk ? found.columns : 0 };
}

function hrule(d) {
    const end = d.text.scanHrule(d.at, d.end);
    return { length: d.length(end), none_before: end === null ? d.place(d.text.noHruleBefore(d.at, d.end)) : 0 };
}

function underline(d) {
    const found = d.text.scanSetextHeading(d.at, d.end);
    return { length: d.length(found && found.end), level: found ? found.level : 0 };
}

const fence = (call) => (d, ...given) => {
    const found = call(d, ...given);
    return { length: d.length(found && found.end), byte: found ? code(found.character) : 0 };
};

const part = (call) => (d, start, ...more) => {
    const [status, found] = outcomeOf(() => call(d, d.placeIn(start), ...more));
    if (status !== c.OK) return { status, end: 0, start: 0, length: 0 };
    return { status, end: d.place(found.end), start: d.place(found.start), length: bytesOf(d.text.slice(found.start, found.stop)).length };
};

function definition(d, start, maxNext) {
    const [status, found] = outcomeOf(() => d.text.scanReferenceDefinition(d.placeIn(start), d.end, { maxNext }));
    const made = { status, end: status === c.OK ? d.place(found.end) : 0 };
    for (const name of ["label", "destination", "title"]) {
        const span = status === c.OK ? found[name] : { start: d.at, stop: d.at };
        made[`${name}_start`] = span ? d.place(span.start) : NONE;
        made[`${name}_length`] = span ? bytesOf(d.text.slice(span.start, span.stop)).length : 0;
    }
    return made;
}

function delimiterRun(d, place) {
    const at = d.placeIn(place);
    const [status, found] = outcomeOf(() => d.text.scanDelimiterRun(at, d.end, { begin: d.at }));
    if (status !== c.OK) return { status, byte: 0, count: 0, can_open: false, can_close: false };
    return { status, byte: code(found.character), count: found.end - at, can_open: found.canOpen, can_close: found.canClose };
}

/** A text that is made, as struct mds_text has it. */
const text = (call, textOf = (found) => bytesOf(found.text)) => (d) => {
    const [status, found] = outcomeOf(() => call(d));
    if (status !== c.OK) return { status, taken: 0, text: "" };
    return { status, taken: d.place(found.end ?? d.end), text: textOf(found).toString("hex") };
};

/** A table of the text, as far as there is one. */
function tableOf(d, skips) {
    const size = d.place(d.end);
    const rows = skips.filter(([place]) => place <= size).map(([place, length]) => [d.placeIn(place), Math.min(length, size - place)]);
    return d.text.skips(rows);
}

export function checkSkips(data, skips) {
    return outcomeOf(() => scanners.text(data).skips(skips))[0];
}

export function tag(d, skips, start = 0) {
    const [status, found] = outcomeOf(() => d.text.scanHtmlTagOverLines(d.placeIn(start), d.end, { skips: tableOf(d, skips) }));
    const isOk = status === c.OK;
    return { status, taken: isOk ? d.place(found.end) : 0, text: isOk && found.text !== null ? bytesOf(found.text).toString("hex") : "" };
}

export function label(d, skips, inTable, start = 0) {
    const [status, found] = outcomeOf(() => d.text.scanLinkLabel(d.placeIn(start), d.end, { inTable, skips: tableOf(d, skips) }));
    if (status !== c.OK) return { status, taken: 0, text: "", start: 0 };
    return { status, taken: d.place(found.end), text: bytesOf(found.text).toString("hex"), start: d.length(found.start) };
}

function htmlEnd(d, kind) {
    if (kind < 1 || kind > 7) return c.BAD_KIND;
    return d.text.endsHtmlBlock(kind, d.at, d.end) ? c.OK : c.NOTHING;
}

/** A guard is for a text from its front. */
function firstEnd(d, place) {
    const whole = scanners.text(d.text.slice(d.at, d.end));
    const [status, found] = outcomeOf(() => whole.htmlScanGuard().scan(place));
    return { status, end: status === c.OK ? found : 0 };
}

const matches = ([status, found]) => (status === c.OK && !found ? c.NOTHING : status);
const alignments = (found) => Buffer.from(found.alignments.map((alignment) => ["none", "left", "center", "right"].indexOf(alignment)));

const labelsMatch = (one, other) => matches(outcomeOf(() => scanners.labelsMatch(one, other)));

function labelKey(label) {
    const [status, found] = outcomeOf(() => scanners.labelKey(label));
    if (status !== c.OK) return { status, taken: 0, text: "" };
    return { status, taken: label.length, text: bytesOf(found).toString("hex") };
}

/** A label by itself, without where it starts. */
function labelText(d, inTable) {
    const { start: _, ...found } = label(d, [], inTable);
    return found;
}

/** The calls of packages/rows.tsv, by their names without `mds_`; each takes a text in one of its ways, and the bytes of C. */
export const CALLS = {
    scan_ch: ends("scanCh"),
    scan_ch_repeat: ends("scanChRepeat"),
    scan_while: ends("scanWhile"),
    scan_rev_while: (d, accepted) => d.place(d.end) - d.place(d.text.scanRevWhile(accepted, d.at, d.end)),
    scan_whitespace_in_line: ends("scanWhitespaceInLine"),
    scan_eol: ends("scanEol"),
    scan_line: ends("scanLine"),
    scan_nextline: ends("scanNextline"),
    scan_blank_line: ends("scanBlankLine"),
    scan_blockquote_start: ends("scanBlockquoteStart"),
    scan_closing_code_fence: ends("scanClosingCodeFence"),
    scan_closing_metadata_block: ends("scanClosingMetadataBlock"),
    scan_html_type_7: ends("scanHtmlType7"),
    scan_html_tag: ends("scanHtmlTag"),
    is_utf8: whole("isUtf8"),
    starts_html_block_type_6: whole("startsHtmlBlockType6"),
    interrupts_paragraph: whole("interruptsParagraph"),
    scan_code_fence: fence(whole("scanCodeFence")),
    scan_metadata_block: fence((d, yaml, pluses) => d.text.scanMetadataBlock(d.at, d.end, { yaml: Boolean(yaml), pluses: Boolean(pluses) })),
    scan_link_dest: part((d, start, maxNext) => d.text.scanLinkDest(start, d.end, { maxNext })),
    scan_link_title: part((d, start) => d.text.scanLinkTitle(start, d.end)),
    scan_autolink: part((d, start) => d.text.scanAutolink(start, d.end)),
    scan_email_autolink: part((d, start) => d.text.scanEmailAutolink(start, d.end)),
    scan_code_span: part((d, start) => d.text.scanCodeSpan(start, d.end)),
    scan_reference_definition: definition,
    scan_delimiter_run: delimiterRun,
    scan_wikilink_pipe: part((d, start, count) => {
        const stop = d.placeIn(BigInt(d.place(start)) + BigInt(count));
        return d.text.scanWikilinkPipe(start, stop < d.end ? stop : d.end);
    }),
    scan_atx_heading: (d) => d.text.scanAtxHeading(d.at, d.end) ?? 0,
    scan_listitem: listItem,
    calc_indent: indent,
    scan_hrule: hrule,
    scan_setext_heading: underline,
    scan_html_block_start: (d) => d.text.scanHtmlBlockStart(d.at, d.end) ?? 0,
    ends_html_block: htmlEnd,
    scan_table_head: text((d) => d.text.scanTableHead(d.at, d.end), alignments),
    scan_entity: text((d) => d.text.scanEntity(d.at, d.end)),
    scan_inline_html: firstEnd,
    unescape: (d, inTable) => text(() => d.text.unescape(d.at, d.end, { inTable }), bytesOf)(d),
    scan_link_label: labelText,
    labels_match: (d, other) => labelsMatch(bytesOf(d.text.slice(d.at, d.end)), other),
    label_key: (d) => labelKey(bytesOf(d.text.slice(d.at, d.end))),
};
