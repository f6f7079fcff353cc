/**
 * The tables of packages, which the tests of all packages read, on the package's calls: the same answers as those of C, or more of null
 * and errors. packages/javascript/totals has how many rows there are; fewer and more fail.
 */
import assert from "node:assert/strict";
import { test } from "node:test";
import { AFTER, CALLS, checkSkips, label, NONE, outcomeOf, plain, scanners, tag, ways } from "./c_calls.mjs";
import { atFront, lineCall, namedCalls, restFrom, runInParts, stateOf } from "./line_calls.mjs";
import { answered, expected, lines, NAMES, overs, readText, rows, runs } from "./tables.mjs";
import { hold } from "./totals.mjs";

/** What the call of a row answers, of its text in one way. */
function made({ call, given }, way) {
    return call.startsWith("line_") ? atFront(way, call, given) : CALLS[call](way, ...given);
}

test("the rows of packages/rows.tsv", () => {
    const all = rows();
    for (const row of all) {
        for (const way of ways(row.data, row.given)) {
            assert.deepEqual(answered(row, made(row, way)), expected(row), `${row.where}: ${row.call}`);
        }
    }
    hold("rows.tsv", all.length);
});

/** An answer whose large numbers are those that a number of JavaScript has. */
const rounded = (answer) => answer.replace(/\d{16,}/g, (digits) => String(BigInt(Number(digits))));

/** The line starts that go on with a row, each with the way in which the line is given. */
function after(row, starts, kept) {
    if (row.data !== null) return ways(row.data).map((d) => [d, d.text.lineStart(d.at, d.end)]);
    return row.call === "resume" ? kept : starts;
}

test("the rows of packages/lines.tsv", () => {
    const all = lines();
    let [starts, kept] = [[], []];
    for (const row of all) {
        starts = after(row, starts, kept);
        if (row.call === "copy") kept = starts.map(([d, start]) => [d, start.copy()]);
        const isCall = row.call !== "copy" && row.call !== "resume";
        assert.ok(starts.length > 1, row.where);
        for (const [d, start] of starts) {
            if (isCall) assert.equal(answered(row, lineCall(start, row.call, row.given)) || "MDS_OK", rounded(row.answer), row.where);
            assert.deepEqual(stateOf(d, start), row.state, row.where);
        }
    }
    hold("lines.tsv", all.length);
});

const RUNS = {
    run_inline_html({ data, given, answers, status, where }) {
        for (const bytes of [data, Buffer.concat([data, AFTER])]) {
            const [found, run] = outcomeOf(() => scanners.text(bytes).runInlineHtml(given, data.length));
            const ends = (run.run ?? run).map((end) => end ?? NONE);
            assert.deepEqual(plain([NAMES[found], ends]), plain([status, answers]), where);
        }
    },
    run_line({ data, given, offset, rest, answers, status, where }) {
        if (status === "MDS_BAD_KIND") {
            assert.throws(() => ways(data)[0].text.lineStart().run(namedCalls(given)), TypeError);
            return;
        }
        for (const d of ways(data)) {
            for (let first = 0; first <= given.length; first++) {
                const found = runInParts(d, given, first);
                const returned = { status, offset, rest, answers: answers.map((answer) => answer.map(Number)) };
                assert.deepEqual(plain({ ...found, status: NAMES[found.status] }), plain(returned), where);
            }
        }
    },
    line_rest({ data, given, rest, status, where }) {
        assert.equal(status, "MDS_OK");
        for (const d of ways(data)) assert.equal(restFrom(d, given).toString("hex"), rest.toString("hex"), where);
    },
};

test("the rows of packages/runs.tsv", () => {
    const all = runs();
    for (const row of all) RUNS[row.call](row);
    hold("runs.tsv", all.length);
});

/** A tag or a label over lines. */
function over(d, { call, given: [start, inTable], skips }) {
    return call === "scan_html_tag_over_lines" ? tag(d, skips, start) : label(d, skips, inTable, start);
}

test("the rows of packages/skips.tsv", () => {
    const all = overs();
    for (const row of all) {
        if (row.call === "check_skips") {
            assert.equal(NAMES[checkSkips(row.data, row.skips)], row.answer, row.where);
            continue;
        }
        for (const d of ways(row.data, [row.given[0], ...row.skips.map(([place]) => place)])) {
            assert.deepEqual(answered(row, over(d, row)), expected(row), row.where);
        }
    }
    hold("skips.tsv", all.length);
});

test("a text that is not one is an error", () => {
    for (const text of ["\\", "\\q", "\\x4", "\\xzz"]) assert.throws(() => readText(text), /no escape/);
});
