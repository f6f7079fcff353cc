/** Calls on line starts by their names of C without `mds_`, and what they answer, in C's words. */
import * as c from "../lib/c.mjs";
import { bytesOf, outcomeOf } from "./c_calls.mjs";

const CALLS = {
    line_space: "space",
    line_space_up_to: "upto",
    line_all_space: "allSpace",
    line_is_at_end: "eol",
    line_quote: "quote",
    line_list: "listItem",
    line_definition: "definition",
    line_task: "task",
    line_alert: "alert",
};
const ALERTS = [null, "note", "tip", "important", "warning", "caution"];
const RUN_CALLS = ["space", "upto", "eol", "quote", "list", "definition"];

/** A call of a line start: its status, and the fields of its answer where it has some. */
export function lineCall(start, name, given) {
    const [status, found] = outcomeOf(() => start[CALLS[name]](...given));
    const isOk = status === c.OK;
    const marker = isOk && name === "line_list" ? found : { delimiter: "\0", start: 0, indent: 0 };
    if (name === "line_list") return { status, ...marker, delimiter: marker.delimiter.charCodeAt(0) };
    if (name === "line_space_up_to" || name === "line_definition") return { status, columns: isOk ? found : 0 };
    if (name === "line_task") return { status, checked: isOk && found };
    if (name === "line_alert") return { status, kind: isOk ? ALERTS.indexOf(found) : 0 };
    return { status: found === true || found === undefined ? c.OK : found === false ? c.NOTHING : status };
}

/** A call at the front of a line, and where the line start has come to. */
export function atFront(d, name, given) {
    const start = d.text.lineStart(d.at, d.end);
    const { status, ...fields } = lineCall(start, name, given);
    return { status, ...fields, place: d.place(start.place), pending: start.pending };
}

/** The offset, the pending columns and the phase of a line start. */
export function stateOf(d, start) {
    return [d.place(start.place), start.pending, start.numbers.phase];
}

/** What is left of a line from these numbers on. */
export function restFrom(d, [place, pending, phase]) {
    const numbers = { place, pending, phase, noneBefore: 0, behindBreak: 0 };
    return bytesOf(Object.assign(d.text.lineStart(d.at, d.end), { numbers }).rest());
}

/** An answer of a run as C has it. */
function answerOf(kind, answer) {
    if (kind === c.LIST) return answer ? [true, answer.delimiter.charCodeAt(0), answer.start, answer.indent] : [false, 0, 0, 0];
    if (kind === c.UPTO || kind === c.DEFINITION) return [answer !== null, 0, 0, answer ?? 0];
    return [answer, 0, 0, 0];
}

/** Calls of a run as the package has them. */
export const namedCalls = (calls) => calls.map(([kind, number]) => [RUN_CALLS[kind], number]);

/** The calls from the front of a line, so many of them in one run and the others in a second one: where that comes to. */
export function runInParts(d, calls, first) {
    const start = d.text.lineStart(d.at, d.end);
    const named = namedCalls(calls);
    let [status, run] = outcomeOf(() => start.run(named.slice(0, first)));
    let answers = run.run ?? run;
    if (status === c.OK) {
        [status, run] = outcomeOf(() => start.run(named.slice(first)));
        answers = [...answers, ...(run.run ?? run)];
    }
    const found = answers.map((answer, index) => answerOf(calls[index][0], answer).map(Number));
    return { status, offset: d.place(start.place), rest: bytesOf(start.rest()), answers: found };
}
