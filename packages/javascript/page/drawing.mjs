/** What is seen, as elements. Each answer is a button, which knows its answer. */
import { CONTRACTS } from "./contracts.mjs";

const BEGINS = /^(heading|underline|break|fence .$|HTML:|header|definition|paragraph|indented)/;

/**
 * @param {string} tag
 * @param {Record<string, string>} attributes
 * @param {...(Node | string)} children
 */
export function element(tag, attributes = {}, ...children) {
    const made = document.createElement(tag);
    for (const [name, value] of Object.entries(attributes)) made.setAttribute(name, value);
    made.append(...children);
    return made;
}

/** The answers of the buttons that are drawn. */
export const answers = new WeakMap();

/** A button that stands for an answer. */
function button(name, text, answer) {
    const made = element("button", { class: name, type: "button", tabindex: "-1", title: `${answer.call}: ${JSON.stringify(answer.answer)}` }, text);
    answers.set(made, answer);
    return made;
}

/** What a container took: the bytes before its place, from where the one before it had come to. */
function takenAnswer(row, index) {
    const taken = row.taken[index];
    const before = index > 0 ? row.taken[index - 1] : { place: row.at, pending: 0 };
    return { ...taken, from: before.place, to: taken.place, lineStart: before };
}

function blockAnswer(row) {
    const { block } = row;
    return { ...block, from: block.at, to: row.end };
}

/** A line, at its height in the list. */
export function drawnRow(row) {
    const { strips, more } = row.columns;
    const drawn = strips.map((strip) => {
        if (strip.taken === null) return element("span", { class: "strip text" }, strip.text);
        return button(`strip ${strip.kind}`, strip.text, takenAnswer(row, strip.taken));
    });
    if (more) drawn.push(element("span", { class: "strip more" }, " .. and more"));
    const name = row.block ? row.block.name : "";
    const block = row.block ? button(`block${BEGINS.test(name) ? " begins" : ""}`, name, blockAnswer(row)) : "";
    const made = element("div", { class: "row", "data-line": String(row.number) });
    made.append(element("span", { class: "number" }, String(row.number)), block, element("span", { class: "strips" }, ...drawn));
    return made;
}

/** An answer of a list. */
function entry(number, what, answer) {
    const made = button("entry", "", answer);
    made.append(element("span", { class: "number" }, String(number)), what);
    return made;
}

export function note(text) {
    return element("p", { class: "note" }, text);
}

/** A list that may be returned in part. */
export function drawList({ count, first }, nothing, draw) {
    const drawn = first.map(draw);
    if (count === 0) drawn.push(note(nothing));
    if (count > first.length) drawn.push(note(`and ${count - first.length} more`));
    return drawn;
}

export function drawnOutline({ headings }) {
    return drawList(headings, "There are no headings.", (heading) => {
        const what = element("span", { class: "what" }, heading.text || "(empty)");
        what.style.paddingLeft = `${1.2 * (heading.level - 1)}rem`;
        return entry(heading.number, what, heading);
    });
}

export function drawnTables({ tables }) {
    return drawList(tables, "There are no tables.", (found) => {
        const cells = (tag, row) => row.cells.map((cell, index) => {
            const drawn = element(tag);
            drawn.style.textAlign = found.alignments[index] === "none" ? "left" : found.alignments[index];
            drawn.append(button("strip", cell.text || " ", { ...cell, answer: cell.text }));
            return drawn;
        });
        const [head, ...rows] = found.rows;
        const table = element("table", {}, element("tr", {}, ...cells("th", head)), ...rows.map((row) => element("tr", {}, ...cells("td", row))));
        const what = element("span", { class: "what" }, `a delimiter row of ${found.width}: ${found.alignments.join(", ")}`);
        return element("div", {}, entry(found.number, what, found), table);
    });
}

export function drawnLabels({ labels }) {
    return drawList(labels, "There are no links and no definitions.", (label) => {
        const isLeading = label.target !== null;
        const leads = element("span", { class: isLeading ? "leads" : "nowhere" }, isLeading ? `→ ${label.target}` : "leads nowhere");
        const what = element("span", { class: "what" }, label.label ? `[${label.label}] ` : "", leads);
        return entry(label.kind, what, label);
    });
}

export function drawnScans({ html, passed, bound, scans }) {
    const budget = `${scans} scans for comments, CDATA, declarations and instructions passed over ${passed} bytes; 4n + 8k is ${bound}.`;
    const found = drawList(html, "There is no inline HTML.", (piece) => {
        const what = element("span", { class: "what" }, `bytes ${piece.from} to ${piece.to}`);
        return entry(piece.call === "scanHtmlTagOverLines" ? "tag" : "other", what, piece);
    });
    return [note(budget), ...found];
}

function answered(answer) {
    return element("code", { id: "found" }, JSON.stringify(answer));
}

/** What a call is of: a line start by its place, or a row's cells. */
function whatOf({ lineStart, isOfCells }) {
    if (isOfCells) return ", cell by cell,";
    if (!lineStart) return "";
    return ` of a line start at ${lineStart.place}${lineStart.pending ? ` with ${lineStart.pending} columns pending` : ""}`;
}

/** What is said of an answer: the call, its bytes, its section and its contract; or what its pane says of it. */
export function drawnAnswer(found) {
    if (found.said) return found.said;
    const contract = CONTRACTS[found.call];
    const given = (found.given ?? []).map((word) => JSON.stringify(word)).join(", ");
    const link = element("a", { href: contract.url, target: "_blank", rel: "noreferrer" }, contract.section);
    const words = contract.words.flatMap((word, index) => [index > 0 ? ", " : "", element("code", {}, word)]);
    const of = found.joinedText === undefined ? [] : [element("p", {}, "Of the text ", element("code", { id: "of" }, found.joinedText))];
    return [
        element("p", {}, element("code", { id: "call" }, `${found.call}(${given})`), `${whatOf(found)} answers `, answered(found.answer)),
        ...of,
        element("p", { id: "bytes" }, `Bytes ${found.from} to ${found.to}`),
        element("p", {}, "CommonMark, ", link),
        element("p", {}, "Contract of ", element("code", {}, contract.symbol), ": ", ...words),
    ];
}
