/** The columns of a line: which characters stand there, tabs written out to stops of four, and what took each. (2.2) */

/** How many columns of a line are drawn. */
export const MOST_COLUMNS = 200;

/**
 * @typedef {{ kind: string, taken: number | null, from: number, to: number, text: string }} Strip
 * Columns that one call took, by its number in the line, or that none did; `→` is where a tab begins, `·` its other columns.
 */

/** The cells of a line: of each column its character, where that stands, and how many of its columns come after. */
function cellsOf(text, at) {
    const cells = [];
    let place = at;
    for (const character of text.replace(/[\r\n]+$/, "")) {
        const width = character === "\t" ? 4 - (cells.length % 4) : 1;
        for (let column = 0; column < width; column++) {
            cells.push({ place, after: width - column - 1, character, isFirst: column === 0 });
        }
        place += character.codePointAt(0) < 0x80 ? 1 : new TextEncoder().encode(character).length;
        if (cells.length > MOST_COLUMNS) break;
    }
    return cells;
}

/** What is drawn of a cell: a tab as an arrow and dots; spaces as dots where a container took them. */
function drawn({ character, isFirst }, isTaken) {
    if (character === "\t") return isFirst ? "→" : "·";
    return character === " " && isTaken ? "·" : character;
}

/** Whether the cell stands before the place that was reached with so many columns pending. */
function isBefore(cell, { place, pending }) {
    return cell.place < place && !(cell.after < pending && isLastOf(cell, place));
}

/** Whether the byte of the cell is the last one before the place: only its columns can be pending. */
function isLastOf(cell, place) {
    return cell.place === place - 1;
}

/**
 * The line as strips, of what each call took and of what is left.
 * @param {string} text
 * @param {{ at: number, taken: { kind: string, place: number, pending: number }[] }} line
 * @returns {{ strips: Strip[], more: boolean }}
 */
export function columnsOf(text, line) {
    const cells = cellsOf(text, line.at);
    const shownCells = cells.slice(0, MOST_COLUMNS);
    /** @type {Strip[]} */
    const strips = [];
    let from = 0;
    for (let index = 0; index < line.taken.length && from < shownCells.length; index++) {
        const taken = line.taken[index];
        let to = from;
        while (to < shownCells.length && isBefore(shownCells[to], taken)) to++;
        if (to > from) strips.push(strip(taken.kind, index, shownCells, from, to));
        from = to;
    }
    if (from < shownCells.length) strips.push(strip("text", null, shownCells, from, shownCells.length));
    return { strips, more: cells.length > shownCells.length };
}

/**
 * A line as it is drawn: its columns, of what was taken no more than what took these, and of a long answer the beginning.
 * @param {string} text its beginning
 * @param {any} line
 */
export function rowOf(text, { taken, block, ...line }) {
    const columns = columnsOf(text, { at: line.at, taken });
    const last = columns.strips.findLast((part) => part.taken !== null);
    return { ...line, columns, taken: taken.slice(0, last ? last.taken + 1 : 0), block: block && { ...block, answer: shortened(block.answer) } };
}

/**
 * An answer, or of a long list its beginning.
 * @param {any} answer
 */
export function shortened(answer) {
    if (answer?.alignments) return { ...answer, alignments: shortened(answer.alignments) };
    return Array.isArray(answer) && answer.length > MOST_COLUMNS ? [...answer.slice(0, MOST_COLUMNS), "…"] : answer;
}

/** @returns {Strip} */
function strip(kind, taken, cells, from, to) {
    const text = cells.slice(from, to).map((cell) => drawn(cell, taken !== null)).join("");
    return { kind, taken, from, to, text };
}
