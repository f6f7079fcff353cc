/**
 * Which theorem each pane stands on, in a sentence, and where the page of theorems has it. What a pane shows is the answer of calls; how the page
 * draws and joins answers is no part of a theorem.
 */

/** @typedef {{ words: string, at: string }} Theorem its words, and its section in theorems.html */

const SAFE = {
    words: "Safe: for every page, all options and every list of schemes, this HTML is a sentence of a grammar in which no script, style, frame, form " +
        "or event handler has a place.",
    at: "safe",
};
const UNSAFE = {
    words: "UNSAFE: raw HTML is kept, and of what it does no theorem can say anything. Elements, texts and pieces of raw HTML are those of the " +
        "events, in their order.",
    at: "unsafe",
};

/** @type {Record<string, Theorem>} */
export const THEOREMS = {
    events: { words: "The events are those of the page's blocks and inlines; starts and ends balance; ranges nest, and cut no character.", at: "events" },
    blocks: { words: "A page has at most one list of blocks, and this is it.", at: "blocks" },
    links: { words: "The links and images are among the page's events, and no link holds a link. That this pane finds them there is tested.", at: "inlines" },
    timing: { words: "No theorem is about time. That costs grow with the text is tested; scans of inline HTML pass over at most 4n + 8k bytes.", at: "scans" },
    lines: { words: "For every line and list of calls, line starts answer as on the line with its tabs written out to stops of four.", at: "lines" },
    outline: { words: "Each call answers as its written grammar says. How the page joins their answers is tested.", at: "scanners" },
    tables: { words: "Each call answers as its written grammar says. How the page joins their answers is tested.", at: "scanners" },
    labels: { words: "Each call answers as its written grammar says. Here all brackets before a label make a reference.", at: "scanners" },
    scans: { words: "For every text of n bytes the k scans find what the plain definitions find, and pass over at most 4n + 8k bytes.", at: "scans" },
};

/**
 * The theorem of a pane.
 * @param {string} pane
 * @param {boolean} isSafe whether its HTML is safe
 * @returns {Theorem}
 */
export function theoremOf(pane, isSafe) {
    return THEOREMS[pane] ?? (isSafe ? SAFE : UNSAFE);
}

/** Where each of them stands. */
export const ALL = [SAFE, UNSAFE, ...Object.values(THEOREMS)];
