/** A place in a line that is read column by column. Sections in brackets are those of CommonMark 0.31.2. */
import * as c from "./c.mjs";
import { isAnswer, refusal, Stopped, TooLarge } from "./errors.mjs";
import { listOf, sizeOf, written } from "./given.mjs";

/** @typedef {{ delimiter: string, start: number, indent: number }} ListMarker `indent` is that of what the item holds */
/** @typedef {"note" | "tip" | "important" | "warning" | "caution"} Alert */
/** @typedef {["space" | "upto" | "list" | "definition", number | bigint] | ["eol" | "quote"]} LineCall */

/** @type {Record<number, Alert>} */
const ALERTS = {
    [c.ALERT_NOTE]: "note",
    [c.ALERT_TIP]: "tip",
    [c.ALERT_IMPORTANT]: "important",
    [c.ALERT_WARNING]: "warning",
    [c.ALERT_CAUTION]: "caution",
};

/** @type {Record<string, number>} */
const KINDS = { space: c.SPACE, upto: c.UPTO, eol: c.EOL, quote: c.QUOTE, list: c.LIST, definition: c.DEFINITION };
/** The calls that take no number. */
const ALONE = ["eol", "quote"];

const [PLACE, PENDING] = c.STRUCTS.lineStart.fields;
const FRONT = { place: 0, pending: 0, phase: 0, noneBefore: 0, behindBreak: 0 };

/**
 * A place in a line of a text, whose tabs go to stops of four columns. The line begins at the place that is given.
 * @template {string | Uint8Array} Made
 */
export class LineStart {
    #engine;
    #text;
    #limits;
    #made;
    /**
     * What C keeps of it, in bytes of the line, as it was when it left the module's memory.
     * @type {Record<string, number>}
     */
    #numbers = FRONT;

    /**
     * @param {import("./engine.mjs").Engine} engine
     * @param {import("./source.mjs").Source<Made>} text
     * @param {number[]} limits in bytes
     * @param {(made: Uint8Array) => Made} made
     */
    constructor(engine, text, limits, made) {
        this.#engine = engine;
        this.#text = text;
        this.#limits = limits;
        this.#made = made;
    }

    /** A copy, which goes on by itself. */
    copy() {
        const other = new LineStart(this.#engine, this.#text, this.#limits, this.#made);
        other.#numbers = this.numbers;
        return other;
    }

    /** The place of the text that is reached. */
    get place() {
        return this.#text.placeOf(this.#limits[0] + this.#number(PLACE));
    }

    /** Columns of the last tab that have not been taken. */
    get pending() {
        return this.#number(PENDING);
    }

    /**
     * What C keeps of it, in bytes of the line.
     * @package
     */
    get numbers() {
        if (this.#engine.owner === this) this.leave();
        return this.#numbers;
    }

    set numbers(numbers) {
        if (this.#engine.owner === this) this.leave();
        this.#numbers = numbers;
    }

    /**
     * Keeps the numbers, which leave the module's memory.
     * @package
     */
    leave() {
        this.#numbers = this.#engine.read("lineStart", this.#engine.lineStart);
        this.#engine.owner = null;
    }

    /**
     * The number of a field.
     * @param {[string, number, string]} field
     */
    #number([name, place]) {
        const engine = this.#engine;
        return engine.owner === this ? engine.size(engine.lineStart + place) : this.#numbers[name];
    }

    /** Brings the text and the numbers to the module's memory. */
    #enter() {
        const engine = this.#engine;
        engine.bring(this.#text.block);
        if (engine.owner === this) return;
        engine.owner?.leave();
        engine.write("lineStart", engine.lineStart, this.#numbers);
        engine.owner = this;
    }

    /**
     * What a function of C answers that moves the line start.
     * @param {string} name
     * @param {...unknown} given
     */
    #call(name, ...given) {
        const [from, to] = this.#limits;
        const engine = this.#engine;
        this.#enter();
        return engine.calls[name](this.#text.block.address + from, to - from, engine.lineStart, ...given);
    }

    /**
     * Takes so many columns of space, or fewer where there are fewer: whether there were as many. (2.2)
     * @param {number | bigint} count
     */
    space(count) {
        return isAnswer(this.#call("lineSpace", sizeOf("count", count)));
    }

    /**
     * Takes at most so many columns of space, and answers how many. (2.2)
     * @param {number | bigint} count
     * @returns {number}
     */
    upto(count) {
        const found = this.#call("lineSpaceUpTo", sizeOf("count", count));
        isAnswer(found.status);
        return found.columns;
    }

    /** Drops pending columns and passes all spaces and tabs, each as one column. */
    allSpace() {
        isAnswer(this.#call("lineAllSpace"));
    }

    /** Whether the line ends there. Pending columns are looked past. */
    eol() {
        return isAnswer(this.#call("lineIsAtEnd"));
    }

    /** Passes a block quote marker and at most one column of space: whether there was one. (5.1) */
    quote() {
        return isAnswer(this.#call("lineQuote"));
    }

    /**
     * Passes a list item's marker at an indent of so many columns, and the columns that belong to it; null also where a
     * thematic break begins. TooLarge where the indent is. (5.2)
     * @param {number | bigint} indent
     * @returns {ListMarker | null}
     */
    listItem(indent) {
        const found = this.#call("lineList", sizeOf("indent", indent));
        return isAnswer(found.status) ? markerOf(found.delimiter, found.start, found.indent) : null;
    }

    /**
     * Passes a definition's marker at an indent of so many columns: the indent of what it holds, or null. TooLarge where
     * the indent is. (An extension of pulldown-cmark)
     * @param {number | bigint} indent
     * @returns {number | null}
     */
    definition(indent) {
        const found = this.#call("lineDefinition", sizeOf("indent", indent));
        return isAnswer(found.status) ? found.columns : null;
    }

    /**
     * Passes a task list item's box: whether it is checked; null where there is none. (GitHub Flavored Markdown 0.29, 5.3)
     * @returns {boolean | null}
     */
    task() {
        const found = this.#call("lineTask");
        return isAnswer(found.status) ? found.checked : null;
    }

    /** Passes the line of an alert, and answers its kind, or null. (An extension of GitHub) */
    alert() {
        const found = this.#call("lineAlert");
        return isAnswer(found.status) ? ALERTS[found.kind] : null;
    }

    /**
     * Makes the calls in turn, as on the line with its tabs written out to stops of four, and stands where the run stopped.
     * Before a call that is refused it stops: SpacePending or TooLarge, whose `run` has the answers of the calls before. (2.2)
     * @param {LineCall[]} calls such as ["upto", 3], ["quote"], ["list", 0]
     * @returns {(boolean | number | ListMarker | null)[]}
     */
    run(calls) {
        const rows = listOf("calls", calls).map(callOf);
        const engine = this.#engine;
        this.#enter();
        const given = engine.rows("lineCall", rows);
        const buffer = engine.room(24 * rows.length);
        const [from, to] = this.#limits;
        const found = engine.calls.runLine(this.#text.block.address + from, to - from, engine.lineStart, given, rows.length, buffer, rows.length);
        const answers = rows.slice(0, found.count).map((row, index) => answerOf(row.kind, engine.read("lineAnswer", buffer + 24 * index)));
        return ended(found.status, answers);
    }

    /** What is left from the place on: pending columns as spaces, then the bytes, their tabs before a line ending written out. (2.2) */
    rest() {
        const [from, to] = this.#limits;
        const engine = this.#engine;
        this.#enter();
        const length = 4 * (to - from - this.#number(PLACE)) + this.pending;
        const buffer = engine.room(length);
        const found = engine.calls.lineRest(this.#text.block.address + from, to - from, engine.lineStart, buffer, length);
        isAnswer(found.status);
        return this.#made(engine.heap.bytes.subarray(buffer, buffer + found.length));
    }
}

/**
 * @param {number} delimiter
 * @param {number} start
 * @param {number} indent
 * @returns {ListMarker}
 */
function markerOf(delimiter, start, indent) {
    return { delimiter: String.fromCharCode(delimiter), start, indent };
}

/**
 * A call of a run, as C has it.
 * @param {LineCall} call
 */
function callOf(call) {
    if (!Array.isArray(call)) throw new TypeError(`a call of a run is a list as ["quote"], and not ${written(call)}`);
    const [name, number] = call;
    if (typeof name !== "string" || !Object.hasOwn(KINDS, name)) throw new TypeError(`a run has no call ${written(name)}`);
    return { kind: KINDS[name], number: ALONE.includes(name) ? 0 : sizeOf(`the number of ${name}`, /** @type {number | bigint} */ (number)) };
}

/**
 * @param {number} kind
 * @param {Record<string, any>} found
 */
function answerOf(kind, found) {
    if (kind === c.UPTO) return found.number;
    if (kind !== c.LIST && kind !== c.DEFINITION) return found.found;
    if (!found.found) return null;
    return kind === c.DEFINITION ? found.number : markerOf(found.delimiter, found.start, found.number);
}

/**
 * The run, or its refusal, which has it.
 * @template Answer
 * @param {number} status
 * @param {Answer[]} run
 */
export function ended(status, run) {
    if (status === c.OK || status === c.NOTHING) return run;
    const why = refusal(status);
    if (why instanceof Stopped || why instanceof TooLarge) why.run = run;
    throw why;
}
