/** Why a call refuses what it is given, and why there is no module. */
import * as c from "./c.mjs";

/** A call has refused what it was given. */
export class Refusal extends Error {
    /** @param {string} message */
    constructor(message) {
        super(message);
        this.name = new.target.name;
    }
}

/** The text is not UTF-8. */
export class NotUtf8 extends Refusal {
    /**
     * @param {string} message
     * @param {number | null} [index]
     */
    constructor(message, index = null) {
        super(index === null ? message : `${message}: the byte at index ${index} is wrong`);
        /** Where its first wrong byte stands; null of `scanDelimiterRun`, which reads a few bytes, and of labels. */
        this.index = index;
    }
}

/** A string has half of a surrogate pair, which UTF-8 has not. */
export class LoneSurrogate extends Refusal {
    /** @param {number} index */
    constructor(index) {
        super(`the string has half of a surrogate pair at index ${index}`);
        /** Where it stands, in UTF-16 units. */
        this.index = index;
    }
}

/** The table of what is left out is not of this text. */
export class BadSkips extends Refusal {}

/** A limit or an indent is so large that columns can't be added to it. */
export class TooLarge extends Refusal {
    /** @type {unknown[]} Of a run: what was found up to there. */
    run = [];
}

/** There are no bytes. */
export class Empty extends Refusal {}

/** Memory was refused. */
export class OutOfMemory extends Refusal {}

/** A reader is closed, and reads no more. */
export class Ended extends Refusal {}

/** A run has stopped before its end. */
export class Stopped extends Refusal {
    /** @type {unknown[]} What was found up to there. */
    run = [];
}

/** No `<!` or `<?` ends at the place. */
export class NoOpener extends Stopped {}

/** The place is not above the one before it. */
export class NotRising extends Stopped {}

/** The place is inside what was found before it. */
export class InsideFind extends Stopped {}

/** Columns of a tab are pending, and the call is not one that takes space. */
export class SpacePending extends Stopped {}

/** The module can't be used. */
export class LoadError extends Error {
    /**
     * @param {string} message
     * @param {unknown} [cause]
     */
    constructor(message, cause) {
        super(message);
        this.name = new.target.name;
        this.cause = cause;
    }
}

/** There is no module where it was looked for. */
export class ModuleMissing extends LoadError {}

/** What stands there is no module of the scanners, or one that can't be run here. */
export class BadModule extends LoadError {}

/** The module is of another version than this package. */
export class WrongVersion extends LoadError {}

/** The module has stopped within a call, as it never should. The next call begins anew. */
export class ModuleFault extends LoadError {}

/** @type {Map<number, [new (message: string) => Refusal, string]>} */
const REFUSALS = new Map([
    [c.NOT_UTF8, [NotUtf8, "the text is not UTF-8"]],
    [c.BAD_SKIPS, [BadSkips, "the table of what is left out is not of this text"]],
    [c.TOO_LARGE, [TooLarge, "a limit or an indent is so large that columns can't be added to it"]],
    [c.EMPTY, [Empty, "there are no bytes"]],
    [c.NO_MEMORY, [OutOfMemory, "memory was refused"]],
    [c.NO_OPENER, [NoOpener, "no `<!` or `<?` ends at the place"]],
    [c.NOT_RISING, [NotRising, "the place is not above the one before it"]],
    [c.INSIDE_FIND, [InsideFind, "the place is inside what was found before it"]],
    [c.SPACE_PENDING, [SpacePending, "columns of a tab are pending, and the call is not one that takes space"]],
]);

/**
 * What is thrown for a status that is neither an answer nor nothing.
 * @param {number} status
 */
export function refusal(status) {
    const [kind, message] = REFUSALS.get(status) ?? [Refusal, `status ${status}`];
    return new kind(message);
}

/**
 * Whether there is an answer; a refusal is thrown.
 * @param {number} status
 */
export function isAnswer(status) {
    if (status !== c.OK && status !== c.NOTHING) throw refusal(status);
    return status === c.OK;
}
