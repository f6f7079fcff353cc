/** A text that is scanned, and the places of it. */
import { NOT_UTF8 } from "./c.mjs";
import { Block, NONE } from "./engine.mjs";
import { isAnswer, NotUtf8 } from "./errors.mjs";
import { bytesOf, sizeOf, wrongType } from "./given.mjs";
import { firstWrong, isInside, Utf16Places } from "./places.mjs";

const DECODER = new TextDecoder("utf-8", { ignoreBOM: true });

/** @typedef {"utf-8" | "utf-16"} Units */

/**
 * A text. Its bytes are its own, and stand in the module's memory while it is scanned.
 * @template {string | Uint8Array} Made what texts that are made of it are: strings of a string, and bytes of bytes
 */
export class Source {
    #engine;
    #block;
    #units;

    /**
     * @param {import("./engine.mjs").Engine} engine
     * @param {Made} data
     * @param {Units} units
     */
    constructor(engine, data, units) {
        if (units !== "utf-8" && units !== "utf-16") throw wrongType("units", units, '"utf-8" or "utf-16"');
        this.#engine = engine;
        this.#block = new Block(bytesOf("data", data));
        this.isString = typeof data === "string";
        this.#units = units === "utf-16" ? this.#utf16(data) : null;
        /** How many bytes the text has, or UTF-16 units where these are its places. */
        this.length = this.#units?.length ?? this.bytes.length;
    }

    /** The bytes of the text, in UTF-8 where it is a string. They are for looking at, and not to be changed. */
    get bytes() {
        return this.#block.bytes;
    }

    /** @protected */
    get engine() {
        return this.#engine;
    }

    /**
     * The bytes as the engine brings them to the module's memory.
     * @package
     */
    get block() {
        return this.#block;
    }

    /**
     * The places of UTF-16 units, or null where they are those of bytes.
     * @param {string | Uint8Array} data
     */
    #utf16(data) {
        if (data.length === this.bytes.length && this.isString) return null;
        this.#engine.bring(this.#block);
        if (!this.isString && !this.#engine.calls.isUtf8(this.#block.address, this.bytes.length)) throw this.notUtf8();
        return new Utf16Places(this.bytes);
    }

    /**
     * The place in bytes of a place of the text.
     * @param {number} place
     * @param {string} name of the argument
     */
    inBytes(place, name = "at") {
        if (typeof place !== "number") throw wrongType(name, place, "a number");
        if (!Number.isInteger(place) || place < 0 || place > this.length) {
            throw new RangeError(`\`${name}\` is ${place}, which is no place in a text of ${this.length}`);
        }
        const at = this.#units ? this.#units.toByte(place) : place;
        if (at === null || (this.isString && isInside(this.bytes[at]))) throw new RangeError(`\`${name}\` is ${place}, which is inside of a character`);
        return at;
    }

    /**
     * The same, or an offset past the bytes where it is past the end.
     * @protected
     * @param {number | bigint} place
     * @param {string} name
     */
    anyInBytes(place, name) {
        return sizeOf(name, place) > this.length ? this.bytes.length + 1 : this.inBytes(Number(place), name);
    }

    /**
     * The place of the text that a place in bytes is.
     * @param {number} at
     */
    placeOf(at) {
        return this.#units ? this.#units.toUnit(at) : at;
    }

    /**
     * What stands between two places, as a string or as bytes.
     * @param {number} [at]
     * @param {number} [end]
     * @returns {Made}
     */
    slice(at = 0, end = this.length) {
        const [from, to] = this.limits(at, end);
        return this.made(this.bytes.subarray(from, to));
    }

    /**
     * A text that is made.
     * @protected
     * @param {Uint8Array} bytes
     * @returns {Made}
     */
    made(bytes) {
        return /** @type {Made} */ (this.isString ? DECODER.decode(bytes) : new Uint8Array(bytes));
    }

    /**
     * @protected
     * @param {number} at
     * @param {number} end
     */
    limits(at, end) {
        const from = this.inBytes(at);
        const to = end === this.length ? this.bytes.length : this.inBytes(end, "end");
        if (from > to) throw new RangeError(`\`end\` is ${end}, which is before \`at\`, ${at}`);
        return [from, to];
    }

    /**
     * Whether there is an answer of a call that reads all bytes between two of them; a refusal is thrown.
     * @package
     * @param {number} status
     * @param {number} [from]
     * @param {number} [to]
     */
    isAnswered(status, from = 0, to = this.bytes.length) {
        if (status === NOT_UTF8) throw this.notUtf8(from, to);
        return isAnswer(status);
    }

    /**
     * What is thrown where the bytes between two of them are not UTF-8, or else another text is not that the call is given.
     * @package
     * @param {number} [from]
     * @param {number} [to]
     */
    notUtf8(from = 0, to = this.bytes.length) {
        const found = firstWrong(this.bytes.subarray(from, to));
        return found === null ? new NotUtf8("a text is not UTF-8") : new NotUtf8("the text is not UTF-8", from + found);
    }

    /**
     * Throws where not all bytes are UTF-8.
     * @package
     */
    checkUtf8() {
        if (firstWrong(this.bytes) !== null) throw this.notUtf8();
    }

    /**
     * What a function of C answers of the bytes between two places.
     * @protected
     * @param {string} name
     * @param {number} at
     * @param {number} end
     * @param {...unknown} given
     */
    scan(name, at, end, ...given) {
        const [from, to] = this.limits(at, end);
        this.#engine.bring(this.#block);
        return this.#engine.calls[name](this.#block.address + from, to - from, ...given);
    }

    /**
     * The offset after what a function of C finds the length of, or null.
     * @protected
     * @param {string} name
     * @param {number} at
     * @param {number} end
     * @param {...unknown} given
     */
    after(name, at, end, ...given) {
        return this.afterLength(at, this.scan(name, at, end, ...given));
    }

    /**
     * The offset so many bytes after another one, or null where there is none.
     * @protected
     * @param {number} at
     * @param {number} length
     */
    afterLength(at, length) {
        return length === NONE ? null : this.placeOf(this.inBytes(at) + length);
    }

    /**
     * What a function of C answers that writes a text into a buffer, and that text. So many bytes of room are enough.
     * @protected
     * @param {string} name
     * @param {number} at
     * @param {number} end
     * @param {number} capacity
     * @param {...unknown} given
     * @returns {[Record<string, any>, Uint8Array]}
     */
    written(name, at, end, capacity, ...given) {
        const [from, to] = this.limits(at, end);
        this.#engine.bring(this.#block);
        const buffer = this.#engine.room(capacity);
        const found = this.#engine.calls[name](this.#block.address + from, to - from, ...given, buffer, capacity);
        return [found, this.#engine.heap.bytes.subarray(buffer, buffer + found.length)];
    }
}
