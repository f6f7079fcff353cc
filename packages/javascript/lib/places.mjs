/** Places of UTF-8 bytes and of UTF-16 units of the same text. */

const STEP = 32;

/**
 * How many UTF-16 units a character has whose first byte is this one; other bytes of it have none.
 * @param {number} byte
 */
function unitsOf(byte) {
    if (isInside(byte)) return 0;
    return byte < 0xf0 ? 1 : 2;
}

/**
 * Whether a byte of UTF-8 is one that begins no character.
 * @param {number} byte
 */
export function isInside(byte) {
    return (byte & 0xc0) === 0x80;
}

/** The UTF-16 units of a text, counted up to each place that is a multiple of STEP. */
export class Utf16Places {
    #bytes;
    #counts;
    /** The byte that was asked for last, and how many units stand before it. */
    #last = { place: 0, units: 0 };

    /** @param {Uint8Array} bytes UTF-8 */
    constructor(bytes) {
        this.#bytes = bytes;
        this.#counts = new Uint32Array(Math.floor(bytes.length / STEP) + 1);
        let units = 0;
        for (let place = 0; place < bytes.length; place++) {
            if (place % STEP === 0) this.#counts[place / STEP] = units;
            units += unitsOf(bytes[place]);
        }
        if (bytes.length % STEP === 0) this.#counts[bytes.length / STEP] = units;
        /** How many units the text has. */
        this.length = units;
    }

    /**
     * How many units stand before the byte.
     * @param {number} place
     */
    toUnit(place) {
        const step = Math.floor(place / STEP);
        let [at, units] = [step * STEP, this.#counts[step]];
        if (this.#last.place > at && this.#last.place <= place) [at, units] = [this.#last.place, this.#last.units];
        for (; at < place; at++) units += unitsOf(this.#bytes[at]);
        this.#last = { place, units };
        return units;
    }

    /**
     * The byte before which so many units stand, or null inside of a surrogate pair.
     * @param {number} unit
     */
    toByte(unit) {
        let [place, units] = this.#before(unit);
        while (units < unit) units += unitsOf(this.#bytes[place++]);
        while (place < this.#bytes.length && isInside(this.#bytes[place])) place++;
        return units === unit ? place : null;
    }

    /**
     * The last counted place before which at most so many units stand, and how many.
     * @param {number} unit
     */
    #before(unit) {
        let low = 0;
        let high = this.#counts.length;
        while (high - low > 1) {
            const middle = (low + high) >> 1;
            if (this.#counts[middle] <= unit) low = middle;
            else high = middle;
        }
        return [low * STEP, this.#counts[low]];
    }
}

/**
 * The place of the first byte that is not UTF-8, or null where all of them are.
 * @param {Uint8Array} bytes
 */
export function firstWrong(bytes) {
    let [low, high] = [0, bytes.length + 1];
    while (high - low > 1) {
        const middle = (low + high) >> 1;
        if (isFrontOfUtf8(bytes.subarray(0, middle))) low = middle;
        else high = middle;
    }
    const at = beforePart(bytes, low);
    return at < bytes.length ? at : null;
}

/**
 * Whether these are UTF-8, but that the last character may have more bytes.
 * @param {Uint8Array} bytes
 */
function isFrontOfUtf8(bytes) {
    try {
        new TextDecoder("utf-8", { fatal: true }).decode(bytes, { stream: true });
        return true;
    } catch {
        return false;
    }
}

/**
 * The place up to which whole characters stand, where all bytes before the end are such or the front of one.
 * @param {Uint8Array} bytes
 * @param {number} end
 */
function beforePart(bytes, end) {
    let first = end - 1;
    while (first > 0 && isInside(bytes[first])) first--;
    const size = bytes[first] < 0x80 ? 1 : bytes[first] < 0xe0 ? 2 : bytes[first] < 0xf0 ? 3 : 4;
    return first >= 0 && first + size > end ? first : end;
}
