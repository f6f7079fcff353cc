/** Calls of the module's functions, with numbers and plain objects in and out. */
import { FUNCTIONS, STRUCTS } from "./c.mjs";
import { BadModule, ModuleFault, OutOfMemory } from "./errors.mjs";
import { Heap } from "./heap.mjs";

/** In place of a length or a place, where nothing is found: the largest number of C, as a number of JavaScript has it. */
export const NONE = 2 ** 64;

/** For what a call answers, for a line start, and for a guard. */
const STRUCT_ROOM = 64;
/** For texts, besides the longest of them. */
const TEXT_ROOM = 2 ** 20;
const HALF = 2 ** 32;
/** A module with so much memory is left for a new one, once so many calls in a row are given less than one in so many bytes of that. */
const LARGE = 2 ** 26;
const CALLS = 64;
const SHARE = 64;

/** Bytes that stay in the module's memory from call to call, as long as there is room. */
export class Block {
    /** Where they stand, if they were brought in this turn of the engine. */
    address = 0;
    turn = 0;

    /** @param {Uint8Array} bytes */
    constructor(bytes) {
        this.bytes = bytes;
    }
}

export class Engine {
    #module;
    /** How often the texts were cleared: a text is there where it was brought in this turn. */
    #turn = 0;
    #texts = 0;
    #next = 0;
    #work = 0;
    /** How many calls in a row were small for this memory. */
    #small = 0;
    /** @type {Heap} */
    heap = /** @type {any} */ (null);
    /** Where a struct that is answered stands, a line start, and a guard. */
    answer = 0;
    lineStart = 0;
    guard = 0;
    /** @type {{ leave: () => void } | null} The line start whose numbers stand in the module's memory. */
    owner = null;

    /** @param {WebAssembly.Module} module */
    constructor(module) {
        this.#module = module;
        /** @type {Record<string, (...given: any[]) => any>} Each function by its name in JavaScript. */
        this.calls = {};
        this.#begin();
    }

    /** A new instance, which has no texts. */
    #begin() {
        const instance = new WebAssembly.Instance(this.#module, { env: this.#memoryCalls() });
        const exported = /** @type {any} */ (instance.exports);
        if (!exported.memory || !exported.__heap_base) throw new BadModule("the module has no memory");
        const base = Math.ceil(Number(exported.__heap_base.value) / 16) * 16;
        this.heap = new Heap(exported.memory, base);
        this.answer = base;
        this.lineStart = base + STRUCT_ROOM;
        this.guard = this.lineStart + STRUCT_ROOM;
        this.#texts = this.#next = this.#work = this.guard + STRUCT_ROOM;
        this.owner = null;
        this.#small = 0;
        this.#turn += 1;
        for (const [name, [symbol, answer, taken]] of Object.entries(FUNCTIONS)) {
            if (typeof exported[symbol] !== "function") throw new BadModule(`the module has no ${symbol}`);
            this.calls[name] = this.#caller(exported[symbol], answer, taken);
        }
    }

    /** What the module asks for memory within a call. It keeps none of it, so the next call begins with none taken. */
    #memoryCalls() {
        const returned = (/** @type {bigint} */ answer, /** @type {number | null} */ at) => {
            this.heap.view.setBigUint64(Number(answer), at === null ? 0n : 1n, true);
            this.heap.view.setBigUint64(Number(answer) + 8, BigInt(at ?? 0), true);
        };
        return {
            /** @type {(...given: bigint[]) => void} */
            rattle_alloc: (answer, size, alignment) => returned(answer, this.heap.take(Number(size), Number(alignment))),
            /** @type {(...given: bigint[]) => void} */
            rattle_realloc: (answer, at, kept, size, alignment) =>
                returned(answer, this.heap.resize(Number(at), Number(kept), Number(size), Number(alignment))),
            /** @type {(at: bigint) => void} */
            rattle_dealloc: (at) => this.heap.give(Number(at)),
        };
    }

    /**
     * A function of the module as one that takes numbers, and answers a number, a truth or a struct. A struct of eight bytes is
     * returned as a number, a larger one written where the first argument says.
     * @param {Function} call
     * @param {string} answer
     * @param {string[]} taken
     * @returns {(...given: any[]) => any}
     */
    #caller(call, answer, taken) {
        const { size, read } = STRUCTS[answer] ?? { size: 0, read: Boolean };
        const run = this.#guarded(bound(call, size > 8 ? ["pointer", ...taken] : taken));
        if (size > 8) {
            return (...given) => {
                run(this.answer, ...given);
                return read(this, this.answer);
            };
        }
        if (size > 0) {
            return (...given) => {
                this.heap.view.setBigInt64(this.answer, run(...given), true);
                return read(this, this.answer);
            };
        }
        if (answer === "size_t") return (...given) => Number(BigInt.asUintN(64, run(...given)));
        return answer === "bool" ? (...given) => run(...given) !== 0 : (...given) => run(...given) >>> 0;
    }

    /**
     * The same function, after whose fault the module begins anew.
     * @param {Function} call
     * @returns {(...given: any[]) => any}
     */
    #guarded(call) {
        return (...given) => {
            try {
                return call(...given);
            } catch (why) {
                if (!(why instanceof WebAssembly.RuntimeError)) throw why;
                this.#begin();
                throw new ModuleFault(`the module has stopped: ${why.message}`, why);
            }
        };
    }

    /**
     * Brings to memory what is not there. All of it is there at once, and what the calls before have taken is free: after a large text
     * also for others than this module, whose memory can't become less, so that a new one begins.
     * @param {...Block} blocks
     */
    bring(...blocks) {
        if (this.heap.bytes.length > LARGE) this.#mayLeave(SHARE * sizeOf(blocks) < this.heap.bytes.length);
        if (!blocks.every((block) => block.turn === this.#turn)) this.#copy(blocks);
        this.heap.top = this.#work;
    }

    /**
     * Leaves the module for a new one, where this call is one of enough small ones in a row.
     * @param {boolean} isSmall
     */
    #mayLeave(isSmall) {
        this.#small = isSmall ? this.#small + 1 : 0;
        if (this.#small < CALLS) return;
        this.owner?.leave();
        this.#begin();
    }

    /** @param {Block[]} blocks */
    #copy(blocks) {
        let missing = blocks.filter((block) => block.turn !== this.#turn);
        if (this.#next + sizeOf(missing) > this.#work) {
            missing = blocks;
            this.#clear(sizeOf(blocks));
        }
        for (const block of missing) {
            block.turn = this.#turn;
            block.address = this.#next;
            this.heap.bytes.set(block.bytes, this.#next);
            this.#next += sizeOf([block]);
        }
    }

    /**
     * Clears all texts, and makes room for so many bytes.
     * @param {number} size
     */
    #clear(size) {
        const end = Math.max(this.#work, this.#texts + size + TEXT_ROOM);
        if (!this.heap.reaches(end)) throw new OutOfMemory("memory was refused");
        this.#work = end;
        this.#next = this.#texts;
        this.#turn += 1;
    }

    /**
     * The address of so many bytes, until the next call.
     * @param {number} size
     */
    room(size) {
        const at = this.heap.take(size);
        if (at === null) throw new OutOfMemory("memory was refused");
        return at;
    }

    /**
     * The address of these structs, until the next call.
     * @param {string} name
     * @param {Record<string, number | bigint>[]} rows
     */
    rows(name, rows) {
        const { size } = STRUCTS[name];
        const at = this.room(size * rows.length);
        rows.forEach((row, index) => this.write(name, at + index * size, row));
        return at;
    }

    /**
     * The address of these numbers of 64 bits, until the next call.
     * @param {(number | bigint)[]} numbers
     */
    numbers(numbers) {
        const at = this.room(8 * numbers.length);
        numbers.forEach((number, index) => this.#writeSize(at + 8 * index, number));
        return at;
    }

    /**
     * The struct at the address.
     * @param {string} name
     * @param {number} at
     * @returns {Record<string, any>}
     */
    read(name, at) {
        return STRUCTS[name].read(this, at);
    }

    /** @param {number} at */
    bool(at) {
        return this.heap.view.getUint8(at) !== 0;
    }

    /** @param {number} at */
    uint8(at) {
        return this.heap.view.getUint8(at);
    }

    /** @param {number} at */
    uint32(at) {
        return this.heap.view.getUint32(at, true);
    }

    /**
     * The number of 64 bits at the address.
     * @param {number} at
     */
    size(at) {
        const view = this.heap.view;
        return view.getUint32(at, true) + view.getUint32(at + 4, true) * HALF;
    }

    /**
     * @param {string} name
     * @param {number} at
     * @param {Record<string, number | bigint>} values
     */
    write(name, at, values) {
        for (const [field, place, type] of STRUCTS[name].fields) {
            if (type === "uint32_t") this.heap.view.setUint32(at + place, Number(values[field]), true);
            else this.#writeSize(at + place, values[field]);
        }
    }

    /**
     * @param {number} at
     * @param {number | bigint} value
     */
    #writeSize(at, value) {
        const { view } = this.heap;
        if (typeof value === "bigint") return view.setBigUint64(at, value, true);
        view.setUint32(at, value % HALF, true);
        return view.setUint32(at + 4, value / HALF, true);
    }
}

/**
 * A function of the module that is given numbers, of which it takes those of 64 bits as a BigInt. Those of few arguments, which are
 * called most, have a form of their own, since it is faster.
 * @param {Function} call
 * @param {string[]} taken
 * @returns {(...given: any[]) => any}
 */
function bound(call, taken) {
    const words = taken.map((type) => (type === "pointer" || type === "size_t" ? BigInt : Number));
    const [first, second, third, fourth] = words;
    if (words.length === 2) return (a, b) => call(first(a), second(b));
    if (words.length === 3) return (a, b, c) => call(first(a), second(b), third(c));
    if (words.length === 4) return (a, b, c, d) => call(first(a), second(b), third(c), fourth(d));
    return (...given) => call(...given.map((value, index) => words[index](value)));
}

/** @param {Block[]} blocks */
function sizeOf(blocks) {
    return blocks.reduce((sum, block) => sum + Math.ceil(block.bytes.length / 16) * 16, 0);
}
