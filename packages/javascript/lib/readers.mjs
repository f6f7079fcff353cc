/** Pages that come piece by piece. Sections in brackets are those of CommonMark 0.31.2. */
import * as c from "./c.mjs";
import { Block } from "./engine.mjs";
import { Ended, isAnswer } from "./errors.mjs";
import { bytesOf } from "./given.mjs";
import { containerOf, Leaf, Pages } from "./pages.mjs";

const { size: SIZE } = c.STRUCTS.block;
/** Of so many bytes a text is read again with each piece, and a longer one once it is twice as long. */
const SHORT = 4096;
/** A byte order mark. */
const MARK = [0xef, 0xbb, 0xbf];

/**
 * Reads a page that comes piece by piece, and returns each leaf block once what has come shows where it ends. It keeps what is not
 * returned yet, and the containers that are open, so that it has memory for the longest block and the deepest nesting.
 *
 * A block is as `scanBlocks` has it of the whole page with these extensions, with the places of the page's bytes, and its content as bytes; but a
 * paragraph that begins with link reference definitions is one block, with these at the front of its content. (3, 4, 5)
 */
export class BlockReader {
    #engine;
    #bits;
    /** @type {Uint8Array[]} What is not returned yet. */
    #pieces = [];
    /** How many bytes these have, and have to have before they are read again. */
    #size = 0;
    #needed = 0;
    /** @type {Leaf<Uint8Array>[]} What is ready and not returned, as memory was refused then. */
    #ready = [];
    /** The structs of the containers that are open, with room for more, and the same as they began. */
    #structs = new Uint8Array(8 * SIZE);
    /** @type {{ struct: Uint8Array, container: import("./pages.mjs").Container }[]} */
    #open = [];
    /** Whether a term stands before the next block. */
    #state = 0;
    /** How much of the page is returned. */
    #start = 0;
    #line = 0;
    #hasEnded = false;

    /**
     * @param {import("./engine.mjs").Engine} engine
     * @param {number} bits of extensions
     */
    constructor(engine, bits) {
        this.#engine = engine;
        this.#bits = bits;
    }

    /**
     * Takes the next bytes of the page, which may end anywhere, or a string. Answers the blocks that are known to end. Ended after `close`.
     * @param {string | Uint8Array} data
     * @returns {Leaf<Uint8Array>[]}
     */
    feed(data) {
        this.#checkNotEnded();
        const piece = bytesOf("data", data);
        this.#pieces.push(piece);
        this.#size += piece.length;
        return this.#size < this.#needed ? [] : this.#returned(false);
    }

    /**
     * The page has ended. Answers the blocks that are left. Ended the next time.
     * @returns {Leaf<Uint8Array>[]}
     */
    close() {
        this.#checkNotEnded();
        const returned = this.#returned(true);
        this.#hasEnded = true;
        return returned;
    }

    #checkNotEnded() {
        if (this.#hasEnded) throw new Ended("the page has ended, as the reader is closed");
    }

    /** @param {boolean} hasEnded */
    #returned(hasEnded) {
        const text = new Block(joined(this.#pieces));
        const size = text.bytes.length;
        // A byte order mark at the start of the page is no part of its first block.
        if (this.#start === 0 && MARK.every((byte, index) => text.bytes[index] === byte)) {
            this.#start = MARK.length;
            this.#size -= MARK.length;
        }
        try {
            for (let found = this.#next(text, hasEnded); found; found = this.#next(text, hasEnded)) {
                const at = size - this.#size;
                this.#ready.push(this.#leaf(found, text.bytes.slice(at, at + found.leaf.bytes)));
                this.#size -= found.leaf.bytes;
            }
        } finally {
            this.#pieces = [text.bytes.slice(size - this.#size)];
        }
        this.#needed = this.#size > SHORT ? 2 * this.#size : 0;
        return this.#ready.splice(0);
    }

    /**
     * The next block of what is not returned of the text, or null.
     * @param {Block} text
     * @param {boolean} hasEnded
     */
    #next(text, hasEnded) {
        const at = text.bytes.length - this.#size;
        for (;;) {
            this.#engine.bring(text);
            const { heap, calls } = this.#engine;
            const capacity = this.#structs.length / SIZE;
            const buffer = this.#engine.room(this.#structs.length);
            const open = this.#engine.rows("openBlocks", [{ depth: this.#open.length, extensions: this.#bits, state: this.#state }]);
            const block = this.#engine.room(SIZE);
            heap.bytes.set(this.#structs, buffer);
            const { status, kept, depth } = calls.blockLine(text.address + at, this.#size, hasEnded, buffer, capacity, open, block);
            if (status === c.TOO_SHORT) {
                const wider = new Uint8Array(2 * depth * SIZE);
                wider.set(this.#structs);
                this.#structs = wider;
            } else if (!isAnswer(status)) return null;
            else {
                this.#structs.set(heap.bytes.subarray(buffer, buffer + depth * SIZE));
                this.#state = this.#engine.read("openBlocks", open).state;
                const begun = Array.from({ length: depth - kept }, (_, index) => this.#engine.read("block", buffer + (kept + index) * SIZE));
                return { kept, begun, leaf: this.#engine.read("block", block), struct: heap.bytes.slice(block, block + SIZE) };
            }
        }
    }

    /**
     * The block that is returned, with the containers that are open now.
     * @param {{ kept: number, begun: any[], leaf: any, struct: Uint8Array }} found
     * @param {Uint8Array} lines
     */
    #leaf({ kept, begun, leaf, struct }, lines) {
        const start = this.#start;
        const started = begun.map((returned, index) => ({
            struct: this.#structs.slice((kept + index) * SIZE, (kept + index + 1) * SIZE),
            container: containerOf(returned, start + returned.place),
        }));
        this.#open = [...this.#open.slice(0, kept), ...started];
        const structs = [struct, ...this.#open.map((entry) => entry.struct)];
        const content = () => new Pages(this.#engine, lines, "utf-8").contentOf(0, lines.length, structs, kept, lines.length);
        const containers = this.#open.map((entry) => entry.container);
        const returned = { ...leaf, line: this.#line };
        this.#start += leaf.bytes;
        this.#line += leaf.lines;
        return new Leaf({ placeOf: (byte) => byte }, start, returned, containers, kept, content);
    }
}

/** @param {Uint8Array[]} pieces */
function joined(pieces) {
    const all = new Uint8Array(pieces.reduce((sum, piece) => sum + piece.length, 0));
    let at = 0;
    for (const piece of pieces) {
        all.set(piece, at);
        at += piece.length;
    }
    return all;
}
