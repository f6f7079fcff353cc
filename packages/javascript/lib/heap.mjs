/** The free memory of a module after its constants and its stack. */

const PAGE = 65536;

/** Blocks one after another, of which only the last can grow or be given back by itself. */
export class Heap {
    #memory;
    #last = 0;

    /**
     * @param {WebAssembly.Memory} memory
     * @param {number} base where free memory begins
     */
    constructor(memory, base) {
        this.#memory = memory;
        /** The first address that is free. */
        this.top = base;
        /** All bytes of the memory, and the same as a view of numbers: others after it has grown. */
        this.bytes = new Uint8Array(memory.buffer);
        this.view = new DataView(memory.buffer);
    }

    /**
     * Whether there is memory up to this address, which is asked for where there is less.
     * @param {number} end
     */
    reaches(end) {
        const missing = Math.ceil((end - this.bytes.length) / PAGE);
        const ahead = Math.ceil(this.bytes.length / (4 * PAGE));
        return missing <= 0 || this.#grows(Math.max(missing, ahead)) || this.#grows(missing);
    }

    /** @param {number} pages */
    #grows(pages) {
        try {
            grow(this.#memory, pages);
        } catch {
            return false;
        }
        this.bytes = new Uint8Array(this.#memory.buffer);
        this.view = new DataView(this.#memory.buffer);
        return true;
    }

    /**
     * The address of so many bytes, or null where memory is refused.
     * @param {number} size
     * @param {number} alignment
     */
    take(size, alignment = 16) {
        const at = Math.ceil(this.top / alignment) * alignment;
        if (!this.reaches(at + size)) return null;
        this.#last = at;
        this.top = at + size;
        return at;
    }

    /**
     * The address of a block with another size, whose first bytes are those of the one at the address.
     * @param {number} at
     * @param {number} kept
     * @param {number} size
     * @param {number} alignment
     */
    resize(at, kept, size, alignment) {
        if (at === this.#last) {
            if (!this.reaches(at + size)) return null;
            this.top = at + size;
            return at;
        }
        const other = this.take(size, alignment);
        if (other !== null) this.bytes.copyWithin(other, at, at + Math.min(kept, size));
        return other;
    }

    /**
     * Gives a block back, where it is the last one.
     * @param {number} at
     */
    give(at) {
        if (at === this.#last) this.top = at;
    }
}

/**
 * Earlier engines take the pages of a 64-bit memory as a number.
 * @param {WebAssembly.Memory} memory
 * @param {number} pages
 */
function grow(memory, pages) {
    try {
        memory.grow(/** @type {any} */ (BigInt(pages)));
    } catch (why) {
        if (!(why instanceof TypeError)) throw why;
        memory.grow(pages);
    }
}
