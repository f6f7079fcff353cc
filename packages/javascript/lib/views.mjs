/** Several texts that a call is given. */
import { Block } from "./engine.mjs";
import { bytesOf } from "./given.mjs";

/** Texts that stand one after another in the module's memory. */
export class Views {
    #lengths;

    /**
     * @param {string} name of one of them
     * @param {readonly (string | Uint8Array)[]} texts
     */
    constructor(name, texts) {
        const bytes = texts.map((text) => bytesOf(name, text));
        this.length = texts.length;
        this.#lengths = bytes.map((text) => text.length);
        const all = new Uint8Array(this.#lengths.reduce((sum, length) => sum + length, 0));
        let at = 0;
        for (const text of bytes) {
            all.set(text, at);
            at += text.length;
        }
        this.block = new Block(all);
    }

    /**
     * The address of an array that says where each of them stands, as C has it, until the next call.
     * @param {import("./engine.mjs").Engine} engine
     */
    listed(engine) {
        let at = this.block.address;
        return engine.rows("view", this.#lengths.map((length) => {
            at += length;
            return { text: at - length, length };
        }));
    }
}
