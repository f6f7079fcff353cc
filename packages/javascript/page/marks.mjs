/** Marks what stands between two places of the text, under the text itself. */
import { element } from "./drawing.mjs";

/** Lines that are marked at once. */
const MOST_MARKS = 100;

export class Marks {
    #text;
    #under;

    /**
     * @param {HTMLTextAreaElement} text
     * @param {HTMLElement} under where the marks are drawn
     */
    constructor(text, under) {
        this.#text = text;
        this.#under = under;
        text.addEventListener("scroll", () => this.#follow());
    }

    clear() {
        this.#under.replaceChildren();
    }

    /**
     * The UTF-16 unit of a place in bytes.
     * @param {number} place
     */
    unitOf(place) {
        let bytes = 0;
        let unit = 0;
        const all = this.#text.value;
        while (unit < all.length && bytes < place) {
            const code = all.codePointAt(unit);
            bytes += code < 0x80 ? 1 : code < 0x800 ? 2 : code < 0x10000 ? 3 : 4;
            unit += code < 0x10000 ? 1 : 2;
        }
        return unit;
    }

    /**
     * Selects and marks what stands between two places, of which the first is brought in sight.
     * @param {number} from
     * @param {number} to
     */
    show(from, to) {
        const text = this.#text;
        text.setSelectionRange(from, to);
        const { lineHeight, paddingTop } = getComputedStyle(text);
        const height = parseFloat(lineHeight);
        const first = text.value.lastIndexOf("\n", from - 1) + 1;
        const before = text.value.slice(0, first).split("\n").length - 1;
        let at = first;
        const lines = text.value.slice(first, to).replace(/\n$/, "").split("\n").slice(0, MOST_MARKS).map((line, index) => {
            const hidden = line.slice(0, Math.max(0, from - at));
            const made = element("div", {}, hidden, element("mark", {}, line.slice(hidden.length) || " "));
            made.style.top = `${parseFloat(paddingTop) + (before + index) * height}px`;
            at += line.length + 1;
            return made;
        });
        this.#under.replaceChildren(...lines);
        const top = before * height;
        if (top < text.scrollTop || top > text.scrollTop + text.clientHeight - 2 * height) text.scrollTop = top - text.clientHeight / 3;
        this.#follow();
    }

    /** The marks stand where the text is scrolled to. */
    #follow() {
        this.#under.style.transform = `translate(${-this.#text.scrollLeft}px, ${-this.#text.scrollTop}px)`;
    }
}
