/** What the containers of a block, block quotes and list items, take of its lines, by line starts. (5.1, 5.2) */

/** @typedef {{ call: string, given: unknown[], answer: any }} Returned a call of the package, and its answer */
/** @typedef {Returned & { kind: string, place: number, pending: number }} Taken what it took of the line, up to a place and columns after */

const [TAB, SPACE, LF, CR] = [..."\t \n\r"].map((character) => character.charCodeAt(0));

/** A line, while it is read: the place in it, and what each call has taken up to there. */
export class Line {
    /**
     * @param {any} page
     * @param {number} at
     */
    constructor(page, at) {
        this.page = page;
        this.at = at;
        this.end = page.scanLine(at);
        this.start = page.lineStart(at, this.end);
        /** @type {Taken[]} */
        this.taken = [];
    }

    /** The state, to come back to. */
    mark() {
        return { start: this.start.copy(), count: this.taken.length };
    }

    /** @param {{ start: any, count: number }} mark */
    back({ start, count }) {
        this.start = start;
        this.taken.length = count;
    }

    /**
     * Makes a call of the line start. What it takes is noted as one of this kind.
     * @param {string} kind
     * @param {string} call
     * @param {...number} given
     */
    take(kind, call, ...given) {
        const { place, pending } = this.start;
        const answer = this.start[call](...given);
        const moved = this.start.place !== place || this.start.pending !== pending;
        if (moved) this.taken.push({ kind, call, given, answer, place: this.start.place, pending: this.start.pending });
        return answer;
    }

    /** Whether spaces and tabs alone are left: scanBlankLine takes form feeds and vertical tabs for white space too. (2.1) */
    isBlank() {
        const { bytes } = this.page;
        let at = this.start.place;
        while (at < this.end && (bytes[at] === SPACE || bytes[at] === TAB)) at++;
        return at === this.end || bytes[at] === LF || bytes[at] === CR;
    }

    /**
     * Takes what the line has of these containers, as far as it goes on with them.
     * @param {any[]} containers
     */
    goOn(containers) {
        for (const container of containers) {
            const mark = this.mark();
            const isOn = container.kind === "quote" ? this.#quote() : this.take("item", "upto", container.width) === container.width || this.isBlank();
            if (!isOn) return this.back(mark);
        }
    }

    /**
     * Takes the markers of these containers, which begin in it.
     * @param {any[]} containers
     */
    begin(containers) {
        for (const container of containers) {
            if (container.kind === "quote") this.#quote();
            else this.take("item", "listItem", this.take("indent", "upto", 4));
        }
    }

    /** Takes a block quote marker after at most three columns of space, and says whether one stands there. */
    #quote() {
        return this.take("indent", "upto", 4) < 4 && this.take("quote", "quote");
    }
}
