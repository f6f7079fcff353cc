/** What safe HTML is written with. */
import * as c from "./c.mjs";
import { flagOf, listOf, wrongType } from "./given.mjs";
import { Views } from "./views.mjs";

/** @typedef {"escaped" | "omitted"} RawHtml its text, or nothing */
/**
 * `schemes` are those that addresses may have, without a colon, `DEFAULT_SCHEMES` where they are not given; of none relative addresses are
 * written alone. `rawHtml` is what is written of raw HTML, "escaped" where it is not given. With `rel`, which is true where it is not given,
 * links say `rel="nofollow noopener"`. With `imagesAsLinks` an image is written as a link to it, whose text is its description. With `strict`
 * bytes that are not UTF-8 are NotUtf8.
 * @typedef {{ schemes?: readonly string[], rawHtml?: RawHtml, rel?: boolean, imagesAsLinks?: boolean, strict?: boolean }} HtmlSetting
 */

/** The schemes that addresses may have where none are given. */
export const DEFAULT_SCHEMES = /** @type {readonly string[]} */ (Object.freeze(["http", "https", "mailto", "tel"]));

/** The names of its options. */
export const SETTING_NAMES = ["schemes", "rawHtml", "rel", "imagesAsLinks", "strict"];

/** @type {Record<RawHtml, number>} */
const RAW_HTML = { escaped: c.RAW_HTML_ESCAPED, omitted: c.RAW_HTML_OMITTED };
const { size: SIZE } = c.STRUCTS.htmlSetting;

/** A setting as C has it. */
export class AskedHtml {
    #schemes;
    #numbers;

    /** @param {HtmlSetting} setting */
    constructor({ schemes = DEFAULT_SCHEMES, rawHtml = "escaped", rel = true, imagesAsLinks = false, strict = false }) {
        const listed = listOf("schemes", schemes);
        this.#schemes = new Views("a scheme", listed.length > 0 ? listed : [""]); // no address has this one
        this.#numbers = {
            rawHtml: rawOf(rawHtml),
            rel: flagOf("rel", rel) ? c.REL_NOFOLLOW : c.REL_NONE,
            imagesAsLinks: Number(flagOf("imagesAsLinks", imagesAsLinks)),
            strict: Number(flagOf("strict", strict)),
        };
        this.block = this.#schemes.block;
    }

    /**
     * The address of its struct, until the next call. What is reserved in it is 0.
     * @param {import("./engine.mjs").Engine} engine
     */
    listed(engine) {
        const [schemes, at] = [this.#schemes.listed(engine), engine.room(SIZE)];
        engine.heap.bytes.fill(0, at, at + SIZE);
        engine.write("htmlSetting", at, { ...this.#numbers, schemes, schemeCount: this.#schemes.length });
        return at;
    }
}

/** @param {RawHtml} given */
function rawOf(given) {
    if (typeof given !== "string" || !Object.hasOwn(RAW_HTML, given)) throw wrongType("rawHtml", given, '"escaped" or "omitted"');
    return RAW_HTML[given];
}
