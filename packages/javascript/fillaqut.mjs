/**
 * A Markdown parser whose every function is proved to meet its contract: HTML and events of a page, its blocks and inlines, and the scanners
 * below them.
 *
 *     import { load } from "fillaqut";
 *
 *     const scanners = await load();
 *     const page = scanners.text("# A heading\n> - [b](<c d>)\n");
 *     page.scanAtxHeading(); // 1
 *     const start = page.lineStart(page.scanLine());
 *     start.quote(); // true
 *     start.upto(4); // 0
 *     start.listItem(2); // { delimiter: "-", start: 0, indent: 4 }
 *     page.scanLinkDest(start.place + 4); // { end: 25, start: 21, stop: 24 }
 */
import { VERSION } from "./lib/c.mjs";
import { Block, Engine } from "./lib/engine.mjs";
import { BadModule, isAnswer, ModuleMissing, WrongVersion } from "./lib/errors.mjs";
import { bitsOf, byteOf, bytesOf, characterOf, optionsOf, wrongType } from "./lib/given.mjs";
import { BlockReader } from "./lib/readers.mjs";
import { Text } from "./lib/text.mjs";

export * from "./lib/errors.mjs";
export { DEFAULT_SCHEMES } from "./lib/html_settings.mjs";
export { HtmlScanGuard, Skips, Text } from "./lib/text.mjs";
export { LineStart } from "./lib/line_start.mjs";
export { BlockReader } from "./lib/readers.mjs";
export { VERSION };

/**
 * The types that calls take and answer, for TypeScript.
 * @typedef {import("./lib/extensions.mjs").Extension} Extension
 * @typedef {import("./lib/extensions.mjs").BuiltExtension} BuiltExtension
 * @typedef {import("./lib/html_settings.mjs").HtmlSetting} HtmlSetting
 * @typedef {import("./lib/html_settings.mjs").RawHtml} RawHtml
 * @typedef {import("./lib/events.mjs").Element} Element
 * @typedef {import("./lib/events.mjs").LinkKind} LinkKind
 * @typedef {import("./lib/inlines.mjs").Inline} Inline
 * @typedef {import("./lib/inlines.mjs").Link} Link
 * @typedef {import("./lib/pages.mjs").BlockKind} BlockKind
 * @typedef {import("./lib/pages.mjs").Container} Container
 * @typedef {import("./lib/source.mjs").Units} Units
 */
/**
 * @template Made a string or a Uint8Array, as the page is
 * @typedef {import("./lib/events.mjs").Event<Made>} Event
 */
/**
 * @template Made
 * @typedef {import("./lib/pages.mjs").Leaf<Made>} Leaf a leaf block
 */

/** Node's files, which a browser has not. */
const FILES = "node:fs/promises";
/** The section of a module that says its version, and the one in which the 32-bit module names the 64-bit one beside it. */
const VERSION_SECTION = "fillaqut";
const WIDE_SECTION = "fillaqut64";
/** A module that has a 64-bit memory and nothing else. */
const WIDE_MEMORY = new Uint8Array([0, 97, 115, 109, 1, 0, 0, 0, 5, 3, 1, 4, 1]);

/** The scanners of one module. */
export class Scanners {
    #engine;

    /** @param {WebAssembly.Module} module */
    constructor(module) {
        const version = sectionOf(module, VERSION_SECTION);
        if (!version) throw new BadModule("the module is not one of fillaqut");
        if (version !== VERSION) throw new WrongVersion(`the module is of version ${version}, and this package of ${VERSION}`);
        this.#engine = new Engine(module);
    }

    /**
     * A text to scan. Its places are those of its UTF-8 bytes, or of UTF-16 units where these are asked for. Texts that are made
     * of it are strings where it is given as a string, and else bytes. LoneSurrogate where a string has no UTF-8; NotUtf8 where
     * bytes are not UTF-8 and have UTF-16 places.
     * @template {string | Uint8Array} Made
     * @param {Made} data
     * @param {{ units?: import("./lib/source.mjs").Units }} [options]
     * @returns {Text<Made extends string ? string : Uint8Array>}
     */
    text(data, options = {}) {
        const { units = "utf-8" } = optionsOf(options, "units");
        return new Text(this.#engine, /** @type {any} */ (data), units);
    }

    /**
     * The HTML of a page, a string of a string, and bytes of bytes, safe for pages by people who are not trusted, as `Text.html` says.
     * LoneSurrogate as of `text`. (3 to 6)
     * @template {string | Uint8Array} Made
     * @param {Made} page
     * @param {{ extensions?: import("./lib/extensions.mjs").BuiltExtension[] } & import("./lib/html_settings.mjs").HtmlSetting} [options]
     */
    html(page, options = {}) {
        return this.text(page).html(options);
    }

    /**
     * The same with its raw HTML and all its addresses, for text of one's own, as `Text.htmlUnsafe` says.
     * @template {string | Uint8Array} Made
     * @param {Made} page
     * @param {{ extensions?: import("./lib/extensions.mjs").BuiltExtension[], strict?: boolean }} [options]
     */
    htmlUnsafe(page, options = {}) {
        return this.text(page).htmlUnsafe(options);
    }

    /**
     * The events of a page, as `Text.events` has them: their places are those of the string, in UTF-16 units, or of the bytes.
     * @template {string | Uint8Array} Made
     * @param {Made} page
     * @param {{ extensions?: import("./lib/extensions.mjs").BuiltExtension[] }} [options]
     */
    events(page, options = {}) {
        return this.text(page, { units: typeof page === "string" ? "utf-16" : "utf-8" }).events(options);
    }

    /**
     * What reads a page that comes piece by piece. `extensions` is as of `Text.scanBlocks`. (3, 4, 5)
     * @param {{ extensions?: import("./lib/extensions.mjs").Extension[] }} [options]
     */
    blockReader(options = {}) {
        return new BlockReader(this.#engine, bitsOf(optionsOf(options, "extensions").extensions));
    }

    /**
     * Space, tab, LF, VT, FF or CR. (2.1)
     * @param {string | number} character of ASCII, or a byte
     * @returns {boolean}
     */
    isWhitespace(character) {
        return this.#engine.calls.isWhitespace(byteOf("character", character));
    }

    /**
     * Space, tab, VT or FF: white space that ends no line. (2.1)
     * @param {string | number} character of ASCII, or a byte
     * @returns {boolean}
     */
    isWhitespaceInLine(character) {
        return this.#engine.calls.isWhitespaceInLine(byteOf("character", character));
    }

    /**
     * An ASCII punctuation character. (2.1)
     * @param {string | number} character of ASCII, or a byte
     * @returns {boolean}
     */
    isPunctuation(character) {
        return this.#engine.calls.isPunctuation(byteOf("character", character));
    }

    /**
     * A Unicode white space character: a tab, LF, FF or CR, or one of category Zs. (2.1)
     * @param {string | number} character or its number
     * @returns {boolean}
     */
    isUnicodeWhitespace(character) {
        return this.#engine.calls.isUnicodeWhitespace(characterOf("character", character));
    }

    /**
     * A Unicode punctuation character: one of category P or S. (2.1)
     * @param {string | number} character or its number
     * @returns {boolean}
     */
    isUnicodePunctuation(character) {
        return this.#engine.calls.isUnicodePunctuation(characterOf("character", character));
    }

    /**
     * Whether two labels match: their full case foldings are equal. NotUtf8. (6.3)
     * @param {string | Uint8Array} one
     * @param {string | Uint8Array} other
     */
    labelsMatch(one, other) {
        const engine = this.#engine;
        const [first, second] = [new Block(bytesOf("one", one)), new Block(bytesOf("other", other))];
        engine.bring(first, second);
        return isAnswer(engine.calls.labelsMatch(first.address, first.bytes.length, second.address, second.bytes.length));
    }

    /**
     * The key of a label, its full case folding: two labels match exactly where their keys are equal. NotUtf8. (6.3)
     * @template {string | Uint8Array} Made
     * @param {Made} label
     */
    labelKey(label) {
        return this.text(label).labelKey();
    }
}

/**
 * The scanners of a module: of the one that stands beside this file, or of another by its URL, its bytes, or itself. Beside this
 * file the 64-bit module is taken where the package has both and this engine runs it, and else the 32-bit one. ModuleMissing where
 * there is none, BadModule where it can't be run here, WrongVersion where it is of another version.
 * @param {URL | string | Uint8Array | ArrayBuffer | WebAssembly.Module} [source]
 */
export async function load(source) {
    try {
        return new Scanners(await moduleOf(source));
    } catch (why) {
        throw faultOf(why);
    }
}

/**
 * The same at once: of a module's bytes or of itself, and where files can be read, as in Node from 20.16 on, of the one that stands beside
 * this file, or of another by its file URL. A browser may refuse to compile one at once outside of a worker: BadModule.
 * @param {URL | Uint8Array | ArrayBuffer | WebAssembly.Module} [source]
 */
export function loadSync(source) {
    try {
        if (source === undefined) return new Scanners(ownModuleAtOnce());
        if (source instanceof WebAssembly.Module) return new Scanners(source);
        const bytes = source instanceof URL ? readAtOnce(source) : source;
        if (!isBuffer(bytes)) throw wrongType("source", source, "bytes, a module or the URL of a file");
        return new Scanners(new WebAssembly.Module(/** @type {any} */ (bytes)));
    } catch (why) {
        throw faultOf(why);
    }
}

/**
 * What is thrown where a module is not loaded.
 * @param {unknown} why
 */
function faultOf(why) {
    if (!(why instanceof WebAssembly.CompileError || why instanceof WebAssembly.LinkError || why instanceof RangeError)) return why;
    return new BadModule(`the module can't be run, or this engine has no 64-bit memories (${why.message})`, why);
}

/** @param {unknown} given */
function isBuffer(given) {
    return ArrayBuffer.isView(given) || Object.prototype.toString.call(given) === "[object ArrayBuffer]";
}

/**
 * @param {URL | string | Uint8Array | ArrayBuffer | WebAssembly.Module} [source]
 * @returns {Promise<WebAssembly.Module>}
 */
async function moduleOf(source) {
    if (source === undefined) return ownModule();
    if (source instanceof WebAssembly.Module) return source;
    if (typeof source === "string" || source instanceof URL) return WebAssembly.compile(await fetched(source));
    if (!isBuffer(source)) throw wrongType("source", source, "a URL, bytes or a module");
    return WebAssembly.compile(/** @type {any} */ (source));
}

/** The module of this package: the 64-bit one where the 32-bit one names it, and this engine runs it. */
async function ownModule() {
    const url = ownUrl();
    const module = await WebAssembly.compile(await fetched(url));
    const name = sectionOf(module, WIDE_SECTION);
    return (name && (await wideModule(name, url))) || module;
}

/** The same at once. */
function ownModuleAtOnce() {
    const url = ownUrl();
    const module = new WebAssembly.Module(readAtOnce(url));
    const name = sectionOf(module, WIDE_SECTION);
    return (name && wideModuleAtOnce(new URL(name, url))) || module;
}

/**
 * The 64-bit module at the URL, or null where it is not there or can't be run.
 * @param {URL} url
 */
function wideModuleAtOnce(url) {
    if (!WebAssembly.validate(WIDE_MEMORY)) return null;
    try {
        const bytes = readAtOnce(url);
        return WebAssembly.validate(bytes) ? new WebAssembly.Module(bytes) : null;
    } catch (why) {
        if (why instanceof ModuleMissing) return null;
        throw why;
    }
}

/**
 * The bytes of a file.
 * @param {URL} url
 * @returns {BufferSource}
 */
function readAtOnce(url) {
    const files = /** @type {any} */ (globalThis).process?.getBuiltinModule?.("node:fs");
    if (!files) throw new ModuleMissing("no file can be read at once here: give `loadSync` the module's bytes");
    try {
        return files.readFileSync(url);
    } catch (why) {
        throw new ModuleMissing(`there is no module at ${url}: ${/** @type {Error} */ (why).message}`, why);
    }
}

/** Where it stands. Bundlers know a file by this expression. */
function ownUrl() {
    try {
        return new URL("./fillaqut.wasm", import.meta.url);
    } catch (why) {
        throw new ModuleMissing("this script has no URL, so none of the module: `load` needs that, or the module's bytes", why);
    }
}

/**
 * The module of this name beside the one at the URL, or null where it is not there or can't be run.
 * @param {string} name
 * @param {URL} url
 */
async function wideModule(name, url) {
    if (!WebAssembly.validate(WIDE_MEMORY)) return null;
    try {
        const bytes = await fetched(new URL(name, url));
        return WebAssembly.validate(bytes) ? await WebAssembly.compile(bytes) : null;
    } catch (why) {
        if (why instanceof ModuleMissing || why instanceof TypeError) return null; // beside a module that is no file stands none
        throw why;
    }
}

/**
 * The text of a section of a module, or nothing.
 * @param {WebAssembly.Module} module
 * @param {string} name
 */
function sectionOf(module, name) {
    const [section] = WebAssembly.Module.customSections(module, name);
    return section && new TextDecoder().decode(section);
}

/**
 * What is given as a URL, which may be one from the page's on.
 * @param {URL | string} source
 */
function urlOf(source) {
    const page = globalThis.location?.href;
    try {
        return new URL(source, page);
    } catch (why) {
        throw page ? why : new TypeError("it is no URL; of a file, `pathToFileURL` of `node:url` makes one");
    }
}

/**
 * The bytes at a URL, which may be one from the page's on. Node's fetch knows no files.
 * @param {URL | string} source
 * @returns {Promise<BufferSource>}
 */
async function fetched(source) {
    try {
        const url = urlOf(source);
        if (url.protocol === "file:") return await (await import(/* webpackIgnore: true */ /* @vite-ignore */ FILES)).readFile(url);
        const response = await fetch(url);
        if (response.ok) return await response.arrayBuffer();
        throw new Error(`${response.status} ${response.statusText}`);
    } catch (why) {
        throw new ModuleMissing(`there is no module at ${source}: ${/** @type {Error} */ (why).message}`, why);
    }
}
