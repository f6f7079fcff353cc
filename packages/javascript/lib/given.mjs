/** What calls are given: each is refused by its name where it is of another type, and where there is no such word. */
import { LoneSurrogate } from "./errors.mjs";
import { BITS, NOT_BUILT } from "./extensions.mjs";

/** @typedef {import("./extensions.mjs").Extension} Extension */
/** @typedef {import("./extensions.mjs").BuiltExtension} BuiltExtension */

const ENCODER = new TextEncoder();

/**
 * A value as messages write it.
 * @param {unknown} given
 */
export function written(given) {
    if (typeof given === "string") return JSON.stringify(given);
    if (typeof given === "bigint") return `${given}n`;
    return typeof given === "object" && given !== null ? "an object" : String(given);
}

/**
 * What is thrown for a value of another type.
 * @param {string} name of the argument
 * @param {unknown} given
 * @param {string} expected
 */
export function wrongType(name, given, expected) {
    return new TypeError(`\`${name}\` is ${written(given)}, and not ${expected}`);
}

/**
 * The bytes of a string in UTF-8, or a copy of bytes.
 * @param {string} name
 * @param {string | Uint8Array} given
 */
export function bytesOf(name, given) {
    if (given instanceof Uint8Array) return new Uint8Array(given);
    if (typeof given !== "string") throw wrongType(name, given, "a string or a Uint8Array");
    const isWhole = /** @type {any} */ (given).isWellFormed?.() ?? false; // older engines have no such call
    const lone = isWhole ? -1 : given.search(/\p{Surrogate}/u);
    if (lone >= 0) throw new LoneSurrogate(lone);
    return ENCODER.encode(given);
}

/**
 * A number that C can have as a size.
 * @param {string} name
 * @param {number | bigint} given
 */
export function sizeOf(name, given) {
    if (typeof given !== "number" && typeof given !== "bigint") throw wrongType(name, given, "a number");
    const fits = typeof given === "bigint" ? BigInt.asUintN(64, given) === given : Number.isSafeInteger(given) && given >= 0;
    if (!fits) throw new RangeError(`\`${name}\` is ${given}, which is no size`);
    return given;
}

/**
 * The byte of an ASCII character, or a byte.
 * @param {string} name
 * @param {string | number} given
 */
export function byteOf(name, given) {
    if (typeof given !== "string" && typeof given !== "number") throw wrongType(name, given, "a character of ASCII or a byte");
    const byte = typeof given === "string" && given.length === 1 ? given.charCodeAt(0) : given;
    if (typeof byte === "number" && Number.isInteger(byte) && byte >= 0 && byte < (given === byte ? 256 : 128)) return byte;
    throw new RangeError(`\`${name}\` is ${written(given)}, which is no byte and no ASCII character`);
}

/**
 * The number of a character, which is given itself or by its number.
 * @param {string} name
 * @param {string | number} given
 */
export function characterOf(name, given) {
    if (typeof given !== "string" && typeof given !== "number") throw wrongType(name, given, "a character or its number");
    const number = typeof given === "number" ? given : given.codePointAt(0);
    const isOne = typeof given === "number" || (number !== undefined && given === String.fromCodePoint(number));
    if (isOne && number !== undefined && Number.isInteger(number) && number >= 0 && number < 2 ** 32) return number;
    throw new RangeError(`\`${name}\` is ${written(given)}, which is no character and no number of one`);
}

/**
 * @param {string} name
 * @param {boolean} given
 */
export function flagOf(name, given) {
    if (typeof given !== "boolean") throw wrongType(name, given, "true or false");
    return given;
}

/**
 * @template {readonly unknown[]} List
 * @param {string} name
 * @param {List} given
 */
export function listOf(name, given) {
    if (!Array.isArray(given)) throw wrongType(name, given, "a list");
    return given;
}

/**
 * The bits of these extensions.
 * @param {Extension[]} [extensions]
 */
export function bitsOf(extensions) {
    return listOf("extensions", extensions ?? []).reduce((bits, extension) => bits | bitOf(extension), 0);
}

/**
 * The same, where events and HTML are built of each of them.
 * @param {BuiltExtension[]} [extensions]
 */
export function builtBitsOf(extensions) {
    const bits = bitsOf(extensions);
    const left = extensions?.find((extension) => NOT_BUILT.has(extension));
    if (left) throw new TypeError(`events and HTML are not built of the extension ${written(left)} yet`);
    return bits;
}

/**
 * The bit of an extension.
 * @param {Extension} name
 */
function bitOf(name) {
    if (Object.hasOwn(BITS, name)) return BITS[name];
    throw new TypeError(`there is no extension ${written(name)}, but ${Object.keys(BITS).join(", ")}`);
}

/**
 * The options of a call, which has those of these names alone.
 * @template {object} Options
 * @param {Options} given
 * @param {...string} names
 */
export function optionsOf(given, ...names) {
    if (!isPlain(given)) throw wrongType("options", given, "an object of options");
    for (const name in given) if (!names.includes(name)) throw new TypeError(`there is no option ${name}, but ${names.join(", ")}`);
    return given;
}

/**
 * Whether it is an object that is no list and of no class.
 * @param {unknown} given
 */
function isPlain(given) {
    if (typeof given !== "object" || given === null) return false;
    const kind = Object.getPrototypeOf(given);
    return kind === null || Object.getPrototypeOf(kind) === null;
}
