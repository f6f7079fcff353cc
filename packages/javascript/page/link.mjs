/**
 * A text in the fragment of an address, what stands after `#`: browsers send it to no server. It is packed, as by `deflate`, and written in the
 * letters of base64 that need no escapes.
 */

/** How many UTF-16 units a link holds at most, and how many bytes it is unpacked to. */
export const MOST_LINKED = 200_000;
const MOST_BYTES = 4 * MOST_LINKED;
const FRAGMENT = /^#o=([\w.-]*)&t=([\w-]*)$/;

/** The bytes that a stream gives, up to so many. */
async function bytesOf(stream, most) {
    const parts = [];
    let length = 0;
    for (const reader = stream.getReader(); ;) {
        const { done, value } = await reader.read();
        if (done) return new Uint8Array(await new Blob(parts).arrayBuffer());
        length += value.length;
        if (length > most) throw new RangeError("the link holds too long a text");
        parts.push(value);
    }
}

function through(bytes, stream, most = Infinity) {
    return bytesOf(new Blob([bytes]).stream().pipeThrough(stream), most);
}

function lettersOf(bytes) {
    let made = "";
    for (const byte of bytes) made += String.fromCharCode(byte);
    return btoa(made).replaceAll("+", "-").replaceAll("/", "_").replaceAll("=", "");
}

function bytesOfLetters(letters) {
    return Uint8Array.from(atob(letters.replaceAll("-", "+").replaceAll("_", "/")), (character) => character.charCodeAt(0));
}

/**
 * The fragment of a text with its options; null where it is too long for one.
 * @param {string} text
 * @param {string} options a word of letters, digits, dots and hyphens
 */
export async function fragmentOf(text, options) {
    if (text.length > MOST_LINKED) return null;
    return `#o=${options}&t=${lettersOf(await through(new TextEncoder().encode(text), new CompressionStream("deflate-raw")))}`;
}

/**
 * What a fragment holds; null where it holds none. It throws where that can't be read.
 * @param {string} fragment
 */
export async function heldBy(fragment) {
    const found = FRAGMENT.exec(fragment);
    if (!found) return null;
    const bytes = await through(bytesOfLetters(found[2]), new DecompressionStream("deflate-raw"), MOST_BYTES);
    return { options: found[1], text: new TextDecoder("utf-8", { fatal: true, ignoreBOM: true }).decode(bytes) };
}
