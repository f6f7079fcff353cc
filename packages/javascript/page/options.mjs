/** What the form asks for, and how a link has it. */

/**
 * @typedef {{ extensions: string[], isSafe: boolean, rawHtml: "escaped" | "omitted", rel: boolean, imagesAsLinks: boolean }} Asked
 */

/**
 * What is asked for.
 * @param {HTMLFormElement} form
 * @returns {Asked}
 */
export function askedBy(form) {
    const words = new FormData(form);
    return {
        extensions: words.getAll("extension").map(String),
        isSafe: words.get("html") !== "unsafe",
        rawHtml: form.omitted.checked ? "omitted" : "escaped",
        rel: form.rel.checked,
        imagesAsLinks: form.images.checked,
    };
}

/** What safe HTML alone has can't be asked for with unsafe HTML. */
export function settle(form) {
    const isSafe = form.elements.namedItem("html").value !== "unsafe";
    form.querySelectorAll("[data-safe]").forEach((box) => (box.disabled = !isSafe));
}

/**
 * The extensions and the settings as a word, for a link. Whether HTML is unsafe is no part of it: who opens a link is asked first.
 * @param {Asked} asked
 */
export function wordOf({ extensions, rawHtml, rel, imagesAsLinks }) {
    return [...extensions, ...(rawHtml === "omitted" ? ["omitted"] : []), ...(rel ? [] : ["norel"]), ...(imagesAsLinks ? ["images"] : [])].join(".");
}

/**
 * Asks for what such a word says; what it doesn't know is left out.
 * @param {HTMLFormElement} form
 * @param {string} word
 */
export function ask(form, word) {
    const named = new Set(word.split("."));
    form.querySelectorAll('[name="extension"]').forEach((box) => (box.checked = named.has(box.value)));
    form.omitted.checked = named.has("omitted");
    form.rel.checked = !named.has("norel");
    form.images.checked = named.has("images");
    form.elements.namedItem("html").value = "safe";
    settle(form);
}
