/**
 * The frames that show HTML. Neither runs a script, loads anything or leads anywhere, by its sandbox and by the policies of the page and of
 * itself. That of safe HTML lets the page alone look inside, which marks the source of what is pointed at; that of unsafe HTML lets no one.
 */
import { element } from "./drawing.mjs";

const STYLE = new URL("frame.css", import.meta.url).href;
const POLICY = `default-src 'none'; style-src ${STYLE}`;
const HEAD = `<!doctype html><meta http-equiv="Content-Security-Policy" content="${POLICY}"><link rel="stylesheet" href="${STYLE}"><body>`;

/** Where the source of each element stands that is shown. */
const places = new WeakMap();

/**
 * A frame for safe HTML, which is empty. Of what is pointed at in it `show` is given: its name, and where its source begins and stops.
 * @param {(name: string, start: number, stop: number) => void} show
 */
export function newFrame(show) {
    const frame = /** @type {HTMLIFrameElement} */ (element("iframe", { sandbox: "allow-same-origin", title: "The safe HTML", srcdoc: HEAD }));
    const stands = new Promise((resolve) => frame.addEventListener("load", resolve, { once: true }));
    stands.then(() => {
        const inside = /** @type {Document} */ (frame.contentDocument);
        inside.addEventListener("pointerover", (event) => point(inside, event.target, show));
        inside.addEventListener("focusin", (event) => point(inside, event.target, show));
        inside.addEventListener("click", (event) => event.preventDefault());
        inside.addEventListener("auxclick", (event) => event.preventDefault());
    });
    return { frame, stands };
}

/**
 * A frame that shows unsafe HTML.
 * @param {string} html
 */
export function unsafeFrame(html) {
    return element("iframe", { sandbox: "", class: "unsafe", title: "The unsafe HTML, which runs no script here and loads nothing", srcdoc: HEAD + html });
}

/** Marks the innermost element that is pointed at and has a source. */
function point(inside, target, show) {
    let node = target;
    while (node && !places.has(node)) node = node.parentElement;
    inside.querySelectorAll("[data-pointed]").forEach((other) => other.removeAttribute("data-pointed"));
    if (!node) return;
    node.setAttribute("data-pointed", "");
    show(...places.get(node));
}

/**
 * Shows safe HTML in the frame, whose elements have these sources; and says whether each has its own.
 * @param {HTMLIFrameElement} frame
 * @param {{ html: string, sources: import("./rendered.mjs").Source[] }} rendered
 */
export function fill(frame, { html, sources }) {
    const { body } = /** @type {Document} */ (frame.contentDocument);
    body.innerHTML = html;
    const elements = [...body.querySelectorAll("*")];
    const areKnown = elements.length === sources.length && elements.every((of, index) => of.localName === sources[index][0]);
    if (areKnown) elements.forEach((of, index) => places.set(of, sources[index]));
    return areKnown;
}
