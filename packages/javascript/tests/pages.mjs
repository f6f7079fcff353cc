/**
 * Pages for the page's reading: made ones with each kind of line after each other, the examples of the specification, and the
 * Markdown files of this disk.
 */
import { execFileSync } from "node:child_process";
import { existsSync, readdirSync, readFileSync } from "node:fs";
import { join } from "node:path";

/** Where Debian's librust-pulldown-cmark-dev has the crate, with the examples; SPEC names another file of that form. */
const REGISTRY = "/usr/share/cargo/registry";
const EXAMPLE = /let original = r##"(.*?)"##;/gs;
const MOST_FILES = 2000;
const MOST_BYTES = 1_000_000;

/** Lines of each kind: blank ones, text, definitions, underlines, headings, breaks, code, HTML, containers, tables, inline text. */
const LINES = [
    "", " \t", "\v\f", "a", "a  ", "a\\", "[a]: /b", "[a]: <b> 'c'", "[a]:", "[a]: /b 'c", "'c'", "[a", "]: /b", "===", "=", "---", "-",
    "***", "* * *", "# a", "#", "## a ##", "####### a", "```", "~~~ a", "~~~", "    a", "\ta", "<div>", "</p>", "<pre>", "</pre>", "<pre/>",
    "<!-- a", "-->", "<?a", "?>", "<!a", "<![CDATA[", "]]>", "<b>", "<b", ">", "> a", ">\t- a", "- a", "-\t\ta", "1. a", "2) a", "1.", "|a|b|",
    "|-|:-:|", "|-|", ":-", "---|", "a|b", "|", "\\|a", "[a][b] [a](c) [a]", "`a` ``b", "&amp; &#0; é🍔", "<https://a> <a@b.c>", "\0", "a\r",
];
/** Those after which a paragraph, or what follows one, may end in different ways. */
const TURNS = ["", "a", "[a]: /b", "[a]:", "'c'", "===", "---", "-", "# a", "```", "    a", "<b>", "</p>", "> a", "- a", "1. a", "|a|", "|-|", ":-"];
/** What a page's first line begins with, and its others: the containers of all, or of the first alone. */
const CONTAINERS = [["", ""], ["> ", "> "], ["> ", ""], ["- ", "  "], ["- ", ""], ["1. > ", "   > "], ["- ", "- "]];

/** Pages of two lines in containers, and of three. */
export function* madePages() {
    for (const [first, later] of CONTAINERS) {
        for (const one of LINES) for (const other of LINES) yield `${first}${one}\n${later}${other}\n`;
    }
    for (const one of TURNS) for (const other of TURNS) for (const last of TURNS) yield `${one}\n${other}\n${last}`;
}

/** The file with the specification's examples, or null. */
function specification() {
    if (process.env.SPEC) return process.env.SPEC;
    const folders = existsSync(REGISTRY) ? readdirSync(REGISTRY).filter((name) => name.startsWith("pulldown-cmark-")) : [];
    return folders.map((folder) => join(REGISTRY, folder, "tests/suite/spec.rs")).find((path) => existsSync(path)) ?? null;
}

/** The examples of the specification, or null where no file has them. */
export function examples() {
    const file = specification();
    return file && Array.from(readFileSync(file, "utf8").matchAll(EXAMPLE), ([, text]) => text);
}

/** The texts of the Markdown files of this disk that are not large: null for one that is not UTF-8, which the page refuses. */
export function filesOfDisk() {
    const skipped = ["/proc", "/sys", "/dev"].flatMap((folder) => ["-path", folder, "-prune", "-o"]);
    const words = ["/", ...skipped, "-type", "f", "-iname", "*.md", "-size", `-${MOST_BYTES}c`, "-print0"];
    const found = said("find", words).split("\0").filter(Boolean).sort().slice(0, MOST_FILES);
    return found.map(bytesOf).filter((bytes) => bytes !== null).map(decoded);
}

/** The bytes of a file, or null where it may not be read, or has gone by now. */
function bytesOf(file) {
    try {
        return readFileSync(file);
    } catch {
        return null;
    }
}

/** What a program prints; its status is 1 where it may not read a folder. */
function said(program, words) {
    const how = { encoding: "utf8", maxBuffer: 2 ** 28, stdio: ["ignore", "pipe", "ignore"] };
    try {
        return execFileSync(program, words, how);
    } catch (why) {
        if (why.status !== 1) throw why;
        return why.stdout;
    }
}

function decoded(bytes) {
    try {
        return new TextDecoder("utf-8", { fatal: true, ignoreBOM: true }).decode(bytes);
    } catch {
        return null;
    }
}
