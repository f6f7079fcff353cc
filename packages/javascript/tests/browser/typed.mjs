/** The text that the browser test types: tabs, quotes, items, tables, links, HTML, and hostile lines. */
import { readFileSync } from "node:fs";
import { TOP } from "../tree.mjs";

const PAGE = readFileSync(new URL("packages/c/examples/page.md", TOP), "utf8");

const TABS = `
>\t\tfoo
>\t- a tab after a quote
>\t  goes on
-\t\tan item with tabs
1.\tone
\t- two
\t\t> three
 \t mixed \t space

10) ten
\t11) eleven
\t\t\tcode in eleven
`;

const TABLES = `
| left | center \\| | &amp; |
|:-----|:------:|--|
| a | b [x][two words] | c |
| <b> | \\\\| d

no table
---|
`;

const LINKS = `
A [one](/a (t)) and [two](<b c>), <https://c.d>, <e@f>, [two words], [TWO
WORDS][], <a
href="g"> and <!-- a comment
over lines --> <?php h ?> <!DOCTYPE i> <![CDATA[ j ]]> <k.

é🍔ẞ: [ẞ] <é> \`<!-- l -->\` &eacute;
`;

const HOSTILE = [
    "a " + "<!-- ".repeat(300),
    "* ".repeat(300) + "a",
    "[".repeat(300),
    "\t".repeat(150),
    "> ".repeat(60) + "deep",
    "`".repeat(40) + " ``` " + "<?".repeat(100),
    "- ".repeat(40) + "x",
    "(".repeat(60) + ")".repeat(60),
];

export const TYPED = `${PAGE}${TABS}${TABLES}${LINKS}\n${HOSTILE.join("\n\n")}\n`;

const PIECES = [
    "> ", ">", "- ", "+\t", "1. ", "12) ", "\t", " ", "   ", "a", "# ",
    "\n```\n", "\n~~~\n", "|", "---", "===", "* * *", "<!-- -->", "<div>", "", "[b]: c", "\\",
];

/** Lines of such pieces, the same each time. */
function madeLines(count) {
    let seed = 7;
    const below = (most) => {
        seed = (seed * 1103515245 + 12345) % 2 ** 31;
        return Math.floor((seed / 2 ** 31) * most);
    };
    const line = () => Array.from({ length: below(7) }, () => PIECES[below(PIECES.length)]).join("");
    return Array.from({ length: count }, line).join("\n") + "\n";
}

export const MADE = madeLines(600);
