/** What a user of the package writes in TypeScript; what stands after `@ts-expect-error` must have an error. */
import { DEFAULT_SCHEMES, load, loadSync, NotUtf8, type Event, type Extension, type HtmlSetting, type Leaf, type LineStart, type Text } from "fillaqut";

const scanners = await load();
const page: Text<string> = scanners.text("# a\n> [b](c) &amp;");
const bytes: Text<Uint8Array> = scanners.text(new Uint8Array([35]));
const level: number | null = page.scanAtxHeading(0, 3);
const start: LineStart<string> = page.lineStart(page.scanLine());
const isQuote: boolean = start.quote();
const made: [string, Uint8Array] = [page.unescape(6, undefined, { inTable: false }), bytes.unescape()];
const label: { end: number; text: string; start: number | null } | null = page.scanLinkLabel(7);
const title: { start: number; stop: number } | null | undefined = page.scanReferenceDefinition(0, 3, { maxNext: 3 })?.title;
const run: "*" | "_" | undefined = page.scanDelimiterRun(0, 3, { begin: 0 })?.character;
const contents: string[] = Array.from(page.scanBlocks(0, 3, { extensions: ["tables", "footnotes"] }), (it) => it.content());
const places: number[][] = Array.from(bytes.scanBlocks(), (it) => it.containers.map((container) => container.place));
const inlines: (string | undefined)[] = Array.from(
    page.scanInlines(0, 3, { labels: ["a", new Uint8Array([98])], extensions: ["strikethrough", "wikilinks"] }),
    (it) => ("link" in it ? it.link.target : it.kind),
);
const html: [string, Uint8Array] = [scanners.html("*a*"), bytes.htmlUnsafe({ extensions: ["tables", "tasks"] })];
const madeHtml: string = scanners.html("*a*", { schemes: [...DEFAULT_SCHEMES, "ftp"], rawHtml: "omitted", rel: false, imagesAsLinks: true });
const returned: (string | number | null)[] = scanners.events("# *a*", { extensions: ["tables"] }).map((it) => {
    if (it.kind === "start") return it.element === "heading" ? it.level : it.element === "link" ? it.destination : it.start;
    return it.kind === "text" ? it.text : null;
});
const first: Uint8Array | null = bytes.events().reduce<Uint8Array | null>((found, it) => found ?? (it.kind === "text" ? it.text : null), null);
const name: string = new NotUtf8("none").name;
const at: number | null = new NotUtf8("none", 3).index;
const asked: Extension[] = ["tables", "footnotes"];
const setting: HtmlSetting = { schemes: ["ftp"], rel: false };
const leaves: Leaf<string>[] = [...page.scanBlocks(0, 3, { extensions: asked })];
const levelOf = (event: Event<string>): number | null => ("element" in event && event.element === "heading" ? event.level : null);
const isOrdered: boolean[] = scanners.events("1. a").flatMap((it) => (it.kind === "end" && it.element === "list" ? [it.isOrdered] : []));
const synchronous = (module: Uint8Array): string => loadSync(module).html("a", setting);
console.log(level, isQuote, made[0], made[1].length, label?.text, page.scanLinkDest(10, 11)?.end, name);
console.log(returned.length, first, madeHtml);
console.log(at, leaves.length, scanners.events("# a").map(levelOf), isOrdered, synchronous.length);
console.log(html[0].length, html[1].length, contents, places, inlines, title?.start, run, page.scanCodeSpan()?.stop);
console.log(scanners.isUnicodeWhitespace("a"), scanners.isUnicodePunctuation(33));

// @ts-expect-error a place is a number
page.scanLine("0");
// @ts-expect-error options stand after the end
page.scanLinkLabel({ inTable: true });
// @ts-expect-error there is no such option
page.unescape(0, 3, { intable: true });
// @ts-expect-error there is no such option
scanners.text("a", { unit: "utf-16" });
// @ts-expect-error there is no such option
page.scanDelimiterRun(0, 3, { start: 0 });
// @ts-expect-error labels are a list
page.scanInlines(0, 3, { labels: "a" });
// @ts-expect-error there is no such extension
page.scanBlocks(0, 3, { extensions: ["footnote"] });
// @ts-expect-error HTML is not built of this extension
scanners.html("a", { extensions: ["footnotes"] });
// @ts-expect-error safe HTML keeps no raw HTML
scanners.html("a", { rawHtml: "kept" });
// @ts-expect-error there is no such option
scanners.htmlUnsafe("a", { rawHtml: "escaped" });
// @ts-expect-error extensions are names
scanners.blockReader({ footnotes: true });
// @ts-expect-error there is no such option
scanners.events("a", { safe: true });
// @ts-expect-error a heading leads nowhere
scanners.events("a").map((it) => it.kind === "start" && it.element === "heading" && it.destination);
// @ts-expect-error a paragraph that ends has no level
scanners.events("a").map((it) => it.kind === "end" && it.element === "paragraph" && it.level);
// @ts-expect-error a call of a run is a list
start.run(["quote"]);
// @ts-expect-error what is made of a string is a string
const wrong: Uint8Array = page.unescape();
// @ts-expect-error the engine is the package's own
page.engine;
