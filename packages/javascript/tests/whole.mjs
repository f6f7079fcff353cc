/** What has to hold of the reading of any page, in Node and in browsers. */

/** How many bytes a byte order mark has, which is no part of the text that it stands before. */
const MARK = 3;

/** The reading of a page: its lines are its text, each has its block, and the scans for inline HTML keep to their bound. */
export function readWhole(Reading, scanners, text) {
    const reading = new Reading(scanners, text);
    for (const _ of reading.read());
    let at = text.startsWith("\ufeff") ? MARK : 0;
    for (const line of reading.lines) {
        const isWhole = line.at === at && line.end > at && line.block !== null && at <= line.from && line.from <= line.end;
        if (!isWhole) throw new Error(`line ${line.number} of ${JSON.stringify(text)} is read as ${JSON.stringify(line)}`);
        at = line.end;
    }
    if (at !== reading.page.length || reading.passed > reading.bound) throw new Error(`${JSON.stringify(text)} is not read whole`);
    return reading;
}
