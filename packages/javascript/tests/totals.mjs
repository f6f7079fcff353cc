/** How much is tried, held against packages/javascript/totals, or written there, by docs/totals_file.py. */
import { spawnSync } from "node:child_process";
import { fileURLToPath } from "node:url";
import { TOP } from "./tree.mjs";

const FILE = fileURLToPath(new URL("packages/javascript/totals", TOP));
const HOLD = fileURLToPath(new URL("docs/totals_file.py", TOP));

/** This part has tried as much as packages/javascript/totals says. */
export function hold(name, tried) {
    const { status, stderr } = spawnSync("python3", [HOLD, FILE, name, String(tried)], { encoding: "utf8" });
    if (stderr) console.error(stderr.trimEnd());
    if (status !== 0) throw new Error(`packages/javascript/totals: ${stderr.trimEnd()}`);
}
