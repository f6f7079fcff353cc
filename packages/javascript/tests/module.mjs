/** The module that is tested: the one that MODULE names, else the one of each engine. */
import { VERSION } from "../lib/c.mjs";

export const MODULE = new URL(`../${process.env.MODULE ?? "fillaqut.wasm"}`, import.meta.url);

/** Whether it has a 64-bit memory. */
export const IS_WIDE = MODULE.pathname.endsWith("64.wasm");

/** A module with a section that names this file as the 64-bit one beside it. */
export function naming(module, file) {
    const name = "fillaqut64";
    const body = Buffer.concat([Buffer.from([name.length]), Buffer.from(name + file)]);
    return Buffer.concat([module, Buffer.from([0, body.length]), body]);
}

/** The same module of another version. */
export function ofOtherVersion(module) {
    const other = Buffer.from(module);
    other.write("9", other.lastIndexOf(VERSION));
    return other;
}
