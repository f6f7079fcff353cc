/** A headless Chromium, driven over its own protocol, and a server of a folder for it. */
import { spawn } from "node:child_process";
import { createReadStream, existsSync, mkdtempSync, rmSync, statSync } from "node:fs";
import { createServer } from "node:http";
import { tmpdir } from "node:os";
import { extname, join, normalize } from "node:path";

const TYPES = { ".html": "text/html", ".mjs": "text/javascript", ".css": "text/css", ".wasm": "application/wasm" };

const CHROMIUM = process.env.CHROMIUM ?? "chromium";

/** Serves the files of a folder, but for those that `changed` answers otherwise; its URL, and what ends it. */
export async function serve(folder, changed = () => null) {
    const server = createServer((request, response) => {
        const path = normalize(decodeURIComponent(new URL(request.url, "http://localhost").pathname));
        const file = join(folder, path.endsWith("/") ? `${path}index.html` : path);
        const other = changed(path);
        const isThere = other === null ? existsSync(file) && statSync(file).isFile() : other !== undefined;
        response.writeHead(isThere ? 200 : 404, { "content-type": TYPES[extname(file)] ?? "text/plain" });
        if (other) response.end(other);
        else if (isThere) createReadStream(file).pipe(response);
        else response.end();
    });
    await new Promise((resolve) => server.listen(0, "127.0.0.1", resolve));
    return { url: `http://127.0.0.1:${server.address().port}/`, close: () => server.close() };
}

/** A browser with one page. */
export class Browser {
    #process;
    #waiting = new Map();
    #listeners = [];
    #next = 1;
    #session;
    #said = "";
    #ended = null;

    constructor() {
        this.folder = mkdtempSync(join(tmpdir(), "chromium-"));
        const words = ["--headless=new", "--remote-debugging-pipe", "--no-first-run", "--no-sandbox", "--disable-gpu", "--hide-scrollbars"];
        const options = { stdio: ["ignore", "ignore", "ignore", "pipe", "pipe"] };
        this.#process = spawn(CHROMIUM, [...words, `--user-data-dir=${this.folder}`, "about:blank"], options);
        this.#process.stdio[3].on("error", (why) => this.#end(why));
        this.#process.stdio[4].on("data", (data) => this.#hear(data));
        this.#process.on("error", (why) => this.#end(why));
        this.#process.on("exit", () => this.#end(new Error("the browser has ended")));
    }

    /** Nothing is answered any more. */
    #end(why) {
        this.#ended = why;
        this.#waiting.forEach((waiter) => waiter.reject(why));
        this.#waiting.clear();
    }

    #hear(data) {
        const parts = (this.#said + data).split("\0");
        this.#said = parts.pop();
        for (const message of parts.map((part) => JSON.parse(part))) {
            const waiting = this.#waiting.get(message.id);
            this.#waiting.delete(message.id);
            if (!waiting) this.#listeners.forEach((listener) => listener(message));
            else if (message.error) waiting.reject(new Error(message.error.message));
            else waiting.resolve(message.result);
        }
    }

    /** Sends a command of the protocol, and answers its result. */
    send(method, params = {}, sessionId = this.#session) {
        if (this.#ended) return Promise.reject(this.#ended);
        const id = this.#next++;
        this.#process.stdio[3].write(`${JSON.stringify({ id, method, params, sessionId })}\0`);
        return new Promise((resolve, reject) => this.#waiting.set(id, { resolve, reject }));
    }

    on(method, call) {
        this.#listeners.push((message) => message.method === method && call(message.params));
    }

    /** Opens a page of this size, and waits until it stands. */
    async open(url, { width, height, dark = false }) {
        if (!this.#session) {
            const { targetInfos } = await this.send("Target.getTargets");
            const { targetId } = targetInfos.find((target) => target.type === "page");
            this.#session = (await this.send("Target.attachToTarget", { targetId, flatten: true })).sessionId;
            await this.send("Page.enable");
            await this.send("Runtime.enable");
        }
        await this.resize(width, height);
        await this.send("Emulation.setEmulatedMedia", { features: [{ name: "prefers-color-scheme", value: dark ? "dark" : "light" }] });
        const loaded = new Promise((resolve) => this.on("Page.loadEventFired", resolve));
        await this.send("Page.navigate", { url });
        await loaded;
    }

    async resize(width, height) {
        await this.send("Emulation.setDeviceMetricsOverride", { width, height, deviceScaleFactor: 1, mobile: false });
    }

    /** What a function answers in the page. */
    async ask(call, ...given) {
        const expression = `(${call})(...${JSON.stringify(given)})`;
        const { result, exceptionDetails } = await this.send("Runtime.evaluate", { expression, awaitPromise: true, returnByValue: true });
        if (exceptionDetails) throw new Error(exceptionDetails.exception?.description ?? exceptionDetails.text);
        return result.value;
    }

    async key(key, modifiers = 0) {
        const code = { ArrowDown: 40, ArrowUp: 38, ArrowLeft: 37, ArrowRight: 39, Tab: 9, Enter: 13, " ": 32 }[key];
        const params = { key, code: key === " " ? "Space" : key, windowsVirtualKeyCode: code, modifiers };
        const text = { Enter: "\r", " ": " " }[key];
        await this.send("Input.dispatchKeyEvent", { type: text ? "keyDown" : "rawKeyDown", ...params, text });
        await this.send("Input.dispatchKeyEvent", { type: "keyUp", ...params });
    }

    async screenshot() {
        return Buffer.from((await this.send("Page.captureScreenshot", { format: "png" })).data, "base64");
    }

    async close() {
        const ended = this.#ended ? null : new Promise((resolve) => this.#process.on("exit", resolve));
        this.send("Browser.close", {}, undefined).catch(() => null);
        await ended;
        rmSync(this.folder, { recursive: true, force: true, maxRetries: 5 });
    }
}
