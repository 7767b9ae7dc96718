// A browser without a window, driven over a pipe by the DevTools protocol: just what the tests of
// the page need. It needs chromium and nothing else.

import { spawn } from "node:child_process";
import { mkdtemp, rm, writeFile } from "node:fs/promises";
import { tmpdir } from "node:os";
import { join } from "node:path";
import { pathToFileURL } from "node:url";

const PATIENCE = 300000; // milliseconds until a call counts as hung

export class Browser {
    #next = 1;
    #waiting = new Map();
    #rest = "";
    #listeners = [];

    static async open() {
        const browser = new Browser();
        browser.room = await mkdtemp(join(tmpdir(), "jenturik-page-"));
        const words = ["--headless=new", "--remote-debugging-pipe", "--no-first-run",
            "--disable-gpu",
            "--disable-extensions", "--no-default-browser-check", "--disable-background-networking",
            "--disable-dev-shm-usage", "--hide-scrollbars", `--user-data-dir=${browser.room}`];
        if (process.getuid() === 0) words.push("--no-sandbox"); // root has no other way
        browser.process = spawn("chromium", words, { stdio: ["ignore", "ignore", "ignore", "pipe",
            "pipe"] });
        browser.process.stdio[4].setEncoding("utf8");
        browser.process.stdio[4].on("data", (text) => browser.#received(text));
        browser.process.on("exit", () => browser.#ended());
        return browser;
    }

    #received(text) {
        const parts = (this.#rest + text).split("\0");
        this.#rest = parts.pop();
        for (const part of parts) {
            const message = JSON.parse(part), waiting = this.#waiting.get(message.id);
            if (!waiting) for (const listener of this.#listeners) listener(message);
            else if (message.error) waiting.fail(new Error(message.error.message));
            else waiting.done(message.result);
            this.#waiting.delete(message.id);
        }
    }

    #ended() {
        for (const { fail } of this.#waiting.values()) fail(new Error("the browser has ended"));
    }

    send(method, params = {}, sessionId = undefined) {
        const id = this.#next++;
        return new Promise((done, fail) => {
            const timer = setTimeout(() => fail(new Error(`${method}: no answer`)), PATIENCE);
            const ended = (what) => (value) => (clearTimeout(timer), what(value));
            this.#waiting.set(id, { done: ended(done), fail: ended(fail) });
            this.process.stdio[3].write(`${JSON.stringify({ id, method, params, sessionId })}\0`);
        });
    }

    listen(listener) {
        this.#listeners.push(listener);
    }

    // A page that shows a file, of a size.
    async page(file, width = 1360, height = 860) {
        const { targetId } = await this.send("Target.createTarget", { url: "about:blank" });
        const { sessionId } = await this.send("Target.attachToTarget", { targetId, flatten: true });
        const page = new Tab(this, sessionId, targetId);
        await page.open(file, width, height);
        return page;
    }

    async close() {
        const gone = new Promise((done) => this.process.on("exit", done));
        await this.send("Browser.close").catch(() => this.process.kill());
        await gone;
        await rm(this.room, { recursive: true, force: true, maxRetries: 5 });
    }
}

class Tab {
    constructor(browser, session, target) {
        this.browser = browser;
        this.session = session;
        this.target = target;
        this.faults = []; // what went wrong in the page
        this.fetched = []; // what it asked for, beside its own file
        browser.listen(({ method, params, sessionId }) => {
            if (sessionId !== session) return;
            if (method === "Runtime.exceptionThrown") {
                this.faults.push(params.exceptionDetails.exception?.description ?? "an exception");
            }
            if (method === "Network.requestWillBeSent") this.fetched.push(params.request.url);
        });
    }

    send(method, params) {
        return this.browser.send(method, params, this.session);
    }

    async open(file, width, height) {
        Object.assign(this, { width, height });
        for (const domain of ["Page", "Runtime", "Network"]) await this.send(`${domain}.enable`);
        await this.send("Page.bringToFront"); // a page in the background shows no frames
        await this.send("Emulation.setFocusEmulationEnabled", { enabled: true });
        await this.send("Emulation.setDeviceMetricsOverride", { width, height, deviceScaleFactor: 1,
            mobile: false });
        await this.send("Page.navigate", { url: pathToFileURL(file).href });
        await this.until("document.body?.classList.contains('ready') && page.run.done");
    }

    // The value of an expression in the page.
    async eval(expression) {
        const { result, exceptionDetails } = await this.send("Runtime.evaluate",
            { expression, awaitPromise: true, returnByValue: true });
        if (exceptionDetails) {
            throw new Error(exceptionDetails.exception?.description ?? exceptionDetails.text);
        }
        return result.value;
    }

    // Waits until an expression is true.
    async until(expression, milliseconds = 120000) {
        const end = Date.now() + milliseconds;
        while (!(await this.eval(`Boolean(${expression})`).catch(() => false))) {
            if (Date.now() > end) throw new Error(`not to be: ${expression}: ${this.faults}`);
            await new Promise((done) => setTimeout(done, 20));
        }
    }

    // Presses a key, as a user does.
    async key(key, modifiers = 0) {
        const text = key.length === 1 ? key : key === "Enter" ? "\r" : undefined;
        await this.send("Input.dispatchKeyEvent", { type: "keyDown", key, text, modifiers,
            windowsVirtualKeyCode: { Enter: 13, Escape: 27 }[key] });
        await this.send("Input.dispatchKeyEvent", { type: "keyUp", key, modifiers });
    }

    async click(selector, count = 1) {
        const { x, y } = await this.eval(`(() => {
            const box = document.querySelector(${JSON.stringify(selector)}).getBoundingClientRect();
            return { x: box.x + box.width / 2, y: box.y + box.height / 2 };
        })()`);
        for (let n = 1; n <= count; n++) {
            for (const type of ["mousePressed", "mouseReleased"]) {
                await this.send("Input.dispatchMouseEvent", { type, x, y, button: "left",
                    clickCount: n });
            }
        }
    }

    async type(text) {
        await this.send("Input.insertText", { text });
    }

    // The system's theme changes, and the page follows.
    async theme(name) {
        await this.send("Emulation.setEmulatedMedia",
            { features: [{ name: "prefers-color-scheme", value: name }] });
        await this.until(`document.documentElement.dataset.theme === "${name}"`);
    }

    // A picture of the page, smaller by a factor.
    async picture(file, scale = 1) {
        const clip = { x: 0, y: 0, width: this.width, height: this.height, scale };
        const { data } = await this.send("Page.captureScreenshot", { format: "png", clip });
        await writeFile(file, Buffer.from(data, "base64"));
    }

    async close() {
        await this.browser.send("Target.closeTarget", { targetId: this.target });
    }
}
