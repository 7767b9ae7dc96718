// The page in a real browser. node tests/browser/page.mjs ROOM: ROOM has the pages NAME.html, the
// schedules NAME.txt and what the program prints for them, NAME.out. The last line is 'N passed, M
// failed'. With a second word only the tests whose names have it are run.

import { readFileSync, readdirSync } from "node:fs";
import { join } from "node:path";
import { Browser } from "./browser.mjs";
import * as checks from "./checks.mjs";

const [room, only = ""] = process.argv.slice(2);
const latin1 = (name) => readFileSync(join(room, name), "latin1");

// What a test is given: ways to open pages, and what is expected.
class Setting {
    constructor(browser) {
        this.browser = browser;
        this.room = room;
        this.open = [];
        this.names = readdirSync(room).filter((name) => name.endsWith(".txt"))
            .map((name) => name.slice(0, -4));
    }

    schedule(name) {
        return latin1(`${name}.txt`);
    }

    printed(name) {
        return latin1(`${name}.out`);
    }

    async page(name) {
        const page = await this.browser.page(join(room, `${name}.html`));
        this.open.push(page);
        return page;
    }

    // Nothing may go wrong in a page, and nothing be fetched but itself.
    async done() {
        for (const page of this.open.splice(0)) {
            const trouble = await page.eval("page.run.trouble");
            equal(trouble, null, "the single steps of a line lead where the line led");
            equal(page.faults.join("; "), "", "nothing is thrown");
            equal(page.fetched.filter((url) => !/^(file:.*\.html|data:,)$/.test(url)).join(" "), "",
                "nothing is fetched");
            await page.close();
        }
    }
}

export function equal(got, want, what) {
    const [a, b] = [JSON.stringify(got), JSON.stringify(want)];
    if (a === b) return;
    let at = 0;
    while (a?.[at] === b?.[at]) at++;
    const part = (text) => String(text).slice(Math.max(0, at - 40), at + 80);
    throw new Error(`${what}: got …${part(a)}…, expected …${part(b)}…`);
}

let passed = 0, failed = 0;
const browser = await Browser.open();
try {
    for (const [name, check] of Object.entries(checks)) {
        if (!name.includes(only)) continue;
        const setting = new Setting(browser);
        try {
            await check(setting, equal);
            await setting.done();
            passed++;
        } catch (error) {
            console.log(`${name}: ${error.message.split("\n")[0]}`);
            failed++;
            for (const page of setting.open) await page.close().catch(() => {});
        }
    }
} finally {
    await browser.close();
}
console.log(`${passed} passed, ${failed} failed`);
process.exitCode = failed === 0 ? 0 : 1;
