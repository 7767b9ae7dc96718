// Jenturik for JavaScript: the calls of jenturik.h, in browsers and in Node 20 or later.
//
// `./library wasm32` makes target/library/wasm32/ with this file, the library (jenturik.wasm), and
// the numbers and the texts of jenturik.h (constants.mjs). The three stay in one folder.
//
//     import { code_text, table, NO_FREE_NODE } from "./target/library/wasm32/jenturik.mjs";
//
//     const t = await table(512); // arrays for 512 nodes
//     if (t.fresh(512, 8).code !== 0) throw new Error("sizes");
//     const a = t.take(0, 0, 0, 0); // a node, left on slot 0
//     if (a.code !== 0 && a.code !== NO_FREE_NODE) throw new Error(code_text(a.code, a.detail));
//     t.collect_many(2000);
//
// jenturik.h tells what each call does and answers. Here a call has the same name without
// `jenturik_`, and the same arguments without the arrays and the words, which the table has:
// t.left and t.right (Uint16Array), t.colour (Uint8Array) and t.words (Uint32Array). Read them
// between two calls, and do not write to them. They stay where they are as long as t is there.
//
// What each call does is proved of the library's LLVM module. What is below that is trusted, not
// proved: LLVM's back end for WebAssembly, the linker, this file, and the engine that runs it.

import { STEP_WORDS, WORDS } from "./constants.mjs"; // ./library puts it beside this file

export * from "./constants.mjs";

// B, the most collector steps that a cycle takes.
export function bound(nodes, slots) {
    return nodes * nodes + 7 * nodes + slots + 2;
}

// The arrays and the words of a table of so many nodes; call `fresh` or `load` first, with the same
// number. `source` is the library if it is not jenturik.wasm beside this file: a URL, relative to
// this file; its bytes; or a WebAssembly.Module.
export async function table(nodes, source) {
    const module = source === undefined ? await beside() : await compiled(source);
    const { exports } = await WebAssembly.instantiate(module);
    return new Table(exports, u32(nodes));
}

let compiling; // jenturik.wasm, which is compiled once

async function beside() {
    compiling ??= compiled("jenturik.wasm");
    try {
        return await compiling;
    } catch (error) {
        compiling = undefined;
        throw error;
    }
}

async function compiled(source) {
    if (source instanceof WebAssembly.Module) return source;
    if (source instanceof ArrayBuffer || ArrayBuffer.isView(source)) {
        return WebAssembly.compile(source);
    }
    const url = new URL(source, import.meta.url);
    if (url.protocol === "file:") {
        const { readFile } = await import("node:fs/promises");
        return WebAssembly.compile(await readFile(url));
    }
    const response = await fetch(url);
    if (!response.ok) throw new Error(`${url}: ${response.status} ${response.statusText}`);
    return WebAssembly.compile(await response.arrayBuffer());
}

// A number from 0 on.
function whole(n) {
    if (!Number.isInteger(n) || n < 0) throw new RangeError(`${n} is no whole number from 0 on`);
    return n;
}

// A number of 32 bits. A larger one becomes the largest, which is refused as the larger one would.
function u32(n) {
    return Math.min(whole(n), 0xffffffff);
}

// A number of collector steps. As many as JavaScript counts are more than are ever made.
function counted(n) {
    return Math.min(whole(n), Number.MAX_SAFE_INTEGER);
}

const LIST = 4097; // one more than the longest list that Load accepts, or that can be freed
const AT_ONCE = 256; // how many steps of a schedule are handed over at once

class Table {
    #calls;
    #memory;
    #answer; // where a call leaves its answer
    #lists; // room for Load's two lists
    #freed; // the room of the first, for nodes that become free
    #steps; // room for steps of a schedule

    constructor(exports, nodes) {
        this.#calls = exports;
        const [answer, words, left, right, colour, lefts, rights, steps, end] = places(
            exports.__heap_base.value, 16, 4 * WORDS, 2 * nodes, 2 * nodes, nodes, 4 * LIST,
            4 * LIST, 4 * STEP_WORDS * AT_ONCE);
        const missing = end - exports.memory.buffer.byteLength;
        if (missing > 0) exports.memory.grow(Math.ceil(missing / 65536));
        const memory = this.#memory = exports.memory.buffer;
        this.left = new Uint16Array(memory, left, nodes);
        this.right = new Uint16Array(memory, right, nodes);
        this.colour = new Uint8Array(memory, colour, nodes);
        this.words = new Uint32Array(memory, words, WORDS);
        this.#answer = new DataView(memory, answer, 16);
        this.#lists = [new Uint32Array(memory, lefts, LIST), new Uint32Array(memory, rights, LIST)];
        this.#freed = new Uint16Array(memory, lefts, LIST);
        this.#steps = new Uint32Array(memory, steps, STEP_WORDS * AT_ONCE);
    }

    // The library's version, as 1000 * VERSION_MAJOR + VERSION_MINOR.
    version() {
        return this.#calls.jenturik_version() >>> 0;
    }

    fresh(nodes, slots) {
        return this.#told("jenturik_fresh", u32(nodes), u32(slots));
    }

    // The two lists are arrays of numbers, of any kind; they are copied.
    load(given_left, given_right, nodes, slots) {
        const [left, right] = [given_left, given_right].map((given, i) => {
            const list = this.#lists[i], length = Math.min(given.length, LIST);
            for (let n = 0; n < length; n++) list[n] = u32(given[n]);
            return [list.byteOffset, BigInt(length)];
        });
        return this.#told("jenturik_load", ...left, ...right, u32(nodes), u32(slots));
    }

    look(slot, count, word) {
        return this.#told("jenturik_look", u32(slot), u32(count), u32(word));
    }

    in_use() {
        return this.#told("jenturik_in_use");
    }

    free_count() {
        return this.#told("jenturik_free_count");
    }

    link(slot, count, word, side, toslot, tocount, toword) {
        return this.#told("jenturik_link", u32(slot), u32(count), u32(word), u32(side),
            u32(toslot), u32(tocount), u32(toword));
    }

    shade() {
        return this.#told("jenturik_shade");
    }

    take(slot, count, word, side) {
        return this.#told("jenturik_take", u32(slot), u32(count), u32(word), u32(side));
    }

    collect() {
        return this.#told("jenturik_collect");
    }

    collect_many(n) {
        this.#call("jenturik_collect_many", BigInt(counted(n)));
        const a = this.#answer;
        return {
            done: Number(a.getBigUint64(0, true)), changed: a.getUint32(8, true),
            node: a.getUint16(12, true), what: a.getUint8(14), code: a.getUint8(15) & 31,
            detail: a.getUint8(15) >> 5,
        };
    }

    // `freeds` is the length of the list in C; without it, the list is long enough. The answer's
    // `freed` is the list itself, an array of nodes, and so its length is their number.
    collect_freed(n, freeds = LIST) {
        const list = this.#freed, length = Math.min(whole(freeds), LIST);
        this.#call("jenturik_collect_freed", BigInt(counted(n)), list.byteOffset, BigInt(length));
        const a = this.#answer;
        return {
            done: Number(a.getBigUint64(0, true)), changed: a.getUint32(8, true),
            freed: [...list.subarray(0, a.getUint16(12, true))], code: a.getUint8(14),
            detail: a.getUint8(15),
        };
    }

    // The steps are an array of numbers, STEP_WORDS to a step. They are handed over some at a time;
    // if words are left over, one of them alone, which is refused as all of them are.
    schedule(numbers) {
        const total = { done: 0, code: 0, detail: 0, changed: 0 };
        const all = numbers.length % STEP_WORDS === 0 ? numbers : [0];
        let at = 0;
        do {
            const end = Math.min(at + this.#steps.length, all.length);
            for (let n = at; n < end; n++) this.#steps[n - at] = u32(all[n]);
            this.#call("jenturik_schedule", this.#steps.byteOffset, BigInt(end - at));
            total.done += Number(this.#answer.getBigUint64(0, true));
            total.code = this.#answer.getUint16(8, true);
            total.detail = this.#answer.getUint16(10, true);
            total.changed = u32(total.changed + this.#answer.getUint32(12, true));
            at = end;
        } while (at < all.length && total.code === 0);
        return total;
    }

    #told(call, ...more) {
        this.#call(call, ...more);
        const a = this.#answer;
        return {
            what: a.getUint32(0, true), code: a.getUint16(4, true), detail: a.getUint16(6, true),
            node: a.getUint32(8, true), changed: a.getUint32(12, true),
        };
    }

    // Makes a call over the table. WebAssembly has the answer behind a pointer, which comes first,
    // and lengths of 64 bits.
    #call(call, ...more) {
        const { left, right, colour, words } = this;
        for (const array of [left, right, colour, words]) {
            if (array.buffer !== this.#memory) throw new TypeError("an array of another table");
        }
        this.#calls[call](this.#answer.byteOffset, left.byteOffset, BigInt(left.length),
            right.byteOffset, BigInt(right.length), colour.byteOffset, BigInt(colour.length),
            words.byteOffset, ...more);
    }
}

// Where things of these sizes lie in memory, one behind the other, and where the last one ends.
function places(from, ...sizes) {
    const all = [Math.ceil(from / 16) * 16];
    for (const size of sizes) all.push(Math.ceil((all.at(-1) + size) / 16) * 16);
    return all;
}
