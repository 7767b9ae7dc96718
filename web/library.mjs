// The proved library in the page: one piece of memory and the calls over it. Nothing here knows a
// rule; a call is made and its answer is taken apart. include/jenturik.h tells the calls.

import { NODES, SLOTS, WORDS } from "./constants.mjs";

const ENTRIES = 4096; // room for the largest table
const LINE = 81; // the bytes of a line that the reader keeps
const BLOCK = 16384; // how much of the input is handed over at once
const OUT = 22 * BLOCK; // a line has at least its newline, an answer at most 22 bytes
const SESSION = 32; // the reader's words: the record's come first
const STAGE = 24, TABLE = 25; // which line is awaited; how many nodes the table has
const LOADING = 2; // the stage of an export

// How far a run is: which line is awaited.
export const stages = ["opening", "second", "loading", "serving", "over", "stopped"];

// All that a run is made of between two lines: it can be kept and put back.
export class State {
    constructor(words, left, right, colour, lists) {
        this.words = words;
        this.left = left;
        this.right = right;
        this.colour = colour;
        this.lists = lists; // an export's edges as far as they are read, or null
    }

    get nodes() {
        return this.left.length;
    }

    // Whether there is a table: there is none before the first line, nor after an export that was
    // refused.
    get hasTable() {
        return this.words[NODES] > 0;
    }

    get slots() {
        return this.words[SLOTS];
    }

    get stage() {
        return stages[this.words[STAGE]];
    }

    get bytes() {
        return 5 * this.nodes + 4 * SESSION + (this.lists ? 8 * this.lists[0].length : 0);
    }
}

// Whether two states have the same table and the same record.
export function same(a, b) {
    return equal(a.words.subarray(0, WORDS), b.words.subarray(0, WORDS)) &&
        equal(a.left, b.left) && equal(a.right, b.right) && equal(a.colour, b.colour);
}

export function equal(a, b) {
    if (a.length !== b.length) return false;
    for (let i = 0; i < a.length; i++) if (a[i] !== b[i]) return false;
    return true;
}

export class Library {
    #calls;

    // A library of its own memory.
    static async open(module) {
        return new Library((await WebAssembly.instantiate(module)).exports);
    }

    constructor(exports) {
        this.#calls = exports;
        const sizes = [16, 4 * SESSION, 2 * ENTRIES, 2 * ENTRIES, ENTRIES, 4 * ENTRIES, 4 * ENTRIES,
            LINE, OUT, BLOCK];
        const [answer, words, left, right, colour, lefts, rights, line, out, input, end] =
            placed(exports.__heap_base.value, sizes);
        const missing = end - exports.memory.buffer.byteLength;
        if (missing > 0) exports.memory.grow(Math.ceil(missing / 65536));
        const memory = exports.memory.buffer;
        this.answer = new DataView(memory, answer, 16);
        this.words = new Uint32Array(memory, words, SESSION);
        this.left = new Uint16Array(memory, left, ENTRIES);
        this.right = new Uint16Array(memory, right, ENTRIES);
        this.colour = new Uint8Array(memory, colour, ENTRIES);
        this.lefts = new Uint32Array(memory, lefts, ENTRIES);
        this.rights = new Uint32Array(memory, rights, ENTRIES);
        this.line = new Uint8Array(memory, line, LINE);
        this.out = new Uint8Array(memory, out, OUT);
        this.input = new Uint8Array(memory, input, BLOCK);
    }

    // All words 0 and zeroed buffers are the start of a run.
    start() {
        for (const name of ["words", "left", "right", "colour", "lefts", "rights", "line"]) {
            this[name].fill(0);
        }
    }

    // How many nodes the table has; 0 before there is one.
    get nodes() {
        return this.words[TABLE];
    }

    // Hands bytes over to the reader of lines, and answers what it prints and whether the run is
    // over. No bytes are the end of the input.
    turn(bytes) {
        let printed = "", over = 0, from = 0;
        do {
            const part = bytes.subarray(from, from + BLOCK);
            this.input.set(part);
            this.#turn(part.length);
            if (this.answer.getUint16(8, true) !== 0) throw new Error("the words are no session");
            const used = Number(this.answer.getBigUint64(0, true));
            printed += latin1(this.out.subarray(0, used));
            over = this.answer.getUint16(10, true);
            from += BLOCK;
        } while (from < bytes.length);
        return { printed, over };
    }

    #turn(length) {
        const lent = [this.left, this.right, this.colour, this.lefts, this.rights, this.line,
            this.out].flatMap((array) => [array.byteOffset, BigInt(array.length)]);
        this.#calls.jenturik_turn(this.answer.byteOffset, ...lent, this.words.byteOffset,
            this.input.byteOffset, BigInt(length));
    }

    // One collector step.
    collect() {
        return this.#told("jenturik_collect");
    }

    // So many collector steps: how many colours they changed.
    collectMany(count) {
        this.#call("jenturik_collect_many", BigInt(count));
        if ((this.answer.getUint8(15) & 31) !== 0) throw new Error("a collector step was refused");
        return this.answer.getUint32(8, true);
    }

    // How many nodes slots lead to, the slots' own not counted.
    inUse() {
        return this.#told("jenturik_in_use").node;
    }

    // Which side the edge has for which an export was refused: the detail of Load's answer, for
    // the edges that the reader has kept. It changes nothing.
    exportDetail(slots) {
        const kept = this.save(), m = this.nodes;
        const { detail } = this.#told("jenturik_load", this.lefts.byteOffset, BigInt(m),
            this.rights.byteOffset, BigInt(m), m, slots);
        this.restore(kept);
        return detail;
    }

    #told(call, ...more) {
        this.#call(call, ...more);
        const a = this.answer;
        return {
            what: a.getUint32(0, true), code: a.getUint16(4, true), detail: a.getUint16(6, true),
            node: a.getUint32(8, true), changed: a.getUint32(12, true),
        };
    }

    #call(call, ...more) {
        const length = BigInt(this.nodes);
        this.#calls[call](this.answer.byteOffset, this.left.byteOffset, length,
            this.right.byteOffset, length, this.colour.byteOffset, length, this.words.byteOffset,
            ...more);
    }

    save() {
        const m = this.nodes, loading = this.words[STAGE] === LOADING;
        return new State(this.words.slice(), this.left.slice(0, m), this.right.slice(0, m),
            this.colour.slice(0, m),
            loading ? [this.lefts.slice(0, m), this.rights.slice(0, m)] : null);
    }

    restore(state) {
        this.words.set(state.words);
        this.left.set(state.left);
        this.right.set(state.right);
        this.colour.set(state.colour);
        if (state.lists) {
            this.lefts.set(state.lists[0]);
            this.rights.set(state.lists[1]);
        }
    }
}

// Where things of these sizes lie in memory, one behind the other, and where the last one ends.
function placed(from, sizes) {
    const all = [Math.ceil(from / 16) * 16];
    for (const size of sizes) all.push(Math.ceil((all.at(-1) + size) / 16) * 16);
    return all;
}

// Bytes as a text with a character for each, and back.
export function latin1(bytes) {
    let text = "";
    for (let i = 0; i < bytes.length; i += 8192) {
        text += String.fromCharCode(...bytes.subarray(i, i + 8192));
    }
    return text;
}

export function bytesOf(text) {
    const bytes = new Uint8Array(text.length);
    for (let i = 0; i < text.length; i++) bytes[i] = text.charCodeAt(i);
    return bytes;
}
