// A run of a schedule: what each line printed, how many steps it has, and a way to any step. What a
// line does is the library's work (jenturik_turn). A line that makes collector steps is looked into
// by single ones (jenturik_collect), which must lead to where the line itself led.
//
// A position is how many steps were made: 0 is before the first line. Line i has the positions
// above starts[i] up to starts[i + 1]. States are kept at some lines, within a budget; what is
// between them is made again when it is looked at.

import { BAD_GIVEN_EDGE, CYCLES, FREE_COUNT } from "./constants.mjs";
import { bytesOf, equal, same } from "./library.mjs";

const BUDGET = 48 << 20; // bytes of states that are kept

// The lines of a text, each with its newline if it has one. An input of no bytes has one line,
// which is empty.
export function linesOf(text) {
    return text.match(/[^\n]*\n|[^\n]+$/g) ?? [""];
}

// How many collector steps the text of a line asks for; null where it is no such line.
function countOf(line) {
    const found = /^op=collect count=([0-9]+)\n?$/.exec(line);
    return found ? Number(found[1]) : null;
}

export class Run {
    constructor(library, text) {
        this.library = library; // this run's own
        this.lines = linesOf(text);
        this.restart(0);
    }

    // Forgets the lines from line i on: they are to be made anew.
    restart(i) {
        const from = (list, length) => (i === 0 ? [] : list.slice(0, length));
        this.made = i;
        this.over = 0; // 1 if the first line was refused, 2 if an export was
        this.trouble = null; // where single steps led elsewhere
        this.starts = i === 0 ? [0] : this.starts.slice(0, i + 1);
        this.printed = from(this.printed, i);
        this.collects = from(this.collects, i); // how many collector steps a line makes
        this.changes = from(this.changes, i); // how many colours it changed
        this.appends = from(this.appends, i); // how many nodes it appended
        this.cycles = from(this.cycles, i); // how many cycles were complete after it
        this.details = new Map(); // what the line of a refused export does not print
        if (i === 0) {
            this.every = 1; // a state is kept at every so many lines
            this.kept = new Map();
            this.keptBytes = 0;
            this.library.start();
            return;
        }
        for (const line of [...this.kept.keys()]) if (line > i) this.#forget(line);
        this.bring(this.library, i);
    }

    // Puts lines in the place of some of them, and makes the run anew from there. The line before
    // is made again too, since the end of the input may be behind it no longer.
    edit(i, removed, texts) {
        this.lines.splice(i, removed, ...texts);
        this.lines = linesOf(this.lines.map((line, n) =>
            n < this.lines.length - 1 && !line.endsWith("\n") ? `${line}\n` : line).join(""));
        this.restart(Math.max(0, Math.min(i, this.made) - 1));
    }

    get total() {
        return this.starts[this.made];
    }

    get done() {
        return this.over !== 0 || this.made === this.lines.length;
    }

    // How many steps line i has.
    steps(i) {
        return this.starts[i + 1] - this.starts[i];
    }

    get transcript() {
        return this.printed.join("");
    }

    // Answers lines for so many milliseconds, and at least one.
    make(milliseconds) {
        const end = performance.now() + milliseconds;
        do this.#line(); while (!this.done && performance.now() < end);
    }

    // Answers the next line.
    #line() {
        const i = this.made, before = this.library.save();
        this.#keep(i, before);
        const { printed, over } = this.feed(this.library, i);
        const count = /^code=0 /.test(printed) ? countOf(this.lines[i]) : null;
        const looked = count > 0 ? this.#inside(before, count) : null;
        const l = this.library;
        this.changes.push(looked ? looked.changed : Number(!equal(before.colour,
            l.colour.subarray(0, before.nodes))));
        this.appends.push(looked ? l.words[FREE_COUNT] - before.words[FREE_COUNT] : 0);
        this.cycles.push(l.words[CYCLES]);
        this.printed.push(printed);
        this.collects.push(looked ? count : 0);
        this.starts.push(this.starts[i] + (looked ? count : 1));
        this.over = over;
        this.made = i + 1;
        if (printed.startsWith(`code=${BAD_GIVEN_EDGE} `)) {
            this.details.set(i, l.exportDetail(before.slots));
        }
    }

    // Hands line i over, and with the last one the end of the input.
    feed(library, i) {
        const line = bytesOf(this.lines[i]);
        const told = line.length > 0 ? library.turn(line) : { printed: "", over: 0 };
        if (i < this.lines.length - 1 || told.over !== 0) return told;
        const { printed, over } = library.turn(new Uint8Array(0));
        return { printed: told.printed + printed, over };
    }

    // Whether so many collector steps from `before` lead to where the library is; how many colours
    // they changed. Null, and a trouble, where they do not.
    #inside(before, count) {
        const after = this.library.save();
        this.library.restore(before);
        const changed = this.library.collectMany(count);
        const agrees = same(this.library.save(), after);
        this.library.restore(after);
        if (!agrees) this.trouble ??= `line ${this.made + 1}: single steps lead elsewhere`;
        return agrees ? { changed } : null;
    }

    #keep(i, state) {
        if (i % this.every !== 0 || this.kept.has(i)) return;
        this.kept.set(i, state);
        this.keptBytes += state.bytes;
        while (this.keptBytes > BUDGET) {
            this.every *= 2;
            for (const line of [...this.kept.keys()]) if (line % this.every) this.#forget(line);
        }
    }

    #forget(line) {
        this.keptBytes -= this.kept.get(line).bytes;
        this.kept.delete(line);
    }

    // Brings a library to where line i begins.
    bring(library, i) {
        let from = i;
        while (!this.kept.has(from)) from--;
        library.restore(this.kept.get(from));
        for (; from < i; from++) this.feed(library, from);
    }

    // The line in which position p is: the first one's for 0.
    lineOf(p) {
        let low = 0, high = Math.max(0, this.made - 1);
        while (low < high) {
            const middle = (low + high) >> 1;
            if (this.starts[middle + 1] < p) low = middle + 1;
            else high = middle;
        }
        return low;
    }
}
