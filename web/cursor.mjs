// A place in a run: the state there, the state one step before, and what that step answered. It has
// a library of its own, so that a run can still be made while one looks at it.

import { CYCLES, FREE_COUNT } from "./constants.mjs";
import { same } from "./library.mjs";

// What one can look for in a line: a number that only grows within it.
const measures = {
    cycle: (l) => l.words[CYCLES],
    append: (l) => l.words[FREE_COUNT],
    colour: (l, changed) => changed,
};

export class Cursor {
    constructor(library, run) {
        this.library = library;
        this.reset(run);
    }

    // The beginning of a run.
    reset(run) {
        this.run = run;
        this.library.start();
        this.position = 0;
        this.line = 0; // the line of the latest step
        this.told = null; // the answer of a single collector step
        this.after = this.before = this.library.save();
    }

    // Goes to position p: the state before the step that leads there, the step, the state after.
    go(p) {
        p = Math.min(Math.max(0, p), this.run.total);
        if (p === this.position) return;
        if (p === 0) return this.reset(this.run);
        const i = this.run.lineOf(p), end = p === this.run.starts[i + 1];
        this.#reach(i, p - 1);
        this.before = this.library.save();
        this.told = this.run.collects[i] > 0 ? this.library.collect() : null;
        if (this.told === null) this.run.feed(this.library, i);
        else if (end) this.#confirm(i);
        this.after = this.library.save();
        this.position = p;
        this.line = i;
    }

    // Brings the library to position p of line i: on from here, or anew from where the line begins.
    #reach(i, p) {
        let here = this.position;
        if (here < this.run.starts[i] || here > p) {
            this.run.bring(this.library, i);
            here = this.run.starts[i];
        }
        if (p > here) this.library.collectMany(p - here);
    }

    // Behind the last single step of a line: the line itself is handed over, from its begin, and
    // must lead to the same.
    #confirm(i) {
        const single = this.library.save();
        this.run.bring(this.library, i);
        this.run.feed(this.library, i);
        if (!same(single, this.library.save())) {
            this.run.trouble ??= `line ${i + 1}: single steps lead elsewhere`;
        }
    }

    // The next position at which a line ends, or the one before at which a line begins.
    lineAfter() {
        return this.run.starts[this.position === 0 ? 1 : this.#ends() ? this.line + 2
            : this.line + 1] ?? this.run.total;
    }

    lineBefore() {
        return this.run.starts[this.line];
    }

    #ends() {
        return this.position === this.run.starts[this.line + 1];
    }

    // The next position at which a cycle is complete, a colour is changed or a node is appended;
    // the end if there is none.
    next(kind) {
        let i = this.position === 0 ? 0 : this.line, from = this.position;
        if (this.#ends() && this.position > 0) i++;
        for (; i < this.run.made; i++) {
            const start = this.run.starts[i];
            if (this.#has(kind, i)) {
                const found = this.#firstIn(kind, i, Math.max(0, from - start));
                if (found !== null) return start + found;
            }
            from = this.run.starts[i + 1];
        }
        return this.run.total;
    }

    // The same before this position; the beginning if there is none.
    previous(kind) {
        for (let i = this.line; i >= 0; i--) {
            const start = this.run.starts[i];
            const limit = Math.min(this.run.steps(i), this.position - 1 - start);
            if (limit > 0 && this.#has(kind, i)) {
                const found = this.#lastIn(kind, i, limit);
                if (found !== null) return start + found;
            }
        }
        return 0;
    }

    // Whether there is such a step in line i.
    #has(kind, i) {
        const { cycles, changes, appends } = this.run;
        if (kind === "cycle") return cycles[i] > (i > 0 ? cycles[i - 1] : 0);
        return (kind === "colour" ? changes : appends)[i] > 0;
    }

    // How much of it there is after so many steps of line i.
    #measured(kind, i, steps) {
        this.run.bring(this.library, i);
        const changed = steps > 0 ? this.library.collectMany(steps) : 0;
        return measures[kind](this.library, changed);
    }

    // The first step of line i above `from` at which there is more of it; null if there is none.
    #firstIn(kind, i, from) {
        const steps = this.run.steps(i);
        if (steps === 1) return from === 0 ? 1 : null;
        return this.#seek(kind, i, from, steps);
    }

    // The last step of line i up to `limit` at which there is more of it; null if there is none.
    #lastIn(kind, i, limit) {
        if (this.run.steps(i) === 1) return 1;
        const most = this.#searching(() => this.#measured(kind, i, limit));
        const least = this.#searching(() => this.#measured(kind, i, 0));
        return most > least ? this.#bisect(kind, i, 0, limit, most - 1) : null;
    }

    // Doubles the distance until there is more of it, and bisects then.
    #seek(kind, i, from, steps) {
        const had = this.#searching(() => this.#measured(kind, i, from));
        for (let ahead = 1; ; ahead *= 2) {
            const to = Math.min(from + ahead, steps);
            if (this.#searching(() => this.#measured(kind, i, to)) > had) {
                return this.#bisect(kind, i, from, to, had);
            }
            if (to === steps) return null;
        }
    }

    // The first step at which there is more than `had`, above `low` and not above `high`.
    #bisect(kind, i, low, high, had) {
        while (high - low > 1) {
            const middle = Math.floor((low + high) / 2);
            if (this.#searching(() => this.#measured(kind, i, middle)) > had) high = middle;
            else low = middle;
        }
        return high;
    }

    // Searching leaves the library as it was.
    #searching(search) {
        const found = search();
        this.library.restore(this.after);
        return found;
    }
}
