// Moving through a run: forward and back by steps, lines, cycles, changes of colours and appends,
// to any position, and by itself at a speed.

import { say } from "./panel.mjs";

const find = (id) => document.getElementById(id);

// How fast it plays: steps a second, or steps a frame.
export const speeds = [{ second: 1 }, { second: 2 }, { second: 5 }, { second: 10 }, { second: 30 },
    { frame: 1 }, { frame: 10 }, { frame: 100 }, { frame: 1000 }, { frame: 10000 }];

export function speedName({ second, frame }) {
    const count = second ?? frame;
    return `${count.toLocaleString("en")} ${count === 1 ? "step" : "steps"} a ` +
        (second ? "second" : "frame");
}

export class Player {
    #timer = null;
    #since = 0;
    #made = 0;
    speed = 2;
    frames = 0; // how many frames were shown while it played

    // `shown(base)` is called wherever the cursor has moved.
    constructor(cursor, shown) {
        this.cursor = cursor;
        this.shown = shown;
        find("slider").value = 0;
    }

    get playing() {
        return this.#timer !== null;
    }

    // Goes to position p. What the last step changed is marked, or if `whole`, all that changed.
    go(p, whole = false) {
        const from = this.cursor.after, forward = p > this.cursor.position;
        this.cursor.go(p);
        this.shown(whole && forward ? from : this.cursor.before);
    }

    // Behind line i.
    goLine(i) {
        const { run } = this.cursor;
        this.stop();
        if (i < run.made) this.go(run.starts[i + 1]);
    }

    // A move by its name; `back` is the other direction.
    move(by, back = false) {
        this.stop();
        const { cursor } = this, { position, run } = cursor;
        if (by === "end") return this.go(back ? 0 : run.total);
        if (by === "step") return this.go(position + (back ? -1 : 1));
        if (by === "line") return this.go(back ? cursor.lineBefore() : cursor.lineAfter(), true);
        this.go(back ? cursor.previous(by) : cursor.next(by));
    }

    play() {
        if (this.playing) return this.stop();
        if (this.cursor.position >= this.cursor.run.total) this.go(0);
        this.#since = performance.now();
        this.#made = 0;
        this.frames = 0;
        this.#timer = requestAnimationFrame((now) => this.#frame(now));
        this.showPlace();
    }

    #frame(now) {
        const { second, frame } = speeds[this.speed], { cursor } = this;
        const due = frame ?? Math.floor((now - this.#since) / 1000 * second) - this.#made;
        if (due > 0) {
            this.#made += due;
            this.go(Math.min(cursor.position + due, cursor.run.total), true);
            this.frames++;
        }
        if (cursor.position >= cursor.run.total && cursor.run.done) return this.stop();
        if (this.playing) this.#timer = requestAnimationFrame((then) => this.#frame(then));
    }

    stop() {
        if (!this.playing) return;
        cancelAnimationFrame(this.#timer);
        this.#timer = null;
        this.showPlace();
    }

    setSpeed(speed) {
        this.speed = Math.min(Math.max(0, speed), speeds.length - 1);
        this.#since = performance.now();
        this.#made = 0;
        find("speed").value = this.speed;
    }

    // The slider and the buttons.
    showPlace() {
        const { position, run } = this.cursor, slider = find("slider");
        if (Number(slider.max) !== run.total) slider.max = run.total;
        if (Number(slider.value) !== position) slider.value = position;
        const [at, all] = [position, run.total].map((count) => count.toLocaleString("en"));
        say("position", `step ${at} of ${all}`);
        say("play", this.playing ? "❚❚ Pause" : "▶ Play");
        for (const button of document.querySelectorAll("button[data-move]")) {
            button.disabled = "back" in button.dataset ? position === 0 : position === run.total;
        }
    }
}
