// What an earlier version would have done: recorded steps, one after the other. They come from
// versions.json; web/record.mjs says from which definitions.

import { Graph } from "./graph.mjs";
import { say } from "./panel.mjs";

// A recorded row as a state that a graph can draw.
function stateOf({ left, right, colour }) {
    return { nodes: left.length, slots: 1, left, right, colour, words: [] };
}

export class Versions {
    #steps = [];
    #at = 0;

    constructor(box, recorded) {
        this.box = box;
        this.recorded = recorded;
        this.graph = new Graph(box.querySelector("svg"));
        this.slider = box.querySelector("input");
        this.slider.addEventListener("input", () => this.go(Number(this.slider.value)));
        for (const button of box.querySelectorAll("button[data-by]")) {
            button.addEventListener("click", () => this.go(this.#at + Number(button.dataset.by)));
        }
    }

    // Shows the version of this name, or none.
    choose(name) {
        const version = this.recorded[name];
        this.box.hidden = version === undefined;
        if (version === undefined) return;
        this.#steps = version.steps;
        this.slider.max = this.#steps.length - 1;
        say("version-title", version.title);
        say("version-about", version.about);
        this.go(this.#steps.length - 1);
    }

    go(at) {
        this.#at = Math.min(Math.max(0, at), this.#steps.length - 1);
        const step = this.#steps[this.#at];
        this.slider.value = this.#at;
        say("version-count", `${this.#at} of ${this.#steps.length - 1}`);
        say("version-said", step.said).classList.toggle("loss", Boolean(step.loses));
        this.graph.draw(stateOf(step), stateOf(this.#steps[Math.max(0, this.#at - 1)]), {
            at: step.at, read: null, owed: null, chosen: step.loses ?? null,
                last: step.record.at(-1),
            phase: step.phase,
        });
    }
}
