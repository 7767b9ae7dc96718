// The frame loop of a page, in the manner of examples/viewer.c. `./library wasm32` makes the
// library, and `node examples/node.mjs` prints examples/node.out.
//
// Each of six panes is a slot. On its left edge hangs its glass, a chain of layers by their left
// edges. Nobody keeps track of which layers can still be seen: the collector finds out, some steps
// in each frame.
import { code_text, CYCLES, LEFT, NO_FREE_NODE, table }
    from "../target/library/wasm32/jenturik.mjs";

const PANES = 6, BENCH = PANES, BARE = PANES + 1, SLOTS = PANES + 2;
const NODES = 64, FRAMES = 60, STEPS = 150;

// Places: a slot, a number of turns, and the turns as bits, 0 for left.
const pane = (p) => [p, 0, 0];
const glass = (p) => [p, 1, 0];
const nothing = glass(BARE); // nothing is ever hung on this slot

const t = await table(NODES);
const colours = new Array(NODES); // what a node stands for is ours to keep, under its number
let waits = 0;

function done(answer) {
    const { code, detail, node } = answer;
    if (code !== 0) throw new Error(`code ${code}, node ${node}: ${code_text(code, detail)}`);
    return answer;
}

// Points an edge to a node, and pays the shade that is then owed.
function link(source, target) {
    done(t.link(...source, LEFT, ...target));
    done(t.shade());
}

// Lays a new layer over the glass of a pane: on the bench first, then the old glass behind it, then
// all of it into the pane. Answers false where no node is free; then the edit is made in a later
// frame.
function coat(p, colour) {
    const answer = t.take(...pane(BENCH), LEFT);
    if (answer.code === NO_FREE_NODE) return false;
    colours[done(answer).node] = colour;
    link(glass(BENCH), glass(p));
    link(pane(p), glass(BENCH));
    return true;
}

// The layers of a pane, the outermost first: slot p is node p + 2.
function layers(p) {
    const seen = [];
    for (let node = t.left[p + 2]; node !== 0; node = t.left[node]) seen.push(colours[node]);
    return seen;
}

done(t.fresh(NODES, SLOTS));
for (let frame = 1; frame <= 5 * FRAMES; frame++) {
    const p = frame % PANES;
    if (frame % 17 <= p) link(pane(p), nothing); // the pane is stripped
    if (!coat(p, ["red", "green", "blue", "clear"][frame % 7 % 4])) waits++;
    done(t.collect_many(STEPS));
    if (frame % FRAMES === 0) {
        const used = done(t.in_use()).node, free = done(t.free_count()).node;
        console.log(`frame ${frame}: ${used} in use, ${free} free, ${t.words[CYCLES]} cycles,`,
            `${waits} waits; pane 0: ${layers(0).slice(0, 3).join(", ") || "bare"}`);
    }
}
