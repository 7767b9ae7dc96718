// What is shown of a state: which nodes slots reach, which are free, which are garbage, and what
// differs between two states. It walks along the edges, for the eye alone: nothing of it goes back
// into the library.

import { I, LAST, OWED, OWES, PHASE, READ, USED } from "./constants.mjs";

// What a node is, as a number for each node of a table.
export const NIL = 0;
export const FREE = 1; // the head of the free list
export const SLOT = 2;
export const IN_USE = 3;
export const FREE_NODE = 4;
export const GARBAGE = 5;

export const kindNames = ["NIL", "FREE, the head of the free list", "slot", "in use", "free",
    "garbage"];
export const colourNames = ["white", "gray", "black"];

export const phaseNames = ["Roots", "Scan", "Left", "Right", "Black", "Append", "ShadeLeft",
    "ShadeRight"];
const [ROOTS, SCAN, SHADE_LEFT, SHADE_RIGHT] = ["Roots", "Scan", "ShadeLeft", "ShadeRight"]
    .map((name) => phaseNames.indexOf(name));

// Each node's kind; the free nodes in their order; how many nodes are of each kind.
export function kindsOf({ nodes, slots, left, right }) {
    const kinds = new Uint8Array(nodes).fill(GARBAGE), free = [];
    if (nodes === 0) return { kinds, free, counts: [0, 0, 0, 0, 0, 0] };
    kinds[0] = NIL;
    kinds[1] = FREE;
    const met = [];
    for (let n = 2; n < slots + 2; n++) {
        kinds[n] = SLOT;
        met.push(n);
    }
    for (let at = 0; at < met.length; at++) {
        for (const to of [left[met[at]], right[met[at]]]) {
            if (kinds[to] === GARBAGE) {
                kinds[to] = IN_USE;
                met.push(to);
            }
        }
    }
    for (let n = left[1]; n !== 0 && kinds[n] === GARBAGE; n = left[n]) {
        kinds[n] = FREE_NODE;
        free.push(n);
    }
    const counts = [0, 0, 0, 0, 0, 0];
    for (const kind of kinds) counts[kind]++;
    return { kinds, free, counts };
}

// Where the collector is: the phase, its node, and the number read, or null.
export function placeOf(words) {
    const phase = words[PHASE];
    const read = phase === SHADE_LEFT || phase === SHADE_RIGHT ? words[READ] : null;
    return { phase, node: words[I], read, k: phase === SCAN ? words[READ] : null };
}

// The node that is owed a shade, or null.
export function owedOf(words) {
    return words[OWES] === 1 ? words[OWED] : null;
}

export function lastOf(words) {
    return words[LAST];
}

// Which nodes have another colour or another edge after a step, and which words another number. If
// there was no table of this size before, nothing is told apart.
export function differences(before, after) {
    const found = { colours: [], lefts: [], rights: [], words: [], fresh: false };
    for (let w = 0; w < USED; w++) {
        if (before.words[w] !== after.words[w]) found.words.push(w);
    }
    if (before.nodes !== after.nodes) return { ...found, fresh: after.nodes > 0 };
    for (let n = 0; n < after.nodes; n++) {
        if (before.colour[n] !== after.colour[n]) found.colours.push(n);
        if (before.left[n] !== after.left[n]) found.lefts.push(n);
        if (before.right[n] !== after.right[n]) found.rights.push(n);
    }
    return found;
}

// A way from a slot to a node, as a line of a schedule names it; null if there is none that is
// short enough.
export function wayTo(node, { slots, left, right }) {
    const ways = new Map();
    for (let n = 2; n < slots + 2; n++) ways.set(n, { slot: n - 2, turns: "" });
    for (const [n, { slot, turns }] of ways) {
        if (n === node) return { slot, turns };
        if (turns.length === 12) continue;
        for (const [to, turn] of [[left[n], "L"], [right[n], "R"]]) {
            if (to !== 0 && !ways.has(to)) ways.set(to, { slot, turns: turns + turn });
        }
    }
    return null;
}

// How far a cycle is: shading the roots, marking, or appending.
export function stretchOf(phase) {
    if (phase === ROOTS) return "roots";
    return phaseNames[phase] === "Append" ? "append" : "mark";
}
