// Sentences for what is seen: the step that was made, the phase, the code.

import { APPENDED, LOOKED, MADE_BLACK, SHADED, WHITENED, code_text } from "./constants.mjs";
import { BLACKENED, BLACKENED_LAST_CYCLE, CYCLES, FREE_COUNT, STEPS, TOOK } from "./constants.mjs";
import { colourNames, differences, owedOf, phaseNames, placeOf } from "./look.mjs";

const PHASES_OF_EDGES = { Left: "left", ShadeLeft: "left", Right: "right", ShadeRight: "right" };

// A node by its name.
export function nodeName(n) {
    return n === 0 ? "NIL" : n === 1 ? "FREE" : `node ${n}`;
}

// What the collector is to do next.
export function phaseSentence(words) {
    const { phase, node, read, k } = placeOf(words);
    const name = phaseNames[phase], side = PHASES_OF_EDGES[name], n = nodeName(node);
    if (name === "Roots") return `shade the root ${n}`;
    if (name === "Scan") {
        return `look whether ${n} is gray; ${k} ${k === 1 ? "look" : "looks"} without a gray ` +
            "node end the marking";
    }
    if (name === "Black") return `make ${n} black`;
    if (name === "Append") return `${n}: make it white if it is black, append it if it is white`;
    if (read === null) return `read the ${side} edge of ${n}`;
    return `shade ${nodeName(read)}, to which the ${side} edge of ${n} led when it was read`;
}

export function phaseTitle(words) {
    const { phase, node } = placeOf(words);
    return `${phaseNames[phase]} ${node}`;
}

// What a single collector step did, by its answer and the phase before it.
export function stepSentence(told, before, after) {
    const { phase, node } = placeOf(before.words), name = phaseNames[phase];
    const n = nodeName(told.node);
    if (told.what === SHADED) {
        const colour = colourNames[after.colour[told.node]];
        return told.changed ? `${name}: ${n} was white and is gray now`
            : `${name}: ${n} is ${colour} already, and stays so`;
    }
    if (told.what === LOOKED && name === "Scan") {
        return `Scan: ${n} is ${colourNames[before.colour[told.node]]}`;
    }
    if (told.what === LOOKED) {
        const to = placeOf(after.words).read;
        return `${name}: the ${PHASES_OF_EDGES[name]} edge of ${n} was read; it leads to ` +
            (to === 0 ? "NIL" : `node ${to}`);
    }
    if (told.what === MADE_BLACK) return `Black: ${n} is black now; its edges have been followed`;
    if (told.what === WHITENED) return `Append: ${n} was black; it is white now, and kept`;
    if (told.what === APPENDED) return `Append: ${n} was white: it is put on the free list`;
    return `${name} ${node} was refused with code ${told.code}`;
}

// The code that a line printed, its node, and the code's sentence.
export function answerOf(printed, detail) {
    const found = /^code=([0-9]+) node=([0-9]+)\n$/.exec(printed);
    if (!found) return null;
    const [code, node] = [Number(found[1]), Number(found[2])];
    return { code, node, sentence: code_text(code, detail) };
}

const counts = new Map([[STEPS, "steps of this cycle"], [CYCLES, "cycles complete"],
    [TOOK, "steps of the last cycle"], [BLACKENED, "made black in this marking"],
    [BLACKENED_LAST_CYCLE, "made black in the last marking"], [FREE_COUNT, "free nodes"]]);

export function countNames() {
    return counts;
}

// What is different after a step, a phrase each.
export function changesOf(before, after, most) {
    const found = differences(before, after), phrases = [];
    if (found.fresh) return [`a table of ${after.nodes} nodes and ${after.slots} slots`];
    for (const n of found.colours) {
        phrases.push(`${nodeName(n)}: ${colourNames[before.colour[n]]} → ` +
            colourNames[after.colour[n]]);
    }
    for (const [side, nodes] of [["left", found.lefts], ["right", found.rights]]) {
        for (const n of nodes) {
            phrases.push(`${side} edge of ${nodeName(n)}: ${before[side][n]} → ${after[side][n]}`);
        }
    }
    const [was, is] = [owedOf(before.words), owedOf(after.words)];
    if (was !== is) {
        phrases.push(is === null ? "no shade is owed" : `${nodeName(is)} is owed a shade`);
    }
    if (phrases.length <= most) return phrases;
    return [...phrases.slice(0, most), `and ${phrases.length - most} more`];
}
