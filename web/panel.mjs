// The panel beside the drawing: the step, the phase, what is owed, the counts, the code and its
// sentence, and the node that is chosen.

import { NODES, SLOTS } from "./constants.mjs";
import { FREE_NODE, GARBAGE, IN_USE, SLOT, kindNames, kindsOf, owedOf, phaseNames, placeOf }
    from "./look.mjs";
import { colourNames, lastOf, stretchOf, wayTo } from "./look.mjs";
import { answerOf, changesOf, countNames, nodeName, phaseSentence, phaseTitle, stepSentence }
    from "./describe.mjs";

const MOST_CHANGES = 8;

const find = (id) => document.getElementById(id);

// Sets a text, if it is another one.
export function say(id, text) {
    const element = find(id);
    if (element.textContent !== String(text)) element.textContent = text;
    return element;
}

function listed(id, texts) {
    find(id).replaceChildren(...texts.map((text) => {
        const item = document.createElement("li");
        item.textContent = text;
        return item;
    }));
}

export function showPanel(cursor, base, chosen) {
    showStep(cursor, base);
    const state = cursor.after;
    find("state").hidden = !state.hasTable;
    if (!state.hasTable) return;
    showPhase(state.words);
    showCounts(cursor, base);
    showNode(chosen, state);
}

function showStep(cursor, base) {
    const { run, position, line, told, before, after } = cursor;
    const inside = position > 0 && run.steps(line) > 1;
    say("step-title", position === 0 ? "Before the first line"
        : inside ? `Line ${line + 1}, step ${position - run.starts[line]} of ${run.steps(line)}`
            : `Line ${line + 1}`);
    const ends = position > 0 && position === run.starts[line + 1];
    const answer = ends ? answerOf(run.printed[line], run.details.get(line) ?? 0) : null;
    say("step-said", told ? stepSentence(told, before, after) : position === 0
        ? "Nothing has been read yet." : answer ? "" : lineless(after));
    const code = find("code");
    code.hidden = answer === null;
    code.classList.toggle("refused", answer !== null && answer.code !== 0);
    if (answer) {
        say("code-line", `code=${answer.code} node=${answer.node}`);
        say("code-text", answer.sentence);
    }
    listed("changes", position === 0 ? [] : changesOf(base, after, MOST_CHANGES));
}

// A line that printed nothing: one of an export.
function lineless(state) {
    return state.stage === "loading" ? "A line of an export. It is answered when all of it is read."
        : "";
}

function showPhase(words) {
    const { phase, node, k } = placeOf(words), nodes = words[NODES];
    say("phase", phaseTitle(words));
    say("phase-said", `Next: ${phaseSentence(words)}.`);
    const stretch = stretchOf(phase);
    for (const name of ["roots", "mark", "append"]) {
        find(`stretch-${name}`).classList.toggle("now", name === stretch);
    }
    const share = stretch === "roots" ? node / (words[SLOTS] + 2)
        : stretch === "append" ? node / nodes : k === null ? 0 : 1 - k / nodes;
    find("progress").style.setProperty("--share", share);
    find("progress").title = phaseNames[phase];
    const owed = owedOf(words);
    say("owed", owed === null ? "none" : nodeName(owed)).classList.toggle("due", owed !== null);
    const last = lastOf(words);
    say("last", last === 1 ? "none: the free list is empty" : `node ${last}`);
}

function showCounts(cursor, base) {
    const { words } = cursor.after, { counts } = kindsOf(cursor.after);
    for (const word of countNames().keys()) {
        const field = say(`count-${word}`, words[word]);
        field.classList.toggle("changed", base.words[word] !== words[word]);
    }
    say("kind-slots", counts[SLOT]);
    say("kind-used", counts[IN_USE]);
    say("kind-free", counts[FREE_NODE]);
    say("kind-garbage", counts[GARBAGE]).classList.toggle("due", counts[GARBAGE] > 0);
    say("library-counts", counts[IN_USE] === cursor.library.inUse() ? ""
        : `The library counts ${cursor.library.inUse()} nodes in use.`);
}

// The rows of the counts, made once.
export function layCounts() {
    for (const [word, name] of countNames()) {
        const term = document.createElement("dt"), value = document.createElement("dd");
        term.textContent = name;
        value.id = `count-${word}`;
        find("counts").append(term, value);
    }
}

function showNode(n, state) {
    const there = n !== null && n < state.nodes;
    find("chosen").hidden = !there;
    if (!there) return;
    const { kinds, free } = kindsOf(state), kind = kinds[n];
    const way = wayTo(n, state);
    say("chosen-title", n < 2 ? nodeName(n) : `Node ${n}`);
    say("chosen-kind", kind === SLOT ? `slot ${n - 2}` : kind === FREE_NODE
        ? `free, ${free.indexOf(n) + 1} of ${free.length} on the list` : kindNames[kind]);
    say("chosen-colour", colourNames[state.colour[n]]);
    say("chosen-left", state.left[n] === 0 ? "missing" : nodeName(state.left[n]));
    say("chosen-right", state.right[n] === 0 ? "missing" : nodeName(state.right[n]));
    say("chosen-way", way ? `slot=${way.slot} turns=${way.turns || "-"}` : "no slot leads to it " +
        "by 12 turns or fewer");
}

