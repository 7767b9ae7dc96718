// Records what versions two and three would have done: makes versions.json and the theorem that it
// is true. In the project's folder, after ./library wasm32:
//
//     node web/record.mjs >web/versions.json
//     node web/record.mjs --theorem >crates/runs/proofs/Recorded.antt
//
// The steps are those of crates/runs/proofs/Versions.antt, which proves that both versions are
// wrong. As there, a version is told by ours wherever they agree: here by calls of the library.

import { FREE_COUNT, I, K, LAST, OWED, OWES, PHASE, STEPS, table }
    from "../target/library/wasm32/jenturik.mjs";

const NODES = 4, SLOTS = 1, ROOTS = 0, SCAN = 1, APPEND = 5;
const LEFT = 0, RIGHT = 1, BLACK = 2;
const slot = [0, 0, 0], itsRight = [0, 1, 1];
const names = ["Roots", "Scan", "Left", "Right", "Black", "Append", "ShadeLeft", "ShadeRight"];
const colours = ["white", "gray", "black"];

const collecting = { kind: "collect" };
const many = (count) => Array(count).fill(collecting);
const taking = (place, side) => ({ kind: "take", place, side });
const linking = (place, side, to) => ({ kind: "link", place, side, to });
const shading = { kind: "shade" };
const moving = (place, side, to) => ({ kind: "move", place, side, to });

const callsTwo = [taking(slot, RIGHT), ...many(8), linking(slot, LEFT, itsRight), shading,
    linking(slot, RIGHT, slot), shading, ...many(6), collecting];
const callsThree = [taking(slot, RIGHT), linking(slot, LEFT, itsRight), ...many(53),
    moving(slot, LEFT, itsRight), linking(slot, RIGHT, slot), moving(slot, RIGHT, slot),
    ...many(10), collecting];

// Our own step.
function ours(t, { kind, place, side, to }) {
    if (kind === "take") return t.take(...place, side);
    if (kind === "link" || kind === "move") return t.link(...place, side, ...to);
    return kind === "shade" ? t.shade() : t.collect();
}

// ---- version two: two colours, and a marker that goes round over the edges

function lookTwo(t) {
    const i = t.words[I], k = t.words[K], n = i >> 1, all = 2 * NODES;
    const target = (i % 2 === LEFT ? t.left : t.right)[n], next = (i + 1) % all;
    if (t.colour[n] === BLACK && t.colour[target] === 0) {
        t.colour[target] = BLACK;
        return [`the marker comes to ${edgeName(i)}: it leads to ${nodeName(target)}, which is ` +
            "marked now", () => set(t, SCAN, next, all)];
    }
    const seen = t.colour[n] === BLACK ? target === 0 ? "it is missing" : `it leads to ` +
        `${nodeName(target)}, which is marked already` : "the node itself is not marked";
    return [`the marker looks at ${edgeName(i)}: ${seen}`,
        () => (k === 1 ? set(t, APPEND, 0, 0) : set(t, SCAN, next, k - 1))];
}

function collectTwo(t) {
    const i = t.words[I];
    if (t.words[PHASE] === SCAN) return moved(t, lookTwo(t));
    if (t.words[PHASE] === APPEND) return appended(t);
    t.colour[i] = BLACK;
    return moved(t, [`the root ${nodeName(i)} is marked`,
        () => (i === SLOTS + 1 ? set(t, SCAN, 0, 2 * NODES) : set(t, ROOTS, i + 1, 0))]);
}

// An editor's step is ours, but it changes no colour and owes nothing.
function editTwo(t, call) {
    const { colour, phase } = { colour: t.colour.slice(), phase: t.words.slice(PHASE, K + 1) };
    set(t, ROOTS, 0, 0);
    if (call.kind !== "shade") ours(t, call);
    t.colour.set(colour);
    t.words.set(phase, PHASE);
    t.words[OWES] = t.words[OWED] = 0;
    return call.kind === "shade" ? "version two has no shade: nothing is done" : edited(t, call);
}

function stepTwo(t, call) {
    return call === collecting ? collectTwo(t) : editTwo(t, call);
}

// ---- version three: our collector; a link shades first, and moves the edge by a second call

function stepThree(t, call) {
    if (call.kind === "link") {
        const [left, right, words] = [t.left.slice(), t.right.slice(), t.words.slice()];
        const { node } = ours(t, call);
        t.left.set(left);
        t.right.set(right);
        t.words.set(words);
        const was = t.colour[node];
        if (was === 0) t.colour[node] = 1;
        return `a link begins: ${nodeName(node)} is shaded; it ` +
            (was === 0 ? "is gray now" : `was ${colours[was]} already`) +
            ". The edge has not moved yet";
    }
    if (call.kind === "move") {
        ours(t, call);
        t.words[OWES] = t.words[OWED] = 0;
        return `the link ends: ${edited(t, call)}`;
    }
    if (call.kind !== "collect") {
        ours(t, call);
        return edited(t, call);
    }
    return t.words[PHASE] === APPEND ? appended(t) : collected(t);
}

// ---- words

const nodeName = (n) => (n === 0 ? "NIL" : n === 1 ? "FREE" : `node ${n}`);
const edgeName = (i) => `the ${i % 2 === LEFT ? "left" : "right"} edge of ${nodeName(i >> 1)}`;

function set(t, phase, i, k) {
    t.words.set([phase, i, k], PHASE);
}

function moved(t, [said, move]) {
    move();
    t.words[STEPS]++;
    return said;
}

function edited(t, { kind, side }) {
    const n = (side === LEFT ? t.left : t.right)[2], name = side === LEFT ? "left" : "right";
    return kind === "take" ? `node ${n} is taken, and hangs on the ${name} of the slot`
        : `the ${name} edge of the slot leads to ${n === 2 ? "the slot itself" : `node ${n}`} now`;
}

function appended(t) {
    const i = t.words[I], was = t.colour[i];
    t.collect();
    return was === 0 ? `${nodeName(i)} is white: it is put on the free list`
        : `${nodeName(i)} was ${colours[was]}: it is white now, and kept`;
}

function collected(t) {
    const phase = names[t.words[PHASE]], was = t.colour.slice(), { node, changed } = t.collect();
    if (phase === "Scan") return `Scan: ${nodeName(node)} is ${colours[was[node]]}`;
    if (phase === "Black") return `Black: ${nodeName(node)} is black now`;
    if (phase === "Left" || phase === "Right") {
        return `${phase}: the ${phase.toLowerCase()} edge of ${nodeName(node)} is read; it ` +
            (t.words[K] === 0 ? "is missing" : `leads to ${nodeName(t.words[K])}`);
    }
    return `${phase}: ${nodeName(node)} ` +
        (changed ? "is gray now" : `stays ${colours[was[node]]}`);
}

// ---- recording

// Whether a slot leads to node n.
function reached(t, n) {
    const met = [2];
    for (const at of met) {
        for (const to of [t.left[at], t.right[at]]) if (to !== 0 && !met.includes(to)) met.push(to);
    }
    return met.includes(n);
}

function row(t, said, atEdge) {
    const [phase, i, k] = t.words.slice(PHASE, K + 1);
    const scan = atEdge && phase === SCAN;
    return { said, left: [...t.left], right: [...t.right], colour: [...t.colour],
        record: [phase, i, k, t.words[LAST]], at: scan ? i >> 1 : i,
        phase: scan ? `looks ${i % 2 === LEFT ? "left" : "right"}` : `${names[phase]} ${i}` };
}

async function recorded(step, calls, atEdge) {
    const t = await table(NODES), steps = [];
    t.fresh(NODES, SLOTS);
    steps.push(row(t, "a fresh table of four nodes and one slot", atEdge));
    for (const call of calls) {
        const free = t.words[FREE_COUNT], live = [3].filter((n) => reached(t, n));
        const said = step(t, call), grew = call === collecting && t.words[FREE_COUNT] > free;
        steps.push(row(t, said, atEdge));
        if (grew && live.includes(t.words[LAST])) {
            steps.at(-1).loses = t.words[LAST];
            steps.at(-1).said += ", although the slot leads to it. The node is lost";
        }
    }
    return steps;
}

const versions = {
    two: {
        title: "What version two would have done",
        about: "Two colours: marked, and not marked. These are recorded steps of the definition " +
            "that is proved wrong.",
        steps: await recorded(stepTwo, callsTwo, true),
    },
    three: {
        title: "What version three would have done",
        about: "A link shades first and moves the edge afterwards. These are recorded steps of " +
            "the definition that is proved wrong.",
        steps: await recorded(stepThree, callsThree, false),
    },
};

// The recorded numbers as a theorem: left edges, right edges, colours, phase and last of each step.
function theorem() {
    const list = (numbers) => [...numbers, "[]"].join(" ∷ ");
    const rows = ({ steps }) => steps.slice(1).map(({ left, right, colour, record }) =>
        `    (${list([...left, ...right, ...colour, ...record])}) ∷\n`).join("");
    const run = (name, text) => `\n-- ${text}\nabbrev steps_${name} : List (List ℕ)\n` +
        `steps_${name} =\n${rows(versions[name])}    []\n`;
    return HEAD + run("two", "version two") + run("three", "version three") + TAIL;
}

const HEAD = `\
-- The steps of versions two and three that the page shows are those of their definitions. The
-- numbers stand in web/versions.json too, and web/record.mjs writes both.
use Prim.Native.Nat.{ℕ}
use mathlib.Core.Path.{◌≡◌, refl}
use mathlib.Core.List.{List, [], ◌∷◌, ◌++◌}
use lib.ListN.{get_or}
use Rattle.base.specs.Choice.{pick, every, first}
use Rattle.rules.specs.Table.{State, Outcome, unless, edge_of, with_edge, cleared, shade_in}
use Rattle.rules.specs.Table.{bad_edge}
use Rattle.rules.specs.Phases.{tag_of, position, second}
use Rattle.rules.specs.Records.{one_more, after_append}
use Rattle.rules.specs.Check.{size_ok, position_ok, second_ok, phase_ok, owed_ok, last_ok, free_ok}
use Rattle.rules.specs.Check.{bound, cycle_ok, told_ok, counts_ok, record_ok, check_of}
use Rattle.rules.specs.Fresh.{tabulate, next_free, fresh_left, fresh_last, fresh_state}
use Rattle.rules.specs.Places.{sides_ok, turns_ok, place_code, walk_from, arrive}
use Rattle.rules.specs.Editor.{side_code, owed_code, look, depart, link_to, link, pay, shade_owed}
use Rattle.rules.specs.Editor.{bad_free, relink, take_next, take_first, take}
use Rattle.rules.specs.Collector.{shade_step, after_roots, scan_step, read_step, black_step, append}
use Rattle.rules.specs.Collector.{append_white, append_step, phase_step, collect}
use Rattle.rules.specs.Steps.{step, collecting}
use Rattle.rules.specs.declared.Step.{Step}
use Rattle.runs.proofs.Versions.{step_two, calls_two, step_three, calls_three}

-- what is recorded of a state: the left edges, the right edges, the colours, the phase, and last
abbrev row : State → List ℕ
row s = (get_or s.edges 0 [] ++ get_or s.edges 1 [] ++ s.colour)
    ++ (tag_of s.rec.phase ∷ position s.rec.phase ∷ second s.rec.phase ∷ s.rec.last
    ∷ [])

-- the states that a list of calls leads to, one after the other
abbrev trace : (Step → State → Outcome) → List Step → State → List (List ℕ)
trace by [] s = []
trace by (c ∷ cs) s = row (by c s).state ∷ trace by cs (by c s).state
`;

const TAIL = `
-- Up to the collector's step that loses node 3, these are the steps.
pub record Recorded : Type 0 where
  pub two : trace step_two (calls_two ++ (collecting ∷ [])) (fresh_state 2 4 1) ≡ steps_two
  pub three : trace step_three (calls_three ++ (collecting ∷ [])) (fresh_state 2 4 1) ≡ steps_three

pub recorded : Recorded
unfolding edge_of with_edge cleared shade_in bad_edge unless pick every first one_more after_append
    size_ok position_ok second_ok phase_ok owed_ok last_ok free_ok bound cycle_ok told_ok counts_ok
    record_ok check_of tabulate next_free fresh_left fresh_last fresh_state sides_ok turns_ok
    place_code walk_from arrive side_code owed_code look depart link_to link pay shade_owed bad_free
    relink take_next take_first take shade_step after_roots scan_step read_step black_step append
    append_white append_step phase_step collect step
recorded = record { two = refl; three = refl }
`;

// The versions as JSON, with a line for each step.
function json() {
    const parts = Object.entries(versions).map(([name, { title, about, steps }]) =>
        `"${name}": {"title": ${JSON.stringify(title)},\n"about": ${JSON.stringify(about)},\n` +
        `"steps": [\n${steps.map((step) => JSON.stringify(step)).join(",\n")}]}`);
    return `{${parts.join(",\n")}}\n`;
}

process.stdout.write(process.argv[2] === "--theorem" ? theorem() : json());
