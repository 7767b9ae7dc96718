// state.mjs MODE LIBRARY [wrong]: reads lines as the second program's modes take them
// (tests/second/model/main.rs), makes the calls through jenturik.mjs in the folder LIBRARY, and
// writes what that mode writes, so that the two can be compared. tests/c/state.c does the same in
// C, and describes the modes. A line has k and the number read apart, the words have one for both.
//
// With `wrong` the library is lent its arrays wrongly, which must be found: `sides` swapped, or a
// colour too few (`short`).
import { readFileSync, writeFileSync } from "node:fs";
import { resolve } from "node:path";
import { pathToFileURL } from "node:url";

const [mode, folder, wrong] = process.argv.slice(2);
const jenturik = await import(pathToFileURL(resolve(folder, "jenturik.mjs")));
const { REFUSED, STARTED, NAMED, LINKED, TAKEN, SHADED, COUNTED, STEP_WORDS, USED, WORDS, PHASE, K,
    READ, LAST } = jenturik;

const MOST = 8200; // the longest array of a line
const MARK = 0xa5; // behind the arrays; it must stay
const t = await jenturik.table(MOST + 8);
const room = { left: t.left, right: t.right, colour: t.colour };

let numbers, at, out;

function fail(why) {
    console.error(`state.mjs: ${why}`);
    process.exit(1);
}

function expect(good, why) {
    if (!good) fail(why);
}

// The next number; one above 32 bits becomes the largest of 32.
function word() {
    if (at >= numbers.length) fail("a number is missing");
    return Math.min(Number(numbers[at++]), 0xffffffff);
}

function list() {
    return Array.from({ length: word() }, word);
}

function read_arrays() {
    return { left: list(), right: list(), colour: list() };
}

// Whether the phase is one that shades a number read.
function shades(words) {
    return words[PHASE] === 6 || words[PHASE] === 7;
}

function read_state() {
    const words = Array.from({ length: USED }, word), read = word();
    if (shades(words)) words[READ] = read;
    return { words, ...read_arrays() };
}

// Lends a state: arrays with their own lengths, with marks behind them.
function lend(state) {
    for (const name of ["left", "right", "colour"]) {
        room[name].fill(name === "colour" ? MARK : MARK * 257);
        room[name].set(state[name]);
        t[name] = room[name].subarray(0, state[name].length);
    }
    if (wrong === "sides") [t.left, t.right] = [t.right, t.left];
    if (wrong === "short") t.colour = t.colour.subarray(1);
    t.words.fill(0);
    t.words.set(state.words);
}

// The state as a call leaves it.
function taken_back() {
    if (wrong === "sides") [t.left, t.right] = [t.right, t.left];
    const state = { words: [...t.words.subarray(0, USED)] };
    for (const name of ["left", "right", "colour"]) {
        const length = t[name].length + (name === "colour" && wrong === "short" ? 1 : 0);
        state[name] = [...room[name].subarray(0, length)];
        const behind = room[name].subarray(length, length + 8);
        expect(behind.every((n) => n % 256 === MARK), `${name} was written behind its end`);
    }
    expect(t.words.subarray(USED).every((n) => n === 0), "a word that has no use is not 0");
    return state;
}

function put(...more) {
    out.push(...more);
}

function put_state({ words, left, right, colour }) {
    put(...words.map((n, i) => i === K && shades(words) ? 0 : n), shades(words) ? words[READ] : 0);
    for (const array of [left, right, colour]) {
        put(array.length);
        for (const n of array) out.push(n);
    }
}

function same(one, other) {
    return JSON.stringify(one) === JSON.stringify(other);
}

// The numbers of a step; its words without a use are 0.
function read_step() {
    return [...Array.from({ length: 8 }, word), 0, 0, 0, 0];
}

function own_call([kind, slot, count, turns, side, toslot, tocount, toturns]) {
    switch (kind) {
    case 0: return t.take(slot, count, turns, side);
    case 1: return t.link(slot, count, turns, side, toslot, tocount, toturns);
    case 2: return t.shade();
    case 3: return t.collect();
    default: return t.look(slot, count, turns);
    }
}

// What was done as the mode tells it: the collector's steps from 1 on.
function did(kind, told) {
    expect((told.what === REFUSED) === (told.code !== 0), "what was done contradicts the code");
    if (told.what === REFUSED) return 0;
    if (kind === 3) return told.what - SHADED + 1;
    expect(told.what === [TAKEN, LINKED, SHADED, 0, NAMED][kind], "what was done is of another");
    return 0;
}

// The same step from the same state by another call.
function again(state, call) {
    lend(state);
    const answer = call();
    return { answer, state: taken_back() };
}

function state_line() {
    const given = read_state(), step = read_step(), kind = step[0];
    const { answer: done, state: after } = again(given, () => t.schedule(step));
    let told = { what: 0, code: done.code, detail: done.detail, node: 0, changed: done.changed };
    if (kind <= 4) {
        const own = again(given, () => own_call(step));
        told = own.answer;
        expect(same(own.state, after), "the call and the schedule leave different states");
    }
    expect(["code", "detail", "changed"].every((n) => told[n] === done[n]), "the answers differ");
    expect(done.done === (done.code === 0 ? 1 : 0), "steps done");
    if (kind === 3) {
        const many = again(given, () => t.collect_many(1));
        expect(same(many.state, after), "collect_many leaves another state");
        expect(Object.keys(told).every((n) => many.answer[n] === told[n]) &&
            many.answer.done === done.done, "collect_many tells another answer");
    }
    put(told.code, told.node, told.detail, told.changed, did(kind, told));
    put_state(after);
}

function read_run() {
    const given = read_state();
    const steps = Array.from({ length: word() }, read_step);
    lend(given);
    return steps;
}

function put_run(total) {
    put(total.done, total.code, total.detail, total.changed);
    put_state(taken_back());
}

function run_line() {
    put_run(t.schedule(read_run().flat()));
}

// Each span of collector steps by collect_many, the others one by one.
function many_line() {
    const steps = read_run();
    const total = t.schedule([]);
    while (total.code === 0 && total.done < steps.length) {
        const rest = steps.slice(total.done);
        const other = rest.findIndex((step) => step[0] !== 3);
        const n = other < 0 ? rest.length : other;
        const a = n === 0 ? t.schedule(rest[0]) : t.collect_many(n);
        total.done += a.done;
        total.code = a.code;
        total.detail = a.detail;
        total.changed += a.changed;
    }
    put_run(total);
}

function put_start(told, node) {
    const after = taken_back();
    expect(told.what === (told.code === 0 ? STARTED : REFUSED), "a start tells something else");
    expect(told.code !== 0 || told.node === after.words[LAST], "a start tells another node");
    expect(told.changed === 0, "a start tells colours that it changed");
    put(told.code, ...(node ? [told.node] : []), told.detail);
    put_state(after);
}

function lend_start() {
    lend({ words: Array(WORDS).fill(0xffffffff), ...read_arrays() });
}

function fresh_line() {
    const nodes = word(), slots = word();
    lend_start();
    put_start(t.fresh(nodes, slots), false);
}

function load_line() {
    const nodes = word(), slots = word(), lefts = list(), rights = list();
    lend_start();
    put_start(t.load(lefts, rights, nodes, slots), true);
}

// A call that counts nodes.
function count_line(count) {
    const given = read_state();
    lend(given);
    const told = count();
    expect(told.what === (told.code === 0 ? COUNTED : REFUSED), "a count tells something else");
    expect(told.changed === 0, "a count tells colours that it changed");
    expect(same(taken_back(), given), "a count leaves another state");
    put(told.code, told.node, told.detail);
}

const modes = {
    "--state": state_line, "--run": run_line, "--many": many_line, "--fresh": fresh_line,
    "--load": load_line, "--inuse": () => count_line(() => t.in_use()),
    "--free": () => count_line(() => t.free_count()),
};
if (!(mode in modes)) fail(`usage: state.mjs ${Object.keys(modes).join(" | ")} LIBRARY`);
expect(STEP_WORDS === 12, "a step has twelve words");
const lines = readFileSync(0, "latin1").split("\n").slice(0, -1).map((line) => {
    numbers = line.split(" ");
    at = 0;
    out = [];
    modes[mode]();
    return out.join(" ");
});
writeFileSync(1, lines.map((line) => line + "\n").join(""));
