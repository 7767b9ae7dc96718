// calls.mjs LIBRARY: what jenturik.mjs in the folder LIBRARY does beside making calls, and that it
// has all that include/jenturik.h has. Standard input has what jenturik_code_text answers in C to
// each code below 18, with the details 0 to 3, a line each. The last line is 'N passed, M failed'.
import { readFileSync } from "node:fs";
import { resolve } from "node:path";
import { pathToFileURL } from "node:url";

const folder = process.argv[2];
const wasm = resolve(folder, "jenturik.wasm");
const jenturik = await import(pathToFileURL(resolve(folder, "jenturik.mjs")));
const header = readFileSync(new URL("../../include/jenturik.h", import.meta.url), "utf8");
let passed = 0, failed = 0;

function check(good, what) {
    if (good) {
        passed++;
    } else {
        failed++;
        console.log(`calls.mjs: ${what}`);
    }
}

function same(one, other, what) {
    check(JSON.stringify(one) === JSON.stringify(other),
        `${what}: ${JSON.stringify(one)}, not ${JSON.stringify(other)}`);
}

function throws(call, kind, what) {
    try {
        call();
        check(false, what);
    } catch (error) {
        check(error instanceof kind, `${what}: ${error}`);
    }
}

// What is in the header is here: every number, every call.
function header_is_here(t) {
    const numbers = [...header.matchAll(/\bJENTURIK_([A-Z_]+) = (\d+)/g)];
    check(numbers.length > 40, "the header's numbers are found");
    for (const [, name, value] of numbers) same(jenturik[name], Number(value), name);
    const calls = [...header.matchAll(/^(?!static)\w+ jenturik_(\w+)\(/gm)].map((call) => call[1]);
    check(calls.length >= 11, "the header's calls are found");
    for (const call of calls) check(typeof t[call] === "function", `no call ${call}`);
    const major = jenturik.VERSION_MAJOR, minor = jenturik.VERSION_MINOR;
    same(jenturik.VERSION, `${major}.${minor}`, "the version's name");
    same(t.version(), 1000 * major + minor, "the library's version"); // [C 13]
}

// What codes mean is said as in C.
function texts_are_here(said) {
    same(said.length, 4 * 18, "texts from C");
    said.forEach((text, i) => {
        same(jenturik.code_text(i >> 2, i & 3), text, `code ${i >> 2}, detail ${i & 3}`);
    });
    same(new Set(said).size, 16 + 4 + 1, "texts that differ");
}

// A refusal's detail, from each kind of answer: a bad edge on the right of the slot [Codes 7].
function details_are_told(t) {
    const { BAD_EDGE, RIGHT } = jenturik;
    t.fresh(5, 1);
    t.right[2] = 1;
    const told = { what: 0, code: BAD_EDGE, detail: RIGHT, node: 2, changed: 0 };
    same(t.look(0, 1, 1), told, "a look along a bad edge");
    same(t.in_use(), told, "nodes in use behind a bad edge");
    same(t.schedule([4, 0, 1, 1, 0, 0, 0, 0, 0, 0, 0, 0]),
        { done: 0, code: BAD_EDGE, detail: RIGHT, changed: 0 }, "a schedule along a bad edge");
    const last = t.collect_many(1000);
    same([last.what, last.code, last.detail, last.node], [0, BAD_EDGE, RIGHT, 2],
        "collector steps to a bad edge");
    const given = t.load([0, 0, 0, 0, 0], [0, 0, 0, 9, 0], 5, 1);
    same([given.code, given.detail, given.node], [jenturik.BAD_GIVEN_EDGE, RIGHT, 3],
        "a bad edge that is loaded");
}

// The library needs nothing and has nothing that it must not have.
function module_is_closed(module) {
    same(WebAssembly.Module.imports(module), [], "imports");
    const others = WebAssembly.Module.exports(module).map((one) => one.name)
        .filter((name) => !name.startsWith("jenturik_"));
    same(others.sort(), ["__heap_base", "memory"], "exports");
}

// `bound` is what the library judges by: as many steps are too many, one less are not [Codes 2].
async function bound_is_right() {
    for (const [nodes, slots] of [[3, 1], [66, 64], [500, 7], [4096, 64]]) {
        const t = await jenturik.table(nodes), b = jenturik.bound(nodes, slots);
        t.fresh(nodes, slots);
        t.words[jenturik.STEPS] = b - 1;
        same(t.look(0, 0, 0).code, 0, `bound ${nodes} ${slots}: one step less`);
        t.words[jenturik.STEPS] = b;
        same(t.look(0, 0, 0).code, jenturik.BAD_RECORD, `bound ${nodes} ${slots}`);
    }
}

// Numbers that JavaScript has and C has not.
function numbers_are_judged(t) {
    t.fresh(5, 1);
    for (const slot of [1, 2 ** 31, 2 ** 32 - 1, 2 ** 32, 2 ** 53, 1e300]) {
        same(t.look(slot, 0, 0).code, jenturik.NO_SLOT, `slot ${slot}`);
        same(t.look(0, 12 + slot, 0).code, jenturik.BAD_TURNS, `count ${slot}`);
        same(t.look(0, 0, slot).code, jenturik.BAD_TURNS, `word ${slot}`);
        same(t.take(0, 0, 0, 1 + slot).code, jenturik.UNREADABLE, `side ${slot}`);
    }
    for (const bad of [-1, 0.5, NaN, Infinity, "0", null, undefined, 0n]) {
        throws(() => t.look(bad, 0, 0), RangeError, `slot ${bad}`);
        throws(() => t.collect_many(bad), RangeError, `${bad} steps`);
        throws(() => t.schedule(Array(12).fill(bad)), RangeError, `a step of ${bad}`);
        throws(() => t.load(Array(5).fill(bad), Array(5).fill(0), 5, 1), RangeError, `edge ${bad}`);
    }
}

// A long schedule does what single calls do.
async function long_schedule() {
    const one = await jenturik.table(40), other = await jenturik.table(40);
    const steps = [];
    for (let i = 0; i < 3000; i++) {
        steps.push(i % 60 === 0 ? [0, i % 3, 0, 0, i % 2, 0, 0, 0, 0, 0, 0, 0] :
            [3, 0, 0, 0, 0, 0, 0, 0, 0, 0, 0, 0]);
    }
    one.fresh(40, 3);
    other.fresh(40, 3);
    let changed = 0;
    for (const [kind, slot, , , side] of steps) {
        changed += (kind === 0 ? one.take(slot, 0, 0, side) : one.collect()).changed;
    }
    same(other.schedule(steps.flat()), { done: 3000, code: 0, detail: 0, changed },
        "a long schedule");
    for (const name of ["left", "right", "colour", "words"]) {
        same([...one[name]], [...other[name]], `a long schedule's ${name}`);
    }
    steps[1500][0] = 9;
    const total = other.schedule(Uint32Array.from(steps.flat()));
    same([total.done, total.code], [1500, jenturik.UNREADABLE], "it ends at the refused step");
    const over = { done: 0, code: jenturik.UNREADABLE, detail: 0, changed: 0 };
    same(other.schedule([3, 0]), over, "words left over"); // [C 8]
}

// Collector steps by their own calls, until so many nodes are appended or one step is refused.
function one_by_one(t, n, room) {
    const all = { done: 0, changed: 0, freed: [], code: 0, detail: 0 };
    while (all.done < n && all.freed.length < room && all.code === 0) {
        const a = t.collect();
        Object.assign(all, { code: a.code, detail: a.detail });
        if (a.code !== 0) break;
        all.done++;
        all.changed += a.changed;
        if (a.what === jenturik.APPENDED) all.freed.push(a.node);
    }
    return all;
}

// The nodes that become free are listed, as single steps tell them. Nodes are hung on a slot, each
// in place of the one before; at times an edge of a slot is damaged, which every cycle meets.
async function freed_are_listed() {
    const one = await jenturik.table(30), other = await jenturik.table(30);
    let freed = 0, refused = 0, seed = 1;
    const below = (n) => (seed = seed * 16807 % 2147483647) % n;
    for (let i = 0; i < 400; i++) {
        for (const t of [one, other]) t.fresh(30, 3);
        for (let j = below(20); j > 0; j--) {
            const slot = below(3), side = below(2), n = below(300);
            for (const t of [one, other]) t.take(slot, 0, 0, side), t.collect_many(n);
        }
        const bad = below(4) === 0 ? 2 + below(3) : 0;
        for (const t of bad ? [one, other] : []) t.right[bad] = 1;
        const n = [0, 1, 7, below(900), 5000, 2 ** 53, 1e300][below(bad ? 7 : 5)];
        const room = [0, 1, 3, 30, 5000, 1e300][below(6)];
        const a = room === 5000 ? other.collect_freed(n) : other.collect_freed(n, room);
        same(a, one_by_one(one, n, room), `${n} steps, room ${room}`);
        same([...other.left, ...other.right, ...other.colour, ...other.words],
            [...one.left, ...one.right, ...one.colour, ...one.words], `state, ${n} steps`);
        freed += a.freed.length;
        refused += a.code !== 0 ? 1 : 0;
    }
    check(freed > 100 && refused > 10, `${freed} nodes became free, ${refused} were refused`);
    throws(() => one.collect_freed(-1), RangeError, "-1 steps");
    throws(() => one.collect_freed(1, 0.5), RangeError, "half a list");
}

// Two tables have nothing to do with each other, and arrays of one are not taken for the other's.
async function tables_are_apart() {
    const one = await jenturik.table(6), other = await jenturik.table(60);
    one.fresh(6, 1);
    other.fresh(60, 1);
    const before = [...one.left, ...one.words];
    for (let i = 0; i < 50; i++) other.take(0, 0, 0, 0);
    same([...one.left, ...one.words], before, "another table is written");
    one.left = other.left;
    throws(() => one.collect(), TypeError, "an array of another table");
}

// Every way to name the library.
async function sources() {
    const bytes = readFileSync(wasm), module = await WebAssembly.compile(bytes);
    const buffer = bytes.buffer.slice(bytes.byteOffset, bytes.byteOffset + bytes.length);
    const data = `data:application/wasm;base64,${bytes.toString("base64")}`;
    for (const source of [module, bytes, buffer, pathToFileURL(wasm), pathToFileURL(wasm).href,
        data]) {
        const t = await jenturik.table(5, source);
        same(t.fresh(5, 1).node, 4, `the library from ${source}`.slice(0, 60));
    }
    const large = await jenturik.table(100000);
    same([large.left.length, large.fresh(100000, 1).code], [100000, 1], "a table too large");
    return module;
}

const t = await jenturik.table(5);
header_is_here(t);
texts_are_here(readFileSync(0, "utf8").split("\n").slice(0, -1));
details_are_told(t);
module_is_closed(await sources());
await bound_is_right();
numbers_are_judged(t);
await long_schedule();
await freed_are_listed();
await tables_are_apart();
console.log(`${passed} passed, ${failed} failed`);
process.exit(failed === 0 ? 0 : 1);
