// The tests of the page, one function each: it is given a setting (page.mjs) and `equal`.

import { join } from "node:path";

const EXAMPLES = ["listing", "edge-moved", "round-between", "stale-number", "full-table", "export",
    "export-refused", "record"];
const STATE = `(() => {
    const { after, position, line, told } = page.cursor;
    return [position, line, told, after.words, after.left, after.right, after.colour]
        .map((part) => part?.length ? Array.from(part).join(" ") : part);
})()`;
const SEEN = `[document.body.innerText, lines.innerHTML, slider.value,
    graph.hasAttribute("hidden") ? "" : graph.innerHTML].join()`;

const text = (page, selector) =>
    page.eval(`document.querySelector(${JSON.stringify(selector)}).textContent`);
const load = async (page, schedule, name = "a test") => {
    await page.eval(`page.load(${JSON.stringify(schedule)}, ${JSON.stringify(name)})`);
    await page.until("page.run.done");
};

// ---- the transcript is the program's

export async function examples(setting, equal) {
    for (const name of EXAMPLES) {
        const page = await setting.page(name);
        equal(await page.eval("page.run.transcript"), setting.printed(name), name);
        const shown = await page.eval(
            "[...document.querySelectorAll('.row .answer')].map((cell) => cell.textContent)");
        equal(shown.filter((said) => said !== "" && said !== "not read").join("\n") + "\n",
            setting.printed(name), `${name}, as it is shown`);
        equal(await text(page, "#name"), `${name}.txt`, "its name");
        await setting.done();
    }
}

export async function randomLines(setting, equal) {
    const page = await setting.page("random");
    equal(await page.eval("page.run.lines.length"), 1000, "the number of lines");
    equal(await page.eval("page.run.transcript"), setting.printed("random"), "the transcript");
}

export async function seeds(setting, equal) {
    const page = await setting.page("listing");
    for (const name of setting.names.filter((one) => one.startsWith("seed-"))) {
        await load(page, setting.schedule(name));
        equal(await page.eval("page.run.transcript"), setting.printed(name), name);
        equal(await page.eval("page.run.trouble"), null, name);
    }
}

export async function stories(setting, equal) {
    const page = await setting.page("listing");
    const names = await page.eval("[...story.options].map(({ value }) => value).filter(Boolean)");
    equal(names.sort(), [...EXAMPLES].sort(), "the stories are the examples");
    for (const name of names) {
        await page.eval(`story.value = "${name}"; story.dispatchEvent(new Event("change"))`);
        await page.until("page.run.done");
        equal(await page.eval("page.run.transcript"), setting.printed(name), name);
        const notes = await page.eval("page.notes()"),
            wanted = await page.eval("page.story.notes.length");
        equal(notes.length, wanted, `${name}: every sentence has its step`);
        for (const note of notes) {
            await page.eval("document.getElementById('note-next').click()");
            equal(await page.eval("page.cursor.position"), note.at,
                `${name}: the next step that matters`);
            equal(await text(page, "#note-text"), note.text, `${name}: its sentence`);
        }
        equal(await page.eval("document.getElementById('note-next').hidden"), true,
            `${name}: no more`);
    }
}

export async function versions(setting, equal) {
    const page = await setting.page("edge-moved");
    for (const [name, steps, number] of [["edge-moved", 20, "two"], ["round-between", 69,
        "three"]]) {
        await page.eval(`story.value = "${name}"; story.dispatchEvent(new Event("change"))`);
        await page.until("page.run.done");
        equal(await page.eval("version.hidden"), false, "it is shown");
        equal(await text(page, "#version-title"), `What version ${number} would have done`, name);
        equal(await text(page, "#version-count"), `${steps} of ${steps}`, "at its last step");
        equal((await text(page, "#version-said")).endsWith("The node is lost"), true, "the loss");
        equal(await page.eval("version.querySelectorAll('svg .edge.list:not(.none)').length"), 1,
            "node 3 is on the free list");
        equal(await page.eval("version.querySelectorAll('svg .edge.held:not(.none)').length"), 2,
            "and the slot leads to it");
        await page.click("#version button[data-by='-1']");
        equal(await text(page, "#version-count"), `${steps - 1} of ${steps}`, "a step back");
        equal(await page.eval("version.querySelector('.loss')"), null, "not lost yet");
    }
    await load(page, setting.schedule("listing"));
    equal(await page.eval("version.hidden"), true, "other schedules have none");
}

// ---- moving

export async function backIsReplay(setting, equal) {
    const page = await setting.page("stale-number");
    const [there, back] = await page.eval(`(() => {
        const seen = () => ${SEEN}, there = [], back = [];
        page.player.go(0);
        for (let p = 0; p <= page.run.total; p++) {
            there.push(seen(), JSON.stringify(${STATE}));
            page.player.move("step");
        }
        for (let p = page.run.total; p >= 0; p--) {
            back.unshift(seen(), JSON.stringify(${STATE}));
            page.player.move("step", true);
        }
        return [there, back];
    })()`);
    equal(there.length, 2 * (await page.eval("page.run.total") + 1), "all steps");
    equal(back, there, "the state and what is seen");
}

export async function anywhere(setting, equal) {
    const page = await setting.page("random");
    const wrong = await page.eval(`(() => {
        const seen = () => JSON.stringify(${STATE}), all = new Map(), { total } = page.run;
        let p = 0, seed = 1;
        const random = () => (seed = seed * 48271 % 2147483647) / 2147483647;
        const some = new Set(Array.from({ length: 300 }, () => Math.floor(random() * total)));
        for (page.cursor.go(0); p <= total; page.cursor.go(++p)) if (some.has(p)) all.set(p,
            seen());
        const order = [...some].sort(() => random() - 0.5);
        return order.filter((at) => (page.cursor.go(at), seen() !== all.get(at)));
    })()`);
    equal(wrong, [], "a jump leads where steps lead");
}

// Every move, at every position of a run, against a walk over all steps.
export async function moves(setting, equal) {
    const page = await setting.page("record");
    await load(page, setting.schedule("listing") + setting.schedule("stale-number").slice(16));
    const wrong = await page.eval(`(() => {
        const { run, cursor } = page, wrong = [], marks = { line: run.starts.slice(1) };
        for (const kind of ["colour", "append", "cycle"]) marks[kind] = [];
        for (let p = 1; p <= run.total; p++) {
            cursor.go(p);
            const { before, after, told } = cursor, [a, b] = [before.words, after.words];
            if (before.nodes && before.colour.join() !== after.colour.join()) marks.colour.push(p);
            if (told?.what === 9) marks.append.push(p);
            if (b[9] > a[9]) marks.cycle.push(p);
        }
        for (let p = 0; p <= run.total; p++) {
            for (const [kind, places] of Object.entries(marks)) {
                const next = places.find((at) => at > p) ?? run.total;
                const last = kind === "line" ? [0, ...places].findLast((at) => at < p) ?? 0
                    : places.findLast((at) => at < p) ?? 0;
                for (const [back, want] of [[false, next], [true, last]]) {
                    page.cursor.go(p);
                    page.player.move(kind, back);
                    if (cursor.position !== want) wrong.push([kind, p, back, cursor.position,
                        want]);
                }
            }
        }
        return [wrong.slice(0, 3), Object.values(marks).map((places) => places.length > 0)];
    })()`);
    equal(wrong, [[], [true, true, true, true]], "moves lead to where something happens");
}

export async function keyboard(setting, equal) {
    const page = await setting.page("listing"), at = () => page.eval("page.cursor.position");
    const keys = [["Home", 0], ["ArrowRight", 1], ["ArrowRight", 2], ["ArrowLeft", 1],
        ["ArrowDown", 2],
        ["End", 88], ["Home", 0], ["PageDown", 49], ["ArrowLeft", 48], ["ArrowUp", 6], ["a", 86],
        ["PageUp", 49], ["End", 88], ["ArrowUp", 87], ["Home", 0], ["c", 2], ["c", 7]];
    for (const [key, want] of keys) {
        await page.key(key);
        equal(await at(), want, `after ${key}`);
    }
    await page.key("C", 8);
    equal(await at(), 2, "after Shift c");
    await page.key("?");
    equal(await page.eval("document.getElementById('keys').open"), true, "the list of keys");
    await page.key("Escape");
    equal(await page.eval("document.getElementById('keys').open"), false, "and away again");
    await page.eval("page.player.setSpeed(9)");
    await page.key("Home");
    await page.key(" ");
    await page.until("page.cursor.position === 88 && !page.player.playing");
}

export async function slider(setting, equal) {
    const page = await setting.page("random");
    const total = await page.eval("page.run.total");
    equal(await page.eval("Number(slider.max)"), total, "the whole run");
    for (const p of [total, 0, Math.floor(total / 2)]) {
        await page.eval(`slider.value = ${p}; slider.dispatchEvent(new Event("input"))`);
        equal(await page.eval("page.cursor.position"), p, "where the slider is");
    }
}

// ---- what is seen

export async function panel(setting, equal) {
    const page = await setting.page("listing");
    await page.eval("page.player.go(4)");
    equal(await text(page, "#code-line"), "code=9 node=0", "the code");
    equal(await text(page, "#code-text"), "no node is free", "its sentence");
    await page.eval("page.player.go(5)");
    equal(await text(page, "#owed"), "node 4", "the shade owed");
    equal(await text(page, "#kind-garbage"), "1", "garbage");
    equal(await page.eval("document.querySelectorAll('#graph .node.garbage').length"), 1,
        "in the graph");
    equal(await page.eval("document.querySelectorAll('#graph .edge.changed').length"), 1,
        "the edge that was moved is marked");
    equal(await text(page, "#changes"), "left edge of node 2: 3 → 4node 4 is owed a shade",
        "changes");
    await page.eval("page.player.go(86)");
    equal(await text(page, "#step-said"), "Append: node 3 was white: it is put on the free list",
        "the step");
    equal(await text(page, "#phase"), "Append 4", "the phase");
    equal(await page.eval("document.querySelectorAll('#graph .node.at').length"), 1,
        "and its node");
    equal(await text(page, "#last"), "node 3", "the last free node");
    equal(await page.eval("document.querySelectorAll('#graph .edge.list:not(.none)').length"), 1,
        "the free list");
    await page.key("n");
    equal(await text(page, "#chosen-title"), "NIL", "a node that is chosen by a key");
    await page.key("n");
    equal(await text(page, "#chosen-title"), "FREE", "and the next one");
    await page.click("#graph .node.slot");
    equal(await text(page, "#chosen-kind"), "slot 0", "a node that is chosen");
    equal(await text(page, "#chosen-left"), "node 4", "its left edge");
}

// A line of one collector step is told as a step within a line is.
export async function oneStep(setting, equal) {
    const page = await setting.page("stale-number");
    await page.eval("page.player.goLine(4)");
    equal(await text(page, "#phase-said"),
        "Next: shade node 3, to which the left edge of node 2 led " +
        "when it was read.", "the number read");
    await page.eval("page.player.goLine(9)");
    equal(await text(page, "#step-said"), "ShadeLeft: node 3 was white and is gray now",
        "the step");
    equal(await text(page, "#code-line"), "code=0 node=2", "and what is printed");
}

// The sentence of a refused export tells the side, which is not printed.
export async function refusedExport(setting, equal) {
    const page = await setting.page("listing");
    for (const [schedule, side] of [[setting.schedule("edge"), "right"],
        [setting.schedule("edge").replace("left=3 right=4", "left=4 right=3"), "left"]]) {
        await load(page, schedule);
        equal(await page.eval("page.run.transcript"), setting.printed("edge"), "the transcript");
        await page.key("End");
        equal(await text(page, "#code-line"), "code=11 node=2", "the code");
        equal((await text(page, "#code-text")).startsWith(`the ${side} edge given`), true,
            "its sentence");
    }
    equal(await text(page, "#making"), "The run ended at this line: what follows is not read.",
        "the end");
}

// The number of nodes in use and free, against the library's own, all along a run.
export async function counts(setting, equal) {
    const page = await setting.page("random");
    const wrong = await page.eval(`(() => {
        const wrong = [];
        for (let i = 0; i < page.run.made; i++) {
            page.player.go(page.run.starts[i + 1]);
            const said = document.getElementById("library-counts").textContent;
            const free = document.getElementById("kind-free").textContent;
            const kept = document.getElementById("count-13").textContent;
            if (said !== "" || free !== kept) wrong.push([i, said, free, kept]);
        }
        return wrong;
    })()`);
    equal(wrong, [], "what is shown is what the library counts");
}

export async function layout(setting, equal) {
    const page = await setting.page("graph");
    equal(await page.eval("page.run.transcript"), setting.printed("graph"), "the transcript");
    const places = await page.eval(`(() => {
        const all = new Set();
        for (let i = 0; i < page.run.made; i += 7) {
            page.player.go(page.run.starts[i + 1]);
            all.add([...document.querySelectorAll("#graph .node")].map((node) =>
                node.getAttribute("transform")).join());
        }
        return [...all].map((one) => one.split("translate").length - 1);
    })()`);
    equal(places, [64], "64 nodes, and none of them moves");
}

export async function large(setting, equal) {
    const page = await setting.page("large");
    equal(await page.eval("page.run.transcript"), setting.printed("large"), "the transcript");
    const moved = await page.eval(`(() => {
        page.player.go(page.run.starts[page.run.made - 1] + 1000);
        const from = page.cursor.position;
        for (let n = 0; n < 500; n++) page.player.move("step");
        return page.cursor.position - from;
    })()`);
    equal(moved, 500, "it is stepped");
    for (const theme of ["light", "dark"]) {
        await page.theme(theme);
        await page.eval("page.cells.forget(); page.show()");
        equal(await page.eval(WRONG_CELLS), [4096, [], [true, true, true]],
            `the cells in ${theme}`);
    }
    await page.click("#map .marks");
    equal(await page.eval("chosen.hidden"), false, "a cell that is chosen");
}

// Each cell of the map by how light its upper and its lower half are: white is light in both, black
// dark in both, gray differs. Which colours there are is told too.
const WRONG_CELLS = `(() => {
    const { size, columns, below } = page.cells, { colour } = page.cursor.after, wrong = [];
    const context = below.getContext("2d"), seen = [false, false, false], { kinds } = page.kinds();
    const light = (x, y) => {
        const [r, g, b] = context.getImageData(x, y, 1, 1).data;
        return 0.3 * r + 0.6 * g + 0.1 * b;
    };
    for (let n = 0; n < colour.length; n++) {
        const x = (n % columns + 0.5) * size, y = Math.floor(n / columns) * size;
        const upper = light(x, y + size * 0.4), lower = light(x, y + size * 0.6);
        const told = upper > 200 && lower > 200 ? 0 : upper < 60 && lower < 60 ? 2
            : upper - lower > 50 ? 1 : null;
        seen[colour[n]] = true;
        if (told !== colour[n] && kinds[n] !== 5) wrong.push([n, colour[n], upper, lower]);
    }
    return [colour.length, wrong.slice(0, 3), seen];
})()`;

// How far text stands out from its ground, in light and in dark.
export async function legible(setting, equal) {
    const page = await setting.page("edge-moved");
    await page.eval("page.player.go(60)");
    for (const theme of ["light", "dark"]) {
        await page.theme(theme);
        equal(await page.eval(FAINT), [], `all text is legible in ${theme}`);
    }
    await page.click("#theme");
    equal(await page.eval("document.documentElement.dataset.theme"), "light", "the other theme");
    equal(await page.eval(FAINT), [], "all text is legible in light, chosen by hand");
}

const FAINT = `(() => {
    const parts = (colour) => colour.match(/[0-9.]+/g).map(Number);
    const light = (colour) => parts(colour).slice(0, 3).map((c) => c / 255)
        .map((c) => c <= 0.03928 ? c / 12.92 : ((c + 0.055) / 1.055) ** 2.4)
        .reduce((sum, c, i) => sum + c * [0.2126, 0.7152, 0.0722][i], 0);
    const ground = (element) => {
        for (let e = element; e; e = e.parentElement) {
            const colour = getComputedStyle(e).backgroundColor;
            if ((parts(colour)[3] ?? 1) > 0) return colour;
        }
        return "rgb(255, 255, 255)";
    };
    const faint = [];
    for (const element of document.querySelectorAll("h1, h2, p, dt, dd, li, label, code, #code")) {
        if (!element.checkVisibility() || element.textContent.trim() === "") continue;
        const [a, b] = [light(getComputedStyle(element).color), light(ground(element))];
        const ratio = (Math.max(a, b) + 0.05) / (Math.min(a, b) + 0.05);
        if (ratio < 4.5) faint.push([element.id || element.textContent, ratio]);
    }
    return faint;
})()`;

// ---- schedules that are given to the page

export async function editing(setting, equal) {
    const page = await setting.page("listing");
    await page.click("#line-6 .text", 2);
    await page.until("document.querySelector('.row.editing input')");
    await page.eval("document.activeElement.select()");
    await page.type("op=collect count=43");
    await page.key("Enter");
    await page.until("page.run.done && page.cursor.line === 6");
    equal(await page.eval("page.run.transcript"), setting.printed("edited"),
        "the run is made anew");
    equal(await text(page, "#line-6 .answer"), setting.printed("edited").split("\n")[6],
        "its answer");
    equal(await page.eval("page.run.lines.join('')"), setting.schedule("edited"), "the schedule");
    await page.eval("page.edit(6, 'op=collect count=80')");
    await page.until("page.run.done");
    equal(await page.eval("page.run.transcript"), setting.printed("listing"), "and back");
    await page.eval("page.player.goLine(7)");
    await page.key("i");
    await page.until("document.querySelector('.row.editing input')");
    await page.eval("document.activeElement.select()");
    await page.type("op=look slot=0 turns=R");
    await page.key("Enter");
    await page.until("page.run.done && page.cursor.line === 8");
    equal(await page.eval("page.run.transcript"), setting.printed("listing").replace(/(.*\n)$/,
        "code=0 node=4\n$1"), "a line more");
    await page.key("Delete");
    await page.until("page.run.done && page.cursor.line === 7");
    equal(await page.eval("page.run.transcript"), setting.printed("listing"), "and out again");
    await page.eval("page.edit(0, 'nodes=5 slots=9')");
    await page.until("page.run.done");
    equal(await page.eval("page.run.transcript"), "code=1 node=0\n", "the first line refused");
    equal(await page.eval("document.querySelectorAll('.row.unread').length"), 8,
        "the others unread");
    await page.key("End");
    equal(await page.eval("empty.checkVisibility() && state.hidden"), true, "there is no table");
}

// An edit of any line leads to what a run from nothing leads to.
export async function editsAnywhere(setting, equal) {
    const page = await setting.page("random");
    for (const i of [999, 0, 500, 998, 3]) {
        await page.eval(`page.edit(${i}, page.run.lines[${i}].trimEnd() + " ")`);
        await page.until("page.run.done");
        const edited = await page.eval("[page.run.transcript, page.run.starts, page.run.changes]");
        await page.eval("page.load(page.run.lines.join(''), 'anew')");
        await page.until("page.run.done");
        equal(await page.eval("[page.run.transcript, page.run.starts, page.run.changes]"), edited,
            `line ${i + 1}`);
    }
}

export async function pasting(setting, equal) {
    const page = await setting.page("listing");
    await page.eval(`(() => {
        const data = new DataTransfer();
        data.setData("text/plain", ${JSON.stringify(setting.schedule("full-table"))});
        document.body.dispatchEvent(new ClipboardEvent("paste", { clipboardData: data,
            bubbles: true }));
    })()`);
    await page.until("page.name === 'what was pasted' && page.run.done");
    equal(await page.eval("page.run.transcript"), setting.printed("full-table"), "what was pasted");
    await page.key("w");
    await page.eval(`whole.value = ${JSON.stringify(setting.schedule("export"))}`);
    await page.click("#text button[value=run]");
    await page.until("page.name === 'your text' && page.run.done");
    equal(await page.eval("page.run.transcript"), setting.printed("export"), "the whole text");
}

export async function dropping(setting, equal) {
    const page = await setting.page("listing");
    await page.eval(`(() => {
        const data = new DataTransfer();
        const bytes = Uint8Array.from(${JSON.stringify(setting.schedule("broken-bytes"))},
            (c) => c.charCodeAt(0));
        data.items.add(new File([bytes], "dropped.txt"));
        document.body.dispatchEvent(new DragEvent("drop", { dataTransfer: data, bubbles: true }));
    })()`);
    await page.until("page.name === 'dropped.txt' && page.run.done");
    equal(await page.eval("page.run.transcript"), setting.printed("broken-bytes"), "the bytes");
    equal(await page.eval("page.run.lines.join('')"), setting.schedule("broken-bytes"),
        "all of them");
}

// ---- what is broken, and what is long

export async function broken(setting, equal) {
    const page = await setting.page("listing");
    for (const name of setting.names.filter((one) => one.startsWith("broken-"))) {
        await load(page, setting.schedule(name), name);
        equal(await page.eval("page.run.transcript"), setting.printed(name), name);
        const line = await page.eval("page.run.printed.indexOf('code=10 node=0\\n')");
        await page.eval(`page.player.goLine(${line})`);
        equal(await text(page, "#code-line"), "code=10 node=0", `${name}: the code`);
        equal(await text(page, "#code-text"), "the step cannot be read", `${name}: its sentence`);
        await page.key("End");
        await page.key("Home");
        equal(await page.eval("page.cursor.position"), 0, `${name}: it does not hang`);
    }
    const html = await setting.page("broken-words");
    equal(await html.eval("page.run.transcript"), setting.printed("broken-words"),
        "a page of its own");
}

export async function longRun(setting, equal) {
    const page = await setting.page("listing");
    await load(page, setting.schedule("long"));
    equal(await page.eval("page.run.transcript"), setting.printed("long"), "the transcript");
    equal(await page.eval("page.run.total"), 20000003, "twenty million steps");
    const slow = await page.eval(`(() => {
        const times = [], timed = (what) => {
            const from = performance.now();
            what();
            times.push(performance.now() - from);
        };
        for (const p of [19999999, 19999998, 7654321, 7654320, 1000001, 20000002]) {
            timed(() => page.player.go(p));
        }
        timed(() => page.player.move("cycle"));
        timed(() => page.player.move("colour", true));
        return times.filter((time) => time > 6000);
    })()`);
    equal(slow, [], "every move is quick");
    equal(await page.eval("page.run.keptBytes < 64 << 20"), true, "the memory is bounded");
}

// The picture for the README.
export async function picture(setting, equal) {
    const page = await setting.page("edge-moved");
    await page.theme("light");
    await page.eval("page.player.go(page.notes()[2].at)");
    equal(await text(page, "#step-title"), "Line 5", "the step that matters");
    await page.picture(join(setting.room, "page.png"), 0.75);
    await page.theme("dark");
    await page.picture(join(setting.room, "page-dark.png"), 0.75);
}
