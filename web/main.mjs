// The page: it makes a run of the schedule that it holds, and shows the place in it where one is.

import { Cells } from "./cells.mjs";
import { Cursor } from "./cursor.mjs";
import { Graph, MOST_IN_GRAPH } from "./graph.mjs";
import { Library, bytesOf, latin1 } from "./library.mjs";
import { Lines } from "./lines.mjs";
import { kindsOf, lastOf, owedOf, placeOf } from "./look.mjs";
import { phaseTitle } from "./describe.mjs";
import { Player } from "./player.mjs";
import { Run } from "./run.mjs";
import { Versions } from "./versions.mjs";
import { layCounts, say, showPanel } from "./panel.mjs";

const find = (id) => document.getElementById(id);
const held = (id) => bytesOf(atob(find(id).textContent.trim()));
const SLICE = 12; // milliseconds of making a run between two frames

class Page {
    chosen = null; // the node that is looked at
    story = null;

    async open() {
        const module = await WebAssembly.compile(held("library"));
        this.makers = [await Library.open(module), await Library.open(module)];
        this.stories = JSON.parse(find("stories").textContent);
        this.graph = new Graph(find("graph"), (n) => this.choose(n));
        this.cells = new Cells(find("map"), (n) => this.choose(n));
        this.versions = new Versions(find("version"), JSON.parse(find("versions").textContent));
        this.lines = new Lines(find("lines"), {
            chosen: (i) => this.player.goLine(i), edited: (i, text) => this.edit(i, text),
        });
        layCounts();
        const given = latin1(held("schedule"));
        this.load(given, find("schedule").dataset.name,
            this.stories.find((story) => story.text === given));
    }

    // Makes a run of a text; `story` is one of the stories, if it is one's.
    load(text, name, story = null) {
        this.player?.stop();
        this.story = story;
        this.name = name;
        this.chosen = null;
        this.run = new Run(this.makers[0], text);
        this.cursor = new Cursor(this.makers[1], this.run);
        this.player = new Player(this.cursor, (base) => this.show(base));
        say("name", name);
        find("story").value = story ? story.name : "";
        this.versions.choose(story?.version);
        this.make();
    }

    // Makes the run, a slice at a time, so that the page can be used meanwhile.
    make() {
        const run = this.run;
        const slice = () => {
            if (run !== this.run) return;
            if (!run.done) run.make(SLICE);
            this.show();
            if (!run.done) setTimeout(slice);
        };
        slice();
    }

    // Puts another text in the place of line i, and makes the run anew.
    edit(i, text) {
        const bytes = /^[\0-\xff]*$/.test(text) ? text : latin1(new TextEncoder().encode(text));
        this.replace(i, 1, [this.run.lines[i].endsWith("\n") ? `${bytes}\n` : bytes], i);
    }

    // Takes line i out, or puts a line below it, which is edited then.
    remove(i) {
        if (this.run.lines.length > 1) this.replace(i, 1, [], Math.max(0, i - 1));
    }

    insert(i) {
        this.replace(i + 1, 0, ["op=shade\n"], i);
        this.whenMade(i, () => this.lines.edit(i + 1));
    }

    // Puts lines in the place of some of them, and goes to line `to` of the run made anew.
    replace(i, removed, texts, to) {
        this.player.stop();
        this.story = null;
        find("story").value = "";
        this.versions.choose(undefined);
        if (!this.name.endsWith("(edited)")) say("name", this.name += " (edited)");
        this.run.edit(i, removed, texts);
        this.cursor.reset(this.run);
        this.whenMade(to, () => this.player.goLine(to));
        this.make();
    }

    // Does something as soon as line i is made, or the run is.
    whenMade(i, what) {
        const run = this.run, made = run.made;
        const look = () => {
            if (run !== this.run) return;
            if (run.made > i || run.done || run.made < made) what();
            else setTimeout(look);
        };
        setTimeout(look);
    }

    choose(n) {
        this.chosen = this.chosen === n ? null : n;
        this.show();
    }

    // The node so many numbers further on.
    chooseNext(by) {
        const { nodes, hasTable } = this.cursor.after;
        if (hasTable) this.choose(((this.chosen ?? -Math.min(by, 1)) + by + nodes) % nodes);
    }

    // Shows where the cursor is. `base` is the state from which changes are marked.
    show(base = this.cursor.before) {
        const { cursor, run } = this, state = cursor.after, few = state.nodes <= MOST_IN_GRAPH;
        find("empty").hidden = state.hasTable;
        say("empty", cursor.position === 0 ? "There is no table yet. The first line makes it."
            : "There is no table: it was refused, and the run has ended.");
        find("graph").toggleAttribute("hidden", !few || !state.hasTable);
        find("map").hidden = few || !state.hasTable;
        if (state.hasTable) (few ? this.graph : this.cells).draw(state, base, this.marks(state));
        this.lines.show(run, cursor.line, cursor.position);
        showPanel(cursor, base, this.chosen);
        this.player.showPlace();
        this.showNote();
        say("trouble", run.trouble ?? "").hidden = run.trouble === null;
        say("making", run.done ? run.over ? "The run ended at this line: what follows is not read."
            : "" : `${run.made} of ${run.lines.length} lines are answered`);
    }

    marks({ words }) {
        const { node, read } = placeOf(words);
        return { at: node, read, owed: owedOf(words), last: lastOf(words), chosen: this.chosen,
            phase: phaseTitle(words) };
    }

    // The story's sentence for the step at hand, or for the last one before it that has one.
    showNote() {
        const { position } = this.cursor, notes = this.notes();
        const note = notes.findLast(({ at }) => at <= position);
        const next = notes.find(({ at }) => at > position);
        find("note").hidden = this.story === null;
        if (this.story === null) return;
        say("note-text", note ? note.text : this.story.about)
            .classList.toggle("past", Boolean(note) && note.at !== position);
        find("note-next").hidden = !next;
        find("note-next").onclick = next ? () => this.player.go(next.at) : null;
    }

    // What each node is, where one is.
    kinds() {
        return kindsOf(this.cursor.after);
    }

    notes() {
        return (this.story?.notes ?? []).map(({ line, step, text }) =>
            ({ text, at: this.run.starts[line - 1] + (step ?? this.run.steps(line - 1)) }))
            .filter(({ at }) => at <= this.run.total);
    }
}

export const page = new Page();
