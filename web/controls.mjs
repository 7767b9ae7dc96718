// What the user can do: buttons, keys, pasting, dropping a file, the whole text, the theme.

import { bytesOf, latin1 } from "./library.mjs";
import { page } from "./main.mjs";
import { speedName, speeds } from "./player.mjs";

const find = (id) => document.getElementById(id);

// The keys: what is pressed, what it does, and what is said of it.
const keys = [
    { key: "ArrowRight", name: "→", said: "a step forward", move: "step" },
    { key: "ArrowLeft", name: "←", said: "a step back", move: "step", back: true },
    { key: "ArrowDown", name: "↓", said: "a line forward", move: "line" },
    { key: "ArrowUp", name: "↑", said: "a line back", move: "line", back: true },
    { key: "PageDown", name: "Page down", said: "a cycle forward", move: "cycle" },
    { key: "PageUp", name: "Page up", said: "a cycle back", move: "cycle", back: true },
    { key: "c", name: "c", said: "to the next change of a colour", move: "colour" },
    { key: "C", name: "Shift c", said: "to the change before", move: "colour", back: true },
    { key: "a", name: "a", said: "to the next append", move: "append" },
    { key: "A", name: "Shift a", said: "to the append before", move: "append", back: true },
    { key: "Home", name: "Home", said: "to the beginning", move: "end", back: true },
    { key: "End", name: "End", said: "to the end", move: "end" },
    { key: " ", name: "Space", said: "play, pause", act: () => page.player.play() },
    { key: "+", name: "+", said: "faster", act: () => page.player.setSpeed(page.player.speed + 1) },
    { key: "-", name: "−", said: "slower", act: () => page.player.setSpeed(page.player.speed - 1) },
    { key: "e", name: "e", said: "edit the line", act: () => page.lines.edit(page.cursor.line) },
    { key: "i", name: "i", said: "a new line below it", act: () => page.insert(page.cursor.line) },
    { key: "Delete", name: "Del", said: "take it out", act: () => page.remove(page.cursor.line) },
    { key: "n", name: "n", said: "choose the next node", act: () => page.chooseNext(1) },
    { key: "N", name: "Shift n", said: "the one before", act: () => page.chooseNext(-1) },
    { key: "w", name: "w", said: "the whole text", act: () => openText() },
    { key: "o", name: "o", said: "open a file", act: () => find("file").click() },
    { key: "t", name: "t", said: "light or dark", act: () => otherTheme() },
    { key: "?", name: "?", said: "this list", act: () => find("keys").showModal() },
];

// Whether a key is for something else: a text that is edited, a dialog, a choice.
function elsewhere({ target, ctrlKey, metaKey, altKey }) {
    return ctrlKey || metaKey || altKey || document.querySelector("dialog[open]") !== null ||
        target.closest("textarea, select, input:not([type=range])") !== null;
}

// Whether a button is pressed by the blank: one that is seen, not one of a dialog that was closed.
function onButton(target) {
    const button = target.closest("button");
    return button !== null && button.offsetParent !== null;
}

function pressed(event) {
    if (elsewhere(event)) return;
    const found = keys.find(({ key }) => key === event.key);
    if (!found || (event.key === " " && onButton(event.target))) return;
    event.preventDefault();
    if (found.move) page.player.move(found.move, found.back);
    else found.act();
}

function layKeys() {
    for (const { name, said } of keys) {
        const row = find("key-rows").insertRow();
        const key = document.createElement("kbd");
        key.textContent = name;
        row.insertCell().append(key);
        row.insertCell().textContent = said;
    }
}

function layStories() {
    for (const { name, title } of page.stories) find("story").add(new Option(title, name));
    find("story").value = page.story ? page.story.name : "";
    find("story").addEventListener("change", ({ target }) => {
        const story = page.stories.find(({ name }) => name === target.value);
        if (story) page.load(story.text, `${story.name}.txt`, story);
        target.blur();
    });
}

function laySpeeds() {
    speeds.forEach((speed, i) => find("speed").add(new Option(speedName(speed), i)));
    find("speed").value = page.player.speed;
    find("speed").addEventListener("change", ({ target }) => {
        page.player.setSpeed(Number(target.value));
        target.blur();
    });
}

// ---- the schedule: as a whole text, by pasting, as a file

function openText() {
    find("whole").value = page.run.lines.join("");
    find("text").showModal();
}

async function read(file) {
    page.load(latin1(new Uint8Array(await file.arrayBuffer())), file.name);
}

const typed = (text) => latin1(new TextEncoder().encode(text));

function layText() {
    find("open-text").addEventListener("click", openText);
    find("text").addEventListener("close", () => {
        if (find("text").returnValue === "run") page.load(typed(find("whole").value), "your text");
    });
    find("open-file").addEventListener("click", () => find("file").click());
    find("file").addEventListener("change", ({ target }) => {
        if (target.files.length > 0) read(target.files[0]);
        target.value = "";
    });
    document.addEventListener("paste", (event) => {
        if (elsewhere(event)) return;
        const text = event.clipboardData.getData("text/plain");
        if (text) page.load(typed(text), "what was pasted");
    });
    document.addEventListener("dragover", (event) => {
        event.preventDefault();
        document.body.classList.add("dropping");
    });
    document.addEventListener("dragleave", () => document.body.classList.remove("dropping"));
    document.addEventListener("drop", (event) => {
        event.preventDefault();
        document.body.classList.remove("dropping");
        if (event.dataTransfer.files.length > 0) read(event.dataTransfer.files[0]);
    });
}

// Saves bytes as a file.
function save(text, name) {
    const link = document.createElement("a");
    link.href = URL.createObjectURL(new Blob([bytesOf(text)]));
    link.download = name;
    link.click();
    URL.revokeObjectURL(link.href);
}

// ---- light and dark

const systemDark = matchMedia("(prefers-color-scheme: dark)");
let chosen = null; // the theme that the user chose; until then it is the system's

function layTheme() {
    document.documentElement.dataset.theme = chosen ?? (systemDark.matches ? "dark" : "light");
}

function showTheme() {
    layTheme();
    page.cells.forget();
    page.show();
}

function otherTheme() {
    chosen = document.documentElement.dataset.theme === "dark" ? "light" : "dark";
    showTheme();
}

export function layControls() {
    layTheme();
    layKeys();
    layStories();
    laySpeeds();
    layText();
    document.addEventListener("keydown", pressed);
    for (const button of document.querySelectorAll("button[data-move]")) {
        button.addEventListener("click", () =>
            page.player.move(button.dataset.move, "back" in button.dataset));
    }
    find("play").addEventListener("click", () => page.player.play());
    find("slider").addEventListener("input", ({ target }) => {
        page.player.stop();
        page.player.go(Number(target.value));
    });
    find("edit").addEventListener("click", () => page.lines.edit(page.cursor.line));
    find("save").addEventListener("click", () => save(page.run.transcript, "transcript.txt"));
    find("save-schedule").addEventListener("click", () =>
        save(page.run.lines.join(""), "schedule.txt"));
    find("theme").addEventListener("click", otherTheme);
    find("open-keys").addEventListener("click", () => find("keys").showModal());
    systemDark.addEventListener("change", showTheme);
    window.addEventListener("resize", () => page.show());
}
