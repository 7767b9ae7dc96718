// The schedule, a row for each line with what it printed. Only the rows that are seen are in the
// document, so that a long schedule is no slower. A row can be edited in place.

const ROW = 24; // the height of a row; style.css has it too
const BEYOND = 8; // rows above and below those that are seen

export class Lines {
    #run = null;
    #at = 0; // the line that is chosen
    #position = 0;
    #editing = null;
    #lines = null; // what the rows were painted for
    #painted = "";

    // `chosen(i)` is called where line i is chosen, `edited(i, text)` where it has another text.
    constructor(box, { chosen, edited }) {
        this.box = box;
        this.chosen = chosen;
        this.edited = edited;
        this.room = box.appendChild(document.createElement("div"));
        this.room.className = "room";
        box.addEventListener("scroll", () => this.paint());
        box.addEventListener("click", ({ target, detail }) => {
            const row = target.closest(".row");
            if (!row || row.classList.contains("editing")) return;
            if (detail === 2) this.edit(Number(row.dataset.line));
            else this.chosen(Number(row.dataset.line));
        });
    }

    // Shows a run, with line i chosen, at a position of it.
    show(run, i, position) {
        const moved = i !== this.#at || run !== this.#run;
        this.#run = run;
        this.#at = i;
        this.#position = position;
        this.room.style.height = `${run.lines.length * ROW}px`;
        if (moved && this.#editing === null) this.#scroll(i);
        this.paint();
    }

    #scroll(i) {
        const top = i * ROW, { scrollTop, clientHeight } = this.box;
        if (top < scrollTop + ROW) this.box.scrollTop = top - 2 * ROW;
        else if (top > scrollTop + clientHeight - 3 * ROW) {
            this.box.scrollTop = top - clientHeight + 3 * ROW;
        }
    }

    paint() {
        if (this.#run === null || this.#editing !== null) return;
        const first = Math.max(0, Math.floor(this.box.scrollTop / ROW) - BEYOND);
        const end = Math.min(this.#run.lines.length,
            Math.ceil((this.box.scrollTop + this.box.clientHeight) / ROW) + BEYOND);
        const { lines, made, over } = this.#run, at = this.#at;
        const painted = [first, end, at, made, over, this.#position > 0];
        const inside = this.room.querySelector(`#line-${at} .inside`);
        if (inside && lines === this.#lines && painted.join() === this.#painted) {
            inside.textContent = this.#inside(at);
            return;
        }
        this.#lines = lines;
        this.#painted = painted.join();
        const rows = [];
        for (let i = first; i < end; i++) rows.push(this.#row(i));
        this.room.replaceChildren(...rows);
        this.box.setAttribute("aria-activedescendant", `line-${this.#at}`);
    }

    #row(i) {
        const row = document.createElement("div"), run = this.#run;
        row.id = `line-${i}`;
        row.className = "row";
        row.dataset.line = i;
        row.style.top = `${i * ROW}px`;
        row.setAttribute("role", "option");
        row.setAttribute("aria-selected", String(i === this.#at));
        const reached = this.#position > 0 && i <= this.#at;
        if (i >= run.made) row.classList.add("unread");
        else if (!reached) row.classList.add("ahead");
        const printed = i < run.made ? run.printed[i] : run.over !== 0 ? "not read" : "";
        if (/^code=(?!0 )/.test(printed)) row.classList.add("refused");
        row.append(cell("number", i + 1), cell("text", shown(run.lines[i])),
            cell("inside", i === this.#at ? this.#inside(i) : ""), cell("answer", shown(printed)));
        return row;
    }

    // How far a line is that makes many steps.
    #inside(i) {
        const run = this.#run;
        if (i >= run.made || run.steps(i) === 1 || this.#position === 0) return "";
        return `${this.#position - run.starts[i]} / ${run.steps(i)}`;
    }

    // Edits line i in place.
    edit(i) {
        if (this.#editing !== null) return;
        this.#scroll(i);
        this.paint();
        const row = this.box.querySelector(`#line-${i}`);
        if (!row) return;
        const input = document.createElement("input");
        this.#editing = i;
        input.value = this.#run.lines[i].replace(/\n$/, "");
        input.setAttribute("aria-label", `line ${i + 1}`);
        input.spellcheck = false;
        row.classList.add("editing");
        row.querySelector(".text").replaceChildren(input);
        input.addEventListener("keydown", (event) => {
            event.stopPropagation();
            if (event.key === "Enter") this.#close(input.value);
            if (event.key === "Escape") this.#close(null);
        });
        input.addEventListener("blur", () => this.#close(input.value));
        input.focus();
    }

    #close(value) {
        const i = this.#editing;
        if (i === null) return;
        this.#editing = null;
        this.#painted = "";
        const had = this.#run.lines[i].replace(/\n$/, "");
        if (value !== null && value !== had) this.edited(i, value);
        this.paint();
        this.box.focus({ preventScroll: true });
    }
}

function cell(name, text) {
    const span = document.createElement("span");
    span.className = name;
    span.textContent = text;
    return span;
}

// A line as it is shown: without its newline, and with a sign for what has none.
function shown(line) {
    return line.replace(/\n$/, "").replace(/[\0-\x1f\x7f-\x9f]/g, (c) =>
        c.charCodeAt(0) < 32 ? String.fromCharCode(0x2400 + c.charCodeAt(0)) : "\ufffd");
}
