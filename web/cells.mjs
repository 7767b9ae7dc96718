// The drawing of a table of many nodes: a map of cells, one a node, row by row. A cell is painted
// again only if its look has changed; marks lie on a second canvas above.

import { FREE, FREE_NODE, GARBAGE, IN_USE, NIL, SLOT, differences, kindsOf } from "./look.mjs";

const COLOURS = 3;

export class Cells {
    #looks = new Uint8Array(0); // what each cell shows
    #laid = "";

    constructor(box, chosen = () => {}) {
        this.box = box;
        this.below = box.querySelector("canvas.cells");
        this.above = box.querySelector("canvas.marks");
        this.above.addEventListener("click", (event) => {
            const n = this.#nodeAt(event.offsetX, event.offsetY);
            if (n !== null) chosen(n);
        });
    }

    // A change of the theme: the tiles are painted anew.
    forget() {
        this.#laid = "";
    }

    #nodeAt(x, y) {
        const column = Math.floor(x / this.size), row = Math.floor(y / this.size);
        const n = row * this.columns + column;
        return column < this.columns && n < this.#looks.length ? n : null;
    }

    // The size of a cell, in whole points of the screen, so that all of them fit into the box.
    #lay(nodes) {
        const scale = window.devicePixelRatio || 1;
        const width = Math.floor(this.box.clientWidth * scale);
        const height = Math.floor(this.box.clientHeight * scale);
        const laid = `${nodes} ${width} ${height}`;
        if (laid === this.#laid || width === 0) return;
        this.#laid = laid;
        const rowsOf = (points) => Math.ceil(nodes / Math.floor(width / points));
        let points = Math.max(4, Math.floor(Math.sqrt(width * height / nodes)));
        while (points > 4 && rowsOf(points) * points > height) points--;
        const rows = rowsOf(points);
        this.columns = Math.ceil(nodes / rows); // as few as need no more rows
        this.points = points;
        this.size = points / scale;
        for (const canvas of [this.below, this.above]) {
            canvas.width = this.columns * points;
            canvas.height = rows * points;
            canvas.style.width = `${this.columns * this.size}px`;
            canvas.style.height = `${rows * this.size}px`;
        }
        this.above.getContext("2d").setTransform(scale, 0, 0, scale, 0, 0);
        this.tiles = painted(points, getComputedStyle(this.box));
        this.image = new ImageData(this.below.width, this.below.height);
        this.pixels = new Uint32Array(this.image.data.buffer);
        this.#looks = new Uint8Array(nodes).fill(255);
    }

    draw(state, base, marks) {
        this.#lay(state.nodes);
        if (!this.size) return;
        const { kinds } = kindsOf(state), { points, image } = this, looks = this.#looks;
        let first = -1, last = -1; // the cells that are painted
        for (let n = 0; n < state.nodes; n++) {
            const look = kinds[n] * COLOURS + state.colour[n];
            if (looks[n] === look) continue;
            looks[n] = look;
            this.#put(n, this.tiles[look]);
            if (first < 0) first = n;
            last = n;
        }
        if (first >= 0) {
            const top = Math.floor(first / this.columns), end = Math.floor(last / this.columns) + 1;
            this.below.getContext("2d").putImageData(image, 0, 0, 0, top * points, image.width,
                (end - top) * points);
        }
        this.#mark(state, differences(base, state), marks);
    }

    // Copies a tile to where node n is.
    #put(n, tile) {
        const { points, pixels, columns } = this, { width } = this.image;
        const from = Math.floor(n / columns) * points * width + n % columns * points;
        const skip = width - points;
        for (let k = 0, to = from; k < tile.length; k++, to++) {
            pixels[to] = tile[k];
            if ((k + 1) % points === 0) to += skip;
        }
    }

    #mark(state, changed, marks) {
        const context = this.above.getContext("2d"), style = getComputedStyle(this.box);
        const colour = (name) => style.getPropertyValue(name);
        context.clearRect(0, 0, this.above.width, this.above.height);
        this.#edges(context, state, marks.chosen, colour("--edge"));
        this.#frames(context, [...changed.colours, ...changed.lefts, ...changed.rights],
            colour("--changed"));
        this.#frame(context, marks.last, -1, 1.5, colour("--list"));
        this.#frame(context, marks.owed, 2, 2, colour("--owed"));
        this.#frame(context, marks.read, 2, 2, colour("--here"));
        this.#frame(context, marks.at, 3, 2.5, colour("--here"));
        this.#frame(context, marks.chosen, 5, 1.5, colour("--ink"));
    }

    #middle(n) {
        const { columns, size } = this;
        return [(n % columns + 0.5) * size, (Math.floor(n / columns) + 0.5) * size];
    }

    #frame(context, n, far, width, colour) {
        if (n === null || n === undefined || n >= this.#looks.length) return;
        const [x, y] = this.#middle(n), half = this.size / 2 + far - 0.5;
        context.strokeStyle = colour;
        context.lineWidth = width;
        context.strokeRect(x - half, y - half, 2 * half, 2 * half);
    }

    // Frames around many nodes, drawn at once; neighbours in a row have one frame.
    #frames(context, nodes, colour) {
        const { columns, size } = this, sorted = Uint16Array.from(nodes).sort();
        context.strokeStyle = colour;
        context.lineWidth = 2;
        context.beginPath();
        for (let at = 0, end; at < sorted.length; at = end) {
            const first = sorted[at], row = Math.floor(first / columns);
            for (end = at + 1; sorted[end] <= sorted[end - 1] + 1; end++) {
                if (Math.floor(sorted[end] / columns) !== row) break;
            }
            context.rect(first % columns * size + 0.5, row * size + 0.5,
                (sorted[end - 1] - first + 1) * size - 1, size - 1);
        }
        context.stroke();
    }

    // The edges of the node that is chosen.
    #edges(context, state, n, colour) {
        if (n === null || n === undefined || n >= state.nodes) return;
        context.strokeStyle = colour;
        context.lineWidth = 1.5;
        for (const to of [state.left[n], state.right[n]]) {
            if (to === 0) continue;
            context.beginPath();
            context.moveTo(...this.#middle(n));
            context.lineTo(...this.#middle(to));
            context.stroke();
        }
    }
}

// A tile for each kind and colour. The kind is told by the ground, by the size of what is on it and
// by a cross, the colour by how far it is filled: white not, gray half, black wholly.
function painted(size, style) {
    const tiles = [], canvas = document.createElement("canvas");
    canvas.width = canvas.height = size;
    const context = canvas.getContext("2d", { willReadFrequently: true });
    const of = (name) => style.getPropertyValue(name);
    for (const kind of [NIL, FREE, SLOT, IN_USE, FREE_NODE, GARBAGE]) {
        for (let colour = 0; colour < COLOURS; colour++) {
            paint(context, kind, colour, size, of);
            const { data } = context.getImageData(0, 0, size, size);
            tiles[kind * COLOURS + colour] = new Uint32Array(data.buffer);
        }
    }
    return tiles;
}

const GROUNDS = { [NIL]: "--root", [FREE]: "--root", [SLOT]: "--slot", [IN_USE]: "--in-use",
    [FREE_NODE]: "--free", [GARBAGE]: "--garbage" };

const INSETS = { [NIL]: 0.2, [FREE]: 0.2, [SLOT]: 0.16, [IN_USE]: 0.22, [FREE_NODE]: 0.3,
    [GARBAGE]: 0.22 };

function paint(context, kind, colour, size, of) {
    context.fillStyle = of("--ground");
    context.fillRect(0, 0, size, size);
    context.fillStyle = of(GROUNDS[kind]);
    context.fillRect(0.5, 0.5, size - 1, size - 1);
    const inset = size * INSETS[kind], inner = size - 2 * inset;
    context.fillStyle = of("--white");
    context.fillRect(inset, inset, inner, inner);
    context.fillStyle = of(colour === 1 ? "--gray" : "--black");
    if (colour === 1) context.fillRect(inset, inset + inner / 2, inner, inner / 2);
    if (colour === 2) context.fillRect(inset, inset, inner, inner);
    context.strokeStyle = of("--ink");
    context.lineWidth = 1;
    if (kind === SLOT) context.strokeRect(inset, inset, inner, inner);
    if (kind === GARBAGE) cross(context, size, of("--cross"));
}

function cross(context, size, colour) {
    context.strokeStyle = colour;
    context.lineWidth = Math.max(1, size / 9);
    context.beginPath();
    context.moveTo(1, 1);
    context.lineTo(size - 1, size - 1);
    context.moveTo(size - 1, 1);
    context.lineTo(1, size - 1);
    context.stroke();
}
