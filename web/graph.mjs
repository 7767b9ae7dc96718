// The drawing of a table of few nodes: a graph. A node's place depends on the table's size alone,
// so it never jumps.

import { FREE, FREE_NODE, GARBAGE, IN_USE, NIL, SLOT, differences, kindsOf } from "./look.mjs";
import { colourNames, kindNames } from "./look.mjs";

export const MOST_IN_GRAPH = 64;

const LEAST = { width: 240, height: 170 }; // the drawing is no smaller
const NARROW = 420; // below this width words stand above and below the nodes
const WORDY = 24; // up to so many nodes, what is seen is also said beside each
const KIND_CLASSES = [];
KIND_CLASSES[NIL] = "nil";
KIND_CLASSES[FREE] = "head";
KIND_CLASSES[SLOT] = "slot";
KIND_CLASSES[IN_USE] = "in-use";
KIND_CLASSES[FREE_NODE] = "free";
KIND_CLASSES[GARBAGE] = "garbage";

export function made(name, attributes = {}, parent = null) {
    const element = document.createElementNS("http://www.w3.org/2000/svg", name);
    for (const [key, value] of Object.entries(attributes)) element.setAttribute(key, value);
    parent?.append(element);
    return element;
}

// Points on an ellipse around 0, with equal ways between them: FREE on top, then clockwise the
// nodes that are handed out, NIL, and the slots.
function pointsOf(nodes, slots, rx, ry) {
    const order = [1];
    for (let n = slots + 2; n < nodes; n++) order.push(n);
    order.push(0);
    for (let n = slots + 1; n >= 2; n--) order.push(n);
    const fine = 2880, ways = [0];
    const at = (k) => {
        const angle = -Math.PI / 2 + 2 * Math.PI * k / fine;
        return { x: rx * Math.cos(angle), y: ry * Math.sin(angle) };
    };
    for (let k = 1; k <= fine; k++) {
        const [a, b] = [at(k - 1), at(k)];
        ways.push(ways[k - 1] + Math.hypot(a.x - b.x, a.y - b.y));
    }
    const points = [];
    let k = 0;
    order.forEach((n, place) => {
        while (ways[k] < ways[fine] * place / order.length) k++;
        points[n] = at(k);
    });
    return points;
}

export class Graph {
    #nodes = [];
    #edges = [];
    #size = "";

    // `chosen` is called with the number of a node that is clicked.
    constructor(svg, chosen = () => {}) {
        this.svg = svg;
        this.chosen = chosen;
    }

    // Where the nodes are: it depends on how many there are, and on the room.
    #lay(nodes, slots) {
        const width = Math.max(LEAST.width, this.svg.clientWidth);
        const height = Math.max(LEAST.height, this.svg.clientHeight);
        const size = `${nodes} ${slots} ${width} ${height}`;
        if (this.#size === size) return;
        this.#size = size;
        this.wordy = nodes <= WORDY;
        this.narrow = width < NARROW;
        this.height = height;
        this.radius = Math.min(26, 0.062 * Math.min(width, height) + 4,
            1.2 * ((width + height) / 2 - 100) / nodes);
        const margin = this.radius + (this.wordy ? 40 : 34);
        this.points = pointsOf(nodes, slots, width / 2 - margin - (this.narrow ? 0 : 56),
            height / 2 - margin);
        this.svg.setAttribute("viewBox", `${-width / 2} ${-height / 2} ${width} ${height}`);
        this.svg.replaceChildren(arrows());
        const lines = made("g", {}, this.svg), discs = made("g", {}, this.svg);
        this.#edges = [];
        this.#nodes = [];
        for (let n = 0; n < nodes; n++) {
            for (const side of [0, 1]) this.#edges.push(this.#edge(lines, n, side));
            this.#nodes.push(this.#node(discs, n, slots));
        }
    }

    #edge(parent, n, side) {
        const group = made("g", { class: "edge" }, parent);
        return { n, side, group, line: made("path", {}, group),
            letter: made("text", { class: "letter" }, group), drawn: "" };
    }

    #node(parent, n, slots) {
        const { x, y } = this.points[n], r = this.radius;
        const group = made("g", { transform: `translate(${x} ${y})`, tabindex: -1 }, parent);
        const body = n >= 2 && n < slots + 2 ? square(r) : n === 1 ? diamond(r) : disc(r);
        made("path", { class: "halo", d: body, transform: "scale(1.36)" }, group);
        made("path", { class: "body", d: body }, group);
        made("path", { class: "level", d: n >= 2 && n < slots + 2 ? lowerSquare(r)
            : n === 1 ? lowerDiamond(r) : lowerDisc(r) }, group);
        made("path", { class: "rim", d: body }, group);
        const cross = r * 0.98;
        made("path", { class: "cross", d: `M${cross} ${-cross}L${-cross} ${cross}` }, group);
        const number = made("text", { class: "number", "font-size": r * 0.86 }, group);
        number.textContent = n;
        made("path", { class: "mark", d: disc(r + 8) }, group);
        const out = this.#outward(n);
        const label = made("text", { class: "label", "text-anchor": out.anchor }, group);
        group.addEventListener("click", () => this.chosen(n));
        const title = made("title", {}, group);
        return { group, label, out, title };
    }

    // The words beside a node, one below the other, on the outer side.
    #label({ label, out }, words) {
        const far = this.radius + 14, high = 15;
        const top = out.y * far - (words.length - 1) * high * (1 - out.y) / 2 + 5;
        label.replaceChildren(...words.map((word, line) => {
            const part = made("tspan", { x: out.x * far, y: top + line * high });
            part.textContent = word;
            return part;
        }));
    }

    #outward(n) {
        const { x: dx, y: dy } = this.points[n], long = Math.hypot(dx, dy) || 1;
        const x = dx / long, y = dy / long;
        if (this.narrow) return { x: 0, y: y < 0.1 ? -1 : 1, anchor: "middle" };
        return { x, y, anchor: x > 0.35 ? "start" : x < -0.35 ? "end" : "middle" };
    }

    // Draws a state. `base` is the state from which changes are marked; `marks` names nodes: at
    // (the collector's), read, owed, chosen, and a word for the collector's phase.
    draw(state, base, marks) {
        this.#lay(state.nodes, state.slots);
        const { kinds } = kindsOf(state), changed = differences(base, state);
        const [lefts, rights] = [new Set(changed.lefts), new Set(changed.rights)];
        for (const edge of this.#edges) {
            this.#drawEdge(edge, state, kinds, (edge.side ? rights : lefts).has(edge.n));
        }
        const colours = new Set(changed.colours);
        this.#nodes.forEach((node, n) => {
            const touched = colours.has(n) || lefts.has(n) || rights.has(n);
            this.#drawNode(node, n, state, kinds[n], touched, marks);
        });
    }

    #drawNode(node, n, state, kind, touched, marks) {
        const words = [KIND_CLASSES[kind], colourNames[state.colour[n]], "node"];
        if (touched) words.push("changed");
        if (n === marks.chosen) words.push("chosen");
        if (n === marks.owed) words.push("owed");
        if (n === marks.at) words.push("at");
        if (n === marks.read) words.push("read");
        const text = this.#said(n, kind, marks), said = text.join(" "), name = words.join(" ");
        if (node.name !== name) node.group.setAttribute("class", node.name = name);
        if (node.said !== said) this.#label(node, text);
        node.said = said;
        const told = `${n}: ${kindNames[kind]}, ${colourNames[state.colour[n]]}`;
        if (node.told !== told) node.title.textContent = node.told = told;
    }

    // The words beside a node.
    #said(n, kind, marks) {
        const text = [];
        if (kind === NIL) text.push("NIL");
        if (kind === FREE) text.push("FREE");
        if (kind === SLOT) text.push(this.wordy ? `slot ${n - 2}` : `s${n - 2}`);
        if (kind === GARBAGE && this.wordy) text.push("garbage");
        if (n === marks.last) text.push("last");
        if (n === marks.at && marks.phase) text.push(marks.phase);
        if (n === marks.read) text.push("read");
        if (n === marks.owed) text.push("owed");
        return text;
    }

    #drawEdge(edge, state, kinds, changed) {
        const { n, side, group } = edge, to = (side ? state.right : state.left)[n];
        const list = side === 0 && (kinds[n] === FREE || kinds[n] === FREE_NODE);
        const name = to === 0 ? "edge none" : `edge ${list ? "list" : kinds[n] === GARBAGE
            ? "lost" : "held"}${changed ? " changed" : ""}`;
        const drawn = `${to} ${name}`;
        if (edge.drawn === drawn) return;
        edge.drawn = drawn;
        group.setAttribute("class", name);
        if (to === 0) return blank(edge);
        const { path, letter } = to === n ? this.#loop(n, side) : this.#curve(n, to, side);
        edge.line.setAttribute("d", path);
        const kind = changed ? "changed" : list ? "list" : kinds[n] === GARBAGE ? "lost" : "held";
        edge.line.setAttribute("marker-end", `url(#arrow-${kind})`);
        edge.letter.setAttribute("x", letter.x);
        edge.letter.setAttribute("y", letter.y);
        edge.letter.textContent = list ? "" : side ? "R" : "L";
    }

    // A curve from one node to another, bent towards the middle: the right edge more, so that both
    // edges to one node are seen, and one back more than one there.
    #curve(from, to, side) {
        const a = this.points[from], b = this.points[to], r = this.radius;
        const long = Math.hypot(b.x - a.x, b.y - a.y);
        const across = { x: (b.y - a.y) / long, y: (a.x - b.x) / long };
        const middle = { x: (a.x + b.x) / 2, y: (a.y + b.y) / 2 };
        const inward = -middle.x * across.x - middle.y * across.y;
        const sign = Math.abs(inward) < 9 ? (side ? -1 : 1) : Math.sign(inward);
        const bend = sign * Math.min(70, 14 + long * 0.12, this.height * 0.11) *
            (1 + 0.8 * side + 0.4 * (from > to));
        const c = { x: middle.x + across.x * bend, y: middle.y + across.y * bend };
        const p = towards(a, c, r + 2), q = towards(b, c, r + 8);
        const at = 0.24, was = 1 - at;
        return {
            path: `M${p.x} ${p.y}Q${c.x} ${c.y} ${q.x} ${q.y}`,
            letter: { x: was * was * p.x + 2 * at * was * c.x + at * at * q.x,
                y: was * was * p.y + 2 * at * was * c.y + at * at * q.y + 4 },
        };
    }

    // A loop at a node, on the inner side.
    #loop(n, side) {
        const { x, y } = this.points[n], r = this.radius;
        const middle = Math.atan2(-y, -x) + (side ? 0.62 : -0.62);
        const point = (angle, far) => `${x + far * Math.cos(angle)} ${y + far * Math.sin(angle)}`;
        const far = r * 2.2 + 16;
        return {
            path: `M${point(middle - 0.4, r + 2)}C${point(middle - 0.62, far)} ` +
                `${point(middle + 0.62, far)} ${point(middle + 0.4, r + 8)}`,
            letter: { x: x + (far * 0.86) * Math.cos(middle),
                y: y + far * 0.86 * Math.sin(middle) },
        };
    }
}

// An edge that is not there leaves nothing behind.
function blank({ line, letter }) {
    for (const name of ["d", "marker-end"]) line.removeAttribute(name);
    for (const name of ["x", "y"]) letter.removeAttribute(name);
    letter.textContent = "";
}

function towards(from, to, far) {
    const long = Math.hypot(to.x - from.x, to.y - from.y) || 1;
    return { x: from.x + (to.x - from.x) * far / long, y: from.y + (to.y - from.y) * far / long };
}

// The heads of the edges, one for each kind of edge.
function arrows() {
    const defs = made("defs");
    for (const kind of ["held", "list", "lost", "changed"]) {
        const marker = made("marker", { id: `arrow-${kind}`, class: `arrow ${kind}`, refX: 1,
            refY: 4, markerWidth: 9, markerHeight: 8, orient: "auto",
            markerUnits: "userSpaceOnUse" }, defs);
        made("path", { d: "M0 0L9 4L0 8Z" }, marker);
    }
    return defs;
}

const disc = (r) => `M${-r} 0A${r} ${r} 0 1 1 ${r} 0A${r} ${r} 0 1 1 ${-r} 0Z`;
const lowerDisc = (r) => `M${-r} 0A${r} ${r} 0 0 0 ${r} 0Z`;
const square = (r) => `M${-r * 0.92} ${-r * 0.92}H${r * 0.92}V${r * 0.92}H${-r * 0.92}Z`;
const lowerSquare = (r) => `M${-r * 0.92} 0H${r * 0.92}V${r * 0.92}H${-r * 0.92}Z`;
const diamond = (r) => `M0 ${-r * 1.24}L${r * 1.24} 0L0 ${r * 1.24}L${-r * 1.24} 0Z`;
const lowerDiamond = (r) => `M${r * 1.24} 0L0 ${r * 1.24}L${-r * 1.24} 0Z`;
