// Pictures of words: a curve with its axes, and of many words the least and the most in each column. Over steps a word holds until the next.
"use strict";

const SVG = "http://www.w3.org/2000/svg";
const PICTURE = { width: 900, height: 200, left: 62, right: 8, top: 8, bottom: 22 };
const LETTERS = { fill: "#4b525b", "font-family": "monospace", "font-size": 11 };
const POINTS_SHOWN = 120;       // so many words have a point each
const svg = (tag, more, ...inside) => {
    const made = document.createElementNS(SVG, tag);
    for (const [name, value] of Object.entries(more)) made.setAttribute(name, value);
    made.append(...inside);
    return made;
};

function extremes(values) {
    let [low, high] = [values[0], values[0]];
    for (const value of values) {
        if (value < low) low = value;
        if (value > high) high = value;
    }
    return [low, high];
}

// The least and the greatest value on the picture's axis, which has 0.
function bounds(values) {
    const [least, greatest] = values.length ? extremes(values) : [0, 0], [low, high] = [Math.min(0, least), Math.max(0, greatest)];
    return [low, low === high ? low + 1 : high];
}

const point = (i, across, down) => `${i ? "L" : "M"}${across.toFixed(1)} ${down.toFixed(1)}`;

function path_of(values, x, y, columns) {
    const count = values.length;
    if (count <= 2 * columns) return Array.from(values, (value, i) => point(i, x(i), y(value))).join("");
    let path = "";
    for (let column = 0; column < columns; column++) {
        const some = values.subarray(Math.floor((column * count) / columns), Math.floor(((column + 1) * count) / columns));
        const [least, most] = extremes(some);
        path += point(column, PICTURE.left + column, y(most)) + point(1, PICTURE.left + column, y(least));
    }
    return path;
}

// The grid of a picture with its numbers: values at the left, words, seconds or steps below.
function grid(low, high, last, { x, y, label }) {
    const { width, height, left, right } = PICTURE, anchors = ["start", "middle", "middle", "middle", "end"];
    const text = (across, down, anchor, content) => svg("text", { x: across, y: down, "text-anchor": anchor, ...LETTERS }, content);
    const lines = [low, (low + high) / 2, high].flatMap((value) => [
        svg("line", { x1: left, x2: width - right, y1: y(value), y2: y(value), stroke: "#c8ccd2" }),
        text(left - 6, y(value) + 4, "end", String(value)),
    ]);
    return [...lines, ...anchors.map((anchor, part) => text(x((last * part) / 4), height - 6, anchor, label((last * part) / 4)))];
}

function points(values, x, y) {
    if (values.length > POINTS_SHOWN) return [];
    return Array.from(values, (value, i) => svg("circle", { cx: x(i), cy: y(value), r: 2.2, fill: "#0b5cad" }));
}

// The curve of words that come in steps: each holds up to the next word's step, the last one up to `last`.
function held_path_of(values, steps, last, { x, y, columns }) {
    if (values.length > 2 * columns) return columns_path_of(values, steps, last, { y, columns });
    const part = (value, i) => point(i, x(steps[i]), y(value)) + point(1, x(i + 1 < steps.length ? steps[i + 1] : last), y(value));
    return Array.from(values, part).join("");
}

// The same of many words: in each column that has words the least and the most of them and of the word that held before.
function columns_path_of(values, steps, last, { y, columns }) {
    let path = "", at = 0;
    for (let column = 0; column < columns; column++) {
        const end = (last * (column + 1)) / columns, from = Math.max(0, at - 1);
        while (at < steps.length && (steps[at] < end || column === columns - 1)) at++;
        if (!at) continue;
        const [low, high] = extremes(values.subarray(from, Math.max(at, from + 1)));
        path += point(path.length, PICTURE.left + column, y(high)) + point(1, PICTURE.left + column, y(low));
    }
    return path;
}

// The picture of a signal: `shape` has the last place of the axis, the label of a place, and the curve and the points over x and y.
function drawn(title, values, shape) {
    const { width, height, left, right, top, bottom } = PICTURE, { last, label } = shape;
    const [low, high] = bounds(values), columns = width - left - right;
    const x = (at) => left + (columns * at) / last, y = (value) => top + ((height - top - bottom) * (high - value)) / (high - low);
    const description = `${title}: ${values.length} words from ${low} to ${high}`;
    return svg("svg", { class: "picture", viewBox: `0 0 ${width} ${height}`, role: "img", "aria-label": description },
        svg("title", {}, title),
        ...grid(low, high, last, { x, y, label }),
        ...points(values, (i) => x(shape.place(i)), y),
        svg("path", { d: shape.path({ x, y, columns }), fill: "none", stroke: "#0b5cad", "stroke-width": 1.4 }));
}

// The axis counts words, or has seconds where `seconds`.
function picture_of(title, words, rate, seconds) {
    const values = Int16Array.from(words), path = ({ x, y, columns }) => path_of(values, x, y, columns);
    const label = (at) => (seconds ? `${Number((at / rate).toPrecision(3))} s` : String(Math.round(at)));
    return drawn(title, values, { last: Math.max(1, values.length - 1), label, place: (i) => i, path });
}

// The axis has the steps of the run up to its last one, so that the pictures of all ports stand above one another.
function picture_of_steps(title, { words, steps, last }) {
    const values = Int16Array.from(words), path = (over) => held_path_of(values, steps, last, over);
    return drawn(title, values, { last, label: (at) => String(Math.round(at)), place: (i) => steps[i], path });
}

// The index of the word that holds in a step; -1 before the first.
function held_at(steps, step) {
    let low = 0, high = steps.length;
    while (low < high) {
        const middle = (low + high) >> 1;
        if (steps[middle] <= step) low = middle + 1;
        else high = middle;
    }
    return low - 1;
}

const shown_word = (word) => `${signed(word)} (${hex4(word)}h)`;

// What is said of a place of the picture, from 0 at its left to 1 at its right.
function told_at({ words, steps, last }, part, rate) {
    if (part < 0 || part > 1) return "";
    const at = steps ? held_at(steps, Math.round(part * last)) : Math.round(part * (words.length - 1));
    if (at < 0) return `step ${Math.round(part * last)}: no word yet`;
    if (steps) return `step ${Math.round(part * last)}: ${shown_word(words[at])}, put out in step ${steps[at]}`;
    return `word ${at}, at ${(at / rate).toFixed(6)} s: ${shown_word(words[at])}`;
}

// Says of which word the pointer is over the picture.
function point_out(picture, signal, rate, note) {
    const { width, left, right } = PICTURE;
    picture.onpointermove = (event) => {
        const box = picture.getBoundingClientRect(), across = ((event.clientX - box.left) / box.width) * width;
        note.textContent = told_at(signal, (across - left) / (width - left - right), rate);
    };
    picture.onpointerleave = () => (note.textContent = "");
}
