// Samples from recordings and tables, and recordings and tables of outputs, as examples/tools/signals.py makes them.
"use strict";

const samples_text = (words, port) => words.map((word) => `${port} ${hex4(word & 0xffff)}\n`).join("");

// The samples of each port, by its number, as a text of samples has them.
function samples_by_ports(text) {
    const found = new Map();
    for (const line of text.split("\n")) {
        const [, port, word] = /^\s*(\d+)\s+([0-9A-Fa-f]{1,4})\s*$/.exec(line) || [];
        if (word === undefined) continue;
        if (!found.has(Number(port))) found.set(Number(port), []);
        found.get(Number(port)).push(parseInt(word, 16));
    }
    return found;
}

function wav_of(words, rate) {
    const view = new DataView(new ArrayBuffer(44 + 2 * words.length));
    const letters = (at, text) => [...text].forEach((letter, i) => view.setUint8(at + i, letter.charCodeAt(0)));
    letters(0, "RIFF");
    view.setUint32(4, 36 + 2 * words.length, true);
    letters(8, "WAVEfmt ");
    view.setUint32(16, 16, true);
    view.setUint16(20, 1, true);                // samples as they are
    view.setUint16(22, 1, true);                // one channel
    view.setUint32(24, rate, true);
    view.setUint32(28, 2 * rate, true);
    view.setUint16(32, 2, true);
    view.setUint16(34, 16, true);
    letters(36, "data");
    view.setUint32(40, 2 * words.length, true);
    words.forEach((word, i) => view.setUint16(44 + 2 * i, word, true));
    return view.buffer;
}

function first_channel(view, from, size, channels, bits) {
    const step = (bits / 8) * channels, length = Math.floor(Math.min(size, view.byteLength - from) / step);
    const word = (at) => (bits === 16 ? view.getUint16(at, true) : ((view.getUint8(at) - 128) << 8) & 0xffff);
    return Array.from({ length }, (_, i) => word(from + i * step));
}

// The first channel of a recording of 8 or 16 bits: { words, rate, channels }.
function words_of_wav(buffer) {
    const view = new DataView(buffer), letters = (at) => String.fromCharCode(...new Uint8Array(buffer, at, 4));
    if (buffer.byteLength < 12 || letters(0) !== "RIFF" || letters(8) !== "WAVE") throw new Error("it is no recording");
    let channels = 0, rate = 0, bits = 0;
    for (let at = 12; at + 8 <= view.byteLength;) {
        const kind = letters(at), size = view.getUint32(at + 4, true), from = at + 8;
        if (kind === "fmt ") {
            channels = view.getUint16(from + 2, true);
            rate = view.getUint32(from + 4, true);
            bits = view.getUint16(from + 14, true);
        } else if (kind === "data") {
            if (!channels || (bits !== 8 && bits !== 16)) throw new Error(`it has ${bits} bits a sample; 8 and 16 can be read`);
            return { words: first_channel(view, from, size, channels, bits), rate, channels };
        }
        at = from + size + (size & 1);
    }
    throw new Error("it has no samples");
}

// Halves are rounded to even numbers, as Python does.
function rounded(number) {
    const near = Math.round(number);
    return Math.abs(number % 1) === 0.5 && near % 2 ? near - 1 : near;
}

// The numbers of a table's last column, as they are written.
function cells_of_csv(text) {
    const cells = text.split("\n").map((line) => line.split(",").pop().trim());
    return cells.filter((cell) => cell !== "" && Number.isFinite(Number(cell)));
}

// The last column of a table: fractions in Q15 where one of its numbers has a point, else whole numbers.
function words_of_csv(text) {
    const cells = cells_of_csv(text), fractions = cells.some((cell) => cell.includes("."));
    const [low, high] = fractions ? [-1, 1] : [-32768, 65535];
    const fits = (number) => number >= low && number <= high && (fractions || Number.isInteger(number));
    const bad = cells.find((cell) => !fits(Number(cell)));
    if (!cells.length) throw new Error("its last column has no number");
    if (bad !== undefined) throw new Error(`${bad} is not ${fractions ? "a fraction" : "a whole number"} from ${low} to ${high}`);
    return cells.map((cell) => (fractions ? Math.min(rounded(32768 * Number(cell)), 32767) : Number(cell)));
}

function csv_of_steps(port, words, steps) {
    return `step,port ${port}\n` + Array.from(words, (word, i) => `${steps[i]},${signed(word)}\n`).join("");
}

function csv_of(port, words, rate) {
    const line = (word, i) => `${(i / rate).toFixed(6)},${signed(word)}\n`;
    return `second,port ${port}\n` + Array.from(words, line).join("");
}
