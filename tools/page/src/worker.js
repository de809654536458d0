// The page's worker: runs the program on the command line and the files that it is sent.
// In:  { packed }, as lzma.js takes it, or { module }, a WebAssembly.Module; then { id, command_line: [..], files: { name: text or bytes },
//      stream }
// Out: { module }, then { id, part: { text, ports, end } } while it runs (with stream), where `ports` has { words, steps } by the ports'
//      numbers, and { id, status, out, errors, files, milliseconds } or { id, trap }
"use strict";

const LINE_FEED = 10, BLANK = 32, NINE = 57, PIECE = 1 << 18;
let compiled = null;

// Reads the lines `PORT WORD` of a run, or `STEP PORT WORD` of one with --when, as words (and steps) by ports; another line is how the run
// ended.
class OutputLines {
    constructor() { this.rest = new Uint8Array(0); this.end = ""; }
    read(bytes) {
        const all = new Uint8Array(this.rest.length + bytes.length), ports = {};
        all.set(this.rest);
        all.set(bytes, this.rest.length);
        let at = 0;
        for (let end = all.indexOf(LINE_FEED); end >= 0; at = end + 1, end = all.indexOf(LINE_FEED, at)) this.line(all, at, end, ports);
        this.rest = all.slice(at);
        for (const port of Object.keys(ports)) ports[port] = { words: ports[port].words.all(), steps: ports[port].steps.all() };
        return ports;
    }
    line(all, at, end, ports) {
        const blank = end - 5, digit = (place) => (all[place] <= NINE ? all[place] - 48 : all[place] - 55);
        if (all[blank] !== BLANK || all[at] > NINE) {
            this.end = new TextDecoder().decode(all.subarray(at, end));
            return;
        }
        const from = Math.max(at, all.lastIndexOf(BLANK, blank - 1) + 1), port = decimal(all, from, blank);
        const list = ports[port] || (ports[port] = { words: new Numbers(Uint16Array), steps: new Numbers(Uint32Array) });
        list.words.add((digit(end - 4) << 12) | (digit(end - 3) << 8) | (digit(end - 2) << 4) | digit(end - 1));
        if (from > at) list.steps.add(decimal(all, at, from - 1));
    }
}

function decimal(all, at, end) {
    let number = 0;
    for (let place = at; place < end; place++) number = 10 * number + all[place] - 48;
    return number;
}

const bytes_of = (held) => (typeof held === "string" ? new TextEncoder().encode(held) : held);

function perform({ id, command_line, files, stream }) {
    const given = new Map(Object.entries(files).map(([name, held]) => [name, bytes_of(held)])), lines = new OutputLines();
    let out = new Pieces();
    const send = () => {
        const text = out.whole();
        out = new Pieces();
        const ports = lines.read(text);
        postMessage({ id, part: { text, ports, end: lines.end } }, [text.buffer]);
    };
    const system = new HeldFiles(given, new Uint8Array(0), (bytes) => {
        out.add(bytes);
        if (stream && out.size > PIECE) send();
    });
    const begin = performance.now(), status = c25(compiled, command_line, system), milliseconds = performance.now() - begin;
    if (stream && out.size) send();
    const written = Object.fromEntries([...system.written].map(([name, pieces]) => [name, pieces.whole()]));
    return { id, status, out: out.whole(), errors: system.errors.whole(), files: written, milliseconds };
}

onmessage = ({ data }) => {
    try {
        if (data.id === undefined) {
            compiled = data.module || new WebAssembly.Module(unpacked(data.packed));
            postMessage({ module: compiled });
        } else postMessage(perform(data));
    } catch (error) {
        postMessage({ id: data.id, trap: String(error) });
    }
};
