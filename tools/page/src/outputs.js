// What a run puts out: words by ports as they come, and their view.
"use strict";

const SHOWN_LINES = 300, LINE_BYTES = 20;

// The outputs of a run: the text in pieces, the words of each port, and their steps where the run told them.
class Outputs {
    constructor() { this.ports = new Map(); this.count = 0; this.end = ""; this.pieces = []; }
    add({ text, ports, end }) {
        this.pieces.push(text);
        this.end = end;
        for (const [port, part] of Object.entries(ports)) this.add_words(Number(port), part);
    }
    add_words(port, { words, steps }) {
        if (!this.ports.has(port)) this.ports.set(port, { words: new Numbers(Uint16Array), steps: new Numbers(Uint32Array) });
        const held = this.ports.get(port);
        held.words.add_all(words);
        held.steps.add_all(steps);
        this.count += words.length;
    }
    of(port) { return this.ports.get(port).words.all(); }
    steps_of(port) { return this.ports.get(port).steps.all(); }
    // The number of the last step: how the run ended says it; before that, and where it did not end, it is that of the last output.
    last_step() {
        const [, done] = /^(?:ran|left) (\d+)/.exec(this.end) || [];
        const last = this.in_order().map((port) => this.steps_of(port)).map((steps) => steps[steps.length - 1] || 0);
        return Math.max(1, Number(done) || 0, ...last);
    }
    in_order() { return [...this.ports.keys()].sort((one, other) => one - other); }
    text() { return new Blob(this.pieces); }
    front() {
        const first = new Uint8Array(SHOWN_LINES * LINE_BYTES);
        let at = 0;
        for (const piece of this.pieces) {
            const some = piece.subarray(0, first.length - at);
            first.set(some, at);
            at += some.length;
        }
        const text = text_of(first.subarray(0, at));
        if (this.count <= SHOWN_LINES) return text;
        return text.split("\n").slice(0, SHOWN_LINES).join("\n") + `\n.. ${this.count} outputs in all\n${this.end}`;
    }
}

const axis = () => element("axis").value;

function port_buttons(port, { words, steps }, rate, picture) {
    const title = "port " + port, file = "port" + port;
    return [
        button("Hear", `play ${title}; again: end it`, () => hear(title, words, rate)),
        button("WAV", `save ${title} as a recording`, () => save(file + ".wav", wav_of(words, rate))),
        button("CSV", `save ${title} as a table`, () => save(file + ".csv", steps ? csv_of_steps(port, words, steps) : csv_of(port, words, rate))),
        button("SVG", `save the picture of ${title}`, () => save(file + ".svg", new XMLSerializer().serializeToString(picture))),
    ];
}

// The picture of a signal and what belongs to it. A signal has `words`, and over an axis of steps `steps` and `last`, the last one of the run.
function signal_view(title, signal, buttons) {
    const rate = Number(element("rate").value) || 1, { words, steps } = signal, pointed = make("span", { className: "note" });
    const picture = steps ? picture_of_steps(title, signal) : picture_of(title, words, rate, axis() === "seconds");
    point_out(picture, signal, rate, pointed);
    return [make("h2", { textContent: `${title}: ${words.length} words` }), picture, bar(...buttons(signal, rate, picture), pointed)];
}

function port_view(port, outputs) {
    const words = outputs.of(port), over_steps = axis() === "steps" ? { steps: outputs.steps_of(port), last: outputs.last_step() } : {};
    return signal_view("port " + port, { words, ...over_steps }, (...of) => port_buttons(port, ...of));
}

const samples_view = (port, words) => signal_view("samples of port " + port, { words: Uint16Array.from(words) }, () => []);

function outputs_view(ran) {
    if (!ran) return [note("Run shows here what the program writes to its ports.")];
    if (axis() === "steps" && !ran.when) return [note("The steps of the outputs are not known: Run finds them.")];
    const { outputs, registers, stopped, command_line } = ran, samples = samples_by_ports(project.files[project.roles.samples]);
    const saves = button("Save", "save all that was printed", () => save("output.txt", outputs.text()));
    return [
        ...outputs.in_order().flatMap((port) => port_view(port, outputs)),
        ...[...samples].flatMap(([port, words]) => samples_view(port, words)),
        heading("What the program prints", saves),
        note("c25 " + command_line.join(" ")),
        make("pre", { textContent: outputs.front() + (stopped || "") }),
        make("pre", { textContent: registers || "" }),
    ];
}
