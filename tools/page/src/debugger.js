// The debugger: a script of `c25 debug` that grows by each button, and is run again from reset each time.
"use strict";

const ALL_INSTRUCTIONS = "list 65535", SHOWN_INSTRUCTIONS = 14, SHOWN_WORDS = 64, WORDS_A_LINE = 8;
// What `Over` does in one: how many instructions there are up to where it goes on.
const CALLS = { CALL: 1, CALA: 1, TRAP: 1, RPT: 2, RPTK: 2 };
const LISTED = /^([0-9A-F]{4}) (.*) (\S+:\d+)$/;

const inspector = {
    script: [], seen: null, before: null, turn: Promise.resolve(),
    places: null,       // addresses of instructions by their places, `file:line`
    memory: "data", from: "0060",

    // The sources are others, or the program begins again.
    forget() {
        this.places = this.seen = this.before = null;
        this.script = [];
        editor.now = null;
    },

    async call(script) {
        const command_line = ["debug", ...project.modules, "--script", SCRIPT, "--explain", ...project.options(...ROLES)];
        const files = { ...project.files, [SCRIPT]: script.join("\n") + "\n" };
        const answer = project.modules.length ? await program.run(command_line, files) : NO_MODULE;
        if (answer.stopped) say("stopped");
        if (answer.stopped || !fault_shown(answer)) return null;
        return { lines: text_of(answer.out).trimEnd().split("\n"), milliseconds: answer.milliseconds };
    },

    async know_places() {
        if (this.places) return true;
        const answer = await this.call([ALL_INSTRUCTIONS]);
        if (!answer) return false;
        this.places = new Map();
        for (const line of answer.lines) {
            const [, address, , place] = LISTED.exec(line) || [];
            if (address && !this.places.has(place)) this.places.set(place, address);
        }
        return true;
    },

    addresses() { return [...editor.marks].map((place) => this.places.get(place)).filter((address) => address); },

    // ---- buttons and keys: each has its turn when those before it are done ----
    in_turn(action) { return (this.turn = this.turn.then(action, action)); },
    from_reset() { return this.in_turn(() => this.begin()); },
    step(count = 1) { return this.in_turn(() => this.go(`step ${count}`)); },
    run() { return this.in_turn(() => this.go(`run ${project.steps}`)); },
    over() { return this.in_turn(() => this.go_over()); },
    to_cursor() { return this.in_turn(() => this.go_to(`${editor.open}:${editor.line()}`)); },
    breakpoint(place) { return this.in_turn(() => this.toggle(place)); },
    look(memory, from) { return this.in_turn(() => (Object.assign(this, { memory, from }), this.show())); },

    // ---- what they do ----
    async begin() {
        this.script = [];
        this.seen = this.before = null;
        if (!(await this.know_places())) return;
        this.script = this.addresses().map((address) => "break " + address);
        await this.show();
    },

    async go(...commands) {
        if (!this.seen) await this.begin();
        if (!this.seen) return;
        const before = [...this.script];
        for (const command of commands) this.add(command);
        if (!(await this.show())) this.script = before;
    },

    // Steps after steps are one command, so that a script stays short.
    add(command) {
        const last = /^step (\d+)$/.exec(this.script[this.script.length - 1]), next = /^step (\d+)$/.exec(command);
        if (last && next) this.script[this.script.length - 1] = `step ${Number(last[1]) + Number(next[1])}`;
        else this.script.push(command);
    },

    go_over() {
        const next = this.seen && this.seen.instructions[CALLS[mnemonic_of(this.seen.where)]];
        return next ? this.run_to(next.slice(0, 4)) : this.go("step 1");
    },

    run_to(address) {
        const run = `run ${project.steps}`;
        return this.addresses().includes(address) ? this.go(run) : this.go("break " + address, run, "clear " + address);
    },

    async go_to(place) {
        if (!(await this.know_places())) return;
        const address = this.places.get(place);
        if (address) await this.run_to(address);
        else say("there is no instruction at the line of the cursor");
    },

    async toggle(place) {
        if (!(await this.know_places())) return;
        const address = this.places.get(place);
        if (!address) return say("there is no instruction at that line");
        const on = !editor.marks.delete(place);
        if (on) editor.marks.add(place);
        editor.paint_rows();
        say(`${on ? "breakpoint" : "no breakpoint"} at ${place}, address ${address}`);
        if (this.seen) await this.go(`${on ? "break" : "clear"} ${address}`);
    },

    // Shows where the script leads; answers whether the program said so.
    async show() {
        const asked = ["where", "regs", "stack", `${this.memory} ${this.from} ${SHOWN_WORDS}`, `list ${SHOWN_INSTRUCTIONS}`];
        const answer = await this.call([...this.script, ...asked]);
        if (!answer) return false;
        this.before = this.seen;
        this.seen = seen_in(answer.lines, this.script.length, memory_rows(this.from));
        const [, , , place] = LISTED.exec(this.seen.where) || [];
        editor.now = place ? { file: place.replace(/:\d+$/, ""), line: Number(/\d+$/.exec(place)) } : null;
        say(`${this.seen.ended} (${answer.milliseconds.toFixed(0)} ms)`);
        if (editor.now && editor.now.file in project.files) editor.show(editor.now.file, editor.now.line);
        else editor.paint();
        views.show("Debugger");
        return true;
    },
};

// What the answers to a script of `count` commands and then to those of `show` say.
function seen_in(lines, count, rows) {
    const [where, first, second, stack, ...rest] = lines.slice(count);
    const ended = lines.slice(0, count).reverse().find((line) => /^(ran|left|break)/.test(line)) || "at reset";
    const registers = registers_of(first, second);
    return { ended, where, registers, stack, memory: rest.slice(0, rows), instructions: rest.slice(rows) };
}

const mnemonic_of = (line) => line.split(" ")[1];

// How many lines the shown words of memory have: fewer at its end.
function memory_rows(from) { return Math.ceil(Math.min(SHOWN_WORDS, 0x10000 - parseInt(from, 16)) / WORDS_A_LINE); }

// The registers in the two lines of `regs`, by their names.
function registers_of(first, second) {
    const found = {}, parts = first.split(" ");
    for (let i = 0; i < parts.length; i += 2) found[parts[i]] = parts[i + 1];
    second.split(" ").slice(1).forEach((word, i) => (found["AR" + i] = word));
    return found;
}
