// What the debugger shows: buttons, registers, instructions, memory, fields of the status words.
"use strict";

const REGISTERS = ["PC", "ACC", "P", "T", "ST0", "ST1", "RPTC"];
const AUXILIARY_REGISTERS = [..."01234567"].map((number) => "AR" + number);
const either = (one, other) => (bit) => (bit ? one : other);
// Fields of the status words: name, word, lowest bit, bits, and what the values mean.
const FIELDS = [
    ["ARP", "ST0", 13, 3, (number) => `AR${number} is current`],
    ["OV", "ST0", 12, 1, either("overflow", "no overflow")],
    ["OVM", "ST0", 11, 1, either("sums are limited", "sums go round")],
    ["INTM", "ST0", 9, 1, either("interrupts off", "interrupts on")],
    ["DP", "ST0", 0, 9, (number) => `direct addresses from ${hex4(number * 128)}h`],
    ["ARB", "ST1", 13, 3, (number) => `AR${number} was current`],
    ["CNF", "ST1", 12, 1, either("B0 is program memory", "B0 is data memory")],
    ["TC", "ST1", 11, 1, either("true", "false")],
    ["SXM", "ST1", 10, 1, either("signs are extended", "no signs")],
    ["C", "ST1", 9, 1, either("carry", "no carry")],
    ["HM", "ST1", 6, 1, either("stops on hold", "runs on hold")],
    ["FSM", "ST1", 5, 1, either("frame pulses", "no frame pulses")],
    ["XF", "ST1", 4, 1, either("pin XF high", "pin XF low")],
    ["FO", "ST1", 3, 1, either("8 bits", "16 bits")],
    ["TXM", "ST1", 2, 1, either("frames go out", "frames come in")],
    ["PM", "ST1", 0, 2, (number) => ["P as it is", "P shifted left by 1", "P shifted left by 4", "P shifted right by 6"][number]],
];

const head_cell = (text, scope) => make("th", { scope, textContent: text });
const cell = (text, is_new) => make("td", { textContent: text, className: is_new ? "new" : "" });

function debugger_bar() {
    return bar(
        button("From reset", "begin again", () => inspector.from_reset()),
        button("Step", "one step (F10)", () => inspector.step()),
        button("10 steps", "ten steps", () => inspector.step(10)),
        button("Over", "up to the instruction after a call or a repetition (Shift+F10)", () => inspector.over()),
        button("Run", "up to a breakpoint (F8)", () => inspector.run()),
        button("To cursor", "up to the line of the cursor (F7)", () => inspector.to_cursor()),
    );
}

function register_table(caption, names, registers, old) {
    return table(caption,
        make("tr", {}, ...names.map((name) => head_cell(name, "col"))),
        make("tr", {}, ...names.map((name) => cell(registers[name], old[name] !== registers[name]))));
}

function field_of([, word, low, bits], registers) { return (parseInt(registers[word], 16) >> low) & ((1 << bits) - 1); }

function field_row(field, registers, old) {
    const value = field_of(field, registers), is_new = value !== field_of(field, old);
    return make("tr", {}, head_cell(field[0], "row"), cell(value, is_new), cell(field[4](value)));
}

// A row of memory, `ADDRESS WORD WORD ..`, beside the line that showed the same words before.
function memory_row(line, old = "") {
    const [address, ...words] = line.split(" "), [old_address, ...old_words] = old.split(" ");
    const is_new = (i) => old_address === address && old_words[i] !== words[i];
    return make("tr", {}, head_cell(address, "row"), ...words.map((word, i) => cell(word, is_new(i))));
}

function show_memory_from(text) {
    const address = address_of(text.trim());
    if (address === null) return say(`${text} is no address and no name`);
    inspector.look(inspector.memory, address);
}

function memory_bar() {
    const option = ([value, text]) => make("option", { value, textContent: text, selected: value === inspector.memory });
    const choose = (event) => inspector.look(event.target.value, inspector.from);
    const kinds = [["data", "data memory"], ["prog", "program memory"]].map(option);
    const which = make("select", { "aria-label": "memory", onchange: choose }, ...kinds);
    const from = make("input", { value: inspector.from, size: 12, "aria-label": "from the address or the name" });
    from.onchange = () => show_memory_from(from.value);
    return bar(which, "from", from);
}

// The address that one to four hexadecimal digits say, or else a symbol's name; null where there is none.
function address_of(text) {
    if (/^[0-9A-Fa-f]{1,4}$/.test(text)) return text.toUpperCase().padStart(4, "0");
    const [, symbols] = Object.entries(views.built || {}).find(([name]) => name.endsWith(".sym")) || [];
    const line = symbols && symbols.split("\n").find((it) => it.startsWith("SYMBOL ") && it.endsWith(" " + text));
    return line && /^[0-9A-F]{4}$/.test(line.split(" ")[1]) ? line.split(" ")[1] : null;
}

function instruction_line(line, seen) {
    const [, , , place] = LISTED.exec(line) || [], kind = (line === seen.where ? "now " : "") + (editor.marks.has(place) ? "stop" : "");
    return make("span", { className: kind, textContent: line, onclick: () => inspector.breakpoint(place) });
}

function registers_part({ registers }, old) {
    return make("div", { className: "scrolls" },
        register_table("registers", REGISTERS, registers, old.registers),
        register_table("auxiliary registers", AUXILIARY_REGISTERS, registers, old.registers));
}

function instructions_part(seen) {
    const lines = seen.instructions.map((line) => instruction_line(line, seen));
    return make("section", { "aria-label": "Instructions" }, heading("Instructions from PC on"),
        make("pre", { className: "code" }, ...lines));
}

function memory_part({ memory }, old) {
    const rows = memory.map((line, i) => memory_row(line, old.memory[i]));
    return make("section", { "aria-label": "Memory" }, heading("Memory"), memory_bar(),
        make("div", { className: "scrolls" }, table("words", ...rows)));
}

function fields_part({ registers }, old) {
    const rows = FIELDS.map((field) => field_row(field, registers, old.registers));
    return make("section", { "aria-label": "Status" }, heading("Status words"), table("fields of ST0 and ST1", ...rows));
}

function debugger_view(seen) {
    if (!seen) return [debugger_bar(), note("A click on a line's number, or F9 in the text, sets a breakpoint there.")];
    const old = inspector.before || seen;
    return [
        debugger_bar(),
        make("p", {}, make("b", { textContent: seen.ended }), ", next: " + seen.where),
        registers_part(seen, old),
        note("stack, the top first: " + seen.stack.slice("STACK ".length)),
        make("div", { className: "columns" }, instructions_part(seen), memory_part(seen, old), fields_part(seen, old)),
    ];
}
