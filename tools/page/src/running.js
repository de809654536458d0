// What happens on an edit and on Run: the program builds, runs, and its fault is shown at its line.
"use strict";

const WAIT = 250, TICK = 500, OUT = "out";
const MOST_OUTPUTS = 1 << 24;       // the outputs of one run that the page keeps
// What is answered where there is nothing to assemble.
const NO_MODULE = { refused: "no file is a module: choose the source that is to be assembled, and mark it as a module" };
let waiting = null;

// What is wrong with an answer, as the program reports it; an empty text where nothing is.
function fault_of(answer) {
    if (answer.refused) return answer.refused;
    if (answer.trap) return `the program stopped by itself: ${answer.trap}`;
    return answer.status === 1 || answer.status === 2 ? text_of(answer.errors) : "";
}

// Shows the fault of an answer, if it has one, at its line; answers whether it has none.
function fault_shown(answer) {
    const text = fault_of(answer), [first, ...rest] = text.trimEnd().split("\n"), box = element("fault");
    const [, place, line] = /^(.*?):(\d+): \d+ \w+/.exec(first) || [];
    editor.fault = place ? { file: project.file_of_place(place), line: Number(line) } : null;
    box.replaceChildren();
    if (text) box.append(place ? button(first, "go to its line", go_to_fault) : make("b", { textContent: first }), "\n" + rest.join("\n"));
    editor.show_names();
    editor.paint_rows();
    return !text;
}

function go_to_fault() {
    if (!(editor.fault.file in project.files)) return;
    editor.show(editor.fault.file);
    editor.go_to(editor.fault.line);
}

function edited() {
    inspector.forget();
    clearTimeout(waiting);
    waiting = setTimeout(() => { keep(); build(); }, WAIT);
}

function keep() {
    clearTimeout(waiting);
    waiting = null;
    project.keep();
    show_projects();
}

// Keeps what was edited a moment ago.
function keep_waiting() {
    if (waiting !== null) keep();
}

// Assembles and links; answers whether that, and what the run reads, has no fault.
async function build() {
    inspector.forget();
    const command_line = ["build", ...project.modules, "--out", OUT, "--symbols", OUT + ".sym", "--explain", ...project.options("command")];
    const answer = project.modules.length ? await program.run(command_line, project.files) : NO_MODULE;
    if (answer.stopped) return false;
    const fine = fault_shown(answer);
    views.built = fine ? Object.fromEntries(Object.entries(answer.files).map(([name, bytes]) => [name, text_of(bytes)])) : null;
    say(fine ? `assembled and linked in ${answer.milliseconds.toFixed(0)} ms` : "a fault: see below the text");
    if (views.open !== "Outputs" && views.open !== "Help") views.show(views.open);
    return fine && inputs_are_read();
}

// Whether samples and schedule have no fault.
async function inputs_are_read() {
    if (!project.used_roles("samples", "schedule").length) return true;
    const command_line = ["run", ...project.modules, "--steps", "0", "--explain", ...project.options(...ROLES)];
    const answer = await program.run(command_line, project.files);
    if (answer.stopped) return false;
    const fine = fault_shown(answer);
    if (!fine) say("a fault: see below the text");
    return fine;
}

function show_running(outputs) {
    const begin = performance.now();
    return setInterval(() => {
        say(`runs.. ${outputs.count} outputs, ${((performance.now() - begin) / 1000).toFixed(1)} s`);
        if (views.open === "Outputs" && outputs.count) views.show("Outputs");
    }, TICK);
}

// Adds what came to the outputs, and stops the run where they are more than the page keeps.
function add_outputs(outputs, part) {
    outputs.add(part);
    if (outputs.count >= MOST_OUTPUTS) program.stop();
}

async function run() {
    keep_waiting();
    if (!(await build())) return;
    const when = axis() === "steps", command_line = [...project.command_line(), ...(when ? ["--when"] : [])];
    const outputs = new Outputs(), tick = show_running(outputs), ran = views.ran = { outputs, when, command_line };
    say("runs..");
    const answer = await program.run([...command_line, "--regs", "--explain"], project.files, (part) => add_outputs(outputs, part));
    clearInterval(tick);
    if (views.ran !== ran) return;      // another run took its place
    say(how_it_ended(ran, answer));
    views.show("Outputs");
}

function how_it_ended(ran, answer) {
    const { outputs } = ran;
    if (answer.stopped) {
        const full = outputs.count >= MOST_OUTPUTS;
        return (ran.stopped = full ? `stopped: the page keeps ${MOST_OUTPUTS} outputs, c25 in a shell prints all` : "stopped");
    }
    if (!fault_shown(answer)) return "a fault: see below the text";
    ran.registers = text_of(answer.errors);
    return `${outputs.end} in ${answer.milliseconds.toFixed(0)} ms`;
}
