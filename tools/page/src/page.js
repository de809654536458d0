// The page: its keys, buttons and beginning.
"use strict";

const MOST_STEPS = 4294967295;

// What a key does besides the text, or undefined.
function action_of({ key, ctrlKey, metaKey, shiftKey }) {
    if (key === "Enter" && (ctrlKey || metaKey)) return run;
    if (key === "F7") return () => inspector.to_cursor();
    if (key === "F8") return () => inspector.run();
    if (key === "F9") return () => inspector.breakpoint(`${editor.open}:${editor.line()}`);
    if (key === "F10") return () => (shiftKey ? inspector.over() : inspector.step());
    return key === "Escape" ? () => program.stop() : undefined;
}

function key_pressed(event) {
    const action = action_of(event);
    if (!action) return;
    event.preventDefault();
    action();
}

function set_steps() {
    project.steps = Math.min(Math.max(Math.floor(Number(element("steps").value)) || 0, 0), MOST_STEPS);
    element("steps").value = project.steps;
    edited();
}

function set_module() {
    project.set_module(editor.open, element("module").checked);
    edited();
}

const save_file = () => save(editor.open, project.files[editor.open]);
const save_all = () => save(`${project.name.replace(/ /g, "-")}.tar`, tar_of(project.folder()));
const show_again = () => views.show(views.open);
// Another axis; the steps of the outputs are known after a run that tells them.
const set_axis = () => (axis() === "steps" && views.ran && !views.ran.when ? run() : show_again());

function pick() {
    const files = [...element("pick").files];
    element("pick").value = "";
    return picked(files);
}

function dropped(event) {
    event.preventDefault();
    picked([...event.dataTransfer.files]);
}

function listen() {
    const clicks = {
        run, stop: () => program.stop(), undo, redo, restore, new: new_file, open: () => element("pick").click(),
        save: save_file, save_all, remove, earlier: move_earlier,
    };
    const changes = {
        example: (event) => open_project(event.target.value), steps: set_steps, rate: show_again, axis: set_axis, name: rename,
        module: set_module, pick,
    };
    for (const [id, does] of Object.entries(clicks)) element(id).onclick = () => does();
    for (const [id, does] of Object.entries(changes)) element(id).onchange = does;
    onpagehide = () => keep_waiting();
    document.onkeydown = key_pressed;
    document.ondragover = (event) => event.preventDefault();
    document.ondrop = dropped;
}

// The project that was open when the page was closed, or the first example.
function last_project() {
    const name = kept_text(LAST);
    return name === OWN || name in DATA.examples ? name : DATA.first;
}

async function begin() {
    say("loads..");
    element("claim").textContent = DATA.claim;
    element("claim").classList.toggle("bad", DATA.claim.startsWith("NOT PROVED"));
    try {
        editor.begin();
        listen();
        views.show("Outputs");
        const loaded = program.load();
        project.take(last_project(), kept_folder(last_project()) || as_it_was(last_project()));
        show_project();
        await loaded;
        await run();
    } catch (error) {
        say("this browser cannot run the program: " + error.message);
    }
    document.body.dataset.begun = Math.round(performance.now());
}

// What the tests of tools/page reach.
Object.assign(window, { element, program, project, editor, inspector, views });
begin();
