// Projects and files: what is opened, made, renamed, removed, and brought back by Undo.
"use strict";

const TABLES = { command: /\.cmd$/i, samples: /^(?!schedule).*\.txt$/i, schedule: /^schedule.*\.txt$/i };
// Projects as they were before a button changed them, { open, name, files }, and as they were before Undo.
const past = [], future = [];

// ---- projects ----
function show_project() {
    views.built = views.ran = editor.fault = null;
    editor.marks.clear();
    editor.forget();
    inspector.forget();
    element("fault").replaceChildren();
    element("steps").value = project.steps;
    editor.show(project.names()[0]);
    show_projects();
}

function show_projects() {
    const names = [...Object.keys(DATA.examples), OWN];
    const options = names.map((name) => make("option", { value: name, textContent: name, selected: name === project.name }));
    element("example").replaceChildren(...options);
    element("restore").disabled = !project.is_edited();
    element("undo").disabled = !past.length;
    element("redo").disabled = !future.length;
}

function open_project(name) {
    keep_waiting();
    project.take(name, kept_folder(name) || as_it_was(name));
    keep_text(LAST, name);
    show_project();
    return run();
}

// Makes these files the project of this name.
function replace_project(name, files) {
    remember(name);
    keep_folder(name, files);
    return open_project(name);
}

const restore = () => replace_project(project.name, null);

// A project as it is; `open` is the one that is shown.
const as_it_is = (name) => ({ open: project.name, name, files: kept_folder(name) });

// Remembers a project as it is, so that Undo brings it back.
function remember(name = project.name) {
    keep_waiting();
    past.push(as_it_is(name));
    future.length = 0;
}

// Goes back to the last of the projects of one list, so that the other list leads to what is there now.
function go_back(from, to) {
    keep_waiting();
    const { open, name, files } = from.pop();
    to.push(as_it_is(name));
    keep_folder(name, files);
    return open_project(open);
}

const undo = () => go_back(past, future);
const redo = () => go_back(future, past);

// ---- files that are opened ----
function put_samples(words) {
    const port = Number(element("port").value), name = project.roles.samples;
    const others = project.files[name].split("\n").filter((line) => line.trim() && Number(line.trim().split(/\s/)[0]) !== port);
    project.files[name] = others.map((line) => line + "\n").join("") + samples_text(words, port);
    return name;
}

async function put_recording(file) {
    const { words, rate, channels } = words_of_wav(await file.arrayBuffer());
    element("rate").value = rate;
    if (channels > 1) say(`${file.name} has ${channels} channels: the first one was taken`);
    return put_samples(words);
}

const text_of_file = async (file) => exact_text(await file.arrayBuffer());

async function put_text(file) {
    const role = ROLES.find((it) => TABLES[it].test(file.name)), name = role ? project.roles[role] : file_name(file.name);
    if (!is_file_name(name)) throw new Error("this name is not for a file of the page");
    const text = await text_of_file(file), is_new = !(name in project.files);
    project.files[name] = text;
    if (is_new && is_source(name)) project.set_module(name, true);
    return name;
}

async function put_file(file) {
    if (/\.wav$/i.test(file.name)) return put_recording(file);
    if (/\.csv$/i.test(file.name)) return put_samples(words_of_csv(await text_of_file(file)));
    return put_text(file);
}

// The files of a folder, where one of them has the command line.
async function folder_of(files) {
    return Object.fromEntries(await Promise.all(files.map(async (file) => [file_name(file.name), await text_of_file(file)])));
}

// Opens files: a saved folder, all files of one, or files that are added to the project.
async function picked(files) {
    const saved = files.find((file) => /\.tar$/i.test(file.name));
    try {
        if (saved) return await replace_project(OWN, files_of_tar(await saved.arrayBuffer()));
        if (files.some((file) => file.name === SESSION)) return await replace_project(OWN, await folder_of(files));
    } catch (error) {
        return say(`${saved ? saved.name : "the folder"}: ${error.message}`);
    }
    remember();
    for (const file of files) {
        try {
            const name = await put_file(file);
            editor.forget(name);
            editor.show(name);
        } catch (error) {
            return say(`${file.name}: ${error.message}`);
        }
    }
    edited();
}

// ---- files of the project ----
function new_file() {
    const names = ["new.asm", ...Array.from({ length: 99 }, (_, i) => `new${i + 2}.asm`)];
    const name = names.find((it) => !(it in project.files));
    remember();
    project.files[name] = "";
    project.set_module(name, true);
    editor.show(name);
    edited();
    element("name").select();
    element("name").focus();
}

function rename() {
    const name = element("name").value.trim();
    if (name === editor.open) return;
    if (!is_file_name(name) || name in project.files) {
        element("name").value = editor.open;
        say("a file's name is one word without - at its front, and no other file has it");
        return;
    }
    remember();
    project.rename(editor.open, name);
    editor.rename(editor.open, name);
    editor.show(name);
    edited();
}

function remove() {
    const name = editor.open;
    remember();
    project.remove(name);
    editor.forget(name);
    editor.show(name in project.files ? name : project.names()[0]);
    edited();
    say(`${name} is removed; Undo brings it back`);
}

function move_earlier() {
    remember();
    project.move_earlier(editor.open);
    editor.show_names();
    edited();
}
