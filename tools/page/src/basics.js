// What all parts of the page use: elements, numbers, texts, saving, tabs.
"use strict";

const element = (id) => document.getElementById(id);

function put(made, more, inside) {
    for (const [name, value] of Object.entries(more)) {
        if (name in made) made[name] = value;
        else made.setAttribute(name, value);
    }
    made.append(...inside);
    return made;
}

const make = (tag, more = {}, ...inside) => put(document.createElement(tag), more, inside);
const button = (text, title, onclick) => make("button", { type: "button", textContent: text, title, onclick });
const note = (text) => make("p", { className: "note", textContent: text });
const bar = (...inside) => make("div", { className: "bar" }, ...inside);
const heading = (text, ...inside) => make("h2", {}, text + " ", ...inside);
const table = (caption, ...rows) => make("table", {}, make("caption", { textContent: caption }), ...rows);

const text_of = (bytes) => new TextDecoder().decode(bytes);
// The text of a file that is opened; what is not UTF-8 is no text.
function exact_text(bytes) {
    try {
        return new TextDecoder("utf-8", { fatal: true, ignoreBOM: true }).decode(bytes);
    } catch {
        throw new Error("it is not a text in UTF-8");
    }
}
const hex4 = (number) => number.toString(16).toUpperCase().padStart(4, "0");
const signed = (word) => (word > 32767 ? word - 65536 : word);
const escaped = (text) => text.replace(/&/g, "&amp;").replace(/</g, "&lt;");

function say(text) { element("state").textContent = text; }

function save(name, content) {
    const link = make("a", { href: URL.createObjectURL(new Blob([content])), download: name });
    link.click();
    setTimeout(() => URL.revokeObjectURL(link.href), 1000);
}

// Where an arrow, Home or End leads from the tab `at` of `count` tabs; undefined for other keys.
function tab_after(key, at, count) {
    return { ArrowRight: (at + 1) % count, ArrowLeft: (at + count - 1) % count, Home: 0, End: count - 1 }[key];
}

// Shows tabs of which one is chosen: one stop of the Tab key, and arrows, Home and End go from tab to tab.
function show_tabs(list, names, chosen, choose, more = () => ({})) {
    const had_focus = list.contains(document.activeElement);
    list.replaceChildren(...names.map((name) => make("button", {
        type: "button", role: "tab", textContent: name, "aria-selected": String(name === chosen), tabIndex: name === chosen ? 0 : -1,
        onclick: () => choose(name), ...more(name),
    })));
    list.onkeydown = (event) => {
        const to = tab_after(event.key, names.indexOf(chosen), names.length);
        if (to === undefined) return;
        event.preventDefault();
        choose(names[to]);
    };
    if (had_focus) list.querySelector("[aria-selected=true]").focus();
}
