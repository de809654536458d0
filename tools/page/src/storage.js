// The browser's storage: each project that was edited, under its name, and the name of the last one.
"use strict";

const KEPT = "c25 ", LAST = "";
const held = new Map();     // the same until the page is closed, where the browser keeps nothing

// Keeps a text in the browser's storage, or nothing where it is null; answers whether that could be done.
function keep_text(name, text) {
    held.set(name, text);
    try {
        if (text === null) localStorage.removeItem(KEPT + name);
        else localStorage.setItem(KEPT + name, text);
        return true;
    } catch {
        say("not kept: this browser has no room for it. Save all saves it");
        return false;
    }
}

function kept_text(name) {
    if (held.has(name)) return held.get(name);
    try {
        return localStorage.getItem(KEPT + name);
    } catch {
        return null;
    }
}

function keep_folder(name, files) { return keep_text(name, files && JSON.stringify(files)); }

// The files that are kept under a project's name, or null.
function kept_folder(name) {
    try {
        return JSON.parse(kept_text(name));
    } catch {
        return null;
    }
}
