// Runs the cases that test_node.py sends, a line of JSON each, in the module that is named, and prints a line of JSON for each.
"use strict";
const fs = require("fs"), path = require("path");

const script = ["host.js", "files.js"].map((name) => fs.readFileSync(path.join(__dirname, "src", name), "utf8")).join("");
const { c25, Pieces, HeldFiles } = new Function(script + "; return { c25, Pieces, HeldFiles };")();
const bytes_of = (text) => new Uint8Array(Buffer.from(text, "base64"));
const text_of = (bytes) => Buffer.from(bytes).toString("base64");
const compiled = new WebAssembly.Module(fs.readFileSync(process.argv[2]));

function answer({ command_line, given, files }) {
    const held = new Map(Object.entries(files).map(([name, text]) => [name, bytes_of(text)])), out = new Pieces();
    held.set("/dev/stdin", bytes_of(given));
    const system = new HeldFiles(held, bytes_of(given), (bytes) => out.add(bytes));
    try {
        const status = c25(compiled, command_line, system);
        const written = [...system.written].map(([name, pieces]) => [name, text_of(pieces.whole())]);
        return { status, output: text_of(out.whole()), errors: text_of(system.errors.whole()), written: Object.fromEntries(written) };
    } catch (error) {
        return { trap: String(error) };
    }
}

for (const line of fs.readFileSync(0, "utf8").split("\n")) if (line) console.log(JSON.stringify(answer(JSON.parse(line))));
