// The program c25 of a WebAssembly module: `c25(compiled, command_line, system)` runs it once, in an instance of its own, and answers its
// status. `system` has the files: open(name, writes), read(file, bytes), write(file, bytes) and close(file) answer the negative number of
// Linux's error where they fail.
"use strict";

function c25(compiled, command_line, system) {
    const texts = ["c25", ...command_line].map((text) => new TextEncoder().encode(text));
    const WRITES = 3;       // the bits of open's flags that ask for writing
    let memory = null;
    const bytes = (from, count) => new Uint8Array(memory.buffer, Number(from), Number(count));
    const text_at = (from) => {
        const rest = new Uint8Array(memory.buffer, Number(from));
        return new TextDecoder().decode(rest.slice(0, rest.indexOf(0)));
    };
    const host = {
        arg(index, to, room) {
            const text = texts[Number(index)];
            if (!text) return -1n;
            const count = Math.min(text.length, Number(room));
            bytes(to, count).set(text.subarray(0, count));
            return text.length > Number(room) ? -2n : BigInt(text.length);
        },
        open: (name, flags) => system.open(text_at(name), (flags & WRITES) !== 0),
        read: (file, to, room) => BigInt(system.read(file, bytes(to, room))),
        write: (file, from, count) => BigInt(system.write(file, bytes(from, count))),
        close: (file) => system.close(file),
    };
    const instance = new WebAssembly.Instance(compiled, { host });
    memory = instance.exports.memory;
    return instance.exports.start();
}
