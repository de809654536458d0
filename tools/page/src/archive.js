// Several files as one: a tar archive, so that `tar xf` makes the folder.
"use strict";

const BLOCK = 512, LONGEST_NAME = 99;
const is_short = (name) => new TextEncoder().encode(name).length <= LONGEST_NAME;

function tar_of(files) {
    const blocks = [];
    for (const [name, text] of Object.entries(files)) {
        const content = new TextEncoder().encode(text), head = new Uint8Array(BLOCK);
        const field = (at, value) => head.set(new TextEncoder().encode(value), at);
        field(0, name);
        field(100, "0000644\0" + "0000000\0" + "0000000\0");                                  // mode, user, group
        field(124, content.length.toString(8).padStart(11, "0") + "\0" + "00000000000\0" + "        0");     // size, time, no sum yet
        field(257, "ustar\0" + "00");
        field(148, head.reduce((sum, byte) => sum + byte, 0).toString(8).padStart(6, "0") + "\0 ");
        blocks.push(head, content, new Uint8Array((BLOCK - (content.length % BLOCK)) % BLOCK));
    }
    return new Blob([...blocks, new Uint8Array(2 * BLOCK)]);
}

function files_of_tar(buffer) {
    const files = {};
    for (let at = 0; at + BLOCK <= buffer.byteLength && new Uint8Array(buffer, at, 1)[0];) {
        const field = (from, count) => text_of(new Uint8Array(buffer, at + from, count)).replace(/\0.*$/s, "");
        const size = parseInt(field(124, 12), 8), name = field(0, 100);
        if (field(257, 5) !== "ustar" || !(size >= 0)) throw new Error("it is no archive");
        if (/^[0\0]?$/.test(field(156, 1))) files[file_name(name)] = exact_text(new Uint8Array(buffer, at + BLOCK, size));
        at += BLOCK + Math.ceil(size / BLOCK) * BLOCK;
    }
    if (!Object.keys(files).length) throw new Error("it has no files");
    return files;
}
