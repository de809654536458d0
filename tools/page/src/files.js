// Files that are held as bytes: what `c25` of host.js calls where there is no disk.
"use strict";

class Pieces {
    constructor() { this.list = []; this.size = 0; }
    add(bytes) { this.list.push(bytes); this.size += bytes.length; }
    whole() {
        const all = new Uint8Array(this.size);
        let at = 0;
        for (const piece of this.list) { all.set(piece, at); at += piece.length; }
        return all;
    }
}

// Linux's numbers of the errors of files, negative as a host answers them.
const NO_FILE = -2, NO_TRANSFER = -5, NO_FOLDER = -20, IS_FOLDER = -21, TOO_LONG = -36;
// How many bytes a name and a whole path may have on a disk of Linux.
const NAME_BYTES = 255, PATH_BYTES = 4095;
const bytes_in = (text) => new TextEncoder().encode(text).length;

// The given files are a Map of names and bytes. `printed` is called with each piece of standard output.
class HeldFiles {
    constructor(given, input, printed) {
        this.given = given;
        this.written = new Map();
        this.errors = new Pieces();
        this.printed = printed;
        this.opened = new Map([[0, { bytes: input, at: 0 }]]);
        this.next = 3;
    }
    // A file can be written into a folder that has a file already, or into none.
    has_folder_of(name) {
        const folder = name.slice(0, name.lastIndexOf("/") + 1);
        return folder === "" || [...this.given.keys()].some((other) => other.startsWith(folder));
    }
    // Why a file that was not given cannot be read.
    refusal_of(name) {
        if (bytes_in(name) > PATH_BYTES) return TOO_LONG;
        let folder = "";
        for (const part of name.split("/")) {
            if (bytes_in(part) > NAME_BYTES) return TOO_LONG;
            const path = folder + part;
            if (path !== name && this.given.has(path)) return NO_FOLDER;
            if (![...this.given.keys()].some((other) => other === path || other.startsWith(path + "/"))) return NO_FILE;
            folder = path + "/";
        }
        return IS_FOLDER;
    }
    has_room_for(name) { return bytes_in(name) <= PATH_BYTES && name.split("/").every((part) => bytes_in(part) <= NAME_BYTES); }
    open(name, writes) {
        if (writes && !this.has_room_for(name)) return TOO_LONG;
        if (writes && !this.has_folder_of(name)) return NO_FILE;
        if (!writes && !this.given.has(name)) return this.refusal_of(name);
        if (writes) this.written.set(name, new Pieces());
        this.opened.set(this.next, writes ? { pieces: this.written.get(name) } : { bytes: this.given.get(name), at: 0 });
        return this.next++;
    }
    read(number, room) {
        const file = this.opened.get(number);
        if (!file || !file.bytes) return NO_TRANSFER;
        const some = file.bytes.subarray(file.at, file.at + room.length);
        room.set(some);
        file.at += some.length;
        return some.length;
    }
    write(number, bytes) {
        const file = this.opened.get(number);
        if (number === 1) this.printed(bytes.slice());
        else if (number === 2) this.errors.add(bytes.slice());
        else if (file && file.pieces) file.pieces.add(bytes.slice());
        else return NO_TRANSFER;
        return bytes.length;
    }
    close(number) { return this.opened.delete(number) ? 0 : NO_TRANSFER; }
}
