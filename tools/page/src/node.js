#!/usr/bin/env node
// The program c25 on the files of this folder: node c25.js run fir.asm ..
// (host.js stands before this in the file that tools/page.py makes)

const fs = require("fs");
const STOPPED_BY_ITSELF = 70;       // the status where the engine ended the program; its own are 0 to 3

// Linux's numbers of the errors of files.
const NUMBERS = {
    EPERM: 1, ENOENT: 2, EIO: 5, EACCES: 13, ENOTDIR: 20, EISDIR: 21, ENFILE: 23, EMFILE: 24, ENOSPC: 28, EROFS: 30, ENAMETOOLONG: 36, ELOOP: 40,
};
const refused = (error) => -(NUMBERS[error.code] || NUMBERS.EIO);

function waiting(transfer) {
    for (;;) {
        try {
            return transfer();
        } catch (error) {
            if (error.code === "EOF") return 0;
            if (error.code !== "EAGAIN") return refused(error);
        }
    }
}

const disk = {
    open(name, writes) {
        try {
            return fs.openSync(name, writes ? "w" : "r");
        } catch (error) {
            return refused(error);
        }
    },
    read: (file, bytes) => waiting(() => fs.readSync(file, bytes)),
    write: (file, bytes) => waiting(() => fs.writeSync(file, bytes)),
    close: (file) => waiting(() => (fs.closeSync(file), 0)),
};

try {
    const module = require("zlib").gunzipSync(bytes_of_dense(...MODULE));
    process.exitCode = c25(new WebAssembly.Module(module), process.argv.slice(2), disk);
} catch (error) {
    fs.writeSync(2, `c25: the program stopped by itself: ${error}\n`);
    process.exitCode = STOPPED_BY_ITSELF;
}
