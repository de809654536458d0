// Bytes out of the text that tools/page/dense.py makes: seven bits in each character, fourteen in one from 100h on.
"use strict";

const ASIDE = [0, 9, 10, 11, 12, 13, 26, 34, 60, 92, 127], FIRST_ASIDE = 256, GROUP = 7;

// The last characters may have bits beyond those of so many bytes.
function bytes_of_dense(size, text) {
    const bytes = new Uint8Array(size), mask = (1 << GROUP) - 1;
    let held = 0, bits = 0, count = 0;
    const take = (group) => {
        held = (held << GROUP) | group;
        bits += GROUP;
        if (bits < 8) return;
        bits -= 8;
        bytes[count++] = held >> bits;
        held &= (1 << bits) - 1;
    };
    for (let at = 0; at < text.length; at++) {
        const code = text.charCodeAt(at);
        if (code >= FIRST_ASIDE) take(ASIDE[(code - FIRST_ASIDE) >> GROUP]);
        take(code & mask);
    }
    return bytes;
}
