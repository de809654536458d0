// Bytes out of what LZMA made of them, as Igor Pavlov's published description has it, for lp = 0 and pb = 0. A row of bytes is written as
// letters, each by its own bits, and copies of what stands further back, four of whose distances are remembered.
"use strict";

const CONTEXT_BITS = 4, CHANCE_BITS = 11, LEARNS = 5, LEAST_RANGE = 1 << 24, STATES = 12, SHORTEST = 2;
const chances = (count) => new Uint16Array(count).fill(1 << (CHANCE_BITS - 1));

// Bits as a range coder wrote them: each takes the less room the likelier it was, and changes the chance (that it is 0) of the next.
class ChancedBits {
    constructor(bytes) {
        this.bytes = bytes;
        this.at = 5;
        this.range = Uint32Array.of(0xffffffff);
        this.code = Uint32Array.of(new DataView(bytes.buffer, bytes.byteOffset).getUint32(1));
    }
    // A number of so many bits, the highest first; each has its chance by those before it. (Nearly all bits are read here: what is read
    // from and written to is held in variables meanwhile.)
    number(list, from, count) {
        const { bytes } = this;
        let range = this.range[0], code = this.code[0], at = this.at, path = 1;
        for (let i = 0; i < count; i++) {
            const chance = list[from + path], bound = Math.imul(range >>> CHANCE_BITS, chance) >>> 0, is_one = code >= bound;
            list[from + path] = is_one ? chance - (chance >> LEARNS) : chance + (((1 << CHANCE_BITS) - chance) >> LEARNS);
            range = is_one ? (range - bound) >>> 0 : bound;
            code = is_one ? (code - bound) >>> 0 : code;
            path = (path << 1) | (is_one ? 1 : 0);
            if (range >= LEAST_RANGE) continue;
            range = (range << 8) >>> 0;
            code = ((code << 8) | bytes[at++]) >>> 0;
        }
        this.range[0] = range;
        this.code[0] = code;
        this.at = at;
        return path - (1 << count);
    }
    // One bit, whose chance stands at this place.
    bit(list, at) { return this.number(list, at - 1, 1); }
    // Bits of even chances, the highest first.
    even(count) {
        let number = 0;
        for (; count; count--) {
            this.range[0] >>>= 1;
            const is_one = this.code[0] >= this.range[0];
            if (is_one) this.code[0] -= this.range[0];
            number = number * 2 + (is_one ? 1 : 0);
            if (this.range[0] >= LEAST_RANGE) continue;
            this.range[0] <<= 8;
            this.code[0] = (this.code[0] << 8) | this.bytes[this.at++];
        }
        return number;
    }
    // As `number`, the lowest bit first.
    turned(list, from, count) {
        let path = 1, number = 0;
        for (let i = 0; i < count; i++) {
            const bit = this.bit(list, from + path);
            path = (path << 1) | bit;
            number |= bit << i;
        }
        return number;
    }
}

// How many bytes are copied.
class Lengths {
    constructor() { this.kinds = chances(2); this.low = chances(8); this.middle = chances(8); this.high = chances(256); }
    next(bits) {
        if (!bits.bit(this.kinds, 0)) return bits.number(this.low, 0, 3);
        if (!bits.bit(this.kinds, 1)) return 8 + bits.number(this.middle, 0, 3);
        return 16 + bits.number(this.high, 0, 8);
    }
}

class Unpacked {
    constructor(packed, size) {
        Object.assign(this, { bits: new ChancedBits(packed), bytes: new Uint8Array(size), count: 0, state: 0, back: [0, 0, 0, 0] });
        this.letters = chances(0x300 << CONTEXT_BITS);
        for (const name of ["is_copy", "is_again", "is_not_first", "is_long", "is_not_second", "is_fourth"]) this[name] = chances(STATES);
        Object.assign(this, { lengths: new Lengths(), lengths_again: new Lengths() });
        Object.assign(this, { slots: chances(4 << 6), places: chances(128), ends: chances(16) });
    }

    all() {
        while (this.count < this.bytes.length) {
            if (!this.asked(this.is_copy)) this.letter();
            else if (this.asked(this.is_again)) this.copy_again();
            else this.copy_new();
        }
        return this.bytes;
    }

    asked(list) { return this.bits.bit(list, this.state); }
    // What the byte is that stands so far back.
    byte_at(back) { return this.bytes[this.count - back - 1]; }

    // A letter has its chances by the letter before; behind a copy also by what stands where the copy would go on.
    letter() {
        const { letters, state } = this, before = this.count ? this.bytes[this.count - 1] : 0, from = 0x300 * (before >> (8 - CONTEXT_BITS));
        const letter = state < 7 ? this.bits.number(letters, from, 8) : this.letter_beside(this.byte_at(this.back[0]), from);
        this.bytes[this.count++] = letter;
        this.state = state < 4 ? 0 : state < 10 ? state - 3 : state - 6;
    }

    letter_beside(other, from) {
        let path = 1;
        for (let place = 7; place >= 0; place--) {
            const beside = (other >> place) & 1, bit = this.bits.bit(this.letters, from + (0x100 << beside) + path);
            path = (path << 1) | bit;
            if (bit !== beside) return this.rest_of_letter(path, place, from);
        }
        return path & 0xff;
    }

    rest_of_letter(path, count, from) {
        for (; count; count--) path = (path << 1) | this.bits.bit(this.letters, from + path);
        return path & 0xff;
    }

    copy_again() {
        const { back, state } = this;
        if (this.asked(this.is_not_first)) {
            const which = !this.asked(this.is_not_second) ? 1 : 2 + this.bits.bit(this.is_fourth, state);
            this.put_first(which, back[which]);
        } else if (!this.asked(this.is_long)) {
            this.state = state < 7 ? 9 : 11;
            return this.copy(1);
        }
        const length = this.lengths_again.next(this.bits);
        this.state = state < 7 ? 8 : 11;
        return this.copy(length + SHORTEST);
    }

    copy_new() {
        const length = this.lengths.next(this.bits);
        this.state = this.state < 7 ? 7 : 10;
        this.put_first(3, this.distance(length));
        this.copy(length + SHORTEST);
    }

    // Puts a distance in front of those that are remembered, in the place of this one.
    put_first(which, distance) {
        for (let at = which; at; at--) this.back[at] = this.back[at - 1];
        this.back[0] = distance;
    }

    distance(length) {
        const { bits } = this, slot = bits.number(this.slots, Math.min(length, 3) << 6, 6), count = (slot >> 1) - 1;
        if (slot < 4) return slot;
        const high = (2 | (slot & 1)) * 2 ** count;
        if (slot < 14) return high + bits.turned(this.places, high - slot, count);
        return high + bits.even(count - 4) * 16 + bits.turned(this.ends, 0, 4);
    }

    // (each byte may be one that was copied just before)
    copy(length) {
        const { bytes, count } = this, end = Math.min(count + length, bytes.length), back = this.back[0] + 1;
        for (let at = count; at < end; at++) bytes[at] = bytes[at - back];
        this.count = end;
    }
}

// The bytes of [how many they are, how many the packed ones are, the text of these].
const unpacked = ([size, packed_size, text]) => new Unpacked(bytes_of_dense(packed_size, text), size).all();
