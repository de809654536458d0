// Lists of numbers that grow.
"use strict";

// `kind` is the array that holds them.
class Numbers {
    constructor(kind) { this.held = new kind(256); this.count = 0; }
    room_for(more) {
        if (this.count + more <= this.held.length) return;
        const wider = new this.held.constructor(2 * (this.count + more));
        wider.set(this.all());
        this.held = wider;
    }
    add(number) {
        this.room_for(1);
        this.held[this.count++] = number;
    }
    add_all(numbers) {
        this.room_for(numbers.length);
        this.held.set(numbers, this.count);
        this.count += numbers.length;
    }
    all() { return this.held.subarray(0, this.count); }
}
