// The sound of a port: one at a time, which another press of Hear ends.
"use strict";

let playing = null;     // { title, player }

function end_sound() {
    const { player } = playing;
    playing = null;
    player.stop();
}

function hear(title, words, rate) {
    const again = playing && playing.title === title;
    if (playing) end_sound();
    if (again) return say("sound ended");
    try {
        const context = new AudioContext(), player = context.createBufferSource();
        const sound = context.createBuffer(1, Math.max(1, words.length), rate);
        sound.copyToChannel(Float32Array.from(words, (word) => signed(word) / 32768), 0);
        player.buffer = sound;
        player.connect(context.destination);
        const mine = playing = { title, player };
        player.onended = () => {
            context.close();
            if (playing === mine) playing = null;
        };
        player.start();
        say(`plays ${title} for ${(words.length / rate).toFixed(1)} s; Hear again ends it`);
    } catch (error) {
        say("no sound: " + error.message);
    }
}
