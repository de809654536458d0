// The program in a worker: one call at a time. A call that is stopped takes its worker with it, and the next worker gets the module as it
// is compiled already.
"use strict";

const STOP_SHOWN = 100;     // after so many milliseconds of a call the page can be asked to stop it

const program = {
    address: null, module: null, worker: null, ready: null, call: null, count: 0,

    // Begins the worker, if there is none; calls wait until it is ready.
    load() {
        if (!this.worker) this.begin();
        return this.ready;
    },

    // The first worker unpacks and compiles the module.
    begin() {
        this.address ||= URL.createObjectURL(new Blob([DATA.worker], { type: "text/javascript" }));
        this.worker = new Worker(this.address);
        this.ready = new Promise((yes, no) => {
            this.worker.onmessage = ({ data }) => {
                if (data.module) yes((this.module = data.module));
                else if (data.id === undefined) no(new Error(data.trap));
                else this.answered(data);
            };
            this.worker.onerror = (error) => no(new Error(error.message || "no worker"));
        });
        this.worker.postMessage(this.module ? { module: this.module } : { packed: MODULE });
    },

    answered(data) {
        const call = this.call;
        if (!call || data.id !== call.id) return;
        if (data.part) call.part(data.part);
        else this.end(data);
    },

    end(answer) {
        const call = this.call;
        this.call = null;
        clearTimeout(call.shown);
        stop_shown(false);
        call.yes(answer);
    },

    send(call, message) {
        if (this.call !== call) return;
        call.sent = true;
        this.worker.postMessage(message);
    },

    // A worker that has the call is ended; one that is not ready yet goes on.
    stop() {
        if (!this.call) return;
        if (this.call.sent) {
            this.worker.terminate();
            this.begin();
        }
        this.end({ stopped: true });
    },

    // Runs a command line over files, { name: text }; `part` gets what it prints while it runs.
    run(command_line, files, part) {
        this.stop();
        return new Promise((yes) => {
            const call = this.call = { id: ++this.count, yes, part, sent: false, shown: setTimeout(() => stop_shown(true), STOP_SHOWN) };
            const message = { id: call.id, command_line, files, stream: !!part };
            this.load().then(() => this.send(call, message), (error) => this.call === call && this.end({ trap: error.message }));
        });
    },
};

// Whether the button Stop can be pressed. The focus does not stay on a button that cannot.
function stop_shown(on) {
    if (!on && document.activeElement === element("stop")) element("run").focus();
    element("stop").disabled = !on;
}
