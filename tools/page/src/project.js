// What is edited, a project: sources, a command file, samples and a schedule, and how many steps are run. It is kept and saved as the files
// of a folder and a file `session`, which has the command line, as the folders of examples/ are.
"use strict";

const ROLES = ["command", "samples", "schedule"];
const ROLE_FILES = { command: "board.cmd", samples: "samples.txt", schedule: "schedule.txt" };
const SESSION = "session", SCRIPT = "script", OWN = "your own";
// What a program of one's own begins with.
const BEGINNING = {
    "main.asm": `* Your program. It begins at address 0.
        LACK    41h             ; the accumulator becomes 41h,
        SACL    60h             ; which goes to 60h of data memory
        OUT     60h,PA1         ; and from there to port 1
WAIT    IDLE                    ; sleeps until an interrupt comes
        B       WAIT
`,
    session: "c25 run main.asm\n",
};
const as_it_was = (name) => DATA.examples[name] || BEGINNING;

const project = {
    name: OWN,          // an example's, or OWN
    files: {},          // texts by names
    modules: [],        // the names of the sources that are assembled, in their order; other files are copied by them
    roles: {},          // the names of the files that are the command file, samples and schedule
    steps: 1000,

    // Takes the files of a folder; without a session its `.asm` files are the modules.
    take(name, files) {
        const { [SESSION]: session, ...rest } = files;
        Object.assign(this, { name, files: rest, modules: [], roles: { ...ROLE_FILES }, steps: 1000 });
        if (session === undefined) this.modules = Object.keys(rest).filter(is_source);
        else this.take_session(session.trim().split("\n")[0].split(/\s+/).slice(2));
        for (const role of ROLES) this.files[this.roles[role]] ||= "";
        this.put_in_order([...this.modules, ...this.sources().filter((key) => !this.modules.includes(key))]);
    },

    // Takes what stands after `c25 run` in a command line.
    take_session(parts) {
        while (parts.length) {
            const part = parts.shift(), role = part.replace(/^--/, "");
            if (part === "--steps") this.steps = Number(parts.shift()) || 0;
            else if (ROLES.includes(role)) this.roles[role] = parts.shift();
            else if (part in this.files) this.modules.push(part);
        }
    },

    // Puts the sources in this order, and the modules with them.
    put_in_order(sources) {
        const names = [...sources, ...ROLES.map((role) => this.roles[role])];
        this.files = Object.fromEntries(names.map((name) => [name, this.files[name]]));
        this.modules = sources.filter((name) => this.modules.includes(name));
    },

    role_of(name) { return ROLES.find((role) => this.roles[role] === name); },
    sources() { return Object.keys(this.files).filter((name) => !this.role_of(name)); },
    names() { return [...this.sources(), ...ROLES.map((role) => this.roles[role])]; },
    used_roles(...roles) { return roles.filter((role) => this.files[this.roles[role]].trim()); },
    options(...roles) { return this.used_roles(...roles).flatMap((role) => ["--" + role, this.roles[role]]); },
    command_line() { return ["run", ...this.modules, ...this.options(...ROLES), "--steps", String(this.steps)]; },

    // The file that a fault's place names: faults name a command file, samples and a schedule by what they are.
    file_of_place(place) { return this.roles[place] || place; },

    // The files of a folder that `take` takes again.
    folder() {
        const empty = ROLES.filter((role) => !this.used_roles(role).length).map((role) => this.roles[role]);
        const files = Object.fromEntries(this.names().filter((name) => !empty.includes(name)).map((name) => [name, this.files[name]]));
        return { ...files, [SESSION]: "c25 " + this.command_line().join(" ") + "\n" };
    },

    // ---- changes of files ----
    rename(name, other) {
        this.files = Object.fromEntries(Object.entries(this.files).map(([key, text]) => [key === name ? other : key, text]));
        this.modules = this.modules.map((key) => (key === name ? other : key));
        const role = this.role_of(name);
        if (role) this.roles[role] = other;
    },

    remove(name) {
        if (this.role_of(name)) this.files[name] = "";
        else delete this.files[name];
        this.modules = this.modules.filter((key) => key !== name);
    },

    set_module(name, on) {
        this.modules = this.sources().filter((key) => (key === name ? on : this.modules.includes(key)));
    },

    // Moves a source one place to the front.
    move_earlier(name) {
        const sources = this.sources(), at = sources.indexOf(name);
        if (at > 0) this.put_in_order([...sources.slice(0, at - 1), name, sources[at - 1], ...sources.slice(at + 1)]);
    },

    // ---- the browser's storage: each example that was edited, and what is one's own ----
    keep() { return keep_folder(this.name, this.is_edited() ? this.folder() : null) && keep_text(LAST, this.name); },
    is_edited() { return JSON.stringify(this.folder()) !== JSON.stringify(folder_again(as_it_was(this.name))); },
};

const is_source = (name) => /\.asm$/i.test(name);
// The name of a file that is opened, as a command line can have it.
const file_name = (name) => name.replace(/^.*[\\/]/, "").replace(/\s+/g, "_").replace(/^-+/, "");
// Whether a file may have this name: one word of a command line, and none of the two names that the page uses itself.
const is_file_name = (name) => name !== "" && name === file_name(name) && ![SESSION, SCRIPT].includes(name) && is_short(name);

function folder_again(files) {
    const other = Object.create(project);
    other.take("", files);
    return other.folder();
}
