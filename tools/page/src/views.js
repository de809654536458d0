// The views at the right, by their tabs.
"use strict";

const views = {
    names: ["Outputs", "Listing", "Map", "Hex", "Debugger", "Help", "About"],
    open: "Outputs",
    built: null,        // the texts that `build` wrote, by their names
    ran: null,          // { outputs, when, command_line, registers, stopped }; `when` where the steps of the outputs were asked for

    show(name) {
        this.open = name;
        const more = (other) => ({ id: "tab of " + other, "aria-controls": "view" });
        show_tabs(element("views"), this.names, name, (other) => this.choose(other), more);
        element("axes").hidden = name !== "Outputs";
        element("view").setAttribute("aria-label", name);
        element("view").replaceChildren(...this.content(name));
    },

    choose(name) {
        this.show(name);
        element("view").scrollTop = 0;
        if (name === "Debugger" && !inspector.seen) inspector.from_reset();
    },

    content(name) {
        if (name === "Outputs") return outputs_view(this.ran);
        if (name === "Listing") return files_view(this.built, /\.lst$/);
        if (name === "Map") return files_view(this.built, /\.(map|sym)$/);
        if (name === "Hex") return files_view(this.built, /\.hex$/);
        if (name === "Debugger") return debugger_view(inspector.seen);
        return name === "Help" ? help_view() : about_view();
    },
};

// The files that `build` wrote and whose names are of this form.
function files_view(built, form) {
    if (!built) return [note("There is nothing to show yet: the sources have a fault, which stands below the text.")];
    return Object.keys(built).filter((name) => form.test(name)).flatMap((name) => {
        const saves = button("Save", "save " + name, () => save(name, built[name]));
        return [heading(name, saves), make("pre", { textContent: built[name] })];
    });
}

const about_view = () => [heading("The program in this page"), make("pre", { textContent: DATA.about })];
