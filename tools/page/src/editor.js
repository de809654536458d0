// The editor: a text area for each file, so that each has its own undo, over lines that are painted below it; only those in view are there.
"use strict";

const ROW = 18, COLUMN = 8;
const editor = {
    open: null,         // the file's name
    areas: new Map(),   // the text areas of the files that were shown, by their names
    lines: [""],
    fault: null,        // { file, line }
    now: null,          // where the debugger's PC is, { file, line }
    marks: new Set(),   // breakpoints, `file:line`

    begin() {
        element("gutter").onclick = (event) => {
            const { line } = event.target.dataset;
            if (line) inspector.breakpoint(`${this.open}:${line}`);
        };
        new ResizeObserver(() => this.paint_rows()).observe(element("text"));
    },

    area() { return this.areas.get(this.open); },

    area_of(name) {
        if (!this.areas.has(name)) this.areas.set(name, this.new_area(name));
        return this.areas.get(name);
    },

    new_area(name) {
        const area = make("textarea", {
            className: "area", value: project.files[name], spellcheck: false, wrap: "off", autocapitalize: "off", autocomplete: "off",
            "aria-label": "Text of " + name, "aria-describedby": "hint",
            oninput: () => this.typed(area), onscroll: () => requestAnimationFrame(() => this.paint_rows()),
            onkeydown: (event) => this.key(event, area),
        });
        element("text").append(area);
        return area;
    },

    // (chromium's Ctrl+Z undoes the last edit of any area, which is shown then)
    typed(area) {
        const [name] = [...this.areas].find(([, other]) => other === area);
        project.files[name] = area.value;
        if (name !== this.open) this.show(name);
        this.paint();
        edited();
    },

    // Forgets the text area of a file that is gone or has another text, or of all files, and with it what could be undone there.
    forget(...names) {
        for (const name of names.length ? names : [...this.areas.keys()]) {
            if (this.areas.has(name)) this.areas.get(name).remove();
            this.areas.delete(name);
        }
    },

    rename(name, other) {
        const area = this.areas.get(name);
        this.areas.delete(name);
        this.areas.set(other, area);
        area.setAttribute("aria-label", "Text of " + other);
    },

    // Tab goes to the next column; Escape leaves the editor, so that Tab goes on from there.
    key(event, area) {
        if (event.key === "Escape") {
            event.stopPropagation();
            element("files").querySelector("[aria-selected=true]").focus();
        }
        if (event.key !== "Tab" || event.shiftKey || event.ctrlKey || event.altKey || event.metaKey) return;
        event.preventDefault();
        const column = area.selectionStart - area.value.lastIndexOf("\n", area.selectionStart - 1) - 1;
        // (the one way to put a text in that can be undone)
        document.execCommand("insertText", false, " ".repeat(COLUMN - (column % COLUMN)));
    },

    show(name, line) {
        const had_focus = element("text").contains(document.activeElement), shown = this.area_of(name);
        this.open = name;
        for (const area of this.areas.values()) area.hidden = area !== shown;
        if (had_focus) shown.focus();
        if (line) this.bring(line);
        this.paint();
        this.show_names();
    },

    bring(line) {
        const area = this.area(), rows = Math.floor(area.clientHeight / ROW), first = Math.floor(area.scrollTop / ROW);
        if (line <= first + 2 || line > first + rows - 3) area.scrollTop = Math.max(0, (line - Math.floor(rows / 2)) * ROW);
    },

    line() { return this.area().value.slice(0, this.area().selectionStart).split("\n").length; },

    go_to(line) {
        const area = this.area(), at = this.lines.slice(0, line - 1).reduce((sum, text) => sum + text.length + 1, 0);
        area.focus();
        area.setSelectionRange(at, at);
        this.bring(line);
        this.paint_rows();
    },

    paint() {
        this.lines = this.area().value.split("\n");
        this.paint_rows();
    },

    kind(line) {
        const at = (place) => place && place.file === this.open && place.line === line;
        return (at(this.fault) ? "bad " : at(this.now) ? "now " : "") + (this.marks.has(`${this.open}:${line}`) ? "stop" : "");
    },

    paint_rows() {
        const area = this.area();
        if (!area) return;
        const first = Math.floor(area.scrollTop / ROW), some = this.lines.slice(first, first + Math.ceil(area.clientHeight / ROW) + 1);
        const paint = project.role_of(this.open) ? escaped : painted;
        element("paint").innerHTML = some.map((line, i) => `<span class="row ${this.kind(first + i + 1)}">${paint(line)}</span>`).join("");
        element("gutter").replaceChildren(...some.map((_, i) => this.number(first + i + 1)));
        const down = first * ROW - area.scrollTop;
        element("paint").style.transform = `translate(${-area.scrollLeft}px, ${down}px)`;
        element("gutter").style.transform = `translateY(${down}px)`;
    },

    number(line) { return make("div", { className: this.kind(line), textContent: line, "data-line": line }); },

    show_names() {
        show_tabs(element("files"), project.names(), this.open, (name) => this.show(name), (name) => this.tab(name));
        element("name").value = this.open;
        element("module").checked = project.modules.includes(this.open);
        element("module").disabled = !!project.role_of(this.open);
        element("remove").disabled = !project.role_of(this.open) && project.sources().length === 1;
    },

    tab(name) {
        const role = project.role_of(name), label = role ? { textContent: role, title: name } : {};
        const className = this.fault && this.fault.file === name ? "bad" : "";
        return { id: "tab of " + name, "aria-controls": "editor", className, ...label };
    },
};
