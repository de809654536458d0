// The view Help: what a user asks, the keys, the files.
"use strict";

const ANSWERS = {
    Run: "Run, or Ctrl+Enter, assembles and links the sources and runs the program for as many steps as `steps` says. "
        + "Faults are shown while you type.",
    Stop: "Stop, or Escape outside the text, ends a run or the debugger at once; what was printed until then stays. "
        + "Hear again ends a sound.",
    Undo: "Ctrl+Z and Ctrl+Shift+Z in a text. The buttons Undo and Redo are for what Open, New, Remove, Restore, Earlier "
        + "or a new name did.",
    Keep: "What you edit is kept in this browser, under the example's name, and is there when you open the page again. "
        + "Restore brings the example back as it was.",
    Save: "Save saves the file that is shown, Save all the files with the command line as one file (.tar). "
        + "Listings, maps, hex texts, outputs and pictures have Save next to them.",
    "A program of your own": "Choose `your own` under Example. New adds a source, Open takes yours. A source that another one copies "
        + "is no module. Modules are linked in the order of their tabs, which Earlier changes.",
    Open: "Open, or a drop on the page, takes sources, command files (.cmd), samples (.txt with lines `PORT WORD`, .csv, .wav), a schedule "
        + "(schedule.txt), a saved folder (.tar), or all files of a folder that has a file `session`. A .csv gives its last column, "
        + "as fractions where a number has a point, a .wav its first channel and its rate; both go to the port that is chosen.",
    "In a shell": "The command line under Outputs is the one of c25, which gives the same there. `tar xf` makes the folder "
        + "of what Save all saved.",
    Network: "None: nothing leaves this page, and it reads no file that you did not open.",
};
const KEYS = {
    "Ctrl+Enter": "run",
    Escape: "leaves the text, to the tab of its file; elsewhere it stops what runs",
    Tab: "in the text: blanks up to the next column of eight",
    "Arrows, Home, End": "from tab to tab",
    Enter: "on the fault: goes to its line",
    F9: "sets a breakpoint at the line of the cursor, or takes it away; so does a click on the line's number",
    F8: "runs up to a breakpoint",
    F7: "runs up to the line of the cursor",
    F10: "does one step",
    "Shift+F10": "steps over a call or a repetition",
};

function two_columns(texts) {
    const row = ([first, second]) => make("tr", {}, head_cell(first, "row"), make("td", { textContent: second }));
    return make("table", { className: "texts" }, ...Object.entries(texts).map(row));
}

const help_view = () => [heading("How to"), two_columns(ANSWERS), heading("Keys"), two_columns(KEYS)];
