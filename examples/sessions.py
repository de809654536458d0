#!/usr/bin/env python3
"""Makes what the crate c25_examples runs and what it must print.

    python3 examples/sessions.py            writes it
    python3 examples/sessions.py --check    names the files that would change, and writes nothing

`args` names what is run in `data/`: folders, each with a file `session` (one command a line), and files of packed cases
(crates/c25_examples/src/packed.rt describes their form). `stdout` has the name of each and what must be printed: for a
folder its commands, each followed by what a terminal shows, and for packed cases their number.

- `programs/NAME` is a copy of the larger program examples/NAME: its command is in its `session`, and what it must print
  in its `output.txt`, which `expected.py` works out (examples/README.md). The image of the program, run without its
  sources, must print the same.
- `pages/NAME` is taken from a page (README.md, docs/MANUAL.md, docs/manual/): the folder's files, the commands and what
  the page shows after them. A block `console` has a shell's commands; `cat FILE` among them makes the file where no
  command of the page writes it. The source of a block `listing` is assembled. Each line of a block `faults` is a source,
  and its comment is the fault that must be reported for it.
- `faults.cases` has the examples of docs/FAULTS.md that a command line can give; that page describes the form of its
  blocks. `explained.cases` has those of these examples that take `--explain`, with the note of each fault, made of the
  same page and of `parts.txt` here, which has for each example the line as it is read and the carets below its part that
  is refused. `pages/faults` has the other examples: calls of a library on a file, which a session has too.
- `explanations.cases` has a call of `c25 explain` for each number of a fault, each name of an end of a run, of a warning, of an instruction
  and of a directive, these last two in the other case, and what those pages and docs/manual/reference.md say of it; `helps.cases` what `--help` prints for the program and for each subcommand, by the texts of its options, in
  the form that the crate clap documents.
- `warnings.cases` has the examples of docs/WARNINGS.md: the inputs with a warning, without and with `--explain`, and those
  for which nothing is printed.
- `cases/NAME` is used as it is, with its files, its `session` and its `output.txt`: what a terminal shows, where a line
  `{NUMBER}` or `{NAME}` stands for what `--explain` prints about the fault of that number or the warning of that name
  after the lines that it shows, a line `{faults}` for the list of all faults and `{warnings}` for that of all warnings.
- `cases/*.cases` and `random/*.cases` are used as they are.

The program itself is not run here: `rt ci` runs it.
"""
import filecmp
import os
import re
import shutil
import subprocess
import sys
import tempfile

TOP = os.path.dirname(os.path.dirname(os.path.abspath(__file__)))
sys.path[:0] = [os.path.join(TOP, "docs"), os.path.join(TOP, "editors")]
import explanations  # noqa: E402
import make as editors  # noqa: E402
import reference  # noqa: E402

CRATE = os.path.join(TOP, "crates", "c25_examples")
DATA = os.path.join(CRATE, "data")
PROGRAMS = ["fir", "biquad", "tone", "ring", "modem", "pi", "decimal", "fft", "lms", "mulaw", "float", "divide", "roots"]
# Files of a larger program that are not run.
BESIDE = ("expected.py", "output.txt", "README.md", "samples.csv", "samples.wav")
PAGES = ["README.md", "docs/MANUAL.md"] + ["docs/manual/%s.md" % name for name in (
    "language", "macros", "linking", "program", "formats", "eproms", "limits", "debugging")]
FAULTS = "docs/FAULTS.md"
WARNINGS = "docs/WARNINGS.md"
# Programs whose samples are made of another file, and the arguments with which examples/tools/signals.py makes them.
RECORDED = {"mulaw": ["samples.wav"], "fir": ["samples.csv", "--column", "2", "--fractions"]}
# Calls of libraries that no command line makes, or not on every text (crates/c25_examples/src/library.rt).
LIBRARY = ("read_hex", "read_map", "run_chain", "line_of", "list", "values")
# Commands of other programs that show something: what they show is not compared.
OTHERS = ("ls", "od ", "cmp ")
# What stands after the name of a file whose bytes are given in hexadecimal digits, and how many times it has them, where that is not once.
IN_DIGITS = re.compile(r" in hexadecimal(?:, ([0-9,]+) times)?$")
# The subcommands that take `--explain`.
EXPLAINING = ("asm", "link", "build", "run", "debug", "dis")
# For the examples whose fault is in a body or in a copied file, or is a copied file: the lines of `a.asm` that led there, the innermost first, and how
# often each did: calls, `.copy`, and `.endloop`, which starts the turns of its loop.
LED = {
    "a.asm:2: 53 FieldRange, 1": [(4, 1)],
    "a.asm:2: 26 Defined, 4": [(5, 1)],
    "a.asm:2: 26 Defined, 5": [(3, 1)],
    "a.asm:2: 26 Defined, 6": [(3, 1)],
    "a.asm:3: 31 OpenBlock, 1": [(4, 1)],
    "a.asm:2: 33 Depth, 1": [(2, 31), (4, 1)],
    "a.asm:1: 33 Depth, 1": [(1, 32)],
    "a.asm:2: 34 Lines, 1": [(3, 1)],
    "a.asm:3: 38 LongLine, 1": [(4, 1)],
    "b.inc: 8 CannotRead, 1": [(1, 1)],
    "b.inc/c.inc: 8 CannotRead, 1": [(1, 1)],
}

# For the examples of a block that is not closed, or of a line that ends none: the line of `a.asm` that began the block that is open.
OPEN = {
    "a.asm:1: 31 OpenBlock, 1": 1,
    "a.asm:3: 31 OpenBlock, 1": 3,
    "a.asm:3: 31 OpenBlock, 2": 1,
    "a.asm:3: 32 StrayEnd, 1": 1,
}

# For the examples of a name that is defined again: the line of `a.asm` that defined it first, as it was read.
FIRST = {
    "a.asm:2: 26 Defined, 1": (1, "X NOP"),
    "a.asm:2: 26 Defined, 2": (1, "IMR .set 4"),
    "a.asm:2: 26 Defined, 3": (1, "N .set 1"),
    "a.asm:2: 26 Defined, 4": (2, "S NOP"),
    "a.asm:2: 26 Defined, 5": (2, "S NOP"),
    "a.asm:2: 26 Defined, 6": (2, "S_0 NOP"),
}

# For the examples of a name that a macro has already: the line of `a.asm` before that begins a macro of that name.
BEGUN = {"a.asm:3: 36 Redefined, 1": 1}

# For the examples with a file that is no text or no object, a fault of the command file, of samples, of a schedule or of a script, or a name, a section
# or a field that linking refuses: what is printed in addition.
KNOWN = {
    "long.asm: 8 CannotRead, 1": ["long.asm: it has more than 16,777,216 bytes: divide it"],
    "a.asm: 8 CannotRead, 2": ["a.asm:1: the first line that is not UTF-8"],
    "a.obj: 8 CannotRead, 1": ["a.obj: it is an object, which link takes after the command file: name a text here"],
    "a.asm: 40 BadMagic, 1": ["a.asm: it is a text: of a source c25 asm makes an object"],
    "a.s19: 40 BadMagic, 1": [
        "a.s19: it begins as Motorola S-records: srec_cat X.s19 -Motorola -o X.hex -Intel makes a hex text for c25 dis",
    ],
    "samples:1: 91 BadSamples, 1": ["samples:1: the first part is a port, a decimal number from 0 to 15"],
    "samples:1: 91 BadSamples, 2": ["samples:1: the second part is a word of four hexadecimal digits, without h"],
    "samples:1: 91 BadSamples, 3": ["samples:1: the second part is a word of four hexadecimal digits, without h"],
    "samples:1: 91 BadSamples, 4": ["samples:1: the first part is a port, a decimal number from 0 to 15"],
    "samples:1: 91 BadSamples, 5": ["samples:1: a line has two parts, a port and a word"],
    "samples:1: 91 BadSamples, 6": ["samples:1: there are no comments in samples, schedules and scripts: take it out"],
    "samples:1: 91 BadSamples, 7": ["samples:1: there are no comments in samples, schedules and scripts: take it out"],
    "samples:1: 91 BadSamples, 8": ["samples:1: there are no comments in samples, schedules and scripts: take it out"],
    "schedule:2: 90 BadSchedule, 1": ["schedule:2: the step is less than that of the line before"],
    "schedule:1: 90 BadSchedule, 1": ["schedule:1: the first part is a step, a decimal number up to 4294967295"],
    "schedule:1: 90 BadSchedule, 2": ["schedule:1: the second part is INT0, INT1, INT2, BIO0 or BIO1"],
    "schedule:1: 90 BadSchedule, 3": ["schedule:1: a line has two parts, a step and an event"],
    "schedule:1: 90 BadSchedule, 4": ["schedule:1: the first part is a step, a decimal number up to 4294967295"],
    "schedule:1: 90 BadSchedule, 5": ["schedule:1: there are no comments in samples, schedules and scripts: take it out"],
    "script:1: 95 BadCommand, 1": ["script:1: a command is step, run, list, break, clear, regs, data, prog, stack, where or symbols"],
    "script:1: 95 BadCommand, 2": ["script:1: after step, run or list stands a count alone, a decimal number up to 4294967295"],
    "script:1: 95 BadCommand, 3": ["script:1: after break or clear stands an address alone, one to four hexadecimal digits without h"],
    "script:1: 95 BadCommand, 4": ["script:1: the words go on past FFFF, the last word of the memory"],
    "script:1: 95 BadCommand, 5": ["script:1: there are no comments in samples, schedules and scripts: take it out"],
    "command:1: 60 Syntax, 1": ["command:1: the text ends here", "command:1: a } is missing at the end: the { of line 1 is still open"],
    "command:1: 60 Syntax, 2": ["command:1: column 18: >"],
    "command:1: 60 Syntax, 3": ["command:1: column 22: a.obj"],
    "command:1: 60 Syntax, 4": ["command:1: column 24: .data"],
    "command:1: 60 Syntax, 5": ["command:1: column 34: ="],
    "command:1: 60 Syntax, 6": [
        "command:1: column 34: PROG",
        "command:1: run = takes a number from 0FF00h on, where block B0 is program memory",
    ],
    "command:1: 60 Syntax, 7": ["command:1: column 34: >"],
    "command:1: 60 Syntax, 8": ["command:1: column 33: PAGE"],
    "command:1: 60 Syntax, 9": ["command:1: column 25: }", "command:1: length (or l, len) is wanted here"],
    "command:1: 60 Syntax, 10": ["command:1: column 14: orgin", "command:1: origin (or o, org) is wanted here"],
    "command:1: 60 Syntax, 11": ["command:1: column 18: 010"],
    "command:1: 60 Syntax, 12": ["command:1: column 15: 2", "command:1: the pages are 0, program memory, and 1, data memory"],
    "command:1: 60 Syntax, 13": ["command:1: column 1: a.obj",
                                 "command:1: objects are named on the command line of link, after the command file; run and build take sources"],
    "command:1: 60 Syntax, 14": ["command:1: column 1: -o"],
    "command:1: 60 Syntax, 15": ["command:1: the text ends here"],
    "command:1: 60 Syntax, 16": ["command:1: column 1: ;"],
    "command:4: 60 Syntax, 1": [
        "command:4: column 1: SECTIONS",
        "command:4: a } is missing before SECTIONS: the { of line 2 is still open",
    ],
    "command:2: 61 RangeOverlap, 1": ["command:2: column 25: 2"],
    "command:2: 61 RangeOverlap, 2": ["command:2: column 28: 100h"],
    "command:1: 62 RangeSize, 1": ["command:1: column 25: 0"],
    "command:1: 62 RangeSize, 2": ["command:1: column 30: 101h"],
    "command:1: 62 RangeSize, 3": ["command:1: column 25: 10001h"],
    "command:2: 63 Twice, 1": ["command:2: column 1: -e"],
    "command:1: 63 Twice, 1": ["command:1: column 12: MEMORY"],
    "command:1: 63 Twice, 2": ["command:1: column 27: A"],
    "command:1: 63 Twice, 3": ["command:1: column 27: .text"],
    "link:X: 70 Unresolved, 1": ["a.asm:2:  CALL X", "a.asm: module 0 uses X", "no module defines X"],
    "link:X: 70 Unresolved, 2": [
        "a.asm:2:  CALL X",
        "a.asm: module 0 uses X",
        "b.asm:1: X RET",
        "b.asm: module 1 defines X without .def X",
    ],
    "link:GO: 71 DefinedTwice, 1": [
        "a.asm:2: GO NOP",
        "a.asm: module 0 defines GO",
        "b.asm:2: GO NOP",
        "b.asm: module 1 defines GO",
    ],
    "link:K: 71 DefinedTwice, 1": ["a.asm: module 0 defines K", "b.asm: module 1 defines K"],
    "link:Main: 76 NoEntry, 1": ["command:1: -e Main", "no module defines Main"],
    "link:MAIN: 76 NoEntry, 1": ["command:1: -e MAIN", "a.asm:1: MAIN NOP", "a.asm: module 0 defines MAIN without .def MAIN"],
    "link:.text: 73 DoesNotFit, 1": [
        "command:1: MEMORY { P : o = 0, l = 1 }",
        ".text: 2 words",
        "P: words 0000 to 0000 of page 0, 1 word, 1 free, largest hole 1",
    ],
    "link:.text: 73 DoesNotFit, 2": [
        "command:2: SECTIONS { .text : > 1Fh }",
        ".text: words 001F to 0020 of page 0, 2 words",
        "P: words 0010 to 001F of page 0, 16 words, 16 free, largest hole 16",
    ],
    "link:.bss: 73 DoesNotFit, 1": [
        "command:1: SECTIONS { .bss : > 37Fh PAGE 1 }",
        ".bss: words 037F to 0380 of page 1, 2 words",
        "DATA: words 0300 to FFFF of page 1, 64768 words, 64768 free, largest hole 64768",
        ".bss: its block of 2 words at offset 0 crosses a page of 128 words at that address",
        ".bss HOLE,1 before that block would keep it inside one page",
    ],
    "link:.bss: 73 DoesNotFit, 2": [
        ".bss: 300 words",
        "DATA: words 0300 to FFFF of page 1, 64768 words, 64768 free, largest hole 64768",
        ".bss: its block of 100 words at offset 200 crosses a page of 128 words wherever the section may stand",
        ".bss HOLE,28 before that block would keep it inside one page",
    ],
    "link:b: 74 Overlap, 1": ["command:2:            b : > 1 }", "b: words 0001 to 0001 of page 0", ".text: words 0000 to 0001 of page 0"],
    "link:.text: 72 NoRange, 1": ["command:1: SECTIONS { .text : > ROM }", "command: .text is to stand in ROM, and no range has this name"],
    "link:.text: 72 NoRange, 2": [
        "command:1: MEMORY { PAGE 1 : D : o = 0, l = 16 }",
        "command: .text is to stand on page 0, which has no range",
    ],
    "link:.text: 72 NoRange, 3": [
        "command:1: SECTIONS { .text : > DATA PAGE 0 }",
        "command: .text is to stand in DATA, and no range has this name on page 0",
    ],
    "link:.text: 75 RelocRange, 1": [
        "a.asm:1: X LAC X-1",
        "a.asm: module 0: the field at 0000 in .text does not take -1, which is .text-1",
    ],
    "link:.text: 75 RelocRange, 2": ["a.asm: module 0: the field at 0000 in .text does not take 65536, which is A"],
    "link:.text: 78 BadRun, 1": ["command:1: SECTIONS { .text : run = 0 }"],
    "link:.text: 78 BadRun, 2": ["command:1: SECTIONS { .text : run = 0FEFFh }"],
    "link:.text: 78 BadRun, 3": ["command:1: SECTIONS { .text : run = 10000h }"],
    "link:.text: 78 BadRun, 4": ["command:1: SECTIONS { .text : PAGE 1 run = 0FF00h }"],
    "link:.text: 78 BadRun, 5": ["command:1: SECTIONS { .text : run = 0FFFFh }"],
    "link:.bss: 78 BadRun, 1": ["command:1: SECTIONS { .bss : PAGE 0 run = 0FF00h }"],
    "link:b: 78 BadRun, 1": ["command:2:            b : run = 0FF00h }"],
}

# What the warning of each example of the page of warnings is about, where it is one of a line of a source.
ABOUT = {
    "MnemonicLabel": "NOP",
    "DirectiveLabel": "END",
    "RegisterShift": "AR3",
    "ProgramAddress": "T",
    "DataAddress": "V",
    "NotRepeatable": "LALK",
    "Unused": "N",
    "NotReached": "NOP",
}


def lines_of(path):
    with open(path, encoding="utf-8") as file:
        return file.read().splitlines()


def blocks(path):
    """The fenced blocks of a page: where each begins, its kind, its lines."""
    kind = None
    for number, line in enumerate(lines_of(path), 1):
        if kind is None and line.startswith("```"):
            start, kind, block = number, line[3:] or "console", []
        elif kind is not None and line == "```":
            yield "%s:%d" % (os.path.relpath(path, TOP), start), kind, block
            kind = None
        elif kind is not None:
            block.append(line)


class Folder:
    """A folder of the crate's data for a page: its files, its commands and what these must print."""

    def __init__(self, path):
        self.path, self.session, self.printed, self.made = path, [], [], set()
        os.makedirs(path)

    def file(self, where, name, lines):
        path, text = os.path.join(self.path, name), "".join(line + "\n" for line in lines)
        os.makedirs(os.path.dirname(path), exist_ok=True)
        for other in (path, os.path.join(TOP, name)):
            if os.path.exists(other) and open(other, encoding="utf-8").read() != text:
                sys.exit("%s: %s is not as it stands in %s" % (where, name, other))
        with open(path, "w", encoding="utf-8") as file:
            file.write(text)

    def run(self, command, printed):
        self.session.append(command)
        self.printed += ["$ " + command] + printed
        words = command.split()
        for option, value in zip(words, words[1:]):
            if option in ("--obj", "--list", "--symbols", "--counts", "--counts-list"):
                self.made.add(value)
            elif option == "--rom":
                self.made.update("%s.%s" % (words[words.index("--out") + 1], end) for end in ["hi.bin", "lo.bin", "bin"])
            elif option == "--out" and words[1] == "move":
                olds = [word for word in words[2:] if word.endswith(".asm")]
                self.made.update(os.path.normpath(os.path.join(value, os.path.basename(name))) for name in olds + ["move.cmd"])
            elif option == "--out" and words[1] == "dis":
                self.made.update("%s.%s" % (value, end) for end in ("asm", "cmd"))
            elif option == "--out":
                listings = ["%d.lst" % number for number in range(1, len(words))] if words[1] == "build" else []
                self.made.update("%s.%s" % (value, end) for end in ["p0.hex", "p1.hex", "map"] + listings)

    def command(self, where, command, shown):
        """A command of a block, and the lines after it."""
        first, _, then = command.partition("; ")
        if command.startswith("cat ") and command[4:] not in self.made:
            self.file(where, command[4:], shown)
        elif command.startswith("cat ") or command.startswith("sed ") and command.split()[-1] in self.made:
            self.run(command, shown)
        elif first.startswith("c25") or " | c25" in first:
            status = [shown.pop()] if then == "echo $?" else []
            self.run(first, [] if then.startswith(OTHERS) else shown)
            if status:
                self.run(then, status)
        elif command.startswith("od ") and command.endswith(".bin"):
            self.run(command, shown)
        elif command.startswith("sed ") and command.split()[-1] in self.made:
            self.run(command, shown)
        elif command.startswith("od "):
            # (for a command that cuts it; the program writes it)
            with open(os.path.join(self.path, command.split()[-1]), "wb") as file:
                file.write(bytes.fromhex("".join(shown)))
        elif not command.startswith(OTHERS):
            subprocess.run(["sh", "-c", command], cwd=self.path, check=True)
            if shown:
                sys.exit("%s: the output of `%s` cannot be checked" % (where, command))

    def console(self, where, block):
        if block and block[0].startswith("$ "):
            starts = [at for at, line in enumerate(block) if line.startswith("$ ")]
            for start, end in zip(starts, starts[1:] + [len(block)]):
                self.command(where, block[start][2:], block[start + 1:end])

    def listing(self, where, block):
        name = "listing%d" % (1 + sum(command.startswith("cat listing") for command in self.session))
        self.file(where, name + ".asm", [line[18:] for line in block if re.match(" {0,5}[0-9]", line)])
        self.run("c25 asm %s.asm --obj %s.obj --list %s.lst" % (name, name, name), [])
        self.run("cat %s.lst" % name, block)

    def faults(self, where, block):
        for line in block:
            quote = '"' if "'" in line else "'"
            if quote in line or quote == '"' and re.search(r"[$`\\]", line):
                sys.exit("%s: cannot be quoted: %s" % (where, line))
            self.run("echo %s%s%s | c25" % (quote, line, quote), ["stdin:1: " + line.rpartition("; ")[2]])


def page(path, data):
    """The folder of a page."""
    name = "pages/" + os.path.basename(path)[:-3].lower()
    folder = Folder(os.path.join(data, name))
    for where, kind, block in blocks(os.path.join(TOP, path)):
        if kind in ("console", "listing", "faults"):
            getattr(folder, kind)(where, block)
    for written in folder.made:
        if os.path.exists(os.path.join(folder.path, written)):
            os.remove(os.path.join(folder.path, written))
    folder.file(path, "session", folder.session)
    return name, folder.printed


def image_commands(command):
    """The commands that build the program of a run, and that run its image in place of its sources."""
    words = command.split()[2:]
    first = next(at for at, word in enumerate(words) if word.startswith("--"))
    options = dict(zip(words[first::2], words[first + 1::2]))
    linked = ["--command", options.pop("--command")] if "--command" in options else []
    build = ["c25", "build"] + words[:first] + linked + ["--out", "image"]
    run = ["c25", "run", "--image", "image.p0.hex"] + [word for option in options.items() for word in option]
    return " ".join(build), " ".join(run)


# The programs with words that data memory has before the run, which no image of program memory holds.
WITH_DATA = {"decimal"}


def program(name, data):
    """The folder of a larger program, which is run as it is, and then, where an image holds all of its words, without its
    sources: the same is printed."""
    source = os.path.join(TOP, "examples", name)
    folder = os.path.join(data, "programs", name)
    shutil.copytree(source, folder, ignore=shutil.ignore_patterns(*BESIDE))
    command, = lines_of(os.path.join(source, "session"))
    output = lines_of(os.path.join(source, "output.txt"))
    commands, printed = [command], ["$ " + command] + output
    if name not in WITH_DATA:
        build, run = image_commands(command)
        commands += [build, run]
        printed += ["$ " + build, "$ " + run] + output
    with open(os.path.join(folder, "session"), "w", encoding="utf-8") as file:
        file.write("".join(line + "\n" for line in commands))
    return "programs/" + name, printed


def notes():
    """For each fault number, what `--explain` prints after the line that it shows: the meaning, the advice, where the example is."""
    return {heading.split()[0]: "\n%s\n%s\nExample: c25 explain %s\n" % (meaning, advice, heading.split()[0])
            for _, faults in explanations.explanations() for heading, (meaning, _, advice) in faults.items()}


def warnings():
    """For each warning of the page: its name and the parts of its explanation."""
    return {name: parts for _, group in explanations.warnings() for name, parts in group.items()}


def warning_notes():
    """For each name of a warning, what `--explain` prints after the lines that it shows: the meaning, the advice, where the example is."""
    return {name: "\n%s\n%s\nExample: c25 explain %s\n" % (meaning, advice, name) for name, (meaning, _, advice) in warnings().items()}


def list_of_warnings():
    """The line of each warning in the list that `c25 explain` prints after that of faults."""
    return ["%s: %s" % (name, explanations.summary(meaning)) for name, (meaning, _, _) in warnings().items()]


def list_of_faults():
    """The line of each fault in the list that `c25 explain` prints: number, name, and the first sentence of its meaning."""
    told = {heading: explanations.summary(parts[0]) for _, faults in explanations.explanations() for heading, parts in faults.items()}
    return ["%s: %s" % (heading, told[heading]) for heading in sorted(told, key=lambda heading: int(heading.split()[0]))]


def with_notes(lines):
    """Lines in which a line `{NUMBER}` or `{NAME}` stands for the note of a fault or a warning, and `{faults}` and `{warnings}` for the
    lists of all."""
    lists = {"{faults}": list_of_faults, "{warnings}": list_of_warnings}
    told = {**notes(), **warning_notes()}
    for line in lines:
        of = re.fullmatch(r"\{(\w+)\}", line)
        if line in lists:
            yield from lists[line]()
        else:
            yield from told[of[1]].splitlines() if of else [line]


def case_folders():
    """The folders of cases, which are used as they are."""
    for name in sorted(os.listdir(os.path.join(DATA, "cases"))):
        folder = os.path.join(DATA, "cases", name)
        if os.path.isdir(folder):
            told = lines_of(os.path.join(folder, "output.txt"))
            if [line[2:] for line in told if line.startswith("$ ")] != lines_of(os.path.join(folder, "session")):
                sys.exit("cases/%s: output.txt has other commands than session" % name)
            yield "cases/" + name, list(with_notes(told))


def packed_number(path):
    """The number of the cases of a packed file."""
    with open(path, "rb") as file:
        rest, number = file.read(), 0
    while rest:
        line, _, rest = rest.partition(b"\n")
        words = line.split(b" ")
        number += words[0] == b"case"
        if words[0] in (b"input", b"given", b"output", b"errors", b"written"):
            rest = rest[int(words[1].split(b"*")[0]) + 1:]
    return number


def packed(data, name):
    return name, ["%d cases" % packed_number(os.path.join(data, name))]


def controlled(line):
    """A line with the control characters that its characters U+2400 to U+241F picture."""
    return re.sub("[\u2400-\u241f]", lambda picture: chr(ord(picture[0]) - 0x2400), line)


def given_files(block):
    """The files of a block `given` (the first lines are those of a.asm), and the command that they are given to. A file has its lines, or
    where they are given in hexadecimal digits its bytes and how many times it has them."""
    command = block.pop(0)[2:] if block and block[0].startswith("$ ") else None
    files, name = {}, "a.asm"
    for line in block:
        if line.startswith("--- "):
            name = line[4:]
            files.setdefault(name, [])
        else:
            files.setdefault(name, []).append(controlled(line))
    return dict(given_file(name, lines) for name, lines in files.items()), command


def given_file(name, lines):
    """The name of a file and what it has."""
    digits = IN_DIGITS.search(name)
    if not digits:
        return name, lines
    return name[:digits.start()], (bytes.fromhex("".join(lines)), int((digits[1] or "1").replace(",", "")))


def file_bytes(name, lines):
    """The bytes of a file, and how many times it has them."""
    if isinstance(lines, tuple):
        return lines
    return bytes.fromhex("".join(lines)) if name.endswith(".obj") else "".join(line + "\n" for line in lines).encode(), 1


def words_of(files, command):
    """The command line of an example, without the program's name."""
    if command is not None:
        return command.split()[1:]
    beside = [option for option in ("command", "samples", "schedule") if option in files]
    words = ["run"] + sorted(name for name in files if name.endswith(".asm"))
    return words + [word for option in beside for word in ("--" + option, option)]


def is_run(told):
    """Whether this line reports the end of a run, and not a fault."""
    return told.startswith(("left ", "ran "))


def led(files, name):
    """The lines that led to an example's fault, as `--explain` shows them."""
    lines = files.get("a.asm", [])
    return "".join("  from a.asm:%d: %s\n" % (at, lines[at - 1]) * times for at, times in LED.get(name, []))


def beside(name):
    """What is printed in addition to the line of an example's fault."""
    return "".join(line + "\n" for line in KNOWN.get(name, []))


def opened(files, name):
    """The line that shows which block is open at an example's fault."""
    if name not in OPEN:
        return ""
    return "  open: a.asm:%d: %s\n" % (OPEN[name], files["a.asm"][OPEN[name] - 1])


def begun(files, name):
    """The line that begins a macro of the same name as the line of an example's fault."""
    return "  macro: a.asm:%d: %s\n" % (BEGUN[name], files["a.asm"][BEGUN[name] - 1]) if name in BEGUN else ""


def first_defined(name):
    """The line that shows where the name of an example's fault was defined first."""
    return "  first: a.asm:%d: %s\n" % FIRST[name] if name in FIRST else ""


def parts():
    """For the examples of which `--explain` shows the part that is refused: the line as it is read, and what stands below it."""
    rows = lines_of(os.path.join(TOP, "examples", "parts.txt"))
    return {rows[at]: [controlled(row) for row in rows[at + 1:at + 3]] for at in range(0, len(rows), 4)}


def marked(number, part):
    """The two lines that show the part of a line that is refused."""
    text, below = part
    return "  %s | %s\n  %s | %s\n" % (number, text, " " * len(number), below)


def unread(files, name):
    """Why the file of a name that is not among these cannot be read."""
    if any(file.startswith(name + "/") for file in files):
        return "it is a folder: name a file in it"
    if any(name.startswith(file + "/") for file in files):
        return "a part of its path is a file, not a folder: correct the path"
    return "there is no such file, or a folder of its path is missing"


def note_of(files, name, told, part):
    """What `--explain` prints for an example's fault: its line, where the file has it, or why the file cannot be read; the part of
    the line that is refused, the block that is open, the line that begins a macro of the same name or where the name was defined first, what
    led to the line or is printed in addition; and what the fault means."""
    place, fault = told.rsplit(": ", 1)
    file, _, number = place.rpartition(":")
    lines, shown = files.get(file, []), ""
    if number.isdigit() and 0 < int(number) <= len(lines):
        shown = "%s: %s\n" % (place, lines[int(number) - 1])
    elif fault == "8 CannotRead" and place not in files:
        shown = "%s: %s\n" % (place, unread(files, place))
    if part is not None:
        shown += marked(number, part)
    return shown + opened(files, name) + begun(files, name) + first_defined(name) + led(files, name) + beside(name) + notes()[fault.split()[0]]


def packed_case(name, files, words, told, note=""):
    """An example as a packed case: a fault's line goes to standard error, that of a run to standard output."""
    line = told + "\n" + note
    return packed_call(name, files, words, 3, line, "") if is_run(told) else packed_call(name, files, words, 1, None, line)


def packed_call(name, files, words, status, output, errors):
    """A call of the program as a packed case, with what it prints to standard output (if that is said) and to standard error."""
    out = b"case %s\n" % name.encode() + b"".join(b"word %s\n" % word.encode() for word in words)
    for file in sorted(files):
        held, times = file_bytes(file, files[file])
        length = b"%d" % len(held) if times == 1 else b"%d*%d" % (len(held), times)
        out += b"given %s %s\n%s\n" % (length, file.encode(), held)
    out += b"status %d\n" % status
    for kind, text in ((b"output", output), (b"errors", errors)):
        if text is not None:
            out += b"%s %d\n%s\n" % (kind, len(text.encode()), text.encode())
    return out


def fault_examples():
    """The examples of the page of faults: their files, commands and lines. No command is that of a run."""
    given = None
    for _, kind, block in blocks(os.path.join(TOP, FAULTS)):
        if kind == "given":
            given = given_files(block)
        elif kind == "reported":
            yield given + (block[0],)
        elif kind.startswith("lines "):
            command = {"script": "c25 debug a.asm --script script", "hex": "c25 dis hex", "hints": "c25 dis --source hex --hints hints --out old"}.get(kind[6:])
            beside = {"hex": [":02000000CE260A", ":00000001FF"]} if kind[6:] == "hints" else {}
            for row in block:
                told, _, text = row.partition("|")
                yield {"a.asm": [" NOP"], **beside, kind[6:]: [controlled(text)]}, command, told


def is_library(command):
    return command is not None and command.split()[0] in LIBRARY


def library_faults(data):
    """The folder of those examples that are calls of a library. A file is named by the line that is reported for it, with a number."""
    folder, seen = Folder(os.path.join(data, "pages/faults")), {}
    for files, command, told in fault_examples():
        if not is_library(command):
            continue
        call, _, sources = command.partition(" ")
        if call == "run_chain":
            for name, lines in files.items():
                folder.file(FAULTS, name, lines)
            folder.run(command, [told])
        else:
            kind = call[len("read_"):]
            name = "-".join(told.lower().split()[-2:])
            seen[name] = seen.get(name, 0) + 1
            file = "%s-%d.%s" % (name, seen[name], kind)
            folder.file(FAULTS, file, files.get(kind, []))
            folder.run("%s %s" % (call, file), [told])
    folder.file(FAULTS, "session", folder.session)
    return "pages/faults", folder.printed


def program_faults():
    """The examples that a command line can give: a name (the reported line with a number), files, command line and reported line."""
    seen = {}
    for files, command, told in fault_examples():
        if not is_library(command):
            seen[told] = seen.get(told, 0) + 1
            yield "%s, %d" % (told, seen[told]), files, words_of(files, command), told


def write_packed(data, name, cases):
    """A file of packed cases."""
    with open(os.path.join(data, name), "wb") as file:
        file.write(b"".join(cases))
    return packed(data, name)


def faults(data):
    return write_packed(data, "faults.cases", [packed_case(*case) for case in program_faults()])


def warning_examples():
    """The examples of the page of warnings: their files, whether `--pages` is asked for, and the lines that are printed, none for an
    input that is clean."""
    for _, kind, block in blocks(os.path.join(TOP, WARNINGS)):
        if kind in ("given", "given pages"):
            given = given_files(block)[0], kind != "given"
        elif kind == "reported":
            yield *given, block
        elif kind == "clean":
            yield given_files(block)[0], False, []


def warning_details(files, told):
    """What `--explain` shows of a warning of a line of a source: the line, and what the warning is about."""
    place, name = told.split(": warning ")
    if name not in ABOUT:
        return ""
    file, _, number = place.rpartition(":")
    return "  %s | %s\n  about %s\n" % (number, files[file][int(number) - 1], ABOUT[name])


def warning_cases():
    """The examples of the page of warnings as packed cases."""
    told = warning_notes()
    for files, pages, lines in warning_examples():
        words = ["check", "a.asm"] + (["--command", "command"] if "command" in files else []) + (["--pages"] if pages else [])
        if lines:
            line = lines[0]
            name = line.partition(": warning ")[2].partition(":")[0]
            yield packed_call(name, files, words, 1, "", "\n".join(lines) + "\n")
            explained = line + "\n" + warning_details(files, line) + told[name] + "".join(other + "\n" for other in lines[1:])
            yield packed_call(name + ", explained", files, words + ["--explain"], 1, "", explained)
        else:
            yield packed_call(name + ", clean", files, words, 0, "", "")


def warned(data):
    """The file of packed cases of warnings."""
    return write_packed(data, "warnings.cases", warning_cases())


def explained(data):
    """The file of packed cases with `--explain`."""
    shown = parts()
    cases = [(name, files, words + ["--explain"], told, note_of(files, name, told, shown.pop(name, None)))
             for name, files, words, told in program_faults() if words[0] in EXPLAINING and not is_run(told)]
    if shown:
        sys.exit("examples/parts.txt: %s has no such example" % FAULTS)
    return write_packed(data, "explained.cases", [packed_case(*case) for case in cases])


def explanation_cases():
    """A call of `explain` for each number of a fault, and each name of an end of a run, a warning, an instruction and a directive."""
    told = [(heading.split()[0], heading, parts_of_it) for _, faults in explanations.explanations() for heading, parts_of_it in faults.items()]
    told += [(name, name, (meaning, example)) for name, meaning, example in explanations.ends()]
    told += [(name, name, parts_of_it) for name, parts_of_it in warnings().items()]
    for word, heading, parts_of_it in told:
        yield packed_call("explain " + word, {}, ["explain", word], 0, explanations.whole(heading, parts_of_it), "")
    for name, entry in reference.entries().items():
        yield packed_call("explain " + name, {}, ["explain", name.swapcase()], 0, reference.whole(entry), "")


def rows_of(rows):
    """Rows of two columns, the second one below one another."""
    width = max(len(first) for first, _ in rows)
    return "".join("  %s  %s\n" % (first.ljust(width), second) for first, second in rows)


def shown_operand(operand):
    """An operand in the line of usage, and in the list of operands."""
    shown = "<%s>" if operand.get("required") else "[%s]"
    return shown % operand.get("value_name") + "..." * (operand.get("num_args") is not None)


def shown_option(names, value):
    """An option with its argument; the names of all options without a letter are in one column with those of the others."""
    letter = "" if names[0].startswith("--") else names[0] + ", "
    return (letter or "    ") + names[-1] + (" <%s>" % value if value else "")


def help_of(subcommand):
    """What `--help` prints for a subcommand."""
    options = [(names, None if it.get("action") == "ArgAction::SetTrue" else it.get("value_name"), it) for names, _, it in editors.options(subcommand)]
    usage = ["c25", subcommand.name, "[OPTIONS]"] if any(not it.get("required") for _, _, it in options) else ["c25", subcommand.name]
    usage += ["%s <%s>" % (names[-1], value) for names, value, it in options if it.get("required")]
    usage += [shown_operand(it) for it in editors.operands(subcommand)]
    text = "%s\n\nUsage: %s\n" % (subcommand.get("about"), " ".join(usage))
    if editors.operands(subcommand):
        text += "\nArguments:\n" + rows_of([(shown_operand(it), it.get("help")) for it in editors.operands(subcommand)])
    rows = [(shown_option(names, value), it.get("help")) for names, value, it in options]
    return text + "\nOptions:\n" + rows_of(rows + [("-h, --help", "Print help")]) + "\n%s\n" % subcommand.get("after_help")


def help_of_program(program):
    """What `--help` prints for the program."""
    text = "%s\n\nUsage: c25 <COMMAND>\n\nCommands:\n" % program.get("about") + rows_of([(it.name, it.get("about")) for it in program.subcommand])
    return text + "\nOptions:\n" + rows_of([("-h, --help", "Print help"), ("-V, --version", "Print version")]) + "\n%s\n" % program.get("after_help")


def help_cases():
    """Calls with `--help`: of the program, and of each subcommand, by that option and by the word `help`."""
    program = editors.command_line()
    yield packed_call("help", {}, ["--help"], 2, "", help_of_program(program))
    for it in program.subcommand:
        yield packed_call("help of " + it.name, {}, [it.name, "--help"], 2, "", help_of(it))
        yield packed_call("help of %s, by the word help" % it.name, {}, ["help", it.name], 2, "", help_of(it))


def recorded():
    """The files of samples that differ from what signals.py makes of their recording or table."""
    for name, words in RECORDED.items():
        folder = os.path.join(TOP, "examples", name)
        script = os.path.join(TOP, "examples", "tools", "signals.py")
        made = subprocess.run([sys.executable, script, "samples"] + words, cwd=folder, capture_output=True, text=True, check=True)
        if made.stdout.splitlines() != lines_of(os.path.join(folder, "samples.txt")):
            yield os.path.join(folder, "samples.txt")


def differing(made, standing):
    """The files that differ between two folders, or that one of them lacks."""
    names = {os.path.relpath(os.path.join(at, name), top)
             for top in (made, standing) for at, _, files in os.walk(top) for name in files}
    for name in sorted(names):
        one, other = os.path.join(made, name), os.path.join(standing, name)
        if not (os.path.exists(one) and os.path.exists(other) and filecmp.cmp(one, other, shallow=False)):
            yield other


def make(made):
    """Makes the files and folders anew: pairs of what was made and what is in the repository."""
    told = [program(name, made) for name in PROGRAMS] + [page(path, made) for path in PAGES]
    told += [library_faults(made), faults(made), explained(made), warned(made)]
    told += [write_packed(made, "explanations.cases", explanation_cases()), write_packed(made, "helps.cases", help_cases())]
    told += case_folders()
    told += [packed(DATA, "%s/%s" % (kind, name)) for kind in ("cases", "random")
             for name in sorted(os.listdir(os.path.join(DATA, kind))) if name.endswith(".cases")]
    for name, lines in (("args", [name for name, _ in told]),
                        ("stdout", [line for name, lines in told for line in ["== " + name] + lines])):
        with open(os.path.join(made, name), "w", encoding="utf-8") as file:
            file.write("".join(line + "\n" for line in lines))
    return [(os.path.join(made, name), os.path.join(at, name))
            for at, name in ((CRATE, "args"), (CRATE, "stdout"), (DATA, "faults.cases"), (DATA, "explained.cases"), (DATA, "warnings.cases"),
                             (DATA, "explanations.cases"), (DATA, "helps.cases"), (DATA, "programs"), (DATA, "pages"))]


def check(pairs):
    """The files of the repository that differ from those that were made, or from what signals.py makes."""
    for one, other in pairs:
        if os.path.isdir(one):
            yield from differing(one, other)
        elif not (os.path.exists(other) and filecmp.cmp(one, other, shallow=False)):
            yield other
    yield from recorded()


def main():
    os.chdir(TOP)
    with tempfile.TemporaryDirectory() as made:
        pairs = make(made)
        if sys.argv[1:] == ["--check"]:
            sys.exit("".join("%s differs\n" % os.path.relpath(path, TOP) for path in check(pairs)) or 0)
        for one, other in pairs:
            if os.path.isdir(one):
                shutil.rmtree(other, ignore_errors=True)
                shutil.copytree(one, other)
            else:
                shutil.copyfile(one, other)


if __name__ == "__main__":
    main()
