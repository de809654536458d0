#!/usr/bin/env python3
"""The names in the files of this folder, made of the tables of the repository; and the program's version wherever it is shown.

usage: python3 editors/make.py [--write | --check]     (from the top of the repository)

It prints the names that it found. --write puts them into the files; --check names each file in which --write would change something,
and ends with status 1 where there is one.

| Names | Come from |
|---|---|
| mnemonics | the rows of crates/c25_isa/src/in_order.rt |
| directives | crates/c25_statements/src/names.rt and crates/c25_macro/src/directive.rt |
| AR0 to AR7, PA0 to PA15 | `predefined` of crates/c25_meaning_language/specs/Value.antt |
| the names of .mmregs | `register_names` of crates/c25_meaning_assembly/specs/Sections.antt |
| subcommands, options, their texts, the version | crates/c25_options/src/program.rt and arguments.rt |
| numbers and names of faults, names of ends of runs and of warnings | the explanations in crates/c25_explain/src and crates/c25_warning_pages/src |

A file has its names between a line with `[names]` and a line with `[end]`; in the two files of JSON they are the values of some members.
All else in these files is written by hand. The version is also put into docs/manual/program.md and into the case `option-version` of
c25_examples, and CHANGELOG.md must have it as its newest.

The command line is read by evaluating what the functions of program.rt and arguments.rt make: a small part of Rust, `let`, calls, chains
of methods and literals. What is outside that part ends this script with a message, so that no option is left out without a word.
"""
import glob
import json
import re
import sys
import textwrap

FOLDER, CRATES, COLUMNS = "editors/", "crates/", 120


def text_of(path):
    with open(path, encoding="utf-8") as file:
        return file.read()


# The names of sources.

def mnemonics():
    text = text_of(CRATES + "c25_isa/src/in_order.rt")
    found = re.findall(r'(?m)^ +b"(\w+)" (?:Row\(|\w+,)', text)
    count = int(re.search(r"IN_ORDER: \[Spelling; (\d+)\]", text)[1])
    if len(set(found)) != count:
        sys.exit(f"c25_isa/src/in_order.rt: {len(set(found))} rows were read of {count}")
    return [it.upper() for it in found]


def directives():
    """All directives without their point."""
    statements, macro = text_of(CRATES + "c25_statements/src/names.rt"), text_of(CRATES + "c25_macro/src/directive.rt")
    counts = [int(it) for it in re.findall(r"static \w+: \[[^;\]]+; (\d+)\]", statements)]
    found = re.findall(r'(?m)^ +\(?"\.(\w+)",', statements)
    if len(found) != sum(counts):
        sys.exit(f"c25_statements/src/names.rt: {len(found)} directives were read of {sum(counts)}")
    return sorted(set(found) | set(re.findall(r'is_named\(word, "\.(\w+)"\)', macro)))


def predefined():
    """The names that `predefined` gives a number: two letters, and a digit from one code to another, or 1 and such a digit."""
    text = text_of(CRATES + "c25_meaning_language/specs/Value.antt").partition("\npredefined (a")[2].partition("\npredefined _")[0]
    rows = re.findall(r"upper a == (\d+) && upper b == (\d+)(?: && c == (\d+))? && nat_le (\d+) d && nat_le d (\d+)", text)
    if len(rows) != text.count("upper a"):
        sys.exit("c25_meaning_language/specs/Value.antt: `predefined` has another form than this script reads")
    return ["".join(chr(int(it)) for it in (*row[:3], code) if it) for row in rows for code in range(int(row[3]), int(row[4]) + 1)]


def memory_mapped():
    text = text_of(CRATES + "c25_meaning_assembly/specs/Sections.antt").partition("\nregister_names =\n")[2].partition("\n\n")[0]
    return re.findall(r'codes "(\w+)"', text)


def ends_and_warnings():
    """The names of the ends of runs and of the warnings, in the order of their pages."""
    texts = text_of(CRATES + "c25_explain/src/run_end_texts.rt") + text_of(CRATES + "c25_warning_pages/src/texts.rt")
    return re.findall(r'(?m)^ +name: "(\w+)",$', texts)


def faults():
    """The numbers and the names of all faults, by rising numbers."""
    texts = [text_of(path) for path in sorted(glob.glob(CRATES + "c25_explain/src/*.rt"))]
    found = sorted({(int(number), name) for text in texts for number, name in re.findall(r'(?m)^ +number: (\d+),\n +name: "(\w+)",$', text)})
    return [str(number) for number, _ in found] + [name for _, name in found]


# The command line.

TOKEN = re.compile(r'\s+|//[^\n]*|"(?:[^"\\]|\\.)*"|\'(?:[^\'\\]|\\.)\'|\d+|[A-Za-z_]\w*|::|\.\.|[(){}.,;=?!]')


class Thing:
    """An `Arg` or a `Command`, with the methods that were called on it: of each its last arguments, of `arg` and `subcommand` all."""

    def __init__(self, kind, name):
        self.kind, self.name, self.arg, self.subcommand, self.said = kind, name, [], [], {}

    def call(self, method, values):
        if method in ("arg", "subcommand"):
            getattr(self, method).append(values[0])
        else:
            self.said[method] = values[0] if values else None
        return self

    def get(self, method, otherwise=None):
        return self.said.get(method, otherwise)


class Body:
    """The body of a function, evaluated token by token."""

    def __init__(self, program, text, names):
        self.program, self.names, self.at = program, dict(names), 0
        self.tokens = [it for it in TOKEN.findall(text) if it.strip() and not it.startswith("//")]
        if TOKEN.sub("", text):
            sys.exit(f"c25_options/src: this script does not read `{TOKEN.sub('', text)[:200]}` in {text[:200]}")

    def next(self, wanted=None):
        token = self.tokens[self.at] if self.at < len(self.tokens) else ""
        if wanted is not None and token != wanted:
            sys.exit(f"c25_options/src: `{token}` stands where this script reads `{wanted}`: {' '.join(self.tokens)[:200]}")
        self.at += 1
        return token

    def is_next(self, token):
        return self.at < len(self.tokens) and self.tokens[self.at] == token

    def value(self):
        """The value of the body: its `let`s, and its last expression."""
        while self.is_next("let"):
            self.next()
            name = self.next()
            self.next("=")
            self.names[name] = self.expression()
            self.next(";")
        value = self.expression()
        if self.at != len(self.tokens):
            sys.exit(f"c25_options/src: this script does not read `{' '.join(self.tokens[self.at:])[:200]}`")
        return value

    def arguments(self):
        values = []
        self.next("(")
        while not self.is_next(")"):
            values.append(self.expression())
            if self.is_next(","):
                self.next()
        self.next(")")
        return values

    def expression(self):
        value = self.primary()
        while self.is_next("?") or self.is_next("."):
            if self.next() == ".":
                value = value.call(self.next(), self.arguments())
        return value

    def primary(self):
        token = self.next()
        if token[0] == '"':
            return json.loads(token.replace("\n", "\\n"))
        if token[0] == "'":
            return token[1:-1]
        if token.isdigit():
            if self.is_next(".."):
                self.next()
                return (int(token), None)
            return int(token)
        return self.path(token)

    def path(self, token):
        """A name, a call or the call of a macro."""
        path = [token]
        while self.is_next("::"):
            self.next()
            path.append(self.next())
        if self.is_next("!"):
            self.next()
            self.next("(")
            kind = self.next()
            self.next(")")
            return kind
        if not self.is_next("("):
            known = {"true": True, "false": False, **self.program.constants, **self.names}
            return known.get(token, "::".join(path)) if len(path) == 1 else "::".join(path)
        return self.program.call(path, self.arguments())


class Program:
    """The functions and the constants of the two files that make the program's command line."""

    def __init__(self):
        text = "".join(text_of(CRATES + f"c25_options/src/{it}.rt") for it in ("arguments", "program"))
        self.constants = {name: json.loads(value.replace("\n", "\\n")) for name, value in re.findall(r'(?m)^const (\w+): &str =\s*("(?:[^"\\]|\\.)*");', text)}
        self.functions = {}
        for name, parameters, body in re.findall(r"(?ms)^(?:pub\(crate\) )?fn (\w+)(?:<'a>)?\((.*?)\) -> .*?^\{\n(.*?)^\}$", text):
            self.functions[name] = ([it.split(":")[0].strip() for it in parameters.split(",") if it.strip()], body)

    def call(self, path, values):
        if path in (["Arg", "new"], ["Command", "new"]):
            return Thing(path[0], values[1])
        if path == ["Ok"]:
            return values[0]
        if len(path) != 1 or path[0] not in self.functions:
            sys.exit(f"c25_options/src: this script does not know {'::'.join(path)}")
        parameters, body = self.functions[path[0]]
        return Body(self, body, zip(parameters, values)).value()


def command_line():
    program = Program()
    return program.call(["program"], ["alloc"])


def options(subcommand):
    """The options of a subcommand in their order: the names, and that of its argument, if it has one."""
    for it in subcommand.arg:
        if it.get("long"):
            value = None if str(it.get("action")).endswith("SetTrue") else it.get("value_name")
            yield [f"-{it.get('short')}"] * bool(it.get("short")) + [f"--{it.get('long')}"], value, it


def operands(subcommand):
    return [it for it in subcommand.arg if not it.get("long")]


# The texts that go into the files.

def lines_of(words, before, after=""):
    """Words in lines, each line between two texts."""
    lines = textwrap.wrap(" ".join(words), COLUMNS - len(before) - len(after), break_long_words=False, break_on_hyphens=False)
    return "".join(f"{before}{it}{after}\n" for it in lines)


def vim():
    made = "syntax case ignore\n"
    made += lines_of(mnemonics(), "syntax keyword c25Mnemonic contained ")
    made += lines_of([f".{it}" for it in directives()], "syntax keyword c25Directive contained ")
    made += lines_of(predefined(), "syntax keyword c25Register ")
    return made + "syntax case match\n" + lines_of(memory_mapped(), "syntax keyword c25Register ")


def emacs():
    made = ""
    for name, words, what in (("mnemonics", mnemonics(), "Mnemonics, in upper case."), ("directives", directives(), "Directives without their point."),
                              ("registers", predefined(), "Predefined names."), ("memory-mapped", memory_mapped(), "Names of .mmregs.")):
        made += f"(defconst c25-{name}\n  '(" + lines_of([f'"{it}"' for it in words], "    ").strip() + f')\n  "{what}")\n\n'
    return made.rstrip() + "\n"


def bash():
    """The subcommands, the options of each, and the options that a word that is not a file follows."""
    program = command_line()
    made = f"_c25_subcommands='{' '.join(it.name for it in program.subcommand)}'\n"
    made += f"_c25_explained='{' '.join(faults() + ends_and_warnings() + mnemonics() + ['.' + it for it in directives()])}'\n_c25_options() {{\n  case $1 in\n"
    others = {"--all", "--explain", "--help", "--version"}
    for it in program.subcommand:
        found = [name for names, _, _ in options(it) for name in names if name.startswith("--")]
        made += f"    {it.name}) echo '{' '.join(found + ['--help'])}' ;;\n"
    no_files = {name for it in program.subcommand for names, value, _ in options(it) for name in names if value and value not in ("FILE", "BASE", "FOLDER")}
    made += f"    *) echo '{' '.join(sorted(others))}' ;;\n  esac\n}}\n"
    return made + f"_c25_no_files='{' '.join(sorted(no_files))}'\n"


def roff(text):
    """A text as a line or lines of a manual page."""
    return re.sub(r"(?m)^(?=[.'])", r"\\&", text.replace("\\", "\\e").replace("-", "\\-"))


def operand_shown(operand):
    """An operand in the line of a subcommand: in brackets where it may be left out, with two points where there may be several."""
    shown = f"\\fI{roff(operand.get('value_name'))}\\fR" + ".." * (operand.get("num_args") is not None)
    return shown if operand.get("required") else f"[{shown}]"


def manual_page():
    program = command_line()
    made = ""
    for it in program.subcommand:
        words = [f"\\fB{roff(it.name)}\\fR"] + [operand_shown(a) for a in operands(it)]
        made += f".SS {' '.join(words)}\n{roff(it.get('about'))}.\n"
        rows = [([], f"\\fI{roff(a.get('value_name'))}\\fR", a) for a in operands(it)]
        rows += [(names, f"\\fI{roff(value)}\\fR" if value else "", a) for names, value, a in options(it)]
        for names, value, argument in rows:
            title = ", ".join(f"\\fB{roff(name)}\\fR" for name in names)
            made += f".TP\n{title}{' ' if title and value else ''}{value}\n{roff(argument.get('help'))}{'; required' if names and argument.get('required') else ''}.\n"
        made += f".PP\n{roff(it.get('after_help'))}\n"
    return made


def alternatives(words):
    """A pattern of words, the longest first, so that no beginning of a word is taken for it."""
    return "|".join(sorted(words, key=lambda it: (-len(it), it)))


def grammar(text):
    """The grammar with the patterns of names put in."""
    found = json.loads(text)
    label, after = r"^([^\s*;][^\s;]*)?\s+", r"(?=[\s;]|$)"
    patterns = found["repository"]
    patterns["mnemonic"]["match"] = f"{label}((?i:{alternatives(mnemonics())})){after}"
    patterns["directive"]["match"] = rf"{label}(\.(?i:{alternatives(directives())})){after}"
    patterns["register"]["match"] = rf"(?<![\w$.])(?:(?i:{alternatives(predefined())})|{alternatives(memory_mapped())})(?![\w$])"
    return json.dumps(found, indent=2) + "\n"


def package(text):
    """The description of the extension with the program's version."""
    found = json.loads(text)
    found["version"] = command_line().get("version")
    return json.dumps(found, indent=2) + "\n"


# Where else the version is shown: a pattern, and the text for it.
SHOWN = {
    "docs/manual/program.md": (rb"\bc25 \d+\.\d+\.\d+", lambda version: b"c25 " + version),
    CRATES + "c25_examples/data/cases/calls.cases": (rb"errors \d+\nc25 \d+\.\d+\.\d+\n", lambda version: b"errors %d\nc25 %s\n" % (len(version) + 5, version)),
}


def shown(path):
    """The bytes of a file, and what they should be: with the program's version."""
    pattern, made_of_version = SHOWN[path]
    with open(path, "rb") as file:
        found = file.read()
    text = made_of_version(command_line().get("version").encode())
    made, count = re.subn(pattern, lambda _: text, found)
    if not count:
        sys.exit(f"{path}: it shows no version")
    return found, made


def versions(writes):
    """Puts the version where it is shown, or names the files that show another."""
    wrong = []
    for path in SHOWN:
        found, made = shown(path)
        if found != made and writes:
            with open(path, "wb") as file:
                file.write(made)
        elif found != made:
            wrong.append(f"{path}: another version than python3 editors/make.py --write puts in")
    if re.search(r"(?m)^## (\S+)", text_of("CHANGELOG.md"))[1] != command_line().get("version"):
        wrong.append("CHANGELOG.md: its newest version is not the program's")
    return wrong


BLOCKS = {"vim/syntax/c25.vim": vim, "emacs/c25-mode.el": emacs, "bash/c25": bash, "man/c25.1": manual_page}
MEMBERS = {"vscode/c25.tmLanguage.json": grammar, "vscode/package.json": package}


def made_of(path):
    """What a file should be: its text with the names put in."""
    text = text_of(FOLDER + path)
    if path in MEMBERS:
        return MEMBERS[path](text)
    parts = re.fullmatch(r"(?s)(.*?\[names\][^\n]*\n).*?(\n?[^\n]*\[end\].*)", text)
    if not parts:
        sys.exit(f"{FOLDER}{path}: no line with [names] and one with [end]")
    end = parts[2].lstrip("\n")
    return parts[1] + BLOCKS[path]() + end


def main(words):
    wrong = versions("--write" in words)
    for path in (*BLOCKS, *MEMBERS):
        text, made = text_of(FOLDER + path), made_of(path)
        if "--write" in words:
            with open(FOLDER + path, "w", encoding="utf-8") as file:
                file.write(made)
        elif text != made:
            wrong.append(f"{FOLDER}{path}: other names than python3 editors/make.py --write puts in")
    if "--check" in words:
        print("\n".join(wrong) or f"the files of {FOLDER} have the names of the tables, and the version is one")
        return 1 if wrong else 0
    if "--write" not in words:
        print(vim() + bash(), end="")
    return 0


if __name__ == "__main__":
    sys.exit(main(sys.argv[1:]))
