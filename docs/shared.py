#!/usr/bin/env python3
"""Counts the definitions that both sides of the headline rest on.

usage: python3 docs/shared.py            prints the table of docs/HEADLINE.md
       python3 docs/shared.py --list     prints each definition that both sides rest on and no second reading looks at
       python3 docs/shared.py --check    says where the table of docs/HEADLINE.md is another one, with status 1
       python3 docs/shared.py --write    writes the table into docs/HEADLINE.md

(from the top of the repository)

A run of words is one of the program that is built (`IsBuilt`, `RunsItsWords`), a run of statements one of what the lines of the sources say
(`statements_run`). A definition that both need could be wrong, and the words would still run as the statements. The lines of such definitions are
counted by subject, without comments, imports and blank lines, from the files of specs/ by what each definition names. SECOND and TIED have those
that are read a second time: a law says of them what another definition says in other terms, or ties them to the lines of the sources.
"""
import os
import re
import sys
from collections import namedtuple

WORDS = [("c25_chain/Built", "IsBuilt"), ("c25_chain/Headline", "RunsItsWords")]
STATEMENTS = [("c25_chain/Headline", "statements_run")]
PAGE = "docs/HEADLINE.md"
START, END = "<!-- made by docs/shared.py -->", "<!-- end -->"
TABLE, ARITHMETIC, STATUS = "c25_meaning_instructions/Table", "c25_meaning_processor/Arithmetic", "c25_meaning_processor/Status"
# What a law of c25_guide says in other terms: of a file those definitions that these names reach.
SECOND = [
    ("patterns_are_the_table", TABLE, ["Reads"]),
    ("rows_have_their_names", TABLE, ["row_of"]),
    ("sums_are_carried", ARITHMETIC, ["sum", "difference", "conditional_difference"]),
    ("products_pass_the_shifter", ARITHMETIC, ["shifted_product"]),
    ("status_words_are_printed", STATUS, ["st0", "st1", "with_st0", "with_st1"]),
]
# What a law of the sources' side ties to the lines of the sources: these definitions alone.
TIED = [
    ("exported_names_are_their_values", "c25_meaning_assembly/Emission", ["symbol_of", "kind_of", "scope_of"]),
    ("lines_are_statements", "c25_meaning_assembly/Emission", ["with_line"]),
    ("reserved_words_are_apart", "c25_meaning_assembly/Sections", ["reserve", "block", "with_block"]),
]
HEAD = re.compile(r"(?:(?:abbrev|unfoldable|opaque|pub|data|record)\s+)*(?:pub\s+)?(?:record\s+|data\s+)?(\S+)(?=\s+[:({])")
Definition = namedtuple("Definition", "file name lines tokens")
SPACES = re.compile(r"[\s(){}\[\],;.]+")


def parts_of(name):
    """The signs of a name that stands around its operands, as `◌++◌`; of another one the name itself."""
    return [it for it in name.split("◌") if it]


class File:
    """A file of specs/: its definitions by name, and what it imports."""

    def __init__(self, path):
        self.path, self.definitions, self.owner, self.imports, self.aliases, self.shown = path, {}, {}, {}, {}, {}
        with open("crates/%s/specs/%s.antt" % tuple(path.split("/", 1)), encoding="utf-8") as file:
            self.read(file.read().split("\n"))

    def take_import(self, line):
        found = re.fullmatch(r"(pub )?use Rattle\.(\w+)\.specs\.([\w.]+?)(?:\.\{(.*)\})?(?: as (\w+))?", line.strip())
        if not found or not found[2].startswith("c25_") or found[3].startswith("declared"):
            return
        path = found[2] + "/" + found[3].replace(".", "/")
        if found[5]:
            self.aliases[found[5]] = path
        for name in re.findall(r"[^\s,]+(?: as \S+)?", found[4] or ""):
            self.imports[name.split(" as ")[-1]] = (path, name.split(" as ")[0])
            if found[1]:
                self.shown[name] = path

    def read(self, lines):
        name = None
        for line in lines:
            if line.startswith(("use ", "pub use ")):
                self.take_import(line)
                name = None
            elif not line.strip() or line.startswith("--"):
                name = None if line.startswith("--") else name
            elif not line.startswith("    --") and not line.startswith("infix"):
                head = HEAD.match(line) if not line[0].isspace() else None
                if head and re.match(r"(?:abbrev|unfoldable|opaque|pub|data|record)\b", line):
                    name = head[1]
                    self.definitions[name] = []
                if name:
                    self.definitions[name].append(line)
                    inner = re.match(r"  (?:pub )?(\w+) :", line)
                    if inner:
                        self.owner.setdefault(inner[1], name)

    def named(self, name):
        """The definitions that one names, as (path, name)."""
        text = "\n".join(self.definitions[name])
        tokens = set(SPACES.split(text))
        for alias, path in self.aliases.items():
            for inner in re.findall(r"\b%s\.(\w+)" % alias, text):
                yield path, inner
        for other in self.definitions:
            if other != name and all(it in tokens for it in parts_of(other)):
                yield self.path, other
        for inner, other in self.owner.items():
            if inner in tokens and inner[0].isupper() and other != name:
                yield self.path, other
        for inner, (path, original) in self.imports.items():
            if all(it in tokens for it in parts_of(inner)):
                yield path, original


FILES = {}


def file_of(path):
    if path not in FILES:
        FILES[path] = File(path) if os.path.exists("crates/%s/specs/%s.antt" % tuple(path.split("/", 1))) else None
    return FILES[path]


def resolved(path, name):
    """Where a name is defined: in its file, as a constructor of a type there, or where that file takes it from."""
    file = file_of(path)
    if file is None:
        return None
    if name in file.definitions:
        return path, name
    if name in file.shown:
        return resolved(file.shown[name], name)
    return (path, file.owner[name]) if name in file.owner else None


def reached(roots):
    """All definitions that these name, and those that they name, and so on."""
    found, todo = set(), list(roots)
    while todo:
        it = resolved(*todo.pop())
        if it and it not in found:
            found.add(it)
            todo += file_of(it[0]).named(it[1])
    return found


def read_twice():
    """The definitions of which a law says the same in other terms, or which it ties to the lines of the sources."""
    found = {(path, name) for _, path, names in TIED for name in names}
    for _, path, names in SECOND:
        found |= {it for it in reached((path, name) for name in names) if it[0] == path}
    return found


def lines_in(definitions):
    return sum(len(file_of(path).definitions[name]) for path, name in definitions)


def subject_of(path):
    crate = path.split("/")[0]
    return crate.replace("c25_meaning_", "") if crate.startswith("c25_meaning_") else crate


def table():
    """The table, and the definitions of both sides without a second reading."""
    words, statements, twice = reached(WORDS), reached(STATEMENTS), read_twice()
    both = words & statements
    rows = ["| Subject | Words alone | Statements alone | Both | Of these read twice |", "|---|---|---|---|---|"]
    # (subjects with as many lines stand by their names: a set has no order)
    subjects = sorted({subject_of(it[0]) for it in words | statements}, key=lambda s: (-lines_in(it for it in both if subject_of(it[0]) == s), s))
    for subject in [*subjects, "all"]:
        of = lambda some: [it for it in some if subject in (subject_of(it[0]), "all")]
        counts = (lines_in(of(words - statements)), lines_in(of(statements - words)), lines_in(of(both)), lines_in(of(both & twice)))
        rows.append("| %s | %d | %d | %d | %d |" % (subject, *counts))
    return "\n".join(rows), sorted(both - twice)


def with_table(text, rows):
    start, end = text.index(START) + len(START), text.index(END)
    return text[:start] + "\n\n" + rows + "\n\n" + text[end:]


def main(words):
    rows, alone = table()
    if words == ["--list"]:
        print("\n".join("%s %s" % it for it in alone))
    elif not words:
        print(rows)
    else:
        with open(PAGE, encoding="utf-8") as file:
            text = file.read()
        if words == ["--write"]:
            with open(PAGE, "w", encoding="utf-8") as file:
                file.write(with_table(text, rows))
        elif words == ["--check"]:
            sys.exit(0 if with_table(text, rows) == text else "docs/HEADLINE.md: its table of shared definitions is another one: python3 docs/shared.py --write")
        else:
            sys.exit(__doc__)


if __name__ == "__main__":
    os.chdir(os.path.dirname(os.path.dirname(os.path.abspath(__file__))))
    main(sys.argv[1:])
