#!/usr/bin/env python3
"""olden.py PROGRAM [--seed S] [--count N] [--keep FOLDER] : sources of the gate's random cases, put into each old style, moved back and built.

Each of N programs that builds is written as an older assembler would have it: in style 1987 with directives without a dot, comments
without `;`, constants `>1F` and operators from left to right; in style spru018 with constants `0x1F`, strings in single quotes, `ar1`
and a third operand of `.usect`; in both with local labels `$1`. Then the program c25 moves the old sources and builds the new ones, and
both hex texts have to be those of the program as it was. Moved as they are, the sources have to stay, byte for byte. Each difference is
reported and kept in FOLDER; the status is 1 then.
"""
import argparse
import os
import random
import re
import shutil
import subprocess
import sys
import tempfile

HERE = os.path.dirname(os.path.realpath(__file__))
sys.path.insert(0, os.path.join(os.path.dirname(HERE)))
sys.dont_write_bytecode = True
import cases  # noqa: E402

EARLY = {".set": "EQU", ".equ": "EQU", ".word": "DATA", ".def": "DEF", ".ref": "REF", ".end": "END", ".text": "PSEG", ".byte": "BYTE", ".title": "TITL"}
SECTIONS = (".text", ".data", ".sect")
# What names a label that is no place in the current section, or that other lines know.
NAMING = (".set", ".equ", ".usect", ".label", ".macro", ".asg")
HEX = re.compile(r"(?<![\w$?.'])0?([0-9A-Fa-f]+)[hH](?![\w$?])")
RANKS = {"*": 5, "/": 5, "%": 5, "+": 4, "-": 4, "&": 3, "^": 2, "|": 1}
QUOTED = re.compile(r"('(?:[^']|'')*'|\"[^\"]*\")")


class Line:
    """A line as its label, its operation, its operands without blanks around them, and its comment with `;`."""

    def __init__(self, text):
        self.text, self.label, self.word, self.operands, self.comment = text, "", "", "", ""
        self.is_statement = bool(text.strip()) and text[0] not in "*;" and text.strip()[0] != ";"
        if self.is_statement:
            self.label, rest = re.match(r"(\S*)(.*)", text).groups()
            self.word, rest = re.match(r"\s*([^\s;]*)(.*)", rest).groups()
            parts = QUOTED.split(rest)
            at = next((n for n, part in enumerate(parts) if n % 2 == 0 and ";" in part), None)
            if at is not None:
                front, _, back = parts[at].partition(";")
                self.comment = ";" + back + "".join(parts[at + 1:])
                parts = parts[:at] + [front]
            self.operands = "".join(parts).strip()

    def whole(self):
        if not self.is_statement:
            return self.text
        return ("%-8s%-8s%s" % (self.label + " ", self.word + " ", self.operands + ("  " if self.comment else "") + self.comment)).rstrip()


def outside_quotes(text, change):
    """The text with a change made of what is outside of quotes."""
    return "".join(part if number % 2 else change(part) for number, part in enumerate(QUOTED.split(text)))


def is_mixed(operand):
    """Whether an operator in an operand binds closer than the one before it."""
    bare = QUOTED.sub("0", operand)
    found = [RANKS[sign] for sign in re.findall(r"(?<=[\w$?)])\s*([-*/%+&^|])", bare)]
    return "(" not in bare and any(one < other for one, other in zip(found, found[1:]))


def grouped(operands):
    """Operands in which a line's own parentheses keep the order of C."""
    parts = re.split(r",(?=(?:[^'\"]|'[^']*'|\"[^\"]*\")*$)", operands)
    return ",".join("(%s)" % part.strip() if is_mixed(part) else part for part in parts)


def early(line, rng):
    """A line in the style of the assemblers before COFF."""
    word = line.word.lower()
    line.operands = outside_quotes(line.operands, lambda part: re.sub(r"\s+", "", part))
    if word == ".string" or word == ".title":
        if line.operands.count('"') == 2 and line.operands[0] == line.operands[-1] == '"' and "'" not in line.operands:
            line.word, line.operands = {".string": "TEXT", ".title": "TITL"}[word], "'%s'" % line.operands[1:-1]
        return
    line.operands = grouped(line.operands)
    if word.startswith(".") and word not in EARLY:
        return
    line.word = EARLY.get(word, line.word)
    line.operands = outside_quotes(line.operands, lambda part: HEX.sub(lambda found: ">" + found.group(1), part))
    if line.operands and line.comment and rng.random() < 0.7:
        line.comment = line.comment[1:].strip()


def later(line, rng):
    """A line in the style of the COFF assembler."""
    word = line.word.lower()
    if word == ".string" and line.operands.count('"') == 2 and line.operands[0] == line.operands[-1] == '"' and "'" not in line.operands:
        line.operands = "'%s'" % line.operands[1:-1]
    elif word == ".usect" and line.operands.count(",") == 1:
        line.operands += ",1"
    elif not word.startswith(".") or word in (".word", ".int"):
        line.operands = outside_quotes(line.operands, lambda part: HEX.sub(lambda found: "0x" + found.group(1), part))
        if rng.random() < 0.5:
            line.operands = outside_quotes(line.operands, lambda part: re.sub(r"\bAR([0-7])\b", r"ar\1", part))


def blocks(lines):
    """For each line, the number of the block of local labels that it is in."""
    found, number = [], 0
    for line in lines:
        number += line.word.lower() in SECTIONS
        found.append(number)
    return found


def with_local_labels(lines, others):
    """The lines with some labels as local ones: labels that are known in one block alone."""
    block, used = blocks(lines), {}
    places = {}
    for number, line in enumerate(lines):
        for name in re.findall(r"[A-Za-z_][\w$?]*", line.text):
            places.setdefault(name, []).append(number)
    for number, line in enumerate(lines):
        name, word = line.label, line.word.lower()
        simple = re.fullmatch(r"[A-Za-z_]\w*", name) and (not word or word in (".word", ".byte", ".string") or not word.startswith("."))
        if not simple or re.search(r"\b%s\b" % name, others):
            continue
        at = places[name]
        outer = any(lines[n].word.lower() in (".def", ".global", ".ref", ".if", ".eval", ".asg") + NAMING for n in at)
        if outer or len({block[n] for n in at}) > 1 or sum(line.label == name for line in lines) > 1 or used.get(block[number], 0) > 9:
            continue
        local = "$%d" % used.setdefault(block[number], 0)
        used[block[number]] += 1
        for n in set(at):
            other = lines[n]
            other.label = local if other.label == name else other.label
            other.operands = outside_quotes(other.operands, lambda part: re.sub(r"(?<![\w$?.])%s(?![\w$?])" % name, lambda _: local, part))
    return lines


def oldened(name, files, style, rng):
    """The text of a source in an old style."""
    lines = [Line(text) for text in files[name].decode().split("\n")]
    others = "\n".join(data.decode() for other, data in files.items() if other != name)
    for line in with_local_labels(lines, others):
        if line.is_statement:
            (early if style == "1987" else later)(line, rng)
    return "\n".join(line.whole() for line in lines).encode()


def programs():
    """The programs of the random cases that are no macros: sources and command file, each as its files."""
    found = []
    for group, calls in cases.groups().items():
        for call in calls if group in ("random/straight.cases", "random/link.cases", "random/copied-to-b0.cases") else ():
            names = [name for name in call.words if name.endswith(".asm") and name in call.files]
            text = b"".join(call.files[name] for name in names).lower()
            if names and not re.search(rb"\.(copy|include|macro|loop|if|asg|eval|mlib)\b", text):
                command = call.words[call.words.index("--command") + 1] if "--command" in call.words else None
                found.append((call.name, names, command, call.files))
    return found


def built(program, folder, names, command):
    """The hex texts of a build, or None where it is refused."""
    words = [program, "build", *names, "--out", "made"] + (["--command", command] if command else [])
    if subprocess.run(words, cwd=folder, capture_output=True).returncode:
        return None
    texts = {}
    for page in "01":
        with open(os.path.join(folder, "made.p%s.hex" % page), "rb") as file:
            texts[page] = file.read()
    return texts


def write(folder, files):
    for name, data in files.items():
        os.makedirs(os.path.dirname(os.path.join(folder, name)), exist_ok=True)
        with open(os.path.join(folder, name), "wb") as file:
            file.write(data)


def moved_back(program, case, style, rng, keep):
    """What is wrong with the words of a program's old sources, moved, if something is."""
    name, names, command, files = case
    folder = tempfile.mkdtemp()
    try:
        write(folder, files)
        wanted = built(program, folder, names, command)
        if wanted is None:
            return "no program"
        os.mkdir(os.path.join(folder, "new"))
        write(folder, {"old/" + source: oldened(source, files, style, rng) for source in names})
        done = subprocess.run([program, "move", *["old/" + source for source in names], "--style", style, "--out", "new"], cwd=folder, capture_output=True)
        if done.returncode not in (0, 4):
            return "%s: move ends with %d: %s" % (name, done.returncode, done.stderr.decode()[:200])
        made = built(program, folder, ["new/" + source for source in names], command)
        if made == wanted:
            return None
        if keep:
            shutil.copytree(folder, os.path.join(keep, "%s-%s" % (re.sub(r"\W+", "-", name), style)))
        return "%s: %s: %s" % (name, style, "the new sources are refused" if made is None else "the words differ")
    finally:
        shutil.rmtree(folder)


def changed(program, case):
    """The sources of a program, moved as they are, whose texts do not stay byte for byte."""
    name, names, _, files = case
    folder = tempfile.mkdtemp()
    try:
        write(folder, dict(files, **{"new/" + source: b"" for source in names}))
        words = [program, "move", *names, "--style", "spru018", "--out", "new", "--quiet"]
        done = subprocess.run(words, cwd=folder, capture_output=True)
        found = []
        for source in names:
            with open(os.path.join(folder, "new", source), "rb") as file:
                if done.returncode or file.read() != files[source]:
                    found.append("%s: %s does not stay as it is" % (name, source))
        return found
    finally:
        shutil.rmtree(folder)


def main():
    words = argparse.ArgumentParser()
    words.add_argument("program")
    words.add_argument("--seed", type=int, default=1)
    words.add_argument("--count", type=int, default=200)
    words.add_argument("--keep")
    given = words.parse_args()
    rng = random.Random(given.seed)
    program = os.path.abspath(given.program)
    found = programs()
    rng.shuffle(found)
    tried = wrong = kept = 0
    for case in found:
        if tried == given.count:
            break
        faults = [moved_back(program, case, style, rng, given.keep) for style in ("1987", "spru018")]
        if "no program" in faults:
            continue
        tried += 1
        others = changed(program, case)
        kept += len(case[1]) - len(others)
        wrong += len(others)
        for fault in [fault for fault in faults if fault] + others:
            print(fault, flush=True)
        wrong += sum(fault is not None for fault in faults)
    print("%d programs, each in two styles, and %d sources as they are: %d do not come back" % (tried, kept, wrong))
    return 1 if wrong or not tried else 0


if __name__ == "__main__":
    sys.exit(main())
