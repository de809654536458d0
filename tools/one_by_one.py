#!/usr/bin/env python3
"""Holds what `--all` reports of a source against the faults that are found one by one.

usage: python3 tools/one_by_one.py PROGRAM [--seed S] [--count N] [--sources FOLDER]

Each source is plain lines with faulty ones among them, put there at random, and macros, loops and conditions, faulty ones too;
the sources of FOLDER (*.asm) are taken too, each alone. One by one means: the source is assembled without `--all`, the faulty
line is left out but for its label (a line of the second phase is made a line of as many zeros, so that no address moves; with a
refused `.if`, `.loop` or `.macro` its block is left out; a refused `.break` is made one without a condition), and so on until no
fault is left. 31, 33, 34 and 54 end both lists. A source of which a line is refused again after that is left out: its label is
wrong each time that a loop reaches it. With `--all` the first line on standard error must be the line without it, the lines must
be those found one by one (each but once, where a loop or a macro has it again), and the status must be the same. The status is
1 where they differ anywhere.
"""
import argparse
import glob
import os
import random
import re
import subprocess
import sys
import tempfile

LINE = re.compile(r"([^\n:]*):([0-9]+): ([0-9]+) ([A-Za-z]+)$")
LABEL = re.compile(r"([A-Za-z_][A-Za-z_0-9$?]*):?(?=[ \t;]|$)")
# Those of the second phase, where they are of the operands of an instruction or of these directives.
SECOND = {22, 23, 24, 25, 53, 55}
DATA = {".word", ".int", ".byte", ".def"}
# The instructions of two words.
LONG = set("ADLK ANDK B BANZ BBNZ BBZ BC BGEZ BGZ BIOZ BLEZ BLKD BLKP BLZ BNC BNV BNZ BV BZ CALL LALK LRLK MAC MACD ORK SBLK XORK".split())
# Faults after which nothing is read.
LAST = {31, 33, 34, 54}
# Faults of expansion that are found after the line's label was given.
ACTED = {22, 23, 24, 25, 30, 32, 33, 36}
EXPANSION = set(".if .elseif .else .endif .macro .endm .mexit .loop .break .endloop .asg .eval .copy .include .end".split())
GOOD = [" NOP", " LACK 5", " ADD 60h", " LALK 1234h", " B L0", " .word 1,2,3", " .byte 1", ' .string "ab"', " .space 32", " LARK AR1,2",
        " .bss V%d,1", "K%d .set 5", " .text", " .data", ' .sect "s%d"', " .global G%d", " IN 60h,PA1", "; a comment", "", " SACL 61h,1"]
# Faulty lines of the first phase and of the second.
FIRST = [" FOO", " LACK", " LACK 1,2", " LARK 5", " LACK 2+", " .word 1F", " .word 'ab", " LAC \x01", " .space -1", " .space L0", "L0 NOP",
         "AR1 NOP", " .bss V0,200,1", " .bss L0,1", "K0 .set 5", "M%d .set N%d", " .set 5", " .usect", ' .sect ""', " .def PA1", " LAC *AR9",
         " .wrod 5", " .mmregs 1", " .space 1/0", "1X NOP", " .word ((((", " .bss W%d", "DRR .set 0", " .mmregs"]
WORDS = [" LACK 256", " LARK AR1,256", " LALK U%d", " B U%d", " .word 1,U%d,3", " .byte 256", " LAC L0", " .word 1/0", " LACK L0",
         " .def U%d"]

# Blocks that are whole, and faulty ones; those without a label may stand in loops and in macros.
WHOLE = [[" .if 1", " NOP", " .else", " FOO", " .endif"], [" .loop 2", " NOP", " .endloop"], [" .if 0", " FOO", " .elseif 1", " NOP", " .endif"],
         [" .asg 5,A%d", " LACK A%d"], [" .eval 1+2,E%d", " LACK E%d"], [" .loop", " NOP", " .break", " FOO", " .endloop"],
         [" .loop 0", " FOO", " .endloop"], [" .mmregs"], [" .if 1", " .if 0", " FOO", " .else", " NOP", " .endif", " .endif"]]
LABELLED = [["M%d .macro n", " LACK n", " .endm", " M%d 5", " M%d 6"], ["I%d .if 1", " B I%d", " .endif"], ["P%d .macro n,m", " .if n", " LACK m", " .mexit", " .endif", " FOO", " .endm", " P%d 1,2"]]
FAULTY = [[" .if U%d", " FOO", " .else", " FOO", " .endif"], [" .if 1+", " .if 1", " FOO", " .endif", " FOO", " .endif"], [" .endif"], [" .else"],
          [" .if 0", " FOO", " .elseif U%d", " FOO", " .else", " FOO", " .endif"], [" .if 1", " NOP", " .else 1", " FOO", " .endif"], [" .elseif 1"],
          [" .if 1", " NOP", " .endif 1"], [" .endloop"], [" .endm"], [" .endm 1"], [" .mexit 1"], [" .loop U%d", " FOO", " .loop 2", " .endloop", " FOO", " .endloop"],
          ["NOP .macro", " FOO", " .macro", " .endm", " .endm"], [" .macro", " FOO", " .endm"], [" .loop", " .break U%d", " FOO", " .endloop"], [" .asg 1"],
          [" .eval U%d,E%d"], [" .eval 1+,E%d"], [" .copy"], [" .copy 5"], [" .if 0", " NOP", " .else", " NOP", " .else", " NOP", " .endif"], [" .include 'x"],
          [" .if 1", " .else", " .elseif 1", " FOO", " .endif"], [" .if 'ab", " FOO", " .endif"], [" .loop 1,2", " .endif", " .endloop"], [" .if 0", " .else 'ab", " FOO", " .endif"],
          [" .if 1", " .if U%d", " FOO", " .endif", " LACK", " .endif"], [" .loop 3", " .if U%d", " .break", " .endif", " LARK 5", " .endloop"], [" .end 5"], [" .break 1"]]
FAULTY_LABELLED = [["I%d .if 1/0", " FOO", " .endif"], ["I%d .endif"], ["I%d .loop 1,2", " FOO", " .endloop"], ["I%d .mexit"], ["1X .if 1", " FOO", " .endif"],
                   ["Q%d .macro n", " .if U%d", " FOO", " .endif", " NOP", " .eval n+,X", " .endm", " Q%d 1", " Q%d 2"], ["M%d .macro n", " LACK n", " .endm", "M%d .macro", " FOO", " .endm", " M%d 7"],
                   ["M%d .macro n", " NOP", " .endm", "I%d M%d 'x"]]


def run(program, folder, words):
    done = subprocess.run([program] + words, cwd=folder, stdin=subprocess.DEVNULL, stdout=subprocess.DEVNULL, stderr=subprocess.PIPE)
    return done.returncode, done.stderr.decode("utf-8", "replace").splitlines()


def label_of(line):
    """The label of a line, where it stands for an address."""
    found = LABEL.match(line)
    words = line.split()
    if found is None or (len(words) > 1 and words[1].lower() in (".set", ".equ", ".usect")):
        return ""
    return found.group(1)


def directive_of(line):
    """The directive of expansion in a line, or an empty text."""
    words = line.split(";")[0].split()
    words = words[1:] if line[:1].strip() else words
    return words[0].lower() if words and words[0].lower() in EXPANSION else ""


def end_of(lines, begin, first, last):
    """The index of the line that ends the block begun at an index, or that of the last line."""
    depth = 0
    for k in range(begin + 1, len(lines)):
        depth += {first: 1, last: -1}.get(directive_of(lines[k]), 0)
        if depth < 0:
            return k
    return len(lines) - 1


def opened_before(lines, at):
    """Whether an `.if` is open at a line, as far as the lines show it."""
    depth = 0
    for line in lines[:at]:
        word = directive_of(line)
        depth += 1 if word == ".if" else -1 if word == ".endif" and depth else 0
    return depth > 0


def without(lines, at, kind):
    """The lines without the one at an index, whose directive is one of expansion, and without what it would open."""
    word, kept = directive_of(lines[at]), label_of(lines[at]) if kind in ACTED and directive_of(lines[at]) != ".macro" else ""
    pairs = {".if": (".if", ".endif"), ".loop": (".loop", ".endloop"), ".macro": (".macro", ".endm")}
    end = at
    if word in pairs:
        end = end_of(lines, at, *pairs[word])
    elif word in (".elseif", ".else") and kind != 32:
        end = end_of(lines, at, ".if", ".endif") - 1
    elif word == ".endif" and kind != 32 and opened_before(lines, at):
        kept += " .endif"
    elif word == ".break" and kind != 32:
        kept += " .break"
    return lines[:at] + [kept] + [""] * (end - at) + lines[end + 1:]


def zeros_for(line):
    """The zeros that a line of the second phase makes room for, or None where its operands are read in the first phase."""
    words = line.split(";")[0].split()
    words = words[1:] if label_of(line) or not line[:1].isspace() else words
    word = words[0] if words else ""
    if word.lower() in DATA:
        count = len("".join(words[1:]).split(",")) if word.lower() != ".def" else 0
    elif word.startswith("."):
        return None
    else:
        count = 2 if word.upper() in LONG else 1
    return " .word " + ",".join(["0"] * count) if count else ""


def write(folder, name, lines):
    with open(os.path.join(folder, name), "w", encoding="utf-8", newline="\n") as file:
        file.write("".join(line + "\n" for line in lines))


def one_by_one(program, folder, name, lines):
    """The lines of all faults, found by mending one after another; None where a line is refused for its label alone, and again."""
    told = []
    first_phase = False
    while True:
        write(folder, name, lines)
        status, said = run(program, folder, ["asm", name, "--obj", "o"])
        if status == 0:
            return told
        at = LINE.match(said[0])
        if at is None or at.group(1) != name:
            return told + said[:1]
        number, kind = int(at.group(2)), int(at.group(3))
        zeros = zeros_for(lines[number - 1]) if kind in SECOND else None
        second = zeros is not None
        if second and first_phase:
            return told
        if said[0] in told:
            return None
        told.append(said[0])
        if kind in LAST or len(told) > 100:
            return told
        if directive_of(lines[number - 1]):
            first_phase = True
            lines = without(lines, number - 1, kind)
            continue
        first_phase = first_phase or not second
        label = label_of(lines[number - 1])
        if kind == 26 and label:
            label = "" if lines.index(lines[number - 1]) != number - 1 or any(label_of(l) == label for l in lines[:number - 1]) else label
        if label.upper() in ("AR1",):
            label = ""
        lines = lines[:number - 1] + [label + (zeros or "")] + lines[number:]


def with_all(told, name):
    """What `--all` is to print."""
    return told[:100] + ([name + ": more faults are not shown"] if len(told) > 100 else [])


def source_of(rng, first, most):
    """The lines of a source, with faulty ones of the first phase only where `first` says so."""
    lines = ["L0 NOP", "K0 .set 4", " .bss V0,1"]
    for k in range(1, rng.randrange(5, most)):
        kind = rng.random()
        if kind < 0.75:
            text = rng.choice(GOOD)
        elif first and kind < 0.9:
            text = rng.choice(FIRST)
        else:
            text = rng.choice(WORDS)
        if rng.random() < 0.15:
            lines += block_of(rng, first, str(k), 0)
            continue
        text = text.replace("%d", str(k))
        if rng.random() < 0.2 and text.startswith(" ") and not text.strip().startswith("."):
            text = "T%d" % k + text
        lines.append(text)
    return lines


def block_of(rng, first, number, depth):
    """The lines of a block, with a faulty one only where `first` says so; it may stand in others."""
    inner = depth > 0 or rng.random() < 0.5
    blocks = (FAULTY if inner else FAULTY_LABELLED) if first and rng.random() < 0.5 else (WHOLE if inner else LABELLED)
    lines = [line.replace("%d", number) for line in rng.choice(blocks)]
    kind = rng.random() if inner and depth < 3 else 0
    if lines[0] == " .end 5" or lines == [" .mmregs"] or kind < 0.6:
        return lines
    if kind < 0.8:
        lines += block_of(rng, first, number + "0", depth + 1)
        return [" .if 1"] + lines + [" .endif"]
    return [" .loop 2"] + lines + [" .endloop"]


def differs(program, folder, name, lines):
    told = one_by_one(program, folder, name, list(lines))
    if told is None:
        print("left out:", name)
        return 0, 0
    write(folder, name, lines)
    status, alone = run(program, folder, ["asm", name, "--obj", "o"])
    again, said = run(program, folder, ["asm", name, "--obj", "o", "--all"])
    shown, said = len(said), list(dict.fromkeys(said))
    wanted = with_all(told, name)
    if shown > 100:
        # The 100 lines that are shown have some twice.
        wanted = told[:len(said) - 1] + ["%s: more faults are not shown" % name]
    if (status, alone[:1]) == (again, said[:1]) and said == wanted:
        return 0, len(said)
    print("differs:", name)
    print("".join("  %4d %s\n" % (k + 1, line) for k, line in enumerate(lines)))
    print("one by one:", *wanted, sep="\n  ")
    print("--all:", *said, sep="\n  ")
    return 1, len(said)


def main():
    words = argparse.ArgumentParser()
    words.add_argument("program")
    words.add_argument("--seed", type=int, default=7)
    words.add_argument("--count", type=int, default=300)
    words.add_argument("--sources")
    given = words.parse_args()
    program = os.path.abspath(given.program)
    rng = random.Random(given.seed)
    wrong = faults = count = 0
    with tempfile.TemporaryDirectory() as folder:
        for k in range(given.count):
            lines = source_of(rng, k % 3 != 0, rng.choice((10, 60, 400)))
            one, more = differs(program, folder, "a.asm", lines)
            wrong, faults, count = wrong + one, faults + more, count + 1
        for path in sorted(glob.glob(os.path.join(given.sources, "*.asm"))) if given.sources else []:
            with open(path, encoding="utf-8", errors="replace") as file:
                lines = file.read().splitlines()
            one, more = differs(program, folder, os.path.basename(path), lines)
            wrong, faults, count = wrong + one, faults + more, count + 1
    print("%d sources, %d lines of faults, %d differ" % (count, faults, wrong))
    return 1 if wrong else 0


if __name__ == "__main__":
    sys.exit(main())
