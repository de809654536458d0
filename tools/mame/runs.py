#!/usr/bin/env python3
"""Compares c25 with the TMS32025 of MAME, a simulator that was written apart from this one, on random programs.

usage: python3 tools/mame/runs.py PROGRAM [--seed S] [--alone N] [--programs N] [--most K] [--keep FOLDER] [--jobs J]

PROGRAM is crates/c25/out/c25. It wants `mame` (Debian's package of that name) in the path or in /usr/games; files of zeros stand for
the ROMs of the machine whose processor runs the programs. N programs have one instruction, or one repeated, after a random state
(--alone, 2000), N others up to K of them (--programs, 2000; --most, 6); programs.py makes them. It compares ACC, P, T,
the auxiliary registers, both status words, RPTC, the stack, and 544 words of data memory at the end of each program.
All 130 mnemonics are tried: IN reads 0 and BIO is low, since that machine's ports and line have no devices, TBLW writes to block B0,
since the rest of its program memory cannot be written, IDLE is never waked, and EINT lets no interrupt through, since none comes.

MAME is known to differ in these cases, and each difference is counted by its kind:

- NEG: C is put at bit 9 of ST0, the bit of INTM, and not of ST1;
- ADDH, SUBH: under OVM 1 the upper half alone is saturated;
- SUBC: the dividend and the divisor are compared without their signs;
- *BR0+: the sum with reversed carry is added to the register, instead of being put into it; *BR0-: the register is changed otherwise;
- where a sum or a difference is saturated, C is that of the saturated number (counted under OVM 1, with what follows of it).

All but the last are tried alone. Any other difference is reported with its program, which is kept in FOLDER; the status is 1 then.
"""
import argparse
import collections
import os
import random
import re
import shutil
import subprocess
import sys
import tempfile
from concurrent.futures import ThreadPoolExecutor

from machine import Mame
from programs import COMMAND, SAMPLES, SCHEDULE, Program

ST0 = {"ARP": (13, 7), "OV": (12, 1), "OVM": (11, 1), "INTM": (9, 1), "DP": (0, 511)}
ST1 = {"ARB": (13, 7), "CNF": (12, 1), "TC": (11, 1), "SXM": (10, 1), "C": (9, 1), "HM": (6, 1), "FSM": (5, 1), "XF": (4, 1),
       "FO": (3, 1), "TXM": (2, 1), "PM": (0, 3)}


# the registers of which the processor has one each
Single = collections.namedtuple("Single", "acc p t st0 st1 rptc")


def end_of(single, auxiliary, stack, memory):
    """The state of a run, by names."""
    end = {"ACC": single.acc, "P": single.p, "T": single.t, "RPTC": single.rptc, "stack": stack, "memory": memory}
    end.update(("AR%d" % at, word) for at, word in enumerate(auxiliary))
    for word, fields in ((single.st0, ST0), (single.st1, ST1)):
        end.update((name, word >> at & most) for name, (at, most) in fields.items())
    return end


def numbers(line):
    return [int(it, 16) for it in line.split()]


def hex_words(path):
    """The words of a hex text, ascending."""
    found = {}
    with open(path, encoding="ascii") as text:
        for line in text:
            data = bytes.fromhex(line.strip()[1:])
            if data[3] == 0:
                at, data = (data[1] * 256 + data[2]) // 2, data[4:4 + data[0]]
                found.update((at + k, data[2 * k] * 256 + data[2 * k + 1]) for k in range(len(data) // 2))
    return found


def told_by(text):
    """The ends that a script's `regs`, `stack` and `data` print, one after another."""
    pattern = re.compile(r"PC (\w+) ACC (\w+) P (\w+) T (\w+) ST0 (\w+) ST1 (\w+) RPTC (\w+)\nAR ([^\n]*)\nSTACK ([^\n]*)\n"
                         r"((?:[0-9A-F]{4} [^\n]*\n){68})")
    for told in pattern.finditer(text):
        single = Single(*(int(it, 16) for it in told.groups()[1:7]))
        memory = [word for line in told[10].splitlines() for word in numbers(line)[1:]]
        yield end_of(single, numbers(told[8]), numbers(told[9]), memory)


class Case:
    """A program in a folder of its own: its command line, and its state before what is tried and at its end."""

    def __init__(self, program, folder, made):
        self.folder, self.made = folder, made
        os.makedirs(folder)
        self.write("a.asm", made.source())
        for name, text in (("board.cmd", COMMAND), ("samples", SAMPLES), ("schedule", SCHEDULE)):
            self.write(name, text)
        self.call(program, "build", "a.asm", "--command", "board.cmd", "--out", "a")
        with open(os.path.join(folder, "a.map"), encoding="ascii") as text:
            body = re.search(r"^SYMBOL 0000(\w{4}) BODY$", text.read(), re.M)[1]
        tell = "regs\nstack\ndata 60 32\ndata 200 512\n"
        self.write("script", "break %s\nrun 2000\n%sclear %s\nrun 2000\n%s" % (body, tell, body, tell))
        self.before, self.end = told_by(self.call(program, "debug", "a.asm", "--command", "board.cmd", "--samples", "samples",
                                                  "--schedule", "schedule", "--script", "script"))
        self.pages = [hex_words(os.path.join(folder, "a.p%d.hex" % page)) for page in (0, 1)]

    def write(self, name, text):
        with open(os.path.join(self.folder, name), "w", encoding="ascii") as file:
            file.write(text)

    def call(self, program, *words):
        done = subprocess.run([program, *words], cwd=self.folder, capture_output=True, text=True, check=False)
        if done.returncode:
            raise SystemExit("%s: %s" % (self.folder, done.stderr))
        return done.stdout

    def line(self):
        return " ".join(",".join("%x:%x" % it for it in page.items()) for page in self.pages)


def ends_by_mame(folder, cases):
    """The state of MAME's processor after each case's program."""
    programs, ends = (os.path.join(folder, it) for it in ("programs", "ends"))
    with open(programs, "w", encoding="ascii") as file:
        file.writelines(case.line() + "\n" for case in cases)
    Mame(folder).run("runs.lua", PROGRAMS=programs, ENDS=ends)
    with open(ends, encoding="ascii") as text:
        for line in text:
            found = numbers(line)
            yield end_of(Single(*found[:3], *found[11:14]), found[3:11], found[14:22], found[22:])


def is_saturated_half(before, ours, theirs):
    high, low = theirs["ACC"] >> 16, theirs["ACC"] & 0xFFFF
    return before["OVM"] and ours["ACC"] in (0x7FFFFFFF, 0x80000000) and high == ours["ACC"] >> 16 and low == before["ACC"] & 0xFFFF


def is_other_half(before, ours, theirs):
    """Whether one of both took the difference, and the other the dividend, twice."""
    twice = before["ACC"] * 2 & 0xFFFFFFFF
    return (ours["ACC"] == twice) != (theirs["ACC"] == twice)


def reversed_kind(case, theirs, parts):
    """The form with reversed carry by which the current register alone differs, or None."""
    source, current = case.made.source(), "AR%d" % case.before["ARP"]
    if current not in parts:
        return None
    if "*BR0-" in source:
        return "*BR0-"
    added = (case.before[current] + case.end[current]) % 65536
    return "*BR0+" if "*BR0+" in source and theirs[current] == added else None


def alone_kind(case, theirs, parts):
    """What MAME is known to do otherwise by the one instruction of this case, or None."""
    before, ours, tried = case.before, case.end, case.made.tried[-1]
    name = tried.replace("RPT ", "").split()[0]
    if name == "NEG" and parts <= {"C", "INTM"} and theirs["INTM"] == ours["C"] and theirs["C"] == before["C"]:
        return "NEG"
    if name in ("ADDH", "SUBH") and parts <= {"ACC", "C"} and is_saturated_half(before, ours, theirs):
        return "ADDH, SUBH"
    if name == "SUBC" and tried.startswith("RPT") and parts <= {"ACC", "C", "OV"}:
        return "SUBC"
    if name == "SUBC" and parts <= {"ACC", "C"} and is_other_half(before, ours, theirs):
        return "SUBC"
    return None


def known_kind(case, theirs, parts):
    """What MAME is known to do otherwise in this case, or None where that is not all that differs."""
    before, ours = case.before, case.end
    changed = {"C"}
    if case.made.alone:
        kind = reversed_kind(case, theirs, parts)
        rest = parts - {"AR%d" % before["ARP"]} if kind else parts
        if not rest or alone_kind(case, theirs, rest):
            return kind or alone_kind(case, theirs, rest)
    else:
        changed = {"C", "ACC", "OV", "TC", "stack", "memory"}
    may_saturate = before["OVM"] or ours["OVM"] or "SOVM" in case.made.tried
    return "C where a sum is saturated" if may_saturate and parts <= changed else None


def compare(cases, ends, keep):
    """Counts what differs by its kind, and keeps what is of none."""
    kinds, others = collections.Counter(), 0
    for case, theirs in zip(cases, ends):
        parts = {name for name in theirs if theirs[name] != case.end[name]}
        kind = known_kind(case, theirs, parts) if parts else "equal"
        kinds[kind or "other"] += 1
        if kind is None:
            others += 1
            name = os.path.basename(case.folder)
            print("%s: %s: %s" % (name, "; ".join(case.made.tried), ", ".join(sorted(parts))))
            if keep:
                shutil.copytree(case.folder, os.path.join(keep, name))
    for kind, count in kinds.most_common():
        print("%6d %s" % (count, kind))
    return others


def main():
    usage, _, about = __doc__.partition("usage: ")[2].partition("\n")
    words = argparse.ArgumentParser(usage=usage, description=about, formatter_class=argparse.RawDescriptionHelpFormatter)
    words.add_argument("program")
    words.add_argument("--keep")
    for name, value in (("seed", 1), ("alone", 2000), ("programs", 2000), ("most", 6), ("jobs", os.cpu_count())):
        words.add_argument("--" + name, type=int, default=value)
    given = words.parse_args()
    program, rng = os.path.abspath(given.program), random.Random(given.seed)
    made = [Program(rng, given.most, at < given.alone) for at in range(given.alone + given.programs)]
    with tempfile.TemporaryDirectory() as folder:
        with ThreadPoolExecutor(given.jobs) as pool:
            cases = list(pool.map(lambda it: Case(program, os.path.join(folder, str(it[0])), it[1]), enumerate(made)))
        ends = list(ends_by_mame(folder, cases))
        if len(ends) != len(cases):
            raise SystemExit("mame told %d ends of %d programs" % (len(ends), len(cases)))
        print("%d programs" % len(cases))
        return 1 if compare(cases, ends, given.keep) else 0


if __name__ == "__main__":
    sys.exit(main())
