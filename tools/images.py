#!/usr/bin/env python3
"""Compares the sources that c25_layout makes of random images with those of a model.

    python3 tools/images.py MODEL [--seed N] [--count N] [--program FILE]

MODEL is a script of Python that is called as `MODEL IMAGE --blank N --hints FILE --out BASE`, with an Intel hex text of words, high
byte first, and writes the source BASE.asm and the command file BASE.cmd. Both are compared line by line, without comments, and with
the fields of a line parted by one blank. The program is made of tools/images and kept as tools/out/images, unproved, like that of
calls.py; `--program` names one that is there already. The images of a seed are always the same: instructions of all families, jumps
within the image and out of it, gaps, erased words, vectors, and hints of all kinds.
"""
import argparse
import os
import random
import re
import subprocess
import sys
import tempfile

import calls

PARTS = os.path.join(calls.TOP, "tools", "images")
KEPT = os.path.join(calls.TOP, "tools", "out", "images")

# First words of instructions: B, CALL, BANZ, BZ, LALK, ADLK, LRLK AR1, BLKP *+, MAC *+, BLKD *+
LONG = [0xFF80, 0xFF80, 0xFE80, 0xFE80, 0xFB90, 0xF680, 0xD001, 0xD001, 0xD002, 0xD100, 0xFCA0, 0x5DA0, 0xFDA0]
# RET, EINT, NOP, CALA, BACC, TRAP, TBLR *, TBLW *, LACK 5, RPTK 3, LARP 2, ADD 10h, IDLE
SHORT = [0xCE26, 0xCE00, 0x5500, 0xCE24, 0xCE25, 0xCE1E, 0x5880, 0x5980, 0xCA05, 0xCB03, 0x558A, 0x0010, 0xCE1F]


def words_at(rng, words, start, count, addresses):
    """Puts words into the image from an address on: instructions, some with an address, and other words."""
    at, end = start, min(start + count, 0x10000)
    while at < end:
        kind = rng.random()
        if kind < 0.35:
            words[at] = rng.choice(LONG)
            if at + 1 < end:
                words[at + 1] = rng.choice(addresses) if rng.random() < 0.8 else rng.randrange(0x10000)
            at += 2
        elif kind < 0.8:
            words[at] = rng.choice(SHORT)
            at += 1
        elif kind < 0.9:
            for erased in range(at, min(at + rng.randint(1, 24), end)):
                words[erased] = 0xFFFF
                at = erased + 1
        else:
            words[at] = rng.randrange(0x10000)
            at += 1


def image_of(rng):
    """An image: its words by their addresses."""
    starts = [0 if rng.random() < 0.9 else rng.randrange(0x40)]
    for _ in range(rng.randint(0, 3)):
        starts.append(rng.choice([rng.randrange(0x200), rng.randrange(0x10000), 0xFFF0 + rng.randrange(16)]))
    runs = [(start, rng.randint(1, 80)) for start in starts]
    addresses = [start + rng.randrange(count) & 0xFFFF for start, count in runs for _ in range(6)]
    words = {}
    for start, count in runs:
        words_at(rng, words, start, count, addresses)
    for vector in (2, 4, 6, 0x18, 0x1A, 0x1C, 0x1E):
        if rng.random() < 0.15:
            words[vector], words[vector + 1] = 0xFF80, rng.choice(addresses)
    return words


def hints_of(rng, words):
    """The lines of hints for an image."""
    there = sorted(words)
    lines, names = [], 0
    for _ in range(rng.choice([0, 0, 1, 2, 4])):
        kind = rng.choice(["code", "data", "table", "label", "ref", "noref", "run", "noreturn"])
        address = rng.choice(there)
        if kind in ("code", "ref", "noref", "noreturn"):
            lines.append("%s %04X" % (kind, address))
        elif kind == "label":
            names += 1
            lines.append("label %04X NAME%d" % (address, names))
        else:
            count = 1
            while count < 6 and address + count in words and rng.random() < 0.7:
                count += 1
            lines.append("%s %04X %X%s" % (kind, address, count, " FF%02X" % rng.randrange(0x80) if kind == "run" else ""))
    return lines


def hex_of(words):
    """The Intel hex text of words, a record a word, after one for the upper half of the addresses of bytes where it changes."""
    lines, upper = [], 0

    def record(address, kind, data):
        body = [len(data), address >> 8, address & 255, kind, *data]
        lines.append(":" + "".join("%02X" % byte for byte in [*body, -sum(body) & 255]))

    for address in sorted(words):
        if address * 2 >> 16 != upper:
            upper = address * 2 >> 16
            record(0, 4, [upper >> 8, upper & 255])
        record(address * 2 & 0xFFFF, 0, [words[address] >> 8, words[address] & 255])
    record(0, 1, [])
    return "\n".join(lines) + "\n"


def lines_of(text):
    """The lines of a text without comments, empty lines, and labels alone, which belong to the next line."""
    found, label = [], ""
    for line in text.split("\n"):
        line = line.split(";")[0].rstrip()
        if not line or line[0] == "*":
            continue
        fields = re.split(r"[ \t]+", label + line, maxsplit=2)
        if len(fields) == 1 and line[0] not in " \t":
            label = line
            continue
        label = ""
        found.append(" ".join(fields).replace(" ,", ",").rstrip())
    return found


def compare(program, model, room, case):
    """Returns what differs between the two answers to a case, or an empty text."""
    words, hints, blank = case
    names = [os.path.join(room, name) for name in ("image.hex", "hints", "made")]
    for name, text in ((names[0], hex_of(words)), (names[1], "\n".join(hints) + "\n")):
        with open(name, "w", encoding="ascii") as file:
            file.write(text)
    ours = subprocess.run([program, names[0], names[1], str(blank)], capture_output=True, text=True)
    told = subprocess.run([sys.executable, model, names[0], "--blank", str(blank), "--hints", names[1], "--out", names[2]], capture_output=True, text=True)
    if ours.returncode or told.returncode:
        return "status %d, model %d\n%s%s" % (ours.returncode, told.returncode, ours.stderr, told.stderr)
    for text, end in zip(ours.stdout.split("====\n"), (".asm", ".cmd")):
        with open(names[2] + end, encoding="ascii") as file:
            found, wanted = lines_of(text), lines_of(file.read())
        if found != wanted:
            first = next((n for n, pair in enumerate(zip(found, wanted)) if pair[0] != pair[1]), min(len(found), len(wanted)))
            return "%s line %d\n  c25_layout: %s\n  model:      %s" % (end, first + 1, found[first:first + 2], wanted[first:first + 2])
    return ""


def build():
    os.makedirs(os.path.dirname(KEPT), exist_ok=True)
    with tempfile.TemporaryDirectory() as room:
        calls.build(calls.module_of(calls.lay_out(os.path.join(room, "copy"), PARTS), os.path.join(room, "try")), KEPT)


def main():
    parser = argparse.ArgumentParser()
    parser.add_argument("model")
    parser.add_argument("--seed", type=int, default=1)
    parser.add_argument("--count", type=int, default=1000)
    parser.add_argument("--program")
    asked = parser.parse_args()
    if not asked.program:
        build()
    differ = 0
    with tempfile.TemporaryDirectory() as room:
        for number in range(asked.count):
            rng = random.Random("%d:%d" % (asked.seed, number))
            words = image_of(rng)
            case = (words, hints_of(rng, words), rng.choice([0, 1, 2, 8, 16]))
            said = compare(asked.program or KEPT, os.path.abspath(asked.model), room, case)
            if said:
                differ += 1
                print("image %d of seed %d: %s" % (number, asked.seed, said), flush=True)
    print("%d images, %d differ" % (asked.count, differ))
    return 1 if differ else 0


if __name__ == "__main__":
    sys.exit(main())
