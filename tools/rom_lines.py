#!/usr/bin/env python3
"""Runs the lines of srec_cat and objcopy that the manual has, and compares what they write with what it says of them.

    python3 tools/rom_lines.py PROGRAM [--count N] [--seed N]

Each round builds a program of words at random addresses below 2000h, and one is always at 0. The lines are those of the section "Back to
the EPROM" of docs/manual/formats.md and of the sections 40 and 96 of docs/FAULTS.md, as they stand there, with the names of files and the
sizes that they have there. Intel hex texts and S-records that are written are read here, byte by byte. It needs Debian's packages srecord
and binutils.
"""
import argparse
import os
import random
import re
import shlex
import sys
import tempfile

from rom import made_by, read, source

TOP = os.path.dirname(os.path.dirname(os.path.abspath(__file__)))
WORDS = 0x2000


def text_of(path):
    with open(os.path.join(TOP, path), encoding="utf-8") as file:
        return file.read()


def manual_lines():
    """The command lines of the manual by the files that they write: those of srec_cat, and those of objcopy."""
    section = text_of("docs/manual/formats.md").partition("## Back to the EPROM")[2].partition("\n## ")[0]
    lines = re.findall(r"`(srec_cat [^`]* -o [^`]*)`", section + text_of("docs/FAULTS.md"))
    objcopy = re.findall(r"(?m)^    (objcopy .*?)(?:\s+#.*)?$", section)
    return {line.split(" -o ")[1].split()[0]: line for line in lines}, {line.split()[-1]: line for line in objcopy}


def hex_bytes(text):
    """The bytes of an Intel hex text, by their addresses."""
    found, base = {}, 0
    for line in text.split():
        record = bytes.fromhex(line[1:])
        assert line[0] == ":" and sum(record) & 255 == 0 and len(record) == record[0] + 5, line
        address, kind, data = record[1] * 256 + record[2], record[3], record[4:-1]
        if kind == 0:
            found.update((base + address + at, byte) for at, byte in enumerate(data))
        elif kind in (2, 4):
            base = int.from_bytes(data, "big") << (4 if kind == 2 else 16)
    return found


def s_bytes(text):
    """The bytes of S-records, by their addresses."""
    found = {}
    for line in text.split():
        record, size = bytes.fromhex(line[2:]), {"1": 2, "2": 3, "3": 4}.get(line[1])
        assert line[0] == "S" and sum(record) & 255 == 255 and len(record) == record[0] + 1, line
        if size:
            address = int.from_bytes(record[1:1 + size], "big")
            found.update((address + at, byte) for at, byte in enumerate(record[1 + size:-1]))
    return found


def sections(rng):
    """Words by address: some runs of words, apart from each other, the first one from 0 on."""
    words, place = {}, 0
    for _ in range(rng.randint(1, 5)):
        for _ in range(rng.choice((1, 2, 5, rng.randint(1, 300)))):
            if place < WORDS:
                words[place] = rng.choice((0, 0xFFFF, rng.randint(0, 0xFFFF)))
            place += 1
        place += rng.choice((1, 3, rng.randint(1, 2500)))
    return words


def build(program, words):
    """Builds the words as a program, and writes the two devices as u1.bin and u2.bin; what these must have."""
    text, places = source(words)
    for name, content in (("f.asm", text), ("f.cmd", places)):
        with open(name, "w", encoding="ascii") as file:
            file.write(content)
    made_by(program, "build", "f.asm", "--command", "f.cmd", "--out", "f", "--rom", "%X" % WORDS)
    whole = [words.get(address, 0xFFFF) for address in range(WORDS)]
    devices = bytes(word >> 8 for word in whole), bytes(word & 255 for word in whole)
    os.replace("f.hi.bin", "u1.bin")
    os.replace("f.lo.bin", "u2.bin")
    if (read("u1.bin"), read("u2.bin")) != devices:
        sys.exit("build --rom has other devices")
    return devices


def hex_of(name):
    return hex_bytes(read(name).decode())


def s_of(name):
    return s_bytes(read(name).decode())


def by_address(content):
    return dict(enumerate(content))


def wrong(lines, objcopy, words, devices):
    """The command line that writes other bytes than the manual says, if there is one."""
    high, low = devices
    last = max(words) + 1
    swapped = b"".join(words.get(address, 0).to_bytes(2, "little") for address in range(last))
    joined = b"".join(bytes(pair) for pair in zip(high, low))
    summed = high[:-2] + (sum(high[:-2]) & 0xFFFF).to_bytes(2, "big")
    device = lines["u1.hex"]
    steps = [
        (device, lambda: hex_of("u1.hex") == by_address(high)),
        (device.replace("-split 2 0", "-split 2 1").replace("u1.hex", "u2.hex"), lambda: hex_of("u2.hex") == by_address(low)),
        (device.replace("-o u1.hex -intel", "-o u1.s19 -motorola"), lambda: s_of("u1.s19") == by_address(high)),
        (lines["a.hex"].replace("a.s19", "u1.s19"), lambda: hex_of("a.hex") == by_address(high)),
        (lines["f.bin"], lambda: read("f.bin") == swapped),
        (lines["u1c.bin"], lambda: read("u1c.bin") == summed),
        (lines["both.hex"], lambda: hex_of("both.hex") == by_address(joined)),
        (objcopy["f.bin"], lambda: read("f.bin") == joined),
        (objcopy["u1.bin"], lambda: read("u1.bin") == high),
        (objcopy["u1.bin"].replace("-b 0", "-b 1").replace("u1.bin", "u2.bin"), lambda: read("u2.bin") == low),
    ]
    for line, is_right in steps:
        made_by(*shlex.split(line))
        if not is_right():
            return line
    return None


def wrong_crop(line):
    """Whether the line that cuts out the bytes of program memory leaves others."""
    content = bytes(at * 7 & 255 for at in range(0x20000 + 512))
    with open("a.bin", "wb") as file:
        file.write(content)
    made_by(*shlex.split(line))
    return read("b.bin") != content[:0x20000]


def main():
    parser = argparse.ArgumentParser(description=__doc__.split("\n")[0])
    parser.add_argument("program")
    parser.add_argument("--count", type=int, default=20)
    parser.add_argument("--seed", type=int, default=1)
    options = parser.parse_args()
    program, rng = os.path.abspath(options.program), random.Random(options.seed)
    lines, objcopy = manual_lines()
    with tempfile.TemporaryDirectory() as folder:
        os.chdir(folder)
        if wrong_crop(lines["b.bin"]):
            sys.exit(lines["b.bin"])
        for number in range(options.count):
            words = sections(rng)
            line = wrong(lines, objcopy, words, build(program, words))
            if line:
                sys.exit("round %d: %s" % (number, line))
    print("%d programs: the lines of the manual write what it says" % options.count)


if __name__ == "__main__":
    main()
