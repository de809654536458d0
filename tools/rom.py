#!/usr/bin/env python3
"""Holds the ROM files that `c25 build --rom` writes against Debian's srecord and binutils, and its lines against zlib.

    python3 tools/rom.py PROGRAM [--count N] [--seed N]

Each round builds a program of words at random addresses and asks for its ROM, as two devices and as one file in either
order. The files must be those that srec_cat makes of `B.p0.hex` (`-split`, `-byte-swap`) and that objcopy makes of it, the
numbers in the lines must be those of Python (`sum`, `zlib.crc32`), and what srec_cat joins again of the two devices must
have the words of the program. A program with a word past the ROM must be refused with fault 79 at the lowest such address,
and nothing may be written then.
"""
import argparse
import os
import random
import subprocess
import sys
import tempfile
import zlib

FORMS = ("%X", "16:%X", "16low:%X")


def sections(random):
    """Words by address: some runs of words, apart from each other."""
    words, place = {}, 0
    for _ in range(random.randint(1, 6)):
        place += random.choice((0, 0, 1, 3, random.randint(0, 3000)))
        for _ in range(random.choice((1, 2, 5, random.randint(1, 300)))):
            if place < 65536:
                words[place] = random.choice((0, 0xFFFF, random.randint(0, 65535)))
            place += 1
        place += 1
    return words


def source(words):
    """A source with a section for each unbroken run of words, and the command file that places them."""
    text, places = [], []
    for address in sorted(words):
        if address - 1 not in words:
            text.append('        .sect "s%X"' % address)
            places.append("s%X : > %d" % (address, address))
        text.append("        .word %d" % words[address])
    return "\n".join(text) + "\n", "SECTIONS {\n%s\n}\n" % "\n".join(places)


def run(*words):
    return subprocess.run(words, capture_output=True)


def made_by(*words):
    done = run(*words)
    if done.returncode:
        sys.exit("%s: %s" % (" ".join(words), done.stderr.decode()))


def line(name, content):
    return "%s %05d bytes sum %04X crc32 %08X\n" % (name, len(content), sum(content) % 65536, zlib.crc32(content))


def read(path):
    with open(path, "rb") as file:
        return file.read()


def srecords(fill, size):
    """The files of srec_cat, of a fill whose two bytes are the same."""
    filled = ("a.p0.hex", "-intel", "-fill", "0x%02X" % (fill & 255), "0", "0x%X" % (2 * size))
    for name, more in (("hi", ("-split", "2", "0")), ("lo", ("-split", "2", "1")), ("first", ()), ("last", ("-byte-swap", "2"))):
        made_by("srec_cat", *filled, *more, "-o", "s." + name, "-binary")
    return read("s.hi"), read("s.lo"), read("s.first"), read("s.last")


def objcopied(fill, size):
    """The two devices as objcopy makes them."""
    made_by("objcopy", "-I", "ihex", "-O", "binary", "--gap-fill", "0x%02X" % (fill & 255), "--pad-to", "0x%X" % (2 * size), "a.p0.hex", "o.bin")
    for byte in "01":
        made_by("objcopy", "-I", "binary", "-O", "binary", "-i", "2", "-b", byte, "o.bin", "o." + byte)
    return read("o.0"), read("o.1")


def joined():
    """The bytes that srec_cat joins of the two devices."""
    made_by("srec_cat", "a.hi.bin", "-binary", "-unsplit", "2", "0", "a.lo.bin", "-binary", "-unsplit", "2", "1", "-o", "j.bin", "-binary")
    return read("j.bin")


def outputs():
    return sorted(name for name in os.listdir(".") if name not in ("a.asm", "a.cmd"))


def refused(program, call, words, size):
    """What is wrong where a word is past the ROM."""
    done = run(program, *call)
    wanted = "rom:%04X: 79 PastRom\n" % min(address for address in words if address >= size)
    if (done.returncode, done.stdout, done.stderr.decode()) != (1, b"", wanted) or outputs():
        return "%s %s, not %s; %s" % (done.returncode, done.stderr.decode(), wanted, outputs())
    return None


def wrong(program, words, size, fill, given):
    """What is wrong with the ROM of these words, if anything."""
    for name in outputs():
        os.remove(name)
    with open("a.asm", "w") as file, open("a.cmd", "w") as command:
        text, places = source(words)
        file.write(text)
        command.write(places)
    whole = [words.get(address, fill) for address in range(size)]
    high, low = bytes(word >> 8 for word in whole), bytes(word & 255 for word in whole)
    first = b"".join(word.to_bytes(2, "big") for word in whole)
    last = b"".join(word.to_bytes(2, "little") for word in whole)
    files = [[("a.hi.bin", high), ("a.lo.bin", low)], [("a.bin", first)], [("a.bin", last)]]
    for form, wanted in zip(FORMS, files):
        call = ["build", "a.asm", "--command", "a.cmd", "--out", "a", "--rom", form % size] + given
        if any(address >= size for address in words):
            return refused(program, call, words, size)
        done = run(program, *call)
        if done.returncode or done.stderr:
            return "%s: %s %s" % (call, done.returncode, done.stderr)
        for name, content in wanted:
            if read(name) != content:
                return "%s: %s is not the words" % (call, name)
        if done.stdout.decode() != "".join(line(*file) for file in wanted):
            return "%s: %s" % (call, done.stdout.decode())
    if fill >> 8 == fill & 255 and words:
        if srecords(fill, size) != (high, low, first, last):
            return "srec_cat has other bytes"
        # (objcopy begins with the first word that there is)
        if 0 in words and objcopied(fill, size) != (high, low):
            return "objcopy has other bytes"
    if joined() != first:
        return "srec_cat joins the devices to other bytes"
    return None


def main():
    parser = argparse.ArgumentParser(description=__doc__.split("\n")[0])
    parser.add_argument("program")
    parser.add_argument("--count", type=int, default=100)
    parser.add_argument("--seed", type=int, default=1)
    options = parser.parse_args()
    program, source_of = os.path.abspath(options.program), random.Random(options.seed)
    with tempfile.TemporaryDirectory() as folder:
        os.chdir(folder)
        for number in range(options.count):
            words = sections(source_of)
            size = source_of.choice((0x400, 0x800, 0x1000, 0x10000, max(words) + 1, max(words) + 1, max(1, max(words))))
            fill = source_of.choice((0xFFFF, 0xFFFF, 0, 0x5555, source_of.randint(0, 65535)))
            given = [] if fill == 0xFFFF else ["--fill", "%X" % fill]
            fault = wrong(program, words, size, fill, given)
            if fault:
                sys.exit("round %d, size %X, fill %04X: %s" % (number, size, fill, fault))
    print("%d ROMs are as srec_cat, objcopy and zlib have them" % options.count)


if __name__ == "__main__":
    main()
