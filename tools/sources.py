#!/usr/bin/env python3
"""Holds the sources that `c25 dis --source` writes of random images against the images.

    python3 tools/sources.py PROGRAM [--count N] [--seed N] [--large]

An image has gaps, erased words, vectors and hints of all kinds (images.py); some hints are false, and some lines of hints are faulty. It is
given as a hex text, as one binary file of either order of bytes, or as a pair. Either both texts are written, and `build` of them has the
words of the image at their addresses, but for erased words of which `--blank` many stand one after the other; the lines of addresses that
hints name have these names; each line that is printed begins with `;`, and without that is read as a hint (but for the first one). Or there is
one line with status 1, and nothing is written: the number of the first line of the hints that is faulty or does not go together with those
before it (92). With --large each image has 16,384 words in two devices, and the time and the memory of each call are printed.
"""
import argparse
import os
import random
import re
import resource
import subprocess
import sys
import tempfile
import time

from images import LONG, SHORT, hex_of, hints_of, image_of, words_at
from rom_lines import hex_bytes

# Lines that are no hints (manual, "Hints").
FAULTY = ["code", "code 0h", "code 10000", "code 0 1", "data 0", "data FFFF 2", "data 0 0", "table 0 0", "label 0 1ST", "label 0", "ref", "noref G",
          "run 0 1 0200", "run 0 1 FEFF", "run 0 2 FFFF", "noreturn", "jump 0", "code 0 code 1", "label 0 A.B"]
# Lines that are hints of no meaning in most images, and empty ones.
ODD = ["", "; a comment", "  \t", "code FFFF", "data FFFF 1", "table 0 1 FFFF", "label 0 LAC", "label 1 L0000", "label 2 S0002", "ref 0 ; x", "noref FFFE", "run 0 1 FF00",
       "noreturn 0", "CODE 0", "label 3 AR1", "label 4 " + "A" * 40]


PREDEFINED = ["AR%d" % number for number in range(8)] + ["PA%d" % number for number in range(16)]


def hinted(lines, word):
    """The fields after the word of each line that is such a hint, with the line's index."""
    for index, line in enumerate(lines):
        fields = line.split(";")[0].split()
        if fields and fields[0].lower() == word:
            yield index, fields[1:]


def apart(one, count, other, others):
    return one + count <= other or other + others <= one


def first_misfit(lines):
    """The index of the first line that does not go together with those before it; the number of lines for none."""
    misfits, named, runs = [len(lines)], {}, []
    for index, (address, name) in hinted(lines, "label"):
        if name.upper() in PREDEFINED or len(name) > 128 or named.setdefault(name, int(address, 16)) != int(address, 16):
            misfits.append(index)
            break
    for index, fields in hinted(lines, "run"):
        load, count, run = (int(field, 16) for field in fields)
        if any(load + r != a + run and not (apart(load, count, a, n) and apart(run, count, r, n)) for a, n, r in runs):
            misfits.append(index)
            break
        runs.append((load, count, run))
    return min(misfits)


def case_of(rng):
    """An image, lines of hints, the number of the first faulty one, and how many erased words are blank."""
    words = image_of(rng)
    lines = hints_of(rng, words)
    for _ in range(rng.choice([0, 0, 0, 1, 3])):
        lines.insert(rng.randrange(len(lines) + 1), rng.choice(ODD[:-3] if rng.random() < 0.8 else ODD))
    faulty = None
    if rng.random() < 0.1:
        faulty = rng.randrange(len(lines) + 1)
        lines.insert(faulty, rng.choice(FAULTY))
    misfit = first_misfit(lines[:faulty])
    if misfit < len(lines[:faulty]):
        faulty = misfit
    return words, lines, faulty, rng.choice([None, 0, 1, 2, 8, 16, 65535])


def large_image(rng):
    """The words of a pair of 27C256 of which the program takes some: 16,384 words."""
    words = {address: 0xFFFF for address in range(0x4000)}
    for _ in range(rng.randint(1, 6)):
        start = rng.randrange(0x4000)
        words_at(rng, words, start, min(rng.randint(1, 6000), 0x4000 - start), [rng.randrange(0x4000) for _ in range(200)])
    words[0], words[1] = 0xFF80, rng.randrange(2, 0x4000)
    return {address: word for address, word in words.items() if address < 0x4000}


def dense_image(rng):
    """16,384 words that are all instructions, one after the other."""
    words, at = {}, 0
    while at < 0x4000:
        if rng.random() < 0.3 and at + 1 < 0x4000:
            words[at], words[at + 1] = rng.choice(LONG[2:]), rng.randrange(0x4000)
            at += 2
        else:
            words[at] = rng.choice(SHORT[1:])
            at += 1
    return words


def written(name, content):
    with open(name, "wb") as file:
        file.write(content)
    return name


def files_of(rng, words, size):
    """The arguments that name an image, whose words it returns: in a binary file all words from 0 on are there."""
    form = rng.choice(["hex", "hex", "high", "low", "pair"]) if size is None else "pair"
    if form == "hex":
        return [written("f.hex", hex_of(words).encode())], words, 0
    end = size or max(words) + 1
    whole = [words.get(address, 0xFFFF) for address in range(end)]
    if form == "pair":
        written("u1.bin", bytes(word >> 8 for word in whole))
        written("u2.bin", bytes(word & 255 for word in whole))
        return ["--high", "u1.bin", "--low", "u2.bin"], dict(enumerate(whole)), 16
    order = "big" if form == "high" else "little"
    written("f.bin", b"".join(word.to_bytes(2, order) for word in whole))
    return ["--binary", "f.bin"] + (["--low-first"] if form == "low" else []), dict(enumerate(whole)), 16


def erased_runs(words):
    """For each address of an erased word, how many of them stand one after the other there."""
    lengths, run = {}, []
    for address in sorted(words):
        if run and (words[address] != 0xFFFF or run[-1] + 1 != address):
            lengths.update(dict.fromkeys(run, len(run)))
            run = []
        if words[address] == 0xFFFF:
            run.append(address)
    lengths.update(dict.fromkeys(run, len(run)))
    return lengths


def kept(words, found, blank):
    """Whether words are kept: none is another one or missing, but for erased words of which `blank` stand together."""
    if any(words.get(address) != word for address, word in found.items()):
        return False
    erased = erased_runs(words)
    return all(blank and erased.get(address, 0) >= blank for address in words if address not in found)


def call(program, *words):
    """A call of the program, with the seconds and the kilobytes that it took."""
    began = time.time()
    done = subprocess.run([program, *words], capture_output=True, text=True, timeout=100)
    return done, time.time() - began


def clean():
    for name in os.listdir("."):
        if name.startswith(("old", "new")):
            os.remove(name)


def refused(done, lines, faulty):
    """What is wrong with the answer where no source is written."""
    if done.stdout or os.path.exists("old.asm") or os.path.exists("old.cmd"):
        return "something is written or printed"
    if faulty is not None:
        wanted = "hints:%d: 92 BadHint\n" % (faulty + 1)
        return "" if done.stderr == wanted else "%r, not %r" % (done.stderr, wanted)
    return "refused: %r" % done.stderr


def misnamed(lines):
    """The addresses that hints name and whose lines of the source have another name or none."""
    names = {int(address, 16): name for _, (address, name) in hinted(lines, "label")}
    with open("old.asm", encoding="ascii") as file:
        rows = {int(line[-5:-1], 16): line.split("\t")[0] for line in file if re.search(r"\t; [0-9A-F]{4}\n$", line)}
    return [address for address, name in names.items() if rows.get(address, name) != name]


def told(text):
    """Whether each line is a comment of a file of hints, and without `;` a hint, the first one apart."""
    lines = text.split("\n")
    return lines[-1] == "" and lines[0].startswith("; old: ") and all(
        re.match(r"; (code [0-9A-F]{4}|ref [0-9A-F]{4}|run [0-9A-F]{4} [0-9A-F]+ FF[0-9A-F]{2}|table [0-9A-F]{4} [0-9A-F]+ [0-9A-F]+)( ;|$)", line) for line in lines[1:-1])


def wrong(program, rng, case, size):
    """What is wrong with the source of an image, or an empty text; whether one was written, and the seconds of the call."""
    words, lines, faulty, blank = case
    clean()
    named, words, default = files_of(rng, words, size)
    options = [] if blank is None else ["--blank", str(blank)]
    if lines:
        written("hints", ("\n".join(lines) + "\n").encode())
        options += ["--hints", "hints"]
    done, seconds = call(program, "dis", "--source", *named, *options, "--out", "old")
    if done.returncode == 1:
        return refused(done, lines, faulty), False, seconds
    if done.returncode or done.stderr or faulty is not None:
        return "status %d: %s" % (done.returncode, done.stderr), False, seconds
    if not told(done.stdout):
        return "printed:\n%s" % done.stdout, True, seconds
    if misnamed(lines):
        return "names: %r" % misnamed(lines), True, seconds
    built, _ = call(program, "build", "old.asm", "--command", "old.cmd", "--out", "new")
    if built.returncode or built.stderr:
        return "build: %s" % built.stderr, True, seconds
    with open("new.p0.hex", encoding="ascii") as file:
        bytes_there = hex_bytes(file.read())
    found = {address // 2: bytes_there[address] * 256 + bytes_there[address + 1] for address in bytes_there if address % 2 == 0}
    if not kept(words, found, default if blank is None else blank):
        return "other words", True, seconds
    return "", True, seconds


def main():
    parser = argparse.ArgumentParser(description=__doc__.split("\n")[0])
    parser.add_argument("program")
    parser.add_argument("--count", type=int, default=1000)
    parser.add_argument("--seed", type=int, default=1)
    parser.add_argument("--large", action="store_true")
    options = parser.parse_args()
    program, number_written, slowest, failed = os.path.abspath(options.program), 0, 0.0, 0
    with tempfile.TemporaryDirectory() as folder:
        os.chdir(folder)
        for number in range(options.count):
            rng = random.Random("%d:%d" % (options.seed, number))
            if options.large:
                case = ((large_image if number % 2 else dense_image)(rng), [], None, None)
            else:
                case = case_of(rng)
            said, is_written, seconds = wrong(program, rng, case, 0x4000 if options.large else None)
            number_written += is_written
            slowest = max(slowest, seconds)
            if said:
                failed += 1
                print("image %d of seed %d: %s" % (number, options.seed, said), flush=True)
    most = resource.getrusage(resource.RUSAGE_CHILDREN).ru_maxrss
    print("%d images, %d written, %d refused, %d wrong; at most %.2f s and %d KB a call" % (options.count, number_written, options.count - number_written - failed, failed, slowest, most))
    return 1 if failed else 0


if __name__ == "__main__":
    sys.exit(main())
