#!/usr/bin/env python3
"""Holds what `-I` finds against the rule, on folders made at random.

    python3 tools/folders.py PROGRAM [--count N] [--seed N]

Each round puts files of the same few names, with other words in each, into the folder of the source and into further
folders, and builds a source that copies some of them, which copy others. The program must be that of one source in which
each `.copy` is replaced by the lines of the file that the rule names: the file as it stands, and where there is none that of
the first folder of the options that has one. Where no file has the name, fault 8 must name it, and nothing may be written.
"""
import argparse
import os
import random
import subprocess
import sys
import tempfile

NAMES = ["%s.inc" % letter for letter in "abcde"]
FOLDERS = ["one", "two", "three/deep"]


def content(source, level):
    """The lines of a file: words, and copies of the files that come after it in the order of names."""
    lines = []
    for _ in range(source.randint(1, 4)):
        if level < len(NAMES) and source.random() < 0.5:
            lines.append('        .%s "%s"' % (source.choice(("copy", "include")), source.choice(NAMES[level:])))
        else:
            lines.append("        .word %d" % source.randint(0, 65535))
    return lines


def written(path, lines):
    os.makedirs(os.path.dirname(path) or ".", exist_ok=True)
    with open(path, "w") as file:
        file.write("".join(line + "\n" for line in lines))


def place(name, given):
    """Where the rule finds a name, or None."""
    for path in [name] + ["%s/%s" % (folder, name) for folder in given]:
        if os.path.isfile(path):
            return path
    return None


class Missing(Exception):
    pass


def flat(lines, given):
    """The lines with each copy replaced by the lines of its file."""
    made = []
    for line in lines:
        if '"' not in line:
            made.append(line)
            continue
        name = line.split('"')[1]
        path = place(name, given)
        if path is None:
            raise Missing(name)
        with open(path) as file:
            made += flat(file.read().splitlines(), given)
    return made


def run(*words):
    return subprocess.run(words, capture_output=True, text=True)


def wrong(program, source):
    """What is wrong in a round, if anything."""
    for level, name in enumerate(NAMES):
        for folder in ["."] + FOLDERS:
            if source.random() < (0.2 if folder == "." else 0.5):
                written("%s/%s" % (folder, name), content(source, level + 1))
    lines = content(source, 0)
    written("a.asm", lines)
    given = source.sample(FOLDERS, source.randint(0, 3)) + source.choice(([], ["nowhere"]))
    source.shuffle(given)
    options = [word for folder in given for word in source.choice((["-I", folder], ["-I" + folder], ["--include", folder], ["--include=" + folder]))]
    done = run(program, "build", "a.asm", "--out", "a", *options)
    try:
        written("b.asm", flat(lines, given))
    except Missing as missing:
        wanted = (1, "", "%s: 8 CannotRead\n" % missing)
        if (done.returncode, done.stdout, done.stderr) != wanted or os.path.exists("a.p0.hex"):
            return "%s: %s, not %s" % (options, done.stderr, wanted[2])
        return None
    other = run(program, "build", "b.asm", "--out", "b")
    if done.returncode or other.returncode:
        return "%s: %s%s" % (options, done.stderr, other.stderr)
    with open("a.p0.hex") as first, open("b.p0.hex") as second:
        return None if first.read() == second.read() else "%s: another program" % options


def main():
    parser = argparse.ArgumentParser(description=__doc__.split("\n")[0])
    parser.add_argument("program")
    parser.add_argument("--count", type=int, default=200)
    parser.add_argument("--seed", type=int, default=1)
    options = parser.parse_args()
    program, source = os.path.abspath(options.program), random.Random(options.seed)
    for number in range(options.count):
        with tempfile.TemporaryDirectory() as folder:
            os.chdir(folder)
            fault = wrong(program, source)
            os.chdir("/")
        if fault:
            sys.exit("round %d: %s" % (number, fault))
    print("%d sources are read as the rule of -I says" % options.count)


main()
