#!/usr/bin/env python3
"""altered_sources.py PROGRAM [--seed S] [--count N] [--keep FOLDER] : the program c25 moves altered old sources.

The old sources are random ones of both styles (sources.py) and those of the gate's cases of `move`, each altered once to three times:
cut off, bytes, lines and numbers changed, spliced with another one, made long (tools/altered.py). A call moves one to 200 of them, by
one of the code pages, and a third of the calls with a command file of those cases, altered likewise. It has to end by itself, within 10 seconds of processor time, with status 0 or 4, with nothing on standard error, and with a new file for
each source. A call that does otherwise is reported and kept in FOLDER; the status is 1 then.
"""
import argparse
import glob
import os
import random
import resource
import shutil
import subprocess
import sys
import tempfile

HERE = os.path.dirname(os.path.realpath(__file__))
TOP = os.path.dirname(os.path.dirname(HERE))
sys.path[:0] = [HERE, os.path.join(TOP, "tools")]
sys.dont_write_bytecode = True
import altered  # noqa: E402
import sources  # noqa: E402

SECONDS = 10
CASES = os.path.join(TOP, "crates", "c25_examples", "data", "cases")
RANDOM = 400


def old_sources():
    """Old sources, as bytes."""
    found = [sources.source(seed, seed % 2 == 0).encode() for seed in range(RANDOM)]
    for name in sorted(glob.glob(os.path.join(CASES, "move*", "*.asm")) + glob.glob(os.path.join(CASES, "move*", "*.inc"))):
        with open(name, "rb") as file:
            found += [file.read()] * 4
    return found


def old_commands():
    """Old command files, as bytes."""
    found = []
    for name in sorted(glob.glob(os.path.join(CASES, "move*", "*.cmd"))):
        with open(name, "rb") as file:
            found.append(file.read())
    return found


def limits():
    resource.setrlimit(resource.RLIMIT_CPU, (SECONDS, SECONDS))


def changed(rng, olds):
    """An old source, altered."""
    data = rng.choice(olds)
    for _ in range(rng.randint(1, 3)):
        data = altered.alterations(rng, data, olds)
    return data[:200000]


def written(folder, rng, olds, count):
    """The names of so many altered sources, which it writes into a folder."""
    names = ["s%d.asm" % number for number in range(count)]
    for name in names:
        with open(os.path.join(folder, name), "wb") as file:
            file.write(changed(rng, olds))
    os.mkdir(os.path.join(folder, "new"))
    return names


def options(rng, folder, commands):
    """The options of a call, whose command file, if it has one, it writes into the folder."""
    words = ["--style", rng.choice(("1987", "spru018")), *rng.choice(([], ["--from", "cp437"], ["--from", "latin1"]))]
    if rng.random() < 1 / 3:
        with open(os.path.join(folder, "old.cmd"), "wb") as file:
            file.write(changed(rng, commands) if rng.random() < 0.7 else rng.choice(commands))
        words += ["--command", "old.cmd"]
    return words


def fault_of(program, folder, names, given):
    """What is wrong with a call that moves sources, if something is."""
    words = [program, "move", *names, *given, "--out", "new"]
    done = subprocess.run(words, cwd=folder, stdin=subprocess.DEVNULL, capture_output=True, preexec_fn=limits)
    if done.returncode not in (0, 4):
        return "status %d: %r" % (done.returncode, done.stderr[:200])
    if done.stderr:
        return "standard error: %r" % done.stderr[:200]
    lacking = [name for name in names if not os.path.exists(os.path.join(folder, "new", name))]
    return "no new file of %s" % lacking[0] if lacking else None


def main():
    words = argparse.ArgumentParser()
    words.add_argument("program")
    words.add_argument("--seed", type=int, default=1)
    words.add_argument("--count", type=int, default=10000)
    words.add_argument("--keep")
    given = words.parse_args()
    rng, olds, commands = random.Random(given.seed), old_sources(), old_commands()
    program = os.path.abspath(given.program)
    moved = faults = 0
    while moved < given.count:
        folder = tempfile.mkdtemp()
        names = written(folder, rng, olds, rng.choice((1, 2, 5, 200, 200, 200)))
        asked = options(rng, folder, commands)
        fault = fault_of(program, folder, names, asked)
        moved += len(names)
        if fault:
            faults += 1
            print("call at %d, %s: %s" % (moved, " ".join(asked), fault), flush=True)
            if given.keep:
                shutil.copytree(folder, os.path.join(given.keep, "at%d" % moved))
        shutil.rmtree(folder)
    print("%d altered sources moved, %d calls did otherwise" % (moved, faults))
    return 1 if faults else 0


if __name__ == "__main__":
    sys.exit(main())
