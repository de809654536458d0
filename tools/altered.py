#!/usr/bin/env python3
"""Runs the program c25 on altered files: cut off, with bytes, lines and numbers changed, spliced with one another, made long.

usage: python3 tools/altered.py PROGRAM [--seed S] [--first K] [--count N] [--keep FOLDER]

Run K of a seed is always the same: it takes a call of the gate's examples (tools/cases.py; objects are those of the cases), alters
one to three of its files or its command line, and looks at what the program does. Each run must end by itself, within 2 seconds of
processor time, with status 0, 1, 2 or 3; with status 1 nothing stands on standard output and one line `PLACE: NUMBER Name` on
standard error, after which only `--explain` prints more, and nothing is written; with status 0 or 3 nothing stands on standard error
but the three lines of `--regs`. A run that does otherwise is reported and kept in FOLDER, as a folder with its files and its command
line in `words`; the status is 1 then. A folder of this form can be compared with another program's answers.

--make FOLDER writes the runs as such folders, and runs nothing.
"""
import collections
import os
import random
import re
import shutil
import signal
import sys
import tempfile

import cases
from refused_memory import write_files

SECONDS = 2
LINE = re.compile(rb"[^\n]*: ([0-9]+) [A-Za-z0-9]+\n((?s:.*)\nExample: c25 explain \1\n)?\Z")
REGISTERS = re.compile(rb"PC [^\n]*\nAR [^\n]*\n[0-9A-F]{4} [^\n]*\n\Z")
MANY = re.compile(rb"[0-9]{7,}")
NUMBERS = [b"0", b"1", b"-1", b"255", b"256", b"7FFFh", b"0FFFFh", b"10000h", b"65535", b"65536", b"99999", b"2147483647", b"2147483648",
           b"4294967295", b"4294967296", b"99999999999999999999"]
PIECES = [b"\0", b"\r", b"\n", b"\t", b" ", b";", b"'", b'"', b":", b",", b"(", b")", b"*", b"$", b"?", b"#", b"\xc3", b"\xff", b"\xe2\x82\xac",
          b" .loop 200000\n", b" .endloop\n", b" .if 1\n", b" .endif\n", b"P .macro a,b\n", b" .endm\n", b" .copy \"a.asm\"\n", b" .word ",
          b" .sect \"x\"\n", b" .space 65536\n", b"/*", b"*/", b"{", b"}", b"MEMORY", b"SECTIONS", b"PAGE 1", b"-e "]


def alterations(rng, data, others):
    """Data altered once."""
    at = rng.randrange(len(data) + 1)
    to = min(len(data), at + rng.choice((1, 2, 7, 40)))
    kind = rng.randrange(9)
    if kind == 0:
        return data[:at]
    if kind == 1 and data:
        at = rng.randrange(len(data))
        return data[:at] + bytes([rng.randrange(256)]) + data[at + 1:]
    if kind == 2:
        return data[:at] + data[to:]
    if kind == 3:
        return data[:at] + data[at:to] * rng.choice((2, 3, 50)) + data[to:]
    if kind == 4:
        return data[:at] + rng.choice(PIECES) + data[at:]
    if kind == 5:
        other = rng.choice(others)
        cut = rng.randrange(len(other) + 1)
        return data[:at] + other[cut:]
    if kind == 6:
        found = list(re.finditer(rb"[0-9][0-9A-Fa-f]*h?", data))
        if found:
            number = rng.choice(found)
            return data[:number.start()] + rng.choice(NUMBERS) + data[number.end():]
        return data
    lines = data.splitlines(True)
    if kind == 7 and len(lines) > 1:
        one, two = rng.randrange(len(lines)), rng.randrange(len(lines))
        lines[one], lines[two] = lines[two], lines[one]
        return b"".join(lines)
    if lines:
        one = rng.randrange(len(lines))
        return b"".join(lines[:one] + [lines[one]] * rng.choice((0, 2, 200)) + lines[one + 1:])
    return data


def altered_words(rng, words):
    at = rng.randrange(len(words) + 1)
    kind = rng.randrange(4)
    if kind == 0:
        return words[:at] + words[at + 1:]
    if kind == 1:
        return words[:at] + [rng.choice(words + ["--steps", "4294967296", "", "--", "-x", "--command", "none"])] + words[at:]
    if kind == 2 and words:
        at = rng.randrange(len(words))
        other = rng.randrange(len(words))
        words = list(words)
        words[at], words[other] = words[other], words[at]
    return words


def fewer(number):
    """A number of steps that can be done, as one of a few."""
    return b"9999" if int(number.group()) < 4294967296 else number.group()


def needed(call):
    """The files that a call's command line names, and those that these copy."""
    named = {name: data for name, data in call.files.items() if name in call.words}
    whole = b"".join(named.values())
    return {name: data for name, data in call.files.items() if name in named or name.encode() in whole}


class Cases:
    """The calls that are altered, and what one of their files may be spliced with."""

    def __init__(self):
        self.calls = [call for calls in cases.groups().values() for call in calls if call.words and call.words[0] in ("asm", "link", "build", "run", "debug")]
        # (a long run of the examples would measure only the speed of the processor)
        for call in self.calls:
            call.files = needed(call)
        self.calls = [call for call in self.calls if sum(map(len, call.files.values())) < 200000]
        files = {(os.path.splitext(name)[1], data) for call in self.calls for name, data in call.files.items()}
        self.others = collections.defaultdict(list)
        for end, data in sorted(files):
            self.others[end].append(data)

    def case(self, seed, number):
        rng = random.Random("%d %d" % (seed, number))
        call = rng.choice(self.calls)
        words, files = list(call.words), dict(call.files)
        if "--steps" in words[:-1]:
            words[words.index("--steps") + 1] = str(rng.choice((0, 1, 9, 300)))
        names = sorted(name for name in files if name in words) or sorted(files)
        for _ in range(rng.choice((1, 1, 2, 3))):
            if names and rng.randrange(20):
                name = rng.choice(names)
                files[name] = alterations(rng, files[name], self.others[os.path.splitext(name)[1]])
            else:
                words = altered_words(rng, words)
        # (the time of many steps says nothing about the text that asks for them)
        for at, word in enumerate(words[:-1]):
            value = words[at + 1]
            if word == "--script" and value in files:
                files[value] = MANY.sub(fewer, files[value])
            if word == "--steps":
                words[at + 1] = MANY.sub(fewer, value.encode()).decode()
        return cases.Call("%d-%06d" % (seed, number), words, b"", files)


def wrong(status, output, errors, written, seconds):
    """What is wrong with an answer, or None."""
    if status not in (0, 1, 2, 3):
        return "status %d" % status
    if seconds > SECONDS:
        return "%.1f s" % seconds
    if status == 1 and (output or written or not LINE.match(errors)):
        return "a fault with %d bytes on standard output, files %s, and %r" % (len(output), written, errors[:100])
    if status in (0, 3) and errors and not REGISTERS.match(errors):
        return "status %d with %r" % (status, errors[:100])
    return None


def keep(folder, call):
    path = os.path.join(folder, call.name)
    shutil.rmtree(path, ignore_errors=True)
    os.makedirs(path)
    write_files(path, call.files)
    with open(os.path.join(path, "words"), "w", encoding="utf-8") as file:
        file.write("".join(word + "\n" for word in call.words))


class Runs:
    """Runs of a program in a folder of its own, which is the current one."""

    def __init__(self, program, room):
        self.program, self.child = program, None
        os.chdir(room)
        # (the outputs go to files without a name, which are emptied before each run)
        self.output, self.errors, self.nothing = os.memfd_create("output"), os.memfd_create("errors"), os.open(os.devnull, os.O_RDONLY)
        self.actions = [(os.POSIX_SPAWN_DUP2, self.nothing, 0), (os.POSIX_SPAWN_DUP2, self.output, 1), (os.POSIX_SPAWN_DUP2, self.errors, 2)]
        signal.signal(signal.SIGALRM, self.end)

    def end(self, *_):
        os.kill(self.child, signal.SIGKILL)

    def taken(self, descriptor):
        os.lseek(descriptor, 0, os.SEEK_SET)
        return b"".join(iter(lambda: os.read(descriptor, 1 << 20), b""))

    def run(self, call):
        """The status, both outputs, the files written, and the processor time of a call."""
        for name in os.listdir("."):
            shutil.rmtree(name) if os.path.isdir(name) else os.remove(name)
        write_files(".", call.files)
        for descriptor in (self.output, self.errors):
            os.ftruncate(descriptor, 0)
            os.lseek(descriptor, 0, os.SEEK_SET)
        self.child = os.posix_spawn(self.program, [self.program] + call.words, os.environ, file_actions=self.actions)
        signal.alarm(60)
        _, ended, used = os.wait4(self.child, 0)
        signal.alarm(0)
        status = os.WEXITSTATUS(ended) if os.WIFEXITED(ended) else -os.WTERMSIG(ended)
        written = [name for name in os.listdir(".") if name not in call.files and not os.path.isdir(name)]
        return status, self.taken(self.output), self.taken(self.errors), written, used.ru_utime + used.ru_stime


def main(words):
    options = {"--seed": "1", "--first": "0", "--count": "1000", "--keep": None, "--make": None}
    rest = words[1:]
    while len(rest) > 1 and rest[0] in options:
        options[rest[0]] = rest[1]
        rest = rest[2:]
    if not words or words[0].startswith("-") or rest:
        sys.exit(__doc__)
    program, made = os.path.abspath(words[0]), Cases()
    first, count = int(options["--first"]), int(options["--count"])
    statuses, longest, bad = collections.Counter(), 0.0, 0
    kept = {name: options[name] and os.path.abspath(options[name]) for name in ("--keep", "--make")}
    with tempfile.TemporaryDirectory(dir="/dev/shm" if os.path.isdir("/dev/shm") else None) as room:
        runs = Runs(program, room)
        for number in range(first, first + count):
            call = made.case(int(options["--seed"]), number)
            if options["--make"]:
                keep(kept["--make"], call)
                continue
            answer = runs.run(call)
            statuses[answer[0]] += 1
            longest = max(longest, answer[4])
            why = wrong(*answer)
            if why:
                bad += 1
                print("%s: %s" % (call.name, why), flush=True)
                if options["--keep"]:
                    keep(kept["--keep"], call)
            if (number + 1 - first) % 5000 == 0:
                print("%d runs, longest %.2f s" % (number + 1 - first, longest), flush=True)
    if not options["--make"]:
        print("%d runs: %s; longest %.2f s; %d wrong" % (count, ", ".join("status %d %d" % it for it in sorted(statuses.items())), longest, bad))
    return 1 if bad else 0


if __name__ == "__main__":
    sys.exit(main(sys.argv[1:]))
