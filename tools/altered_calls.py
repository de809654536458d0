#!/usr/bin/env python3
"""Runs many altered files in one process: the calls of altered.py, and hex texts and maps, which no command line reads.

usage: python3 tools/altered_calls.py CALLS [--seed S] [--first K] [--count N] [--each N] [--keep FOLDER]

CALLS is what tools/calls.py keeps: with the name of a file it makes the packed calls in it (tools/calls/src/packed.rt.txt). Each process
gets N of them (--each, 100). Call K of a seed is always the same: one of nine alters a hex text or a map of the examples, the
others are those of altered.py with this seed and number; of one in 200, a file is made 1 MiB long by repeating some of it.

It looks for what altered.py looks for; also, a map that is read must be written again as it was, and the words of a hex text as a
text of the same words. Where a process does not come to its end, or takes more than 2 seconds of processor time, its calls are made
again by half as many a process, down to one.
"""
import collections
import os
import random
import re
import signal
import subprocess
import sys
import tempfile

import altered
import cases

LONG = 1 << 20
DIGITS = re.compile(rb"[0-9]{2,}")


class Calls(altered.Cases):
    """The calls of altered.py, and those of the libraries over texts."""

    def __init__(self):
        super().__init__()
        self.texts = []
        for part, kind in (("hex-texts", "hex"), ("maps", "map")):
            files = cases.files_in(os.path.join(cases.DATA, "cases", part))
            texts = sorted(data for name, data in files.items() if name.endswith("." + kind))
            self.texts.append((kind, texts))

    def text(self, name, rng):
        kind, texts = rng.choice(self.texts)
        data = rng.choice(texts)
        for _ in range(rng.choice((1, 1, 2, 3))):
            data = altered.alterations(rng, data, texts)
        return cases.Call(name, ["read_" + kind, "a." + kind], b"", {"a." + kind: data})

    def call(self, seed, number):
        rng = random.Random("calls %d %d" % (seed, number))
        call = self.case(seed, number) if rng.randrange(9) else self.text("%d-%06d" % (seed, number), rng)
        if call.files and not rng.randrange(200):
            name = rng.choice(sorted(call.files))
            call.files[name] = lengthened(rng, call.files[name], "--script" in call.words)
        return call


def lengthened(rng, data, is_debugged):
    """Data of 1 MiB: some of it again and again. (The number of steps and words that a script asks for says nothing about its text.)"""
    lines = data.splitlines(True) or [b"\n"]
    first = rng.randrange(len(lines))
    some = b"".join(lines[first:first + rng.choice((1, 3, 1000))])
    if is_debugged:
        some = DIGITS.sub(b"1", some)
    return data + some * ((LONG - len(data)) // len(some))


def packed(calls):
    parts = []
    for call in calls:
        parts.append(b"call %s\n" % call.name.encode())
        parts += [b"word %s\n" % word.encode() for word in call.words]
        parts += [b"file %d %s\n%s\n" % (len(data), name.encode(), data) for name, data in sorted(call.files.items())]
    return b"".join(parts)


class Process:
    """Runs packed calls, a process each time."""

    def __init__(self, program, room):
        self.program, self.file, self.output = os.path.abspath(program), os.path.join(room, "calls"), os.path.join(room, "output")

    def run(self, calls):
        """The status of a process, what it prints, and its processor time."""
        with open(self.file, "wb") as file:
            file.write(packed(calls))
        with open(self.output, "w+b") as output:
            child = subprocess.Popen([self.program, self.file], stdin=subprocess.DEVNULL, stdout=output, stderr=subprocess.DEVNULL)
            signal.signal(signal.SIGALRM, lambda *_: child.kill())
            signal.alarm(120)
            _, ended, used = os.wait4(child.pid, 0)
            signal.alarm(0)
            child.returncode = 0
            output.seek(0)
            return os.WEXITSTATUS(ended) if os.WIFEXITED(ended) else -os.WTERMSIG(ended), output.read(), used.ru_utime + used.ru_stime


def answers_of(text):
    """The answers that a process prints: a name, status, sizes of both outputs, number of files, and standard error."""
    answers = []
    while text:
        name, _, rest = text.partition(b"\n")
        numbers, _, rest = rest.partition(b"\n")
        if not rest and not numbers:
            break
        status, output, errors, written = map(int, numbers.split())
        answers.append((name.decode(), status, range(output), rest[:errors], written))
        text = rest[errors:]
    return answers


def wrong(call, answer, seconds):
    name, status, output, errors, written = answer
    if name != call.name:
        return "the answer of %s" % name
    if call.words[0:1] in (["read_hex"], ["read_map"]) and len(call.words) == 2 and not errors:
        return None if status in (0, 1) else "status %d" % status
    return altered.wrong(status, output, errors, written, seconds)


class Campaign:
    def __init__(self, process, kept):
        self.process, self.kept = process, kept
        self.statuses, self.longest, self.bad, self.calls = collections.Counter(), 0.0, 0, 0

    def tell(self, call, why):
        self.bad += 1
        print("%s: %s" % (call.name, why), flush=True)
        if self.kept:
            altered.keep(self.kept, call)

    def run(self, calls):
        ended, text, seconds = self.process.run(calls)
        answers = answers_of(text) if ended == 0 else []
        if (len(answers) != len(calls) or seconds > altered.SECONDS) and len(calls) > 1:
            self.run(calls[:len(calls) // 2])
            self.run(calls[len(calls) // 2:])
            return
        self.calls += len(calls)
        self.longest = max(self.longest, seconds)
        if len(answers) != len(calls):
            self.tell(calls[0], "the process ends with %d" % ended)
            return
        for call, answer in zip(calls, answers):
            self.statuses[answer[1]] += 1
            why = wrong(call, answer, seconds)
            if why:
                self.tell(call, why)

    def __str__(self):
        statuses = ", ".join("status %d %d" % it for it in sorted(self.statuses.items()))
        return "%d calls: %s; no process longer than %.2f s; %d wrong" % (self.calls, statuses, self.longest, self.bad)


def main(words):
    options = {"--seed": "1", "--first": "0", "--count": "1000", "--each": "100", "--keep": None}
    rest = words[1:]
    while len(rest) > 1 and rest[0] in options:
        options[rest[0]] = rest[1]
        rest = rest[2:]
    if not words or words[0].startswith("-") or rest:
        sys.exit(__doc__)
    seed, first, count, each = (int(options[name]) for name in ("--seed", "--first", "--count", "--each"))
    made = Calls()
    with tempfile.TemporaryDirectory(dir="/dev/shm" if os.path.isdir("/dev/shm") else None) as room:
        campaign = Campaign(Process(words[0], room), options["--keep"] and os.path.abspath(options["--keep"]))
        for at in range(first, first + count, each):
            campaign.run([made.call(seed, number) for number in range(at, min(at + each, first + count))])
            if (at + each - first) % (100 * each) == 0:
                print(campaign, flush=True)
    print(campaign)
    return 1 if campaign.bad else 0


if __name__ == "__main__":
    sys.exit(main(sys.argv[1:]))
