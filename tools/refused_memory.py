#!/usr/bin/env python3
"""Runs the program c25 with its requests for memory refused, one at a time or all from one on, and looks at what it does.

usage: python3 tools/refused_memory.py PROGRAM [--rest] [--most N] [--groups WORD]

It runs the calls of the gate's examples (tools/cases.py): the manual's commands, the larger programs, the cases and the
faults of docs/FAULTS.md; --groups runs only the groups whose names have WORD in them (random/.. only with --groups). Each call is
run with every request granted, and then again for each of its requests with that one refused (--rest: with all from that one on);
where there are more than N requests (400), for the first N/2 and N/2 of the others, evenly spread. Every run must end in one of
these ways:

  reported  status 1, `memory: 9 NoMemory` on standard error, nothing on standard output (or, for a run with `--regs`, all of it),
            and no file written or changed
  full      the status, the outputs and the files of the run with every request granted: the request could be done without, or only
            what `--explain` prints after a fault's line is less: nothing, or what the fault means without the line that is shown
            or without the lines that led to it

It prints a row for each group, then the runs that ended in neither way, and ends with status 1 if there are any. PROGRAM must
be linked dynamically; `cc` makes the library that refuses (tools/refuse.c), in a temporary folder.
"""
import itertools
import os
import shutil
import subprocess
import sys
import tempfile

import cases

SECONDS = 60
TOLD = b"memory: 9 NoMemory\n"


def write_files(folder, files):
    for name, data in files.items():
        path = os.path.join(folder, name)
        os.makedirs(os.path.dirname(path), exist_ok=True)
        with open(path, "wb") as file:
            file.write(data)


class Answer:
    def __init__(self, status, output, errors, written, requests):
        self.status, self.output, self.errors, self.written, self.requests = status, output, errors, written, requests

    def same(self, other):
        return (self.status, self.output, self.errors, self.written) == (other.status, other.output, other.errors, other.written)

    def explains_less(self, other):
        """Whether it is the other answer, a fault, but without its note, or with a note that lacks the line, or the part of it that is
        refused and the lines that led to it."""
        line, _, note = other.errors.partition(b"\n")
        shown, _, after = note.partition(b"\n")
        rows = after.splitlines(keepends=True)
        led = sum(1 for _ in itertools.takewhile(lambda row: row.startswith(b"  "), rows))
        meant = b"".join(rows[led:])
        less = (line + b"\n", line + b"\n" + after, line + b"\n" + shown + b"\n" + meant, line + b"\n" + meant)
        return (self.status, self.output, self.written) == (1, b"", {}) and other.status == 1 and self.errors in less

    def is_reported(self):
        return (self.status, self.output, self.errors, self.written) == (1, b"", TOLD, {})

    def lacks_registers(self, other):
        """Whether it is the other answer, a run with its registers, but memory was refused for the registers."""
        return (self.status, self.output, self.errors, self.written) == (1, other.output, TOLD, {})

    def __str__(self):
        return "status %s, %d bytes on standard output, %r, files %s" % (self.status, len(self.output), self.errors[:100], sorted(self.written))


class Sweep:
    """Runs of one program under a library that refuses, each in a folder of the call's files."""

    def __init__(self, program, room):
        self.program, self.folder = os.path.abspath(program), os.path.join(room, "files")
        self.library = os.path.join(room, "refuse.so")
        source = os.path.join(os.path.dirname(os.path.abspath(__file__)), "refuse.c")
        subprocess.run(["cc", "-shared", "-fPIC", "-O1", "-Wall", "-o", self.library, source], check=True)

    def lay(self, files):
        shutil.rmtree(self.folder, ignore_errors=True)
        os.mkdir(self.folder)
        write_files(self.folder, files)

    def run(self, call, first, last):
        """The answer of a call with these requests refused; the folder has the call's files before and after it."""
        reader, writer = os.pipe()
        env = dict(os.environ, LD_PRELOAD=self.library, REFUSE_FROM=str(first), REFUSE_TO=str(last), REFUSE_COUNT=str(writer))
        try:
            done = subprocess.run([self.program] + call.words, cwd=self.folder, env=env, input=call.given, pass_fds=(writer,),
                                  stdout=subprocess.PIPE, stderr=subprocess.PIPE, timeout=SECONDS)
            status, output, errors = done.returncode, done.stdout, done.stderr
        except subprocess.TimeoutExpired:
            status, output, errors = "no end", b"", b""
        os.close(writer)
        with os.fdopen(reader, "rb") as file:
            told = file.read()
        files = cases.files_in(self.folder)
        written = {name: data for name, data in files.items() if call.files.get(name) != data}
        if written:
            self.lay(call.files)
        return Answer(status, output, errors, written, int(told) if told else None)


def chosen(requests, most):
    if requests <= most:
        return list(range(1, requests + 1))
    half = most // 2
    return list(range(1, half + 1)) + sorted({half + 1 + k * (requests - half) // half for k in range(half)})


def behind_writes(sweep, calls):
    """The calls of a session, each with the files that those before it wrote."""
    files = {}
    for call in calls:
        call.files = dict(call.files, **files)
        sweep.lay(call.files)
        answer = sweep.run(call, 1, 0)
        if answer.requests is None:
            sys.exit("%s: the program counts no requests: is it linked dynamically?" % call.name)
        files.update(answer.written)
        yield call, answer


def swept(sweep, name, calls, most, rest):
    """The numbers of calls, requests and runs, and of runs reported, full and neither; and the lines about the last."""
    tally, lines = [0] * 6, []
    for call, full in behind_writes(sweep, calls):
        sweep.lay(call.files)
        tally[0] += 1
        tally[1] += full.requests
        for number in chosen(full.requests, most):
            answer = sweep.run(call, number, full.requests * 2 if rest else number)
            tally[2] += 1
            # (where the full answer is a fault, that fault may come instead of `memory: 9 NoMemory`)
            enough = answer.same(full) or "--explain" in call.words and answer.explains_less(full)
            reported = answer.is_reported() or "--regs" in call.words and answer.lacks_registers(full)
            kind = 4 if enough else 3 if reported else 5
            tally[kind] += 1
            if kind == 5:
                lines.append("%s, request %d: %s" % (call.name, number, answer))
    return tally, lines


def row(name, cells):
    print("%-36s %8s %10s %10s %10s %8s %8s" % ((name,) + tuple(cells)), flush=True)


def main(words):
    if not words or words[0].startswith("-"):
        sys.exit(__doc__)
    options = {"--most": "400", "--groups": None}
    flags, rest = set(), words[1:]
    while rest:
        if rest[0] == "--rest":
            flags.add(rest[0])
            rest = rest[1:]
        elif rest[0] in options and len(rest) > 1:
            options[rest[0]] = rest[1]
            rest = rest[2:]
        else:
            sys.exit(__doc__)
    most, from_one_on, wanted = int(options["--most"]), "--rest" in flags, options["--groups"]
    whole, wrong = [0] * 6, []
    row("Group", ("calls", "requests", "runs", "reported", "full", "neither"))
    with tempfile.TemporaryDirectory(dir="/dev/shm" if os.path.isdir("/dev/shm") else None) as room:
        for name, calls in cases.groups().items():
            if name.startswith("random/") if wanted is None else wanted not in name:
                continue
            tally, lines = swept(Sweep(words[0], room), name, calls, most, from_one_on)
            row(name, tally)
            whole, wrong = [a + b for a, b in zip(whole, tally)], wrong + lines
    row("all", whole)
    for line in wrong[:40]:
        print(line)
    return 1 if wrong else 0


if __name__ == "__main__":
    sys.exit(main(sys.argv[1:]))
