#!/usr/bin/env python3
"""Compares what the modules of tools/page.py, and the page itself, answer with what a program of this machine answers, on random calls.

    python3 tools/page/compare.py PROGRAM [--seed S] [--first K] [--count N] [--page [HTML]] [MODULE..]

PROGRAM is crates/c25/out/c25, or tools/out/c25-unproved for modules made with --unproved. Without MODULE those in tools/out are run, by
node; with --page the page too, in chromium. Call K of a seed is always the same: half of the calls run, build or debug a random program
(tools/mame/programs.py) with random samples, schedules and scripts, half are altered calls of the gate (tools/altered.py). Status,
standard output, standard error and all files have to be the same. A difference is printed, and the status is 1 then.
"""
import argparse
import base64
import json
import os
import random
import subprocess
import sys
import tempfile

HERE = os.path.dirname(os.path.abspath(__file__))
TOP = os.path.dirname(os.path.dirname(HERE))
OUT = os.path.join(TOP, "tools", "out")
sys.path[:0] = [HERE, os.path.join(TOP, "tools"), os.path.join(TOP, "tools", "mame")]
sys.dont_write_bytecode = True
import altered  # noqa: E402
import cases  # noqa: E402
import in_page  # noqa: E402
import kit  # noqa: E402
import programs  # noqa: E402
import test_node  # noqa: E402

SECONDS = 120
EVENTS = ("INT0", "INT1", "INT2", "BIO0", "BIO1")


# ---- calls ----
def samples(rng):
    return "".join("%d %04X\n" % (rng.randrange(16), rng.randrange(65536)) for _ in range(rng.choice((0, 3, 40, 400))))


def schedule(rng):
    steps = sorted(rng.randrange(400) for _ in range(rng.choice((0, 1, 5, 20))))
    return "".join("%d %s\n" % (step, rng.choice(EVENTS)) for step in steps)


def script(rng):
    commands = ("step %d" % rng.randrange(200), "run %d" % rng.randrange(500), "break %X" % rng.randrange(0x100),
                "clear %X" % rng.randrange(0x100), "regs", "stack", "where", "symbols", "list %d" % rng.randrange(40),
                "data %X 16" % rng.randrange(0x400), "prog %X 9" % rng.randrange(0x200))
    return "".join(rng.choice(commands) + "\n" for _ in range(rng.randrange(1, 20)))


def generated(rng, name):
    """A call that runs, builds or debugs a random program."""
    source = programs.Program(rng, rng.choice((3, 12, 60)), rng.random() < 0.3).source()
    files = {"a.asm": source, "a.cmd": programs.COMMAND, "s.txt": samples(rng), "t.txt": schedule(rng), "d.txt": script(rng)}
    inputs = ["--command", "a.cmd", "--samples", "s.txt", "--schedule", "t.txt"]
    command_lines = (["run", "a.asm", *inputs, "--steps", str(rng.choice((0, 50, 1000, 20000))), "--regs"],
                     ["build", "a.asm", "--out", "b", "--symbols", "b.sym", "--command", "a.cmd", "--explain"],
                     ["debug", "a.asm", *inputs, "--script", "d.txt"])
    return cases.Call(name, rng.choice(command_lines), b"", {key: text.encode("ascii") for key, text in files.items()})


def calls_of(seed, numbers):
    made = altered.Cases()
    for number in numbers:
        rng = random.Random("page %d %d" % (seed, number))
        yield generated(rng, "%d-%d" % (seed, number)) if number % 2 else made.case(seed, number)


# ---- answers: the status, both outputs, and the files that are there afterwards ----
def by_program(program, call):
    with tempfile.TemporaryDirectory() as folder:
        altered.write_files(folder, call.files)
        # (the program prints its own name where a command line is invalid)
        done = subprocess.run(["c25"] + call.words, executable=program, cwd=folder, input=call.given, stdout=subprocess.PIPE,
                              stderr=subprocess.PIPE, timeout=SECONDS)
        return done.returncode, done.stdout, done.stderr, cases.files_in(folder)


def decoded(answer, call):
    """The answer of a module, from its line of JSON."""
    if "trap" in answer:
        return answer["trap"], b"", b"", {}
    output, errors = (base64.b64decode(answer[key]) for key in ("output", "errors"))
    written = {name: base64.b64decode(data) for name, data in answer["written"].items()}
    return answer["status"], output, errors, {**call.files, **written}


def by_node(module, calls):
    sent = [test_node.Case(call.name, call.words, call.given, call.files) for call in calls]
    answers = test_node.answers(kit.node(), module, sent)
    return answers and [decoded(answer, call) for answer, call in zip(answers, calls)]


def by_page(page, calls, module=None):
    sent = [test_node.Case(call.name, call.words, call.given, call.files) for call in calls]
    return (decoded(answer, call) for answer, call in zip(in_page.answers(page, sent, module), calls))


def difference(wanted, answer):
    """What differs first, or None."""
    for name, one, other in zip(("status", "standard output", "standard error"), wanted, answer):
        if one != other:
            return "%s: %.200r, not %.200r" % (name, other, one)
    names = sorted(name for name in {**wanted[3], **answer[3]} if wanted[3].get(name) != answer[3].get(name))
    return "the files " + " ".join(names) if names else None


def compared(name, calls, wanted, answers):
    """Prints where the answers differ from those that are wanted, and returns how many do."""
    bad = 0
    for call, one, other in zip(calls, wanted, answers):
        found = difference(one, other)
        if found:
            bad += 1
            print("%s: call %s, c25 %s: %s" % (name, call.name, " ".join(call.words), found), flush=True)
    print("%s: %d calls the same, %d others" % (name, len(calls) - bad, bad), flush=True)
    return bad


def main():
    parser = argparse.ArgumentParser(description=__doc__, formatter_class=argparse.RawDescriptionHelpFormatter)
    parser.add_argument("program")
    parser.add_argument("modules", nargs="*", default=[os.path.join(OUT, name) for name in ("c25-32.wasm", "c25-64.wasm")])
    parser.add_argument("--seed", type=int, default=1)
    parser.add_argument("--first", type=int, default=0)
    parser.add_argument("--count", type=int, default=300)
    parser.add_argument("--page", nargs="?", const=os.path.join(OUT, "c25.html"))
    options = parser.parse_intermixed_args()
    calls, wanted = [], []
    for call in calls_of(options.seed, range(options.first, options.first + options.count)):
        # (the page has no /dev)
        if any(word.startswith("/dev/") for word in call.words):
            continue
        try:
            wanted.append(by_program(os.path.abspath(options.program), call))
            calls.append(call)
        except subprocess.TimeoutExpired:
            print("call %s takes more than %d seconds: left out" % (call.name, SECONDS))
    statuses = [status for status, *_ in wanted]
    print("%d calls: %s" % (len(calls), ", ".join("status %d: %d" % (it, statuses.count(it)) for it in sorted(set(statuses)))), flush=True)
    bad = 0
    for module in options.modules:
        answers = by_node(module, calls)
        if answers is None and options.page:
            print("%s: this node cannot run it, so chromium does" % os.path.basename(module))
            answers = by_page(os.path.abspath(options.page), calls, module)
        if answers is None:
            print("%s: this node cannot run it" % os.path.basename(module))
        else:
            bad += compared(os.path.basename(module), calls, wanted, answers)
    if options.page:
        bad += compared(os.path.basename(options.page), calls, wanted, by_page(os.path.abspath(options.page), calls))
    return 1 if bad else 0


if __name__ == "__main__":
    sys.exit(main())
