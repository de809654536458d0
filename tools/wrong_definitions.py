#!/usr/bin/env python3
"""Changes the meaning of one rule after another, and counts which changes the cases of the gate show.

usage: python3 tools/wrong_definitions.py build             makes tools/out/wrong-definitions (ten minutes or more, 3 GB)
       python3 tools/wrong_definitions.py run [NUMBER..]    runs the cases on each change, or on those of these numbers
       python3 tools/wrong_definitions.py table             prints the table of what was run

(from the top of the repository)

A wrong definition with code that follows it is proved like a right one: only cases whose answers were worked out from the rule can show it. For the
program that is a changed body without a proof. tools/wrong_definitions/changes.txt lists single changes of meaning; `build` makes one executable
of c25_examples without proofs that has all of them, each off until its number is put into the executable. `run` runs what
crates/c25_examples/args names, one part after another, on each change until a part prints something else than crates/c25_examples/stdout
has, or ends with another status: the parts of the change's subject first, those of `random/` last. It goes on where it was interrupted
(tools/out/wrong-definitions.tsv has a line for each change that was run), with two processes at the lowest priority (--workers NUMBER).
"""
import concurrent.futures
import os
import shutil
import subprocess
import sys
import tempfile
import time

TOP = os.path.dirname(os.path.dirname(os.path.abspath(__file__)))
sys.path.insert(0, os.path.join(TOP, "tools", "wrong_definitions"))
import build  # noqa: E402
import changes  # noqa: E402

PROGRAM = "tools/out/wrong-definitions"
RESULTS = PROGRAM + ".tsv"
CRATE = "crates/c25_examples"
# The longest that a part may run: one takes some seconds at most where no other process wants the processor.
SECONDS = 600
NOTHING = "-"
# Where a change of a subject shows most likely; what is counted does not depend on it.
LIKELY = {
    "opcodes": "instructions instructions-printed disassembly", "effects": "arithmetic registers rules.cases programs runs",
    "interrupts": "runs schedules.cases debugged-runs copied-to-b0", "board": "runs samples.cases schedules.cases",
    "debugger": "debugger scripts.cases debugged-runs", "lines": "lines values rules.cases", "expressions": "values lines rules.cases",
    "expansion": "expansion substitution expansions.cases macro-directives-refused rules.cases",
    "statements": "instructions-refused directives-refused modules instructions", "sections": "modules directives-refused linking",
    "listing": "listings modules", "records": "altered-objects.cases cut-off-objects.cases modules objects.cases",
    "commands": "command-files command-texts.cases", "placing": "linking command-files copied-to-b0", "linking": "linking objects.cases copied-to-b0",
    "map": "maps linking", "hex": "hex-texts cut-off-texts.cases", "symbols": "symbols", "dis": "disassembly copied-to-b0",
    "explain": "explained all-faults run-ends unused-inputs command-files", "run": "calls.cases runs", "prompt": "prompt prompt-each prompt-looks prompt-trace",
    "rom": "rom", "counts": "counts", "front": "front folders", "warnings": "warnings",
}


def expected():
    """What each part that `args` names must print, with its head line."""
    with open(CRATE + "/stdout", "rb") as file:
        text = file.read()
    with open(CRATE + "/args", encoding="ascii") as file:
        names = file.read().split()
    starts, at = [], 0
    for name in names:
        at = text.index(b"== " + name.encode() + b"\n", at)
        starts.append(at)
    return {name: text[a:b] for name, a, b in zip(names, starts, starts[1:] + [len(text)])}


def in_order(subject, names):
    """The parts in the order in which a change of a subject is tried."""
    likely = ["cases/" + it for it in LIKELY.get(subject, "").split()]
    first = [it for it in likely if it in names]
    rest = [it for it in names if it not in first]
    return first + [it for it in rest if not it.startswith("random/")] + [it for it in rest if it.startswith("random/")]


def difference(ran, wanted):
    """How the answer of a part differs from what it must be, or None."""
    if ran.returncode != 2:
        return "ends with status %d" % ran.returncode
    if ran.stdout == wanted:
        return None
    pairs = zip(ran.stdout.split(b"\n"), wanted.split(b"\n"))
    number, (given, right) = next(((i, it) for i, it in enumerate(pairs, 1) if it[0] != it[1]), (0, (b"", b"")))
    return "line %d: %r for %r" % (number, given[:60], right[:60])


def shown_by(program, name, wanted, data):
    """Runs one part in a copy of the data, and returns how its answer differs, or None."""
    try:
        ran = subprocess.run(["nice", "-n", "19", program, name], cwd=data, stdin=subprocess.DEVNULL, stdout=subprocess.PIPE,
                             stderr=subprocess.DEVNULL, timeout=SECONDS)
    except subprocess.TimeoutExpired:
        return "does not end"
    return difference(ran, wanted)


def tried(number, subject, wanted):
    """The part that shows a change first, and how; `-` where none does."""
    with tempfile.TemporaryDirectory(prefix="wrong-definitions-") as folder:
        program = os.path.join(folder, "program")
        build.executable_of(number, PROGRAM, program)
        # (a part may name files of another one)
        data = os.path.join(folder, "data")
        shutil.copytree(os.path.join(CRATE, "data"), data)
        for name in in_order(subject, list(wanted)):
            how = shown_by(program, name, wanted[name], data)
            if how:
                return name, how
    return NOTHING, ""


def results():
    """What was run: for each number the part that showed it."""
    if not os.path.exists(RESULTS):
        return {}
    with open(RESULTS, encoding="utf-8") as file:
        rows = [it.rstrip("\n").split("\t") for it in file]
    return {int(it[0]): it[1] for it in rows}


def run(numbers, workers):
    """Runs the changes that were not run yet, or those of the numbers again, and writes a line for each."""
    wanted, done = expected(), results()
    rows = [it for it in changes.changes() if (it.number in numbers if numbers else it.number not in done)]
    jobs = [(it.number, it.subject) for it in rows]
    if build.NO_CHANGE not in done:
        jobs.insert(0, (build.NO_CHANGE, NOTHING))
    with concurrent.futures.ThreadPoolExecutor(workers) as pool, open(RESULTS, "a", encoding="utf-8") as out:
        waiting = {pool.submit(tried, number, subject, wanted): number for number, subject in jobs}
        for it in concurrent.futures.as_completed(waiting):
            out.write("%d\t%s\t%s\n" % (waiting[it], *it.result()))
            out.flush()


def kind_of(name):
    """Which kind of case a part has: 0 made by hand, 1 random, 2 none."""
    return 2 if name == NOTHING else 1 if name.startswith("random/") else 0


def table():
    """Prints for each subject how many changes were run and what showed them, and the changes that nothing showed."""
    shown, rows = results(), changes.changes()
    if shown.get(build.NO_CHANGE, NOTHING) != NOTHING:
        print("without a change %s differs: this table says nothing" % shown[build.NO_CHANGE])
    rows = [it for it in rows if it.number in shown]
    subjects = list(dict.fromkeys(it.subject for it in rows))
    print(time.strftime("%Y-%m-%d") + "\n\n| Subject | Changes | Cases made by hand | Random files alone | Nothing |\n|---|---|---|---|---|")
    for subject in [*subjects, "all"]:
        kinds = [kind_of(shown[it.number]) for it in rows if subject in (it.subject, "all")]
        print("| %s | %d | %d | %d | %d |" % (subject, len(kinds), *(kinds.count(it) for it in range(3))))
    for kind, head in ((1, "Shown by the random files alone:"), (2, "Shown by nothing:")):
        print("\n" + head + "\n")
        for it in rows:
            if kind_of(shown[it.number]) == kind:
                print("- %d, %s, %s: %s" % (it.number, it.subject, it.rule, it.text))


def main(words):
    os.chdir(TOP)
    workers = 2
    if "--workers" in words:
        at = words.index("--workers")
        workers = int(words[at + 1])
        del words[at:at + 2]
    if words == ["build"]:
        os.makedirs(os.path.dirname(PROGRAM), exist_ok=True)
        build.build(changes.copy_with_all, PROGRAM)
    elif words[:1] == ["run"]:
        run({int(it) for it in words[1:]}, workers)
    elif words == ["table"]:
        table()
    else:
        sys.exit(__doc__)


if __name__ == "__main__":
    main(sys.argv[1:])
