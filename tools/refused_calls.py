#!/usr/bin/env python3
"""Runs the calls of tools/calls with their requests for memory refused, one at a time or all from one on.

usage: python3 tools/refused_calls.py CALLS [--rest] [--most N]

CALLS is what tools/calls.py keeps. It makes each call of the libraries that takes memory, one after another, and repeats one that
is refused memory. It is run with every request granted, where it must print tools/calls/stdout, and then again for
each of its requests with that one refused (--rest: with all from that one on; --most N: at most so many runs). Every run must be

  reported  it prints tools/calls/stdout, except for lines that say that a call was refused memory. What that call was made on
            is unchanged; the calls after it answer in full, the repeated one too. With --rest the run ends there
  full      it prints tools/calls/stdout as it is: the request could be done without
  ended     it prints the same up to where the run ends with status 1, with no call refused: a list for a call could not be made

It prints how often each call reported a refusal, and the runs that are none of these three, with status 1 if there are any.
"""
import collections
import os
import sys
import tempfile

import cases
from refused_memory import Sweep, chosen

WANTED = os.path.join(cases.TOP, "tools", "calls", "stdout")
# An expansion that was refused memory reports that from then on.
FOR_EVER = "next_line"


def without_refusals(lines):
    """The lines without those of refused calls, or None where one changed what it was made on."""
    left, before, rest = [], {}, iter(lines)
    for line in rest:
        name, _, said = line.partition(": ")
        if said == "NoMemory" and name != FOR_EVER:
            if name in before and next(rest, before[name]) != before[name]:
                return None
            continue
        left.append(line)
        if " leaves " in line:
            before[line.partition(" leaves ")[0]] = line
    return left


def granted(lines, wanted):
    """The lines with those of a refused expansion as they are wanted: all of its lines from one on report the refusal."""
    refused, left = False, list(lines)
    for at, (mine, theirs) in enumerate(zip(lines, wanted)):
        refused = refused or mine == FOR_EVER + ": NoMemory"
        if refused and mine == FOR_EVER + ": NoMemory" and theirs.startswith(FOR_EVER + ": "):
            left[at] = theirs
        elif refused and theirs.startswith(FOR_EVER + ": "):
            left[at] = None
    return left


def kind_of(answer, wanted, rest):
    """What an answer is, and the name of the call that was refused first."""
    lines = answer.output.decode("utf-8", "replace").splitlines()
    reports = [line.partition(": ")[0] for line in lines if line.endswith(": NoMemory")]
    refused = reports[0] if reports else None
    left = without_refusals(lines)
    # (one refused request is reported by one call, once)
    if left is None or not rest and len(set(reports) if refused == FOR_EVER else reports) > 1:
        return "another", refused
    left = granted(left, wanted)
    if answer.status == 0 and left == wanted:
        return ("reported" if refused else "full"), refused
    if answer.status == 1 and left == wanted[:len(left)] and (rest or not refused):
        return ("reported" if refused else "ended"), refused
    return "another", refused


def main(words):
    rest = "--rest" in words
    words = [word for word in words if word != "--rest"]
    most = int(words.pop(words.index("--most") + 1)) if "--most" in words else sys.maxsize
    words = [word for word in words if word != "--most"]
    if len(words) != 1 or words[0].startswith("-"):
        sys.exit(__doc__)
    with open(WANTED, encoding="ascii") as file:
        wanted = file.read().splitlines()
    kinds, names, wrong = collections.Counter(), collections.Counter(), []
    with tempfile.TemporaryDirectory(dir="/dev/shm" if os.path.isdir("/dev/shm") else None) as room:
        sweep, call = Sweep(words[0], room), cases.Call("calls", [], b"", {})
        sweep.lay({})
        full = sweep.run(call, 1, 0)
        if full.status != 0 or full.output.decode("utf-8", "replace").splitlines() != wanted:
            sys.exit("%s does not print tools/calls/stdout" % words[0])
        for number in chosen(full.requests, most):
            answer = sweep.run(call, number, full.requests * 2 if rest else number)
            kind, refused = kind_of(answer, wanted, rest)
            kinds[kind] += 1
            names.update([refused] if refused else [])
            if kind == "another":
                wrong.append("request %d: %s" % (number, answer))
    for name, count in names.items():
        print("%-24s %6d" % (name, count))
    print("%d requests, %d runs: %s" % (full.requests, sum(kinds.values()), ", ".join("%d %s" % (n, k) for k, n in sorted(kinds.items()))))
    print("\n".join(wrong[:40]))
    return 1 if wrong else 0


if __name__ == "__main__":
    sys.exit(main(sys.argv[1:]))
