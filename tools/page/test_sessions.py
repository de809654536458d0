#!/usr/bin/env python3
"""Runs the gate's sessions in a shell with c25.js, by node, in the place of c25.

    python3 tools/page/test_sessions.py [NAME..]      (a NAME is as pages/linking; without one: all)

What each command shows has to be what crates/c25_examples/stdout has of it. Commands that call a library are not run.
"""
import os
import re
import shlex
import shutil
import subprocess
import sys
import tempfile

HERE = os.path.dirname(os.path.abspath(__file__))
TOP = os.path.dirname(os.path.dirname(HERE))
CRATE = os.path.join(TOP, "crates", "c25_examples")
SCRIPT = os.path.join(TOP, "tools", "out", "c25.js")
sys.path.insert(0, HERE)
sys.dont_write_bytecode = True
import kit  # noqa: E402

# What is compared: the program, and the shell commands that show what it wrote.
COMPARED = ("c25", "cat", "echo")


def sessions():
    """What each session must show, by its name."""
    with open(os.path.join(CRATE, "stdout"), encoding="utf-8", newline="") as file:
        parts = ("\n" + file.read()).split("\n== ")[1:]
    found = dict(part.partition("\n")[::2] for part in parts)
    return {name: text for name, text in found.items() if os.path.exists(os.path.join(CRATE, "data", name, "session"))}


def for_shell(line):
    """A line for a shell: a `;` ends a command only before `echo`."""
    return re.sub(r";(?! *echo\b)", r"\;", line) if line.startswith("c25 ") else line


def as_script(lines):
    """The lines for a shell, each shown before it is run, and with the status of the one before."""
    shown = ["s=$?; printf '%%s\\n' %s; (exit $s)\n%s\n" % (shlex.quote("$ " + line), for_shell(line)) for line in lines if line]
    return 'c25() { "%s" "%s" "$@"; }\n' % (kit.node(), SCRIPT) + "".join(shown)


def by_commands(text, lines):
    """What a text shows after each of the lines: it shows them in their order."""
    found, text = [], text + "\n"
    for line in lines:
        before, _, text = ("\n" + text).partition("\n$ %s\n" % line)
        found.append(before)
    return [shown.strip("\n") for shown in found[1:] + [text]]


def shown_by(name, lines):
    with tempfile.TemporaryDirectory() as folder:
        place = shutil.copytree(os.path.join(CRATE, "data", name), os.path.join(folder, name))
        if not name.startswith("programs/"):
            os.symlink(os.path.join(CRATE, "data", "programs"), os.path.join(folder, "programs"))
        done = subprocess.run(["sh", "-c", as_script(lines)], cwd=place, stdout=subprocess.PIPE, stderr=subprocess.STDOUT, stdin=subprocess.DEVNULL)
        return done.stdout.decode("utf-8", "replace")


def differences(name, wanted):
    """Prints where a session shows something else, and returns how many commands are the same and how many are not."""
    with open(os.path.join(CRATE, "data", name, "session"), encoding="utf-8") as file:
        lines = [line for line in file.read().splitlines() if line]
    same = bad = 0
    for line, one, other in zip(lines, by_commands(wanted, lines), by_commands(shown_by(name, lines), lines)):
        if line.split()[0] not in COMPARED:
            continue
        same += one == other
        bad += one != other
        if one != other:
            print("%s: $ %s\n  shows:      %r\n  must show:  %r" % (name, line, other[:300], one[:300]), flush=True)
    return same, bad


def main(names):
    if kit.node() is None:
        print("test_sessions.py: node is missing: nothing was tested")
        return 0
    same = bad = 0
    for name, wanted in sessions().items():
        if not names or name in names:
            more_same, more_bad = differences(name, wanted)
            same, bad = same + more_same, bad + more_bad
    print("%d commands show the same, %d do not" % (same, bad))
    return 1 if bad else 0


if __name__ == "__main__":
    sys.exit(main(sys.argv[1:]))
