#!/usr/bin/env python3
"""Keeps the executable that `rt try` makes of the program c25, to look around with while `rt run` proves it.

    python3 tools/unproved.py

After two or three minutes it is tools/out/c25-unproved. No contract has been checked for it: what it answers may be wrong,
and says nothing about what is claimed here. It stops at an index out of bounds, a sum that overflows and a bad access, and
so is slow: a second or two to start, and some seconds for a million steps. The proved one is crates/c25/out/c25.

`rt try` removes what it makes when it ends, so the executable is taken from its folder while it runs.
"""
import os
import subprocess
import sys
import tempfile
import time

TOP = os.path.dirname(os.path.dirname(os.path.abspath(__file__)))
KEPT = os.path.join("tools", "out", "c25-unproved")
# A run that goes on for all the seconds that it is given: so long the executable is there.
RUN = ["--steps", "1", "--seconds", "5", "--data", "spin.asm=%s", "--", "run", "spin.asm", "--steps", "4294967295"]


def keep_program(folder):
    """Links the executable, where there is one in the folder, under the name that is kept."""
    for at, _, files in os.walk(folder):
        path = os.path.join(at, "program")
        if "program" in files and os.access(path, os.X_OK):
            try:
                os.link(path, path + ".kept")
                os.replace(path + ".kept", KEPT)
                os.chmod(KEPT, 0o755)
            except OSError:
                pass        # it is gone meanwhile


def try_program(folder):
    """Runs `rt try` with its files in the folder, and returns what it said."""
    spin = os.path.join(folder, "spin.asm")
    with open(spin, "w", encoding="ascii") as file:
        file.write("HERE    B       HERE\n")
    words = ["rt", "try"] + [word.replace("%s", spin) for word in RUN]
    with tempfile.TemporaryFile("w+") as said:
        trying = subprocess.Popen(words, cwd=os.path.join("crates", "c25"), env={**os.environ, "TMPDIR": folder},
                                  stdin=subprocess.DEVNULL, stdout=subprocess.DEVNULL, stderr=said)
        while trying.poll() is None:
            keep_program(folder)
            time.sleep(0.05)
        said.seek(0)
        return said.read()


def main():
    os.chdir(TOP)
    os.makedirs(os.path.dirname(KEPT), exist_ok=True)
    if os.path.exists(KEPT):
        os.remove(KEPT)
    print("takes two or three minutes, and shows nothing meanwhile", file=sys.stderr)
    with tempfile.TemporaryDirectory(dir=os.path.abspath(os.path.dirname(KEPT))) as folder:
        try:
            said = try_program(folder)
        except OSError as error:
            sys.exit("unproved.py: `rt try` does not run: %s" % error)
    if not os.path.exists(KEPT):
        sys.exit(said + "unproved.py: `rt try` made no executable")
    print("%s is there, and nothing of it is proved" % KEPT)


if __name__ == "__main__":
    main()
