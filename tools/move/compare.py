#!/usr/bin/env python3
"""compare.py SHOW_MOVE [--seed N] [--count N] [--keep FOLDER] : random old sources, moved by the program show_move and by the model.

The new texts must be the same, byte for byte. Each difference is printed; the status is 1 where there is one.
"""
import argparse, os, re, subprocess, sys, tempfile

sys.path.insert(0, os.path.dirname(os.path.realpath(__file__)))
import model, sources


def texts(shown):
    """The new texts of what show_move prints, by name: what is reported of lines follows each text."""
    parts = re.split(rb"^== (\S+)\n", shown, flags=re.M)
    found = {}
    for name, text in zip(parts[1::2], parts[2::2]):
        at = re.search(rb"(?:^|(?<=\n)|(?<=.))" + re.escape(name) + rb":(?:\d+: (?:done|left): | )", text)
        found[name.decode()] = text[: at.start()] if at else text
    return found


def main():
    words = argparse.ArgumentParser()
    words.add_argument("program")
    words.add_argument("--seed", type=int, default=1)
    words.add_argument("--count", type=int, default=200)
    words.add_argument("--keep")
    given = words.parse_args()
    folder = given.keep or tempfile.mkdtemp()
    os.makedirs(folder, exist_ok=True)
    differ = 0
    for early in (True, False):
        names = []
        for n in range(given.count):
            name = "%s%d.asm" % ("early" if early else "coff", n)
            names.append(name)
            with open(os.path.join(folder, name), "w", newline="") as file:
                file.write(sources.source(given.seed * 1000003 + n, early))
        run = subprocess.run([os.path.abspath(given.program), "early" if early else "coff", *names], cwd=folder, capture_output=True)
        if run.returncode:
            print("show_move ends with status", run.returncode, run.stderr.decode())
            return 1
        found = texts(run.stdout)
        for name in names:
            want = model.moved(os.path.join(folder, name), early).encode()
            if found.get(name) != want:
                differ += 1
                show(name, want, found.get(name, b""))
    print(2 * given.count, "sources,", differ, "differ")
    return 1 if differ else 0


def show(name, want, found):
    for number, (a, b) in enumerate(zip(want.split(b"\n"), found.split(b"\n")), 1):
        if a != b:
            print("%s: line %d of the new text\n  model     %r\n  show_move %r" % (name, number, a, b))
            return
    print("%s: the new texts have %d and %d bytes" % (name, len(want), len(found)))


if __name__ == "__main__":
    sys.exit(main())
