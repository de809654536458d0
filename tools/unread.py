#!/usr/bin/env python3
"""Holds what `--explain` says of files that cannot be read (8) against the reasons for which they cannot.

usage: python3 tools/unread.py PROGRAM

The reasons are those that the gate cannot make: rights, symbolic links, an error of the system with another number, and a device
without an end. Where the script runs as root, to whom no right is refused, the program is run as the user 65534. The status is 1
where a line differs.
"""
import os
import subprocess
import sys
import tempfile

NOBODY = 65534
REASONS = {
    "forbidden.asm": "its rights, or those of a folder of its path, do not allow to read it: change them",
    "closed/a.asm": "its rights, or those of a folder of its path, do not allow to read it: change them",
    "circle.asm": "its symbolic links lead in a circle, or are too many: name the file itself",
    "nowhere.asm": "there is no such file, or a folder of its path is missing",
    "/proc/self/mem": "the system refuses it with error 5",
    "/dev/zero": "it has more than 16,777,216 bytes: divide it",
}


def make_files(folder):
    """The files of the names above that are not the system's."""
    os.chmod(folder, 0o755)
    os.mkdir(os.path.join(folder, "closed"))
    for name in ["forbidden.asm", "closed/a.asm"]:
        with open(os.path.join(folder, name), "w", encoding="ascii") as file:
            file.write("        NOP\n")
    os.chmod(os.path.join(folder, "forbidden.asm"), 0)
    os.chmod(os.path.join(folder, "closed"), 0)
    os.symlink("circle.asm", os.path.join(folder, "circle.asm"))
    os.symlink("gone.asm", os.path.join(folder, "nowhere.asm"))


def told(program, folder, name):
    """The first two lines that a run of this source prints to standard error."""
    user = {"user": NOBODY} if os.geteuid() == 0 else {}
    run = subprocess.run([program, "run", name, "--explain"], cwd=folder, stdin=subprocess.DEVNULL, capture_output=True, text=True,
                         check=False, **user)
    return run.stderr.splitlines()[:2]


def main():
    program = os.path.abspath(sys.argv[1])
    differ = 0
    with tempfile.TemporaryDirectory() as folder:
        make_files(folder)
        for name, reason in REASONS.items():
            lines, meant = told(program, folder, name), [f"{name}: 8 CannotRead", f"{name}: {reason}"]
            if lines != meant:
                differ += 1
                print(f"{name}: {lines}, not {meant}")
        os.chmod(os.path.join(folder, "closed"), 0o755)
    print(f"{len(REASONS)} files, {differ} differ")
    sys.exit(differ > 0)


main()
