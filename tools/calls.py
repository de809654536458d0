#!/usr/bin/env python3
"""Keeps an executable of the crate in tools/calls, which makes calls of the libraries, over the libraries as they stand.

    python3 tools/calls.py

After some minutes it is tools/out/calls. Nothing is proved for it, and it says nothing about what is claimed here: the checks on
indices and sums that a proof makes needless are in it. The crate is not one of crates.txt, and its sources end in .rt.txt, since
the gate reads no other file of that ending than those of crates that it proves. So it is built in a copy of the repository.

`rt try` hands one module to clang, with a sanitizer that takes memory its own way. The module is taken from the folder of
`rt try` while it runs, and built without it.
"""
import os
import shutil
import subprocess
import sys
import tempfile
import time

TOP = os.path.dirname(os.path.dirname(os.path.abspath(__file__)))
CRATE = os.path.join(TOP, "tools", "calls")
KEPT = os.path.join(TOP, "tools", "out", "calls")
TARGET = "x86_64-unknown-linux-gnu"


def lay_out(folder, parts=CRATE):
    """Copies the crates to the folder, with the one of these parts among them, and returns where it is."""
    shutil.copytree(os.path.join(TOP, "crates"), os.path.join(folder, "crates"), ignore=shutil.ignore_patterns("out", "data"))
    with open(os.path.join(parts, "line"), encoding="ascii") as file:
        crate = os.path.join(folder, "crates", file.read().split(":")[0])
    os.makedirs(os.path.join(crate, "src"))
    for name in os.listdir(os.path.join(parts, "src")):
        shutil.copy(os.path.join(parts, "src", name), os.path.join(crate, "src", name[:-len(".txt")]))
    with open(os.path.join(folder, "crates.txt"), "w", encoding="ascii") as file:
        for path in (os.path.join(TOP, "crates.txt"), os.path.join(parts, "line")):
            with open(path, encoding="ascii") as lines:
                file.write(lines.read())
    return crate


def keep_modules(folder, kept):
    """Links the modules in the folder under names of their own, each once."""
    for at, _, files in os.walk(folder):
        for path in (os.path.join(at, name) for name in files if name.endswith("module.bc")):
            try:
                inode = os.stat(path).st_ino
                if inode not in kept:
                    os.link(path, "%s.%d.bc" % (folder, inode))
                    kept[inode] = "%s.%d.bc" % (folder, inode)
            except OSError:
                pass        # it is gone meanwhile


def module_of(crate, folder):
    """The module that `rt try` makes of a crate, with its files in the folder."""
    os.mkdir(folder)
    kept = {}
    with tempfile.TemporaryFile("w+") as said:
        trying = subprocess.Popen(["rt", "try", "--steps", "1"], cwd=crate, env={**os.environ, "TMPDIR": folder},
                                  stdin=subprocess.DEVNULL, stdout=subprocess.DEVNULL, stderr=said)
        while trying.poll() is None:
            keep_modules(folder, kept)
            time.sleep(0.005)
        said.seek(0)
        made = [path for path in kept.values() if os.path.getsize(path)]
        return max(made, key=os.path.getsize) if made else sys.exit(said.read() + "calls.py: `rt try` made no module")


def build(module, program):
    kit = os.path.dirname(subprocess.run(["rt", "doc"], stdout=subprocess.PIPE, check=True, text=True).stdout.strip())
    compiled = module + ".o"
    subprocess.run([kit + "/toolchain/bin/clang", "--target=" + TARGET, "-O2", "-c", module, "-o", compiled], check=True)
    subprocess.run([kit + "/bin/rattle-link", "--target", TARGET, "--toolchain", kit + "/toolchain", "-o", program, compiled,
                    kit + "/c/libos_c.a", kit + "/c/liblibc_c.a"], check=True, stdout=subprocess.DEVNULL)


def main():
    os.makedirs(os.path.dirname(KEPT), exist_ok=True)
    print("takes some minutes, and shows nothing meanwhile", file=sys.stderr)
    with tempfile.TemporaryDirectory() as room:
        build(module_of(lay_out(os.path.join(room, "copy")), os.path.join(room, "try")), KEPT)
    print("%s is there, and nothing of it is proved" % os.path.relpath(KEPT))


if __name__ == "__main__":
    main()
