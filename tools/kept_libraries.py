#!/usr/bin/env python3
"""Gives checks in a clone the libraries that `rt ci` kept on this machine: kept_libraries.py [CLONE], the current folder's by default.

`rt check` and `rt lib` build the libraries below a crate themselves, although the gate may have proved the same files. This puts what
the gate kept of the clone's crates, as their files stand, into their folders `out/rlib`, with the stamp by which `rt check` knows it.
It says which libraries are there now. Do not run it while a check runs in the clone. It needs kit 13f, whose own functions it calls;
no verdict of the gate rests on it.
"""

import importlib.machinery
import importlib.util
import os
import shutil
import sys

RT = "/usr/local/bin/rt"


def module_at(name, path):
    loader = importlib.machinery.SourceFileLoader(name, path)
    made = importlib.util.module_from_spec(importlib.util.spec_from_loader(name, loader))
    sys.modules[name] = made
    loader.exec_module(made)
    return made


def from_below(crates):
    """Returns the crates, each after those that it stands on."""
    found = []

    def add(crate):
        if crate not in found:
            for dep in crate.deps:
                add(dep)
            found.append(crate)

    for crate in crates:
        add(crate)
    return found


def is_there(rtlib, crate, key):
    """Returns whether the crate's folder holds the library of this key already."""
    rlib = f"{crate.folder}/out/rlib"
    return rtlib.text_of(f"{rlib}/key") == key and crate.is_built()


def give(rtlib, kept, crate):
    """Puts a library that was kept into its crate's folder, and returns whether it could."""
    key = kept.key(crate)
    if not os.path.isdir(kept.place(crate, False, key)):
        return False
    rlib = f"{crate.folder}/out/rlib"
    if not is_there(rtlib, crate, key):
        shutil.rmtree(rlib, ignore_errors=True)
        if not kept.give(crate, False, key):
            return False
        for name, text in (("key", key), ("stamp", crate.stamp())):
            with open(f"{rlib}/{name}", "w", encoding="utf-8") as file:
                file.write(text)
    kept.is_built(crate)
    return True


def main():
    top = os.path.abspath(sys.argv[1] if len(sys.argv) > 1 else ".")
    os.chdir(top)
    rt = module_at("rt", RT)
    # What was kept is copied: a check in the clone that wrote into a file with two names would change what was kept.
    rt.link_or_copy = shutil.copyfile
    crates = rt.crates_of(top)
    kept = rt.Kept(crates)
    names = []
    for crate in from_below(crates):
        if not crate.is_program and all(below.name in kept.rlibs for below in crate.below()) and give(rt.rtlib, kept, crate):
            names.append(crate.name)
    print(f"{len(names)} of {len(crates)} crates: {' '.join(names)}")


if __name__ == "__main__":
    main()
