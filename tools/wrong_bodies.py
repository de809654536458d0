#!/usr/bin/env python3
"""Tries the wrong bodies that are kept outside the gate: the prover must refuse each of them.

usage: python3 tools/wrong_bodies.py [CRATE..]     (from the top of the repository; no name: all crates)

A wrong body is a file `crates/NAME/wrong/*.edit`, in the form of the must-fail edits of the gate (`crates/NAME/must-fail/`): lines
'file: src/lib.rt', 'old: TEXT', 'new: TEXT'. This script copies the repository's crates to a folder of its own, puts the files of
`wrong/` in the place of those of `must-fail/`, and has `rt ci CRATE..` try them there; nothing of the repository is changed. What `rt ci`
proved on this machine before is not proved again, so run it after `rt ci`: then a wrong body takes 15 to 60 seconds of a processor.

It prints a line for each that was not refused, and a table: how many of each crate were refused, were refused only at a limit of the
prover's search (which says less), were not refused, or could not be tried. Status 1 where one was not refused or could not be tried.
"""
import os
import re
import shutil
import subprocess
import sys
import tempfile

# What the prover says where its search ended at a limit, so that the wrong body may be one that it could not refute.
LIMITS = ("only by a limit", "stopped at its own limit", "gave up at one of its limits")
LINE = re.compile(r"must-fail (\w+)/([\w.-]+\.edit): (.*)")


def crates_with_wrong_bodies(names):
    """The crates that have a folder `wrong`; where names are given, only those."""
    found = [it for it in sorted(os.listdir("crates")) if os.path.isdir(f"crates/{it}/wrong")]
    lacking = sorted(set(names) - set(found))
    if lacking:
        sys.exit(f"wrong_bodies.py: no crates/{lacking[0]}/wrong")
    return [it for it in found if not names or it in names]


def not_copied(folder, names):
    """What is left out of a folder's copy: of a crate's own folder what rt made, and its edits. A folder further in may have such a name."""
    return {"out", "must-fail", "wrong"} & set(names) if os.path.dirname(folder) == "crates" else set()


def copied(folder, crates):
    """A copy of the repository in which the wrong bodies of these crates are the must-fail edits, and no others are."""
    for it in ("crates.txt", "HANDLES"):
        shutil.copy(it, folder)
    shutil.copytree("crates", f"{folder}/crates", ignore=not_copied)
    for it in crates:
        shutil.copytree(f"crates/{it}/wrong", f"{folder}/crates/{it}/must-fail")
    subprocess.run(["git", "init", "-q", folder], check=True)


def kind_of(answer):
    """What an answer of `rt ci` on a wrong body comes to."""
    if answer.startswith("refused"):
        return "at a limit" if any(it in answer for it in LIMITS) else "refused"
    return "not refused" if answer.startswith("NOT REFUSED") else "not tried"


def tried(folder, crates):
    """What became of each wrong body: its crate, its file, its kind, and what the prover said."""
    ran = subprocess.run(["rt", "ci", *crates], cwd=folder, stdout=subprocess.PIPE, stderr=subprocess.STDOUT, text=True, stdin=subprocess.DEVNULL)
    answers = {(it[1], it[2]): it[3] for it in map(LINE.search, ran.stdout.splitlines()) if it}
    for crate in crates:
        for file in sorted(os.listdir(f"crates/{crate}/wrong")):
            if file.endswith(".edit"):
                answer = answers.get((crate, file), "rt ci did not come to it")
                yield crate, file, kind_of(answer), answer
    if not answers:
        print(ran.stdout, file=sys.stderr)


def main(names):
    crates = crates_with_wrong_bodies(names)
    kinds = ("refused", "at a limit", "not refused", "not tried")
    with tempfile.TemporaryDirectory(prefix="wrong-bodies-") as folder:
        copied(folder, crates)
        found = list(tried(folder, crates))
    for crate, file, kind, answer in found:
        if kind in kinds[2:]:
            print(f"{crate}/wrong/{file}: {answer}")
    print("| Crate | " + " | ".join(kinds) + " |\n|---|" + "---|" * len(kinds))
    for name in [*crates, "all"]:
        counts = [sum(it[2] == kind and name in (it[0], "all") for it in found) for kind in kinds]
        print(f"| {name} | " + " | ".join(map(str, counts)) + " |")
    return 1 if any(it[2] in kinds[2:] for it in found) else 0


if __name__ == "__main__":
    sys.exit(main(sys.argv[1:]))
