"""The changes of meaning that changes.txt lists, and a copy of the repository that has them all, each behind its number.

A block of changes.txt is

    ## NUMBER | SUBJECT | RULE | CHANGE
    @ FILE
    - TEXT
    + TEXT

with as many parts `@` as the change needs. FILE is below `crates/`. The lines `-` are text that stands once in the file, the lines `+` what
takes its place; a part without `-` adds text at the end of its file. `§` in it is whether the change is on. The parts are applied in the
list's order, so a later change may stand on the text of an earlier one. After them come the changes of the rows of the opcode table, which
rows.py makes.
"""
import os
import re
import shutil
import subprocess
from collections import namedtuple

import rows

HERE = os.path.dirname(os.path.abspath(__file__))
HEAD = re.compile(r"## (\d+) \| (\w+) \| (.*?) \| (.*)")
Change = namedtuple("Change", "number subject rule text parts")
Part = namedtuple("Part", "file old new")
# Added to each changed library: the executable answers by the number that stands in its data (build.py).
WRONG = """
/// Whether a change of meaning is on.
#[inline(never)]
pub(crate) fn is_changed(number: u32) -> bool {
    number == 4_000_000_000
}
"""


def part_of(lines):
    """One `@` with the lines below it."""
    old = [it[2:] for it in lines[1:] if it.startswith("-")]
    new = [it[2:] for it in lines[1:] if it.startswith("+")]
    return Part(lines[0][2:], "\n".join(old) if old else None, "\n".join(new))


def change_of(block):
    """One block of the list."""
    lines = block.splitlines()
    found = HEAD.fullmatch(lines[0])
    if not found:
        raise SystemExit("changes.txt: " + lines[0])
    starts = [i for i, it in enumerate(lines) if it.startswith("@ ")] + [len(lines)]
    parts = [part_of(lines[a:b]) for a, b in zip(starts, starts[1:])]
    return Change(int(found[1]), found[2], found[3], found[4], parts)


def listed():
    """The changes of the list."""
    with open(os.path.join(HERE, "changes.txt"), encoding="utf-8") as file:
        return [change_of(it) for it in re.split(r"\n(?=## )", file.read().strip("\n"))]


def of_rows():
    """The changes of the rows of the opcode table. What they put into files is one text for all of them (`rows.with_rows`)."""
    return [Change(*it, []) for it in rows.heads()]


def changes():
    """All changes."""
    return listed() + of_rows()


def text_of(name):
    """The text of a file below `crates/`."""
    with open(os.path.join("crates", name), encoding="utf-8") as file:
        return file.read()


def applied(change, texts):
    """The files' texts with a change, or None where a text of it does not stand once in its file any more."""
    after = dict(texts)
    for it in change.parts:
        new = it.new.replace("§", "crate::is_changed(%d)" % change.number)
        if it.file not in after:
            if not os.path.exists(os.path.join("crates", it.file)):
                return None
            after[it.file] = text_of(it.file)
        if it.old is None:
            after[it.file] += new
        elif after[it.file].count(it.old) == 1:
            after[it.file] = after[it.file].replace(it.old, new)
        else:
            return None
    return after


def copy_with_all(folder):
    """Makes a copy of the repository's crates in which each change stands behind its number, and returns the changes that it has."""
    for it in ("crates.txt", "HANDLES"):
        shutil.copy(it, folder)
    shutil.copytree("crates", os.path.join(folder, "crates"), ignore=lambda at, names: {"out"} & set(names) if os.path.dirname(at) == "crates" else set())
    subprocess.run(["git", "init", "-q", folder], check=True)
    texts, done = {}, []
    for change in listed():
        after = applied(change, texts)
        if after is None:
            print("left out: %d, %s, %s: its text is not there once" % (change.number, change.subject, change.text))
            continue
        texts = after
        done.append(change)
    texts = rows.with_rows(texts, text_of)
    done += of_rows()
    for library in sorted({it.split("/")[0] for it in texts}):
        name = library + "/src/lib.rt"
        if name not in texts:
            texts[name] = text_of(name)
        texts[name] += WRONG
    for name, text in texts.items():
        with open(os.path.join(folder, "crates", name), "w", encoding="utf-8") as file:
            file.write(text)
    return done
