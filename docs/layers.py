#!/usr/bin/env python3
"""Holds crates.txt and the documents against the files, and counts what a change of each crate costs.

usage: python3 docs/layers.py [--write | --check]     (from the top of the repository)

It prints the table "What a change costs": for each crate, how many crates are proved again when it changes (itself among them), their
minutes of one processor by the times in docs/PROVING.md, and their share of the whole, where that is a fifth or more. --write puts the table into docs/PROVING.md
between its two marks, and puts the lines of crates.txt into the order of the tables in docs/ARCHITECTURE.md, section "Crates": a
heading for each room, and each crate with the libraries that its line has. --check prints each of the following faults that it finds,
and then ends with status 1:

- docs/PROVING.md or crates.txt is not what --write would write;
- a line of crates.txt names a crate that no file of that crate names, or lacks one that a file names;
- docs/ARCHITECTURE.md: the picture or the table of "Layers" has a subject on other subjects than crates.txt (only the nearest ones
  are named), or a crate in the row of a subject that it does not stand on; "Layers" or "Crates" lacks a crate, has one that does not
  exist, or has one below a crate of its room that stands on it;
- its "Where a rule lives" or "Recipes" names a file that does not exist; "Where a rule lives" lacks a source file of a library, a
  directive or a mnemonic;
- a document, CHANGELOG.md apart, names a crate that does not exist;
- a document or a comment has a word that docs/WORDS.md lists as not to be used.
"""
import glob
import math
import os
import re
import subprocess
import sys

PAGE, BEGIN, END = "docs/PROVING.md", "<!-- what a change costs: docs/layers.py -->", "<!-- end -->"
ARCHITECTURE, LIBRARIES = "docs/ARCHITECTURE.md", "crates.txt"
SUBJECT = "c25_meaning_"
CRATE = r"(?:c25|show_)\w*"
DOCUMENTS = ("README.md", "CHANGELOG.md", "docs/*.md", "docs/manual/*.md", "tools/README.md", "editors/README.md", "tools/page/README.md")
COMMENTS = (("crates/*/src/**/*.rt", "//"), ("crates/*/specs/**/*.antt", "--"))
# What docs/WORDS.md lists as not to be used, as far as a pattern finds no right use of it; and what to write.
WORDS = {
    r"behind": "after",
    r"wants? of memory": "out of memory",
    r"(?:that|which|what|it) (?:is|are) none": "is invalid; there is no ..",
    r"(?:is|are|was|were|be|been) told(?! apart)": "reported; said",
    r"words (?:that )?are (?:no|a) task": "the command line is invalid; is valid",
}


def text_of(path):
    with open(path, encoding="utf-8") as file:
        return file.read()


def libraries():
    """Of each crate of crates.txt, the libraries that its line names."""
    lines = [line.partition("#")[0].partition(":") for line in text_of(LIBRARIES).splitlines()]
    return {name.strip(): below.split() for name, colon, below in lines if colon}


def crates():
    """Of each crate of crates.txt, the crates that its line names."""
    found = libraries()
    return {name: [it for it in below if it in found] for name, below in found.items()}


def minutes():
    """Of each crate, the minutes of its proof, its tests and its must-fail edits together, by the page's table of times."""
    found = {}
    for line in text_of(PAGE).partition("\n## Times\n")[2].partition("\n##")[0].splitlines():
        cells = [it.strip() for it in line.strip("|").split("|")]
        if re.fullmatch(r"(?:c25|show)\w*", cells[0]) and len(cells) == 4:
            found[cells[0]] = sum(float(it) for it in re.findall(r"\d+(?:\.\d+)?", re.sub(r"\(\d+\)", "", " ".join(cells[1:]))))
    return found


def above(all_crates):
    """Of each crate, the crates that stand on it, itself among them."""
    found = {name: {name} for name in all_crates}
    changed = True
    while changed:
        changed = False
        for name, below in all_crates.items():
            for it in below:
                if not found[name] <= found[it]:
                    found[it] |= found[name]
                    changed = True
    return found


def table(all_crates):
    times, whole = minutes(), math.fsum(minutes().get(it, 0) for it in all_crates)
    rows = []
    for name, reached in above(all_crates).items():
        cost = math.fsum(times.get(it, 0) for it in reached)
        rows.append((name, len(reached), cost))
    lines = ["| A change in | Crates | Minutes | Of all |", "|---|---|---|---|"]
    # (what costs less than a fifth is left out: the table is read where a change is dear)
    dear = [it for it in rows if 5 * it[2] >= whole]
    lines += [f"| {name} | {count} | {cost:.0f} | {100 * cost / max(whole, 0.1):.0f}% |" for name, count, cost in sorted(dear, key=lambda it: (-it[2], -it[1], it[0]))]
    return "\n".join(lines)


def named_by(name):
    """The crates that the files of a crate name."""
    files = subprocess.run(["git", "ls-files", f"crates/{name}/src", f"crates/{name}/specs", f"crates/{name}/proofs"], capture_output=True, text=True, check=True)
    found = set()
    for file in files.stdout.splitlines():
        if file.endswith((".rt", ".antt")) and os.path.isfile(file):
            text = re.sub(r"(?m)^\s*(//|--).*$", "", text_of(file))
            found |= set(re.findall(r"\bRattle\.(\w+)\.", text)) | set(re.findall(r"\b(c25\w*)::", text))
    return found


def wrong_lines(all_crates):
    for name, below in all_crates.items():
        named = named_by(name) & set(all_crates) - {name}
        for it in sorted(named ^ set(below)):
            yield f"{LIBRARIES}: {name} {'lacks' if it in named else 'names no item of'} {it}"


def section(title):
    """The lines of a section of docs/ARCHITECTURE.md, with those of the sections in it."""
    return text_of(ARCHITECTURE).partition(f"\n## {title}\n")[2].partition("\n## ")[0].splitlines()


def rows_of(lines):
    """The cells of each row of the tables among these lines, without the headings of tables."""
    for line, after in zip(lines, lines[1:] + [""]):
        if line.startswith("|") and not line.startswith("|--") and not after.startswith("|--"):
            yield [it.strip() for it in line.strip()[1:-1].split("|")]


def spans(text):
    """The texts in backquotes."""
    return re.findall(r"`([^`]+)`", text)


def rooms():
    """The headings of the section "Crates", each with the crates of its table."""
    for room in "\n".join(section("Crates")).split("\n### ")[1:]:
        title, *lines = room.splitlines()
        yield title, [spans(row[0])[0] for row in rows_of(lines)]


def ordered_libraries():
    """crates.txt in rooms. A crate that the page lacks comes last."""
    found, lines = libraries(), ["# NAME: the libraries that it stands on"]
    listed = [(title, [it for it in names if it in found]) for title, names in rooms()]
    rest = [it for it in found if not any(it in names for _, names in listed)]
    for title, names in listed + ([("not in docs/ARCHITECTURE.md", rest)] if rest else []):
        lines += [f"# {title}"] + [" ".join([f"{name}:"] + found[name]) for name in names]
    return "\n".join(lines) + "\n"


def below(all_crates, name):
    """All crates that a crate stands on, near or far."""
    return set().union(*({it} | below(all_crates, it) for it in all_crates[name]))


def nearest(all_crates, subject):
    """The subjects on which one stands, without those on which another of them stands."""
    on = [it for it in all_crates[subject] if it.startswith(SUBJECT) or it == "c25_bits"]
    return {it.replace(SUBJECT, "") for it in on if not any(it in below(all_crates, other) for other in on)}


def names_in(text):
    return {it for it in re.split(r"[ ,`]+", text) if it}


def wrong_subjects(all_crates):
    """The subjects that the picture of the layers or the column "Stands on" has on others than crates.txt."""
    picture = "\n".join(section("Layers")).split("```")[1]
    said = [(names, on) for names, on in re.findall(r"(\w+(?:, \w+)*): (\w+(?:, \w+)*)", picture)]
    said += [(row[0].replace(SUBJECT, ""), row[1]) for row in rows_of(section("Layers")) if SUBJECT in row[0]]
    for names, on in said:
        for subject in sorted(names_in(names)):
            if SUBJECT + subject not in all_crates:
                yield f"{ARCHITECTURE}: Layers: {subject} is not a subject of {LIBRARIES}"
            elif names_in(on) != nearest(all_crates, SUBJECT + subject):
                yield f"{ARCHITECTURE}: Layers: {subject} stands on {', '.join(sorted(nearest(all_crates, SUBJECT + subject)))}"


def wrong_tables(all_crates):
    """The crates that the tables "Layers" and "Crates" lack, or have at a wrong place."""
    layers = set()
    for row in rows_of(section("Layers")):
        placed = [it for it in spans(" ".join(row)) if re.fullmatch(CRATE, it)]
        layers |= set(placed)
        for it in set(placed) & set(all_crates) if SUBJECT in row[0] else ():
            if it not in (placed[0], "c25_bits") and placed[0] not in below(all_crates, it):
                yield f"{ARCHITECTURE}: Layers: {it} does not stand on {placed[0]}"
    listed = [it for _, names in rooms() for it in names]
    for title, found in (("Layers", layers), ("Crates", set(listed))):
        for it in sorted(found ^ set(all_crates)):
            yield f"{ARCHITECTURE}: {title} {'has ' + it + ', which is not a crate' if it in found else 'lacks ' + it}"
    for room, names in rooms():
        for number, it in enumerate(names):
            for other in sorted(set(names[number + 1:]) & set(all_crates.get(it, ()))):
                yield f"{ARCHITECTURE}: Crates: {room}: {it} stands on {other}, which comes after it"


def files_in(folder):
    """The files of a folder and of those in it, by their ways from it."""
    return sorted(os.path.relpath(os.path.join(at, file), folder) for at, _, files in os.walk(folder) for file in files)


def named_places():
    """The files that "Where a rule lives" names, from the folder `crates` or from the top of the repository on."""
    found = set()
    for row in rows_of(section("Where a rule lives")):
        folder = ""
        for it in spans(" | ".join(row)):
            whole, _, file = it.rpartition("/")
            if file.endswith((".rt", ".antt", ".py")) and whole != "specs":
                folder = whole or folder
                found.add(f"{folder}/{file}")
            elif re.fullmatch(CRATE + r"/(src(/\w+)?|specs|data)", it):
                folder = it
        if all(re.fullmatch(CRATE + r"/src", it) for it in spans(row[0])) and ".rt`" not in row[-1]:
            found |= {f"{it}/{file}" for it in spans(row[0]) for file in files_in(f"crates/{it}")}
    return found


def recipe_places():
    """The files and folders that "Recipes" names; those without a folder belong to the last one that is named."""
    folder = ""
    for it in spans("\n".join(section("Recipes"))):
        whole, slash, file = it.rpartition("/")
        if re.fullmatch(r"[\w./-]+", it) and (slash or re.search(r"\w\.(?:rt|antt)$", it)):
            folder = whole or folder
            yield f"{folder}/{file}" if file else folder


def wrong_places(all_crates):
    """The files that the page names and that do not exist, and the source files that it lacks."""
    found = named_places()
    for title, places in (("Where a rule lives", found), ("Recipes", set(recipe_places()))):
        for it in sorted(it for it in places if not os.path.exists(f"crates/{it}") and not os.path.exists(it)):
            yield f"{ARCHITECTURE}: {title} names {it}, which does not exist"
    for name in all_crates:
        folder = f"crates/{name}/src"
        files = files_in(folder) if os.path.isfile(f"{folder}/lib.rt") else []
        for file in files:
            alone = len(files) == 1
            if (alone or file not in ("lib.rt", "tests.rt")) and f"{name}/src/{file}" not in found:
                yield f"{ARCHITECTURE}: Where a rule lives lacks {name}/src/{file}"


def wrong_rules(_):
    """The directives and mnemonics that "Where a rule lives" lacks."""
    words = set(re.findall(r"\.?[\w]+", " ".join(" ".join(row) for row in rows_of(section("Where a rule lives")))))
    for file in ("c25_statements/src/names.rt", "c25_macro/src/directive.rt"):
        for it in sorted(set(re.findall(r'"(\.\w+)"', text_of(f"crates/{file}"))) - words):
            yield f"{ARCHITECTURE}: Where a rule lives lacks the directive {it}"
    for names in re.findall(r"pub enum \w+Name \{(.*?)\n\}", text_of("crates/c25_meaning_instructions/src/mnemonic.rt"), re.S):
        for it in sorted({it.upper() for it in re.findall(r"(?m)^    (\w+),", names)} - words):
            yield f"{ARCHITECTURE}: Where a rule lives lacks {it}"


def files_like(patterns):
    return sorted({file for it in patterns for file in glob.glob(it, recursive=True)} - {"docs/WORDS.md"})


def wrong_names(all_crates):
    """The names in documents that are those of crates which do not exist. CHANGELOG.md has old names."""
    for file in files_like(set(DOCUMENTS) - {"CHANGELOG.md"}):
        for number, line in enumerate(text_of(file).splitlines(), 1):
            for it in sorted(set(re.findall(r"\bc25_[a-z0-9_]*[a-z0-9]\b", line)) - set(all_crates)):
                yield f"{file}:{number}: {it} is not a crate"


def without_code(text):
    """A text of as many lines, in which what stands in backquotes is blank."""
    return re.sub(r"`[^`\n]*\n?[^`\n]*`", lambda code: re.sub(r"[^\n]", " ", code[0]), text)


def prose_of_document(text):
    """The sentences of a document: its lines, those of blocks of code empty."""
    lines, is_code = [], False
    for line in text.splitlines():
        is_fence = line.lstrip().startswith("```")
        lines.append("" if is_code or is_fence or line.startswith("    ") else line)
        is_code ^= is_fence
    return without_code("\n".join(lines))


def prose_of_comments(text, mark):
    """The comments of a source file without their marks; its other lines are empty."""
    lines = [line.strip() for line in text.splitlines()]
    return without_code("\n".join(line.lstrip("/!- ") if line.startswith(mark) else "" for line in lines))


def wrong_words(_):
    """The words of documents and comments that are not to be used."""
    proses = [(file, prose_of_document(text_of(file))) for file in files_like(DOCUMENTS)]
    proses += [(file, prose_of_comments(text_of(file), mark)) for like, mark in COMMENTS for file in files_like([like])]
    for file, prose in proses:
        for pattern, instead in WORDS.items():
            for it in re.finditer(r"\b(?:" + pattern.replace(" ", r"\s+") + r")\b", prose, re.I):
                line = prose.count("\n", 0, it.start()) + 1
                yield f"{file}:{line}: {' '.join(it[0].split())}: {instead} (docs/WORDS.md)"


def main(words):
    all_crates = crates()
    made, ordered = table(all_crates), ordered_libraries()
    head, begin, rest = text_of(PAGE).partition(BEGIN)
    stands, end, tail = rest.partition(END)
    if "--write" in words:
        for path, text in ((PAGE, f"{head}{BEGIN}\n\n{made}\n\n{END}{tail}"), (LIBRARIES, ordered)):
            with open(path, "w", encoding="utf-8") as file:
                file.write(text)
        return 0
    if "--check" in words:
        checks = (wrong_lines, wrong_subjects, wrong_tables, wrong_places, wrong_rules, wrong_names, wrong_words)
        wrong = [it for check in checks for it in check(all_crates)]
        wrong += [] if begin and end and stands.strip() == made else [f"{PAGE}: its table is not what docs/layers.py --write writes"]
        wrong += [] if ordered == text_of(LIBRARIES) else [f"{LIBRARIES}: its lines are not in the order that docs/layers.py --write writes"]
        print("\n".join(wrong) or "crates.txt, the costs of changes, the page of the architecture and the words agree")
        return 1 if wrong else 0
    print(made)
    return 0


if __name__ == "__main__":
    sys.exit(main(sys.argv[1:]))
