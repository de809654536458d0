#!/usr/bin/env python3
"""The reference of instructions and directives, docs/manual/reference.md, held against the definitions, and the texts made of it.

usage: python3 docs/reference.py --check | --write | --examples     (from the top of the repository)

--check stops where the page lacks an instruction or a directive of the definitions, where it names one twice or one that there is not,
where its column Affects differs from docs/INSTRUCTIONS.md, where an example is of another instruction, or where a file of c25_reference is
not what --write makes of the page. --write makes those files: instructions.rt, spellings.rt and directives.rt. --examples prints a source of
all examples of the page; `.ci/own_runs.py` has the proved program assemble it. What the column Does says, and Affected by, is held by nobody.
"""
import dataclasses
import re
import sys
import textwrap

PAGE, TABLE = "docs/manual/reference.md", "docs/INSTRUCTIONS.md"
SPELLINGS = "crates/c25_meaning_instructions/specs/Spellings.antt"
ASSEMBLY, EXPANSION = "crates/c25_meaning_assembly/specs/AssemblyLine.antt", "crates/c25_meaning_expansion/specs/Acts.antt"
FOLDER, COLUMNS = "crates/c25_reference/src/", 100


@dataclasses.dataclass
class Entry:
    """An entry's texts, as `Entry` of c25_reference has them."""

    name: str
    form: str
    does: str
    example: str


def text_of(path):
    with open(path, encoding="utf-8") as file:
        return file.read()


def stop(why):
    sys.exit(f"{PAGE}: {why}")


# The names, in the order of the definitions.


def listed(text, name):
    """The names in the definition of a list."""
    return re.search(rf"(?ms)^{name} =(.*?)\n\n", text)[1]


def families():
    """Each family of instructions: its variant of `Mnemonic`, the type of its names, and these."""
    text = text_of(SPELLINGS)
    kinds = dict(re.findall(r"(?m)^abbrev pub (\w+) : List (\w+)$", text))
    return [(family, kinds[name], re.findall(r"\b\w+\.(\w+)", listed(text, name))) for family, name in re.findall(r"map family\.(\w+) (\w+)", text)]


OTHERS = ["ZAC", "NOP", "LARP"]


def instruction_names():
    return [it.upper() for _, _, names in families() for it in names] + OTHERS


def directive_groups():
    """The directives of the assembler, those without effect, and those of expansion."""
    assembly, expansion = text_of(ASSEMBLY), text_of(EXPANSION)
    lists = {"ASSEMBLY": listed(assembly, "directives"), "WITHOUT_EFFECT": listed(assembly, "ignored"), "EXPANSION": listed(expansion, "directives")}
    return {name: re.findall(r'codes "(\.\w+)"', part) for name, part in lists.items()}


def directive_names():
    return [it for names in directive_groups().values() for it in names]


# The page.


def rows_of(heading):
    """The cells of the last table under a heading of the page."""
    part = text_of(PAGE).split(f"\n## {heading}\n")[1].split("\n## ")[0].split("\n\n")
    table = [it for it in part if it.startswith("| ")][-1].strip().split("\n")[2:]
    return [[cell.strip() for cell in row.strip("|").split(" | ")] for row in table]


def spans(cell):
    return re.findall(r"`([^`]+)`", cell)


def sentence(text):
    """A cell as lines of at most so many columns, without the marks of code."""
    return "".join(line + "\n" for line in textwrap.wrap(text.replace("`", "") + ".", COLUMNS, break_on_hyphens=False))


def flags_of(by, affects):
    said = [f"{what} {which}." for what, which in (("Affected by", by), ("Affects", affects)) if which]
    return " ".join(said) + "\n" if said else ""


def instruction(row):
    name, operands, does, by, affects, examples = row
    forms = "".join(f"{name} {it}".strip() + "\n" for it in spans(operands) or [""])
    return Entry(name, forms, sentence(does) + flags_of(by, affects), "".join(f" {it}\n" for it in spans(examples)))


def directive(row):
    name, form, does, examples = row
    return Entry(name, spans(form)[0] + "\n", sentence(does), "".join(it + "\n" for it in spans(examples)))


def affected():
    """What each row of the page of patterns affects."""
    rows = re.findall(r"(?m)^\| ([A-Z0-9]+) \| `[^`]+` \| [^|]*\| ([^|]*)\| ([^|]*)\| ([^|]*)\|$", text_of(TABLE))
    return {row[0]: ", ".join(cell.strip() for cell in row[1:] if cell.strip()) for row in rows} | {"ZAC": "", "NOP": "", "LARP": "ARP, ARB"}


# What holds of the page.


def examples():
    """A source of all examples of the page."""
    lines = [f" {it}" for row in rows_of("Instructions") for it in spans(row[5])]
    return "".join(it + "\n" for it in lines + [it for row in rows_of("Directives") for it in spans(row[3])])


def check_names(found, wanted, what):
    if len(found) != len(set(found)) or set(found) != set(wanted):
        stop(f"its {what} are not those of the definitions: {sorted(set(found) ^ set(wanted))}")


def check():
    rows, directives = rows_of("Instructions"), rows_of("Directives")
    table = affected()
    check_names([row[0] for row in rows], instruction_names(), "instructions")
    check_names([row[0] for row in directives], directive_names(), "directives")
    for row in rows:
        if row[4] != table[row[0]]:
            stop(f"{row[0]} affects {row[4]!r} here, and {table[row[0]]!r} in {TABLE}")
        for example in spans(row[5]):
            if example.split()[0] != row[0]:
                stop(f"{row[0]} has the example {example!r}")
    print(f"{len(rows)} instructions, {len(directives)} directives")


# The files of c25_reference.


def literal(text):
    return '"' + text.replace('"', '\\"').replace("\n", "\\n") + '"'


def fields_of(entry, margin):
    return "".join(f"{margin}    {name}: {literal(getattr(entry, name))},\n" for name in ("name", "form", "does", "example"))


def head(title):
    return f"//! {title}, made of {PAGE} by docs/reference.py --write.\n\n"


def instructions_file(entries):
    parts = [head("The entries of the instructions") + "use crate::entry::Entry;\n"]
    for name in instruction_names():
        parts.append(f"\npub(crate) static {name}: Entry = Entry {{\n{fields_of(entries[name], '')}}};\n")
    return "".join(parts)


def of_family(kind, names):
    """The function that has the entries of a family."""
    article = "an" if kind[0] in "AEIOU" else "a"
    rows = "".join(f"        {kind}::{it} => instructions::{it.upper()},\n" for it in names)
    name = "of_" + re.sub(r"(?<=[a-z])(?=[A-Z])", "_", kind.removesuffix("Name")).lower()
    text = f"\n/// The entry of {article} `{kind}`.\nfn {name}(name: {kind}) -> Entry\n"
    return name, text + f"    ensures {{ result.name.now ≡ spelling_text (Row (row.{{family}} name)) }}\n{{\n    match name {{\n{rows}    }}\n}}\n"


def spellings_file():
    kinds = ", ".join(sorted(["Mnemonic", "Spelling", *(kind for _, kind, _ in families())]))
    text = head("The entry of each spelling of an instruction") + "ghost use Rattle.std.specs.Prelude.{◌≡◌};\n"
    text += "ghost use Rattle.c25_meaning_instructions.specs.Table.{spelling_text};\n"
    text += "ghost use Rattle.c25_meaning_instructions.specs.declared.mnemonic.Mnemonic.TheVariants as row;\n"
    text += "ghost use Rattle.c25_meaning_instructions.specs.declared.mnemonic.Spelling.TheVariants.{Row};\n\n"
    lines = textwrap.fill(kinds + ",", 100, initial_indent="    ", subsequent_indent="    ")
    text += f"use crate::entry::Entry;\nuse crate::instructions;\nuse c25_meaning_instructions::mnemonic::{{\n{lines}\n}};\n"
    rows = ""
    for family, kind, names in families():
        name, function = of_family(kind, names)
        text += function.replace("{family}", family)
        rows += f"        Mnemonic::{family}(name) => {name}(name),\n"
    text += "\n/// The entry of a row of the opcode table.\nfn of_row(mnemonic: Mnemonic) -> Entry\n"
    text += f"    ensures {{ result.name.now ≡ spelling_text (Row mnemonic) }}\n{{\n    match mnemonic {{\n{rows}    }}\n}}\n"
    text += "\n/// The entry of an instruction.\npub(crate) fn of_spelling(spelling: Spelling) -> Entry\n"
    text += "    ensures { result.name.now ≡ spelling_text spelling }\n{\n    match spelling {\n        Spelling::Row(mnemonic) => of_row(mnemonic),\n"
    return text + "".join(f"        Spelling::{it.title()} => instructions::{it},\n" for it in OTHERS) + "    }\n}\n"


TITLES = {
    "ASSEMBLY": "The directives that the assembler acts on",
    "WITHOUT_EFFECT": "The directives that concern listings alone and have no effect",
    "EXPANSION": "The directives that expansion acts on",
}


def directives_file(entries):
    parts = [head("The entries of the directives") + "use crate::entry::Entry;\n"]
    for group, names in directive_groups().items():
        parts.append(f"\n/// {TITLES[group]}.\npub(crate) static {group}: [Entry; {len(names)}] = [\n")
        parts += [f"    Entry {{\n{fields_of(entries[it], '    ')}    }},\n" for it in names]
        parts.append("];\n")
    return "".join(parts)


def entries():
    """The entry of each instruction and of each directive, by its name."""
    return {row[0]: instruction(row) for row in rows_of("Instructions")} | {row[0]: directive(row) for row in rows_of("Directives")}


def whole(entry):
    """What `c25 explain` prints of an instruction or a directive."""
    return f"{entry.form}\n{entry.does}\nExample:\n\n{entry.example}"


def files():
    found = entries()
    return {
        FOLDER + "instructions.rt": instructions_file(found),
        FOLDER + "spellings.rt": spellings_file(),
        FOLDER + "directives.rt": directives_file(found),
    }


def check_files():
    for path, text in files().items():
        if text_of(path) != text:
            sys.exit(f"{path} is not what docs/reference.py --write makes of {PAGE}")


def write_files():
    for path, text in files().items():
        with open(path, "w", encoding="utf-8") as file:
            file.write(text)


def main():
    if sys.argv[1:] == ["--examples"]:
        print(examples(), end="")
    elif sys.argv[1:] == ["--check"]:
        check()
        check_files()
    elif sys.argv[1:] == ["--write"]:
        check()
        write_files()
    else:
        sys.exit(__doc__)


if __name__ == "__main__":
    main()
