"""Two changes of meaning for each row of the opcode table: its word is that of the next row of its family, and the other way round; it does what the
next row does.

They stand behind numbers as those of changes.txt do, in one function each: `swapped` for the words, which `encode` and `decode` of c25_isa ask,
and `acted` for what is done, which is asked where an instruction is read to be run (c25_core, c25_board).
"""
import re

FIRST_WORD, FIRST_ACT = 1001, 2001
NAMES = "crates/c25_meaning_instructions/src/mnemonic.rt"
LIBRARY = "c25_isa/src/lib.rt"
# How many operands stand after the name in an instruction of a family.
OPERANDS = {"Mem": 1, "Shifted": 2, "ArMem": 2, "Port": 2, "Bit": 2, "Short": 2, "Long": 2, "LongMem": 2, "Jump": 3, "Plain": 1}
READ = [("c25_core/src/fetch.rt", "decode(bus.program(pc), bus.program(pc.wrapping_add(1)))?"),
        ("c25_core/src/fetch.rt", "decode(\n        bus.program(mark.load),\n        bus.program(mark.load.wrapping_add(1)),\n    )?"),
        ("c25_board/src/prepared.rt", "decode(first, second)?"), ("c25_board/src/copies.rt", "decode(first, second)?")]


def rows():
    """Each row with the next one of its family, as (number of the row, family, name, next name); a family of one row has none."""
    with open(NAMES, encoding="utf-8") as file:
        families = re.findall(r"pub enum (\w+)Name \{\n(.*?)\n\}", file.read(), re.S)
    found = []
    for family, text in families:
        names = re.findall(r"\w+", text)
        found += [(family, name, other) for name, other in zip(names, names[1:] + names[:1])]
    return [(number, *it) for number, it in enumerate(found) if it[1] != it[2]]


def renamed(function, first, both):
    """A function of c25_isa that gives an instruction the name of the next row, and with `both` the next row that of this one."""
    names, arms = {it: [] for it in OPERANDS}, []
    for number, family, name, other in rows():
        pairs = [(name, other), (other, name)] if both else [(name, other)]
        names[family] += ["%sName::%s if is_changed(%d) => %sName::%s," % (family, a, first + number, family, b) for a, b in pairs]
    text = ""
    for family, count in OPERANDS.items():
        operands = ", ".join("abc"[:count])
        part = "%s_%s" % (function, re.sub("(?<=.)([A-Z])", r"_\1", family).lower())
        arms.append("Insn::%s(name, %s) => Insn::%s(%s(name), %s)," % (family, operands, family, part, operands))
        text += "\nfn %s(name: %sName) -> %sName {\n    match name {\n        %s\n    }\n}\n" % (
            part, family, family, "\n        ".join(names[family] + ["_ => name,"]))
    return text + "\npub fn %s(insn: Insn) -> Insn {\n    match insn {\n        %s\n    }\n}\n" % (function, "\n        ".join(arms))


def once(text, old, new):
    """A text with a part replaced that must stand once in it."""
    if text.count(old) != 1:
        raise SystemExit("rows.py: not once in its file: " + old)
    return text.replace(old, new)


def with_rows(texts, read):
    """Texts of files with the changes of the rows; `read` gives the text of a file that is not among them."""
    after = dict(texts)
    for name in {LIBRARY, *(it[0] for it in READ)}:
        after.setdefault(name, read(name))
    library = once(after[LIBRARY], "code.push(first_word(insn));", "code.push(first_word(&swapped(*insn)));")
    head = "pub fn decode(first: u16, second: u16) -> Option<Insn>\n"
    outer = head.rstrip("\n") + " {\n    match decode_rows(first, second) {\n        Some(insn) => Some(swapped(insn)),\n        None => None,\n    }\n}\n\n"
    library = once(library, head, outer + head.replace("pub fn decode", "fn decode_rows"))
    named = "\nuse c25_meaning_instructions::mnemonic::{%s};\n" % ", ".join(it + "Name" for it in OPERANDS)
    after[LIBRARY] = library + named + renamed("swapped", FIRST_WORD, True) + renamed("acted", FIRST_ACT, False)
    for name, old in READ:
        after[name] = once(after[name], old, "c25_isa::acted(%s)" % old)
    return after


def heads():
    """Number, subject, rule and text of each of these changes."""
    words = [(FIRST_WORD + number, "words", name.upper(), "%s and %s swap their words" % (name.upper(), other.upper())) for number, _, name, other in rows()]
    acts = [(FIRST_ACT + number, "acts", name.upper(), "%s does what %s does" % (name.upper(), other.upper())) for number, _, name, other in rows()]
    return words + acts
