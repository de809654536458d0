#!/usr/bin/env python3
"""The instruction set in the form of the User's Guide, as a page that is made of the definitions of crates/c25_guide/specs.

usage: python3 docs/guide.py [--write | --check]     (from the top of the repository)

It prints the page. --write puts it into docs/INSTRUCTIONS.md; --check says whether that file is another, and ends with status 1 then.

The rows come from Rows.antt, the signs of the indirect forms and the families with a second word from Patterns.antt, what a row affects
from Affects.antt, the status words from StatusWords.antt.
"""
import re
import sys

SPECS, PAGE = "crates/c25_guide/specs/", "docs/INSTRUCTIONS.md"
# Of each family with a second word, what that word is.
SECOND_WORDS = {"Long": "16-bit constant", "LongMem": "address", "Jump": "program address"}
INDIRECT = {"Keep": "`*`", "Decrement": "`*-`", "Increment": "`*+`", "ReverseSubtract": "`*BR0-`", "Subtract": "`*0-`", "Add": "`*0+`", "ReverseAdd": "`*BR0+`"}
HEAD = """# The instruction set

Made by `python3 docs/guide.py --write` of the definitions in `crates/c25_guide/specs`; change those, and not this page.

The rows are in the form of the User's Guide (SPRU014, "Instruction Set Summary"). Nobody has compared them with the printed
Guide; a person with SPRU014 next to this page can compare row by row. What is proved (`c25_guide::laws`): the words that are
read as instructions, and the ranges of their operands, are exactly those of this page (`patterns_are_the_table`); an
instruction leaves alone each field of the status words that its row does not name (`rows_affect_what_is_printed`), and each
field that a row names is changed in some state (`rows_change_what_they_affect`).

## Rows

The bits of the first word are bit 15 to bit 0. 0 and 1 are bits; a letter stands for the binary digits of a number, the highest
first, and the number is in range where the digits have room for it.

| Letter | Number |
|---|---|
| I | 0 for a direct operand, 1 for an indirect one |
| d | a direct operand: the low seven bits of its address; an indirect one: the seven bits under "Indirect operands" |
| s | a shift |
| r | an auxiliary register |
| p | a port |
| b | a bit code |
| k | a constant without sign; of SPM, FORT and CMPR the operand |
| c | a constant with its sign, in two's complement |
| m | an indirect form |

A second word is 16 bits. An operand with a next auxiliary register affects ARP and ARB too, but for those of LST and LST1.
"""


def text_of(name):
    with open(SPECS + name, encoding="utf-8") as file:
        return file.read()


def rows():
    """Of each row its family, its name in the definitions, and its mnemonic and signs."""
    found = re.findall(r'(?m)^(\w+)_text \w+\.(\w+) = codes "([A-Z0-9]+) +(\S{16})"$', text_of("Rows.antt"))
    lines = len(re.findall(r"(?m)^\w+_text \w+\.\w+ =", text_of("Rows.antt")))
    if len(found) != lines:
        sys.exit(f"{SPECS}Rows.antt: {lines - len(found)} of its rows are not a mnemonic and sixteen signs")
    return found


def affected():
    """Of each row that affects a field of the status words, by its family and its name, those fields."""
    found = re.findall(r"(?m)^(\w+)_affects \w+\.(\w+) = ((?:[A-Z]+ ∷ )+)\[\]$", text_of("Affects.antt"))
    lines = len(re.findall(r"(?m)^\w+_affects \w+\.\w+ =", text_of("Affects.antt")))
    if len(found) != lines:
        sys.exit(f"{SPECS}Affects.antt: {lines - len(found)} of its rows are not a list of fields on one line")
    return {(family, name): fields.split(" ∷ ")[:-1] for family, name, fields in found}


def second_words():
    """The families whose instructions have a second word."""
    return re.findall(r"(?m)^printed \(insn\.(\w+) .*\(Some ", text_of("Patterns.antt"))


def row_lines():
    fields, seconds = affected(), {it.lower(): SECOND_WORDS[it] for it in second_words()}
    lines = []
    for family, name, mnemonic, signs in sorted(rows(), key=lambda it: it[2]):
        mine = fields.get((family, name), [])
        cells = [mnemonic, f"`{signs}`", seconds.get(family.replace("_", ""), "")]
        cells += ["C" if "C" in mine else "", "OV" if "OV" in mine else "", ", ".join(it for it in mine if it not in ("C", "OV"))]
        lines.append("| " + " | ".join(cells) + " |")
    return lines


def indirect_lines():
    signs = re.findall(r'(?m)^change_signs change\.(\w+) = codes "(\d+)"$', text_of("Patterns.antt"))
    return [f"| {INDIRECT[name]} | `{bits}` |" for name, bits in signs]


def page():
    patterns, status = text_of("Patterns.antt"), text_of("StatusWords.antt")
    without, following = (re.search(rf'(?m)^indirect_signs {it} = codes "(\w+)"$', patterns).group(1) for it in ("None", r"\(Some next\)"))
    words = re.findall(r'(?m)^-- (.*)\nabbrev pub (st[01])_signs : List ℕ\n\w+ = codes "(\w+)"$', status)
    lines = [HEAD, "| Mnemonic | First word | Second word | Affects C | Affects OV | Affects |", "|---|---|---|---|---|---|", *row_lines()]
    lines += ["", "## Indirect operands", ""]
    lines += [f"The seven bits are `{without}`; with a next auxiliary register y they are `{following}`.", ""]
    lines += ["| Form | m |", "|---|---|", *indirect_lines(), "", "## Status words", "", "| Word | Bits 15 to 0 | From bit 15 on |", "|---|---|---|"]
    lines += [f"| {word.upper()} | `{signs}` | {names} |" for names, word, signs in words]
    return "\n".join(lines) + "\n"


def main(options):
    made = page()
    if "--write" in options:
        with open(PAGE, "w", encoding="utf-8") as file:
            file.write(made)
    elif "--check" in options:
        with open(PAGE, encoding="utf-8") as file:
            if file.read() != made:
                print(f"{PAGE}: another page than python3 docs/guide.py --write makes")
                return 1
        print(f"{PAGE} agrees with the definitions")
    else:
        print(made, end="")
    return 0


if __name__ == "__main__":
    sys.exit(main(sys.argv[1:]))
