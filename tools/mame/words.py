#!/usr/bin/env python3
"""Compares what c25 prints of each first word of an instruction with what MAME's debugger prints of it.

usage: python3 tools/mame/words.py PROGRAM

PROGRAM is crates/c25/out/c25; it wants `mame` (Debian's package of that name). Each of the 65,536 words stands before 1234h and a NOP;
c25 prints them by `dis`. It compares the mnemonic, the number of words of the instruction, and the operands, however they are written.

MAME accepts more words, and prints three instructions in another form; these differences are counted by their kind:

- change 3 of an auxiliary register is reserved, and low bits without a next register are to be 0: MAME looks at neither;
- CONF is the TMS320C26's;
- MPYU is printed as MPYS, and of ADRK and SBRK a constant of 80h or more as an indirect operand.

Any other difference is reported; the status is 1 then.
"""
import collections
import os
import re
import subprocess
import sys
import tempfile

from machine import Mame

ALIASES = {"NOP": ("MAR", ["0"]), "ZAC": ("LACK", ["0"])}
PART = 20000


def hex_text(words):
    """An Intel hex text of words from address 0 on."""
    lines = []
    for at in range(0, len(words), 8):
        if at == 0x8000:
            lines.append(":020000040001F9")
        some = words[at:at + 8]
        data = bytes([2 * len(some), *(at * 2 % 65536).to_bytes(2, "big"), 0]) + b"".join(it.to_bytes(2, "big") for it in some)
        lines.append(":%s%02X" % (data.hex().upper(), -sum(data) % 256))
    return "\n".join(lines) + "\n:00000001FF\n"


def by_c25(program, folder):
    """For each word, how many words the instruction has and its text, or None where it is data."""
    for first in range(0, 65536, PART):
        path = os.path.join(folder, "words.hex")
        with open(path, "w", encoding="ascii") as file:
            file.write(hex_text([it for word in range(first, min(first + PART, 65536)) for it in (word, 0x1234, 0x5500)]))
        told = subprocess.run([program, "dis", path], capture_output=True, text=True, check=True).stdout
        for line in told.splitlines():
            address, words, text = int(line[:4], 16), line[5:14].split(), line[15:]
            if address % 3 == 0:
                yield None if text.startswith(".word") else (len(words), text)


def by_mame(folder):
    """For each word, what MAME's debugger prints, in the same form."""
    Mame(folder).run("words.lua", "-debug", "-debugger", "none", FOLDER=folder)
    for first in range(0, 65536, 2730):
        with open(os.path.join(folder, str(first)), encoding="ascii") as text:
            for line in text:
                address, words, told = re.match(r"([0-9A-F]{4}): ((?:[0-9A-F]{4} ?)+) *(.*)", line).groups()
                at = int(address, 16)
                if at % 3 == 0 and at // 3 < 2730 and first + at // 3 < 65536:
                    yield None if told.startswith("????") else (len(words.split()), told)


def operand(text):
    """An operand in one form: a number in decimal, an indirect operand with its star."""
    text = text.replace("PA$", "PA")
    if re.fullmatch(r"PA[0-9A-F]", text):
        return str(int(text[2:], 16))
    if re.fullmatch(r"PA1[0-5]", text):
        return text[2:]
    if re.fullmatch(r"[0-9A-F]+h|\$[0-9A-F]+h?", text):
        return str(int(text.strip("$h"), 16))
    if re.fullmatch(r"(BR)?0[+-]", text):
        return "*" + text
    return text


def read(told):
    """The mnemonic, how many words, and the operands, of either printer."""
    count, text = told
    name, _, rest = re.sub(r" \(.*\)$", "", text.strip()).partition(" ")
    rest = re.sub(r"^([0-9A-F]+h) ", r"\1,", re.sub(r"(AR[0-7])(?=\*|BR0|0[+-])", r"\1,", rest.strip()))
    name, operands = name.upper(), [operand(it.strip()) for it in rest.split(",") if it.strip()]
    if name == "ADDC" and len(operands) > 1 and operands[1] == "0":
        del operands[1]
    if name == "MPYK":
        operands = [str((int(operands[0]) + 4096) % 8192 - 4096)]
    if name == "LARP":
        return "MAR", count, ["*", "AR" + operands[0]]
    if name in ALIASES:
        name, operands = ALIASES[name]
    return name, count, operands


def kind_of(word, ours, theirs):
    """How the two differ, `equal` where they don't, and None where it is of no known kind."""
    if ours is None or theirs is None:
        if ours is theirs:
            return "data for both"
        if ours is None and read(theirs)[0] == "CONF":
            return "CONF, which MAME reads"
        if ours is None and word & 0x80 and (word & 0x70 == 0x30 or word & 0x0F in range(1, 8)):
            return "change 3, or low bits without a next register, which MAME reads"
        return None
    one, other = read(ours), read(theirs)
    if one == other:
        return "equal"
    if (one[0], other[0]) == ("MPYU", "MPYS") and one[1:] == other[1:]:
        return "MPYU, printed as MPYS"
    if one[0] == other[0] and one[0] in ("ADRK", "SBRK") and word & 0x80:
        return "ADRK or SBRK of 80h or more, printed as an indirect operand"
    return None


def main():
    if len(sys.argv) != 2:
        raise SystemExit(__doc__)
    with tempfile.TemporaryDirectory() as folder:
        ours, theirs = list(by_c25(os.path.abspath(sys.argv[1]), folder)), list(by_mame(folder))
    if len(ours) != 65536 or len(theirs) != 65536:
        raise SystemExit("of 65536 words c25 told %d and mame %d" % (len(ours), len(theirs)))
    kinds = collections.Counter()
    for word, (one, other) in enumerate(zip(ours, theirs)):
        kind = kind_of(word, one, other)
        kinds[kind or "other"] += 1
        if kind is None:
            print("%04X: %s: %s" % (word, one, other))
    for kind, count in kinds.most_common():
        print("%6d %s" % (count, kind))
    return 1 if kinds["other"] else 0


if __name__ == "__main__":
    sys.exit(main())
