"""Random old sources of each style, for compare.py."""
import random

WORDS = "LAC SACL ADD LACK LARK LALK MPYK SACH LT APAC NOP ZAC RET B BANZ BLKP IN OUT LARP SPM RPTK NORM TBLR".split()
ALONE = "APAC NOP ZAC RET PAC EINT".split()


def digits(r):
    return "".join(r.choice("0123456789ABCDEF") for _ in range(r.randint(1, 4)))


def term(r, names):
    return r.choice(
        [
            lambda: str(r.randint(0, 99)),
            lambda: ">" + digits(r),
            lambda: r.choice(names),
            lambda: "'%s%s'" % (r.choice("ABCxyz"), r.choice("ABCxyz")),
            lambda: "'%s'" % r.choice("ABC+;*"),
            lambda: "$%d" % r.randint(0, 9),
            lambda: "''",
            lambda: "$",
        ]
    )()


def expression(r, names):
    text = term(r, names)
    for _ in range(r.choice([0, 0, 0, 1, 1, 2, 3])):
        text += r.choice("+-*/&|^") + term(r, names)
    return text


def operands(r, names):
    if r.random() < 0.15:
        return r.choice(["*+", "*-", "*", "*0+", "*BR0-"]) + r.choice(["", ",AR1", ",0,AR3"])
    return ",".join(expression(r, names) for _ in range(r.randint(1, 3)))


def comment(r):
    return " ".join(r.choice("SAVE THE COUNT; DON'T -1 +2 ,3 (SEE) \"Q\" A>B $1 *X".split()) for _ in range(r.randint(1, 4)))


def early_line(r, names, dummy):
    label = r.choice(["", "", "", r.choice(names), "$%d" % r.randint(0, 9)])
    note = r.choice(["", "", "   " + comment(r), " ; " + comment(r)])
    word = r.choice(WORDS + ["DATA"] * 6 + ["EQU", "BSS", "BES", "TEXT", "AORG", "PSEG", "DORG", "DEND", "IDT", "DEF", "LIST", "EVEN"])
    if word in ALONE or word in ("PSEG", "DEND", "LIST", "EVEN"):
        return "%-7s %-7s%s" % (label, word, note)
    if word in ("TEXT", "IDT"):
        return "%-7s %-7s '%s'%s" % (label, word, r.choice(["ABC", "A B", "X;Y", "> 1F"]), note)
    if word == "AORG" or word == "DORG":
        return "        %-7s >%s%s" % (word, digits(r), note)
    if word == "DEF":
        return "        DEF     %s%s" % (r.choice(names), note)
    if word == "EQU":
        label = r.choice(names + ["AR3", "PA12"])
    return "%-7s %-7s %s%s" % (label, word, operands(r, names), note)


def coff_line(r, names, dummy):
    note = r.choice(["", "", " ; " + comment(r)])
    form = r.randrange(12)
    name = r.choice(names)
    if form == 0:
        return "$%d     SUBK    1%s" % (r.randint(0, 9), note)
    if form == 1:
        return "        LALK    >%s%s" % (digits(r), note)
    if form == 2:
        return "%-7s .word   0x%s,'AB'%s" % (name, digits(r), note)
    if form == 3:
        return "        .title  'Part %d'%s" % (r.randint(1, 9), note)
    if form == 4:
        return "        .newblock"
    if form == 5:
        return '        .asect  "s%d",0%s%s' % (r.randint(0, 9), digits(r) + "h", note)
    if form == 6:
        return '%-7s .usect  "u",%d,1%s' % (name, r.randint(1, 9), note)
    if form == 7:
        return '        .byte   "a%s",%d%s' % (r.choice("bcd"), r.randint(0, 9), note)
    if form == 8:
        return "        .tab    4%s" % note
    if form == 9:
        return "        B       $%d%s" % (r.randint(0, 9), note)
    if form == 10:
        return "* %s" % comment(r)
    return "%-7s ADDK    %d%s" % (name, r.randint(0, 99), note)


def source(seed, early):
    """The text of an old source."""
    r = random.Random(seed)
    names = ["K%d" % n for n in range(6)] + ["LOOP", "BUF"]
    line = early_line if early else coff_line
    lines = [line(r, names, False) for _ in range(r.randint(5, 60))]
    end = r.choice(["\n", "\r\n"])
    return end.join(lines) + end
