"""Random programs for runs.py: a state by instructions, then what is tried, then a branch to itself.

Each program stays where both simulators have memory: its data in 60h to 7Fh and 200h to 3FFh, its code and tables from 0 on. ARP
is never 0, AR1 to AR7 stay near 300h, AR0 is 0 to 2, and block B0 is program memory only around a MAC or a TBLW that goes there.
"""

PAGES = {0: (0x60, 0x7E), 4: (0, 0x7E), 5: (0, 0x7E), 6: (0, 0x7E), 7: (0, 0x7D)}
DATA = [*range(0x60, 0x80), *range(0x200, 0x400)]
EDGES = [0, 1, 2, 0x10, 0xFF, 0x4000, 0x7FFF, 0x8000, 0x8001, 0xC000, 0xFF00, 0xFFFE, 0xFFFF]

MEMORY = """ADDC ADDH ADDS ADDT AND DMOV LACT LPH LT LTA LTD LTP LTS MPY MPYA MPYS MPYU OR POPD PSHD SPH SPL SQRA SQRS SUBB SUBC SUBH SUBS
SUBT XOR ZALH ZALR ZALS BITT""".split()
SHIFTED = ["ADD", "SUB", "LAC", "SACL", "SACH"]
PLAIN = """ABS APAC CMPL DINT EINT NEG PAC POP PUSH RC RFSM RHM ROL ROR ROVM RSXM RTC RTXM RXF SC SFL SFR SFSM SHM SOVM SPAC SSXM STC STXM
SXF""".split()
LONG = ["LALK", "ADLK", "SBLK", "ANDK", "ORK", "XORK"]
BRANCHES = "B BANZ BBNZ BBZ BC BIOZ BGEZ BGZ BLEZ BLZ BNC BNV BNZ BV BZ".split()
REPEATED = """ADD *+|ADDC *+|APAC|BLKD 230h,*+|BLKP 150h,*-|DMOV *-|LTA *+|LTD *-|MAC 148h,*+|MACD 150h,*-|MAR *0+|MPYA *+|MPYS *-|NORM *+|
NORM *-|POP|PUSH|ROL|ROR|SFL|SFR|SPAC|SQRA *-|SQRS *+|SUB *-,3|SUBB *-|SUBC *|TBLR *+""".replace("\n", "").split("|")

# Instructions on which MAME is known to differ, so that a program of several instructions would go on with another state.
KNOWN = {"ADDH", "SUBH", "SUBC", "NEG"}


def number(word):
    return "0%04Xh" % word


class Program:
    """A source, and what is tried in it."""

    def __init__(self, rng, most, alone):
        self.rng, self.alone, self.page, self.labels, self.tried = rng, alone, 0, 0, []
        self.lines, self.behind, self.data = [], [], {address: self.word() for address in DATA}
        self.table = [self.word() for _ in range(0x80)]
        self.begin()
        self.lines.append("BODY NOP")
        for _ in range(1 if alone else rng.randint(1, most)):
            self.instruction()
        self.lines.append(" LDPK 0")
        if rng.random() < 0.05:
            self.tried.insert(0, "IDLE")
            self.say("IDLE")
        self.lines.append("STOP B STOP")

    def word(self):
        return self.rng.choice([self.rng.randrange(65536), self.rng.randrange(65536), self.rng.choice(EDGES)])

    def say(self, *lines):
        self.lines += [" " + line for line in lines]

    def begin(self):
        """Registers and stack; the status words last, since what comes before changes them."""
        rng = self.rng
        self.data[0x60] = self.word() & 0x0FFF | rng.randrange(1, 8) << 13
        self.data[0x61] = rng.randrange(1, 8) << 13 | rng.randrange(4) << 11
        self.say("LDPK 0")
        for _ in range(8):
            self.say("LALK " + number(self.word()), "PUSH")
        self.say("LARK AR0,%d" % rng.randrange(3))
        for register in range(1, 8):
            self.say("LRLK AR%d,%s" % (register, number(rng.randrange(0x2D0, 0x330))))
        self.say("LT 62h", "MPY 63h", "LPH 64h", "ANDK 0", "ORK %s,15" % number(self.word()), "XORK " + number(self.word()),
                 "LST1 60h", "LST 61h", "LDPK 0")

    def indirect(self, next_register=True):
        forms = ["*", "*+", "*-", "*0+", "*0-"] + (["*BR0+", "*BR0-"] if self.alone else [])
        operand = self.rng.choice(forms)
        return operand, ",AR%d" % self.rng.randrange(1, 8) if next_register and self.rng.random() < 0.4 else ""

    def memory(self):
        """An operand in memory, and the next register after it."""
        if self.rng.random() < 0.4:
            return str(self.rng.randint(*PAGES[self.page])), ""
        return self.indirect()

    def label(self):
        self.labels += 1
        return "L%d" % self.labels

    def choice(self, names):
        return self.rng.choice([it for it in names if self.alone or it.split()[0] not in KNOWN])

    def instruction(self):
        kinds = [(34, self.memory_form), (18, self.shifted), (4, self.bit), (2, self.port), (10, self.short), (8, self.long),
                 (17, self.plain), (4, self.stored), (4, self.branch), (4, self.subroutine), (6, self.loaded), (4, self.repeat), (2, self.block_b0)]
        kind = self.rng.choices([it for _, it in kinds], [weight for weight, _ in kinds])[0]
        kind()

    def memory_form(self):
        name = self.choice(MEMORY + ["MAR"])
        operand, behind = self.indirect() if name == "MAR" else self.memory()
        self.tried.append(name)
        self.say(name + " " + operand + behind)

    def shifted(self):
        name = self.choice(SHIFTED)
        operand, behind = self.memory()
        self.tried.append(name)
        self.say("%s %s,%d%s" % (name, operand, self.rng.randrange(8 if name.startswith("SAC") else 16), behind))

    def bit(self):
        operand, behind = self.memory()
        self.tried.append("BIT")
        self.say("BIT %s,%d%s" % (operand, self.rng.randrange(16), behind))

    def port(self):
        name = self.choice(["IN", "OUT"])
        operand, behind = self.memory()
        self.tried.append(name)
        self.say("%s %s,PA%d%s" % (name, operand, self.rng.randrange(16), behind))

    def short(self):
        name = self.choice("ADDK SUBK LACK ADRK SBRK MPYK LDPK LARK SPM FORT CMPR LARP".split())
        operand = {"ADRK": 9, "SBRK": 9, "SPM": 4, "FORT": 2, "CMPR": 4}
        if name == "LDPK":
            self.page = self.rng.choice([*PAGES])
        told = {"LDPK": str(self.page), "MPYK": str(self.rng.choice([self.rng.randrange(-4096, 4096), -4096, 4095, -1])),
                "LARK": "AR0,%d" % self.rng.randrange(3), "LARP": str(self.rng.randrange(1, 8))}
        self.tried.append(name)
        self.say("%s %s" % (name, told.get(name) or self.rng.randrange(operand.get(name, 256))))

    def long(self):
        name = self.choice(LONG)
        self.tried.append(name)
        self.say("%s %s,%d" % (name, number(self.word()), self.rng.randrange(16)))

    def plain(self):
        name = self.choice(PLAIN + ["NORM"])
        self.tried.append(name)
        self.say("NORM " + self.indirect(False)[0] if name == "NORM" else name)

    def stored(self):
        name = self.choice(["SAR", "SST", "SST1"])
        self.tried.append(name)
        if name == "SAR":
            operand, behind = self.memory()
            self.say("SAR AR%d,%s%s" % (self.rng.randrange(8), operand, behind))
        else:
            self.say("%s %d" % (name, self.rng.randrange(0x60, 0x7F)))

    def branch(self):
        name, label = self.choice(BRANCHES + ["BACC"]), self.label()
        self.tried.append(name)
        if name == "BACC":
            self.say("LALK " + label, "BACC")
        else:
            self.say("%s %s,%s%s" % (name, label, *self.indirect()))
        self.say("ADRK 3")
        self.lines.append(label + " NOP")

    def subroutine(self):
        name, label = self.choice(["CALL", "CALA", "TRAP"]), self.label()
        self.tried += [name, "RET"]
        if name == "TRAP":
            self.say("TRAP")
            return
        if name == "CALA":
            self.say("LALK " + label, "CALA")
        else:
            self.say("CALL %s,%s%s" % (label, *self.indirect()))
        self.behind += [label + " SBRK 1", " RET"]

    def loaded(self):
        """A register that is loaded of memory, kept, and then brought back to where the program may go on."""
        name = self.choice(["LAR", "LDP", "LST", "LST1"])
        self.tried.append(name)
        self.say("LDPK 0")
        if name == "LAR":
            register = self.rng.randrange(1, 8)
            self.say("LAR AR%d,%d" % (register, self.rng.randrange(0x60, 0x7F)), "SAR AR%d,%d" % (register, self.rng.randrange(0x60, 0x7F)),
                     "LRLK AR%d,%s" % (register, number(self.rng.randrange(0x2D0, 0x330))))
        elif name == "LST1":
            self.say("LALK " + number(self.word() & 0xEFFF), "SACL 65h", "LST1 65h")
        else:
            self.say("%s %d" % (name, self.rng.randrange(0x60, 0x7F)))
        self.say("SST 66h", "SST1 67h", "LARP %d" % self.rng.randrange(1, 8), "LDPK 0")
        self.page = 0

    def repeat(self):
        told = self.choice(REPEATED)
        self.tried.append("RPT " + told)
        if told.startswith("TBLR"):
            self.say("LALK 150h")
        if self.rng.random() < 0.5:
            self.say("RPTK %d" % self.rng.randrange(12), told)
        else:
            self.say("LDPK 0", "LARK AR0,%d" % self.rng.randrange(3), "SAR AR0,68h", "RPT 68h", told)
            self.page = 0

    def block_b0(self):
        """MAC that reads block B0 as program memory, or TBLW that writes it there."""
        register, place = self.rng.randrange(1, 8), number(self.rng.randrange(0xFF00, 0xFFE0))
        name = self.rng.choice(["MAC", "TBLW"])
        self.tried += [name + " in B0", "CNFP", "CNFD"]
        self.say("LRLK AR%d,%s" % (register, number(self.rng.randrange(0x320, 0x360))), "LARP %d" % register)
        if name == "TBLW":
            self.say("ZAC", "ADLK %s,0" % place)
        self.say("CNFP", "RPTK %d" % self.rng.randrange(12), "TBLW *+" if name == "TBLW" else "MAC %s,*+" % place, "CNFD")

    def source(self):
        lines = [" .def BODY", " B GO", ' .sect "trap"', " SBRK 1", " RET", ' .sect "code"', "GO NOP"] + self.lines + self.behind
        words = [(' .sect "table"', self.table), (' .sect "low"', [self.data[it] for it in range(0x60, 0x80)]),
                 (' .sect "high"', [self.data[it] for it in range(0x200, 0x400)])]
        for section, found in words:
            lines.append(section)
            lines += [" .word " + ",".join(map(number, found[at:at + 16])) for at in range(0, len(found), 16)]
        return "\n".join(lines) + "\n"


COMMAND = """MEMORY { PAGE 0: P: o = 0, l = 1F00h PAGE 1: D: o = 60h, l = 3A0h }
SECTIONS { .text : load = 0 trap : load = 1Eh code : load = 30h table : load = 140h low : load = 60h PAGE 1 high : load = 200h PAGE 1 }
"""
# The machine's ports have no devices, and BIO is low.
SAMPLES = "".join("%d %04X\n" % (port, 0) for port in range(16)) * 40
SCHEDULE = "0 BIO0\n"
