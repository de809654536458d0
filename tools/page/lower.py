"""Turns a WebAssembly module whose memory has 64-bit addresses into one of 32-bit addresses, which every engine takes.

Pointers stay 64 bits wide in the program; each address is cut to 32 bits where memory or the table is reached. An address
of 2^32 or more, at which the first module stops, is another one in the second: it is for modules that reach no such address.
An instruction or a section that is not known here is refused.
"""

I32, I64, F32, F64 = 0x7F, 0x7E, 0x7D, 0x7C
WRAP, EXTEND_SIGNED, EXTEND_UNSIGNED, SET, GET = b"\xA7", b"\xAC", b"\xAD", b"\x21", b"\x20"
# The type of what each store puts into memory.
STORES = {0x36: I32, 0x37: I64, 0x38: F32, 0x39: F64, 0x3A: I32, 0x3B: I32, 0x3C: I64, 0x3D: I64, 0x3E: I64}
# Opcodes that one number stands after: blocks, branches, calls, locals, globals, constants.
WITH_NUMBER = frozenset((0x02, 0x03, 0x04, 0x0C, 0x0D, 0x10, 0x20, 0x21, 0x22, 0x23, 0x24, 0x41, 0x42, 0xD2))
# Those of them, and of constants of floats, that put one value down and take none: local.get, global.get, constants.
LEAVES = frozenset((0x20, 0x23, 0x41, 0x42, 0x43, 0x44))
BRANCH_TABLE, CALL_INDIRECT, SELECT, MEMORY_SIZE, MEMORY_GROW = 0x0E, 0x11, 0x1C, 0x3F, 0x40
CONST_F32, CONST_F64, PREFIX = 0x43, 0x44, 0xFC
MEMORY_COPY, MEMORY_FILL, LAST_CONVERSION = 10, 11, 7
# Opcodes that nothing stands after: unreachable, nop, else, end, return, drop, select, comparisons, arithmetic, conversions.
ALONE = frozenset((0x00, 0x01, 0x05, 0x0B, 0x0F, 0x1A, 0x1B, *range(0x45, 0xC5)))


class Unknown(Exception):
    """Something in a module that cannot be turned."""


def number(value):
    """A whole number as WebAssembly writes it (LEB128)."""
    out = bytearray()
    while value > 127:
        out.append(value & 127 | 128)
        value >>= 7
    out.append(value)
    return bytes(out)


class Reader:
    def __init__(self, data, at=0):
        self.data, self.at = data, at

    def more(self):
        return self.at < len(self.data)

    def byte(self):
        self.at += 1
        return self.data[self.at - 1]

    def number(self):
        value = shift = 0
        while True:
            byte = self.byte()
            value |= (byte & 127) << shift
            shift += 7
            if byte < 128:
                return value

    def skip_number(self):
        while self.byte() > 127:
            pass

    def bytes(self, count):
        self.at += count
        return self.data[self.at - count:self.at]

    def vector(self, read):
        return [read() for _ in range(self.number())]


class Body:
    """A function's body: its instructions are copied, with others before and after those that reach memory."""

    def __init__(self, data, parameters):
        self.reader, self.out, self.copied = Reader(data), bytearray(), 0
        self.groups = self.reader.vector(lambda: (self.reader.number(), self.reader.byte()))
        self.first_new = parameters + sum(count for count, _ in self.groups)
        self.new = {}
        self.leaf = None    # where the instruction before this one begins, if it is one of LEAVES

    def local(self, kind, which=0):
        """The number of a new local of this type."""
        return number(self.new.setdefault((kind, which), self.first_new + len(self.new)))

    def copy(self, end):
        self.out += self.reader.data[self.copied:end]
        self.copied = end

    def put_before(self, start, *parts):
        self.copy(start)
        self.out += b"".join(parts)

    def put_after(self, *parts):
        self.copy(self.reader.at)
        self.out += b"".join(parts)

    def access(self, start, opcode):
        align, offset = self.reader.number(), self.reader.number()
        if align > 63 or offset >= 1 << 32:
            raise Unknown("an offset of %d bytes" % offset)
        if opcode not in STORES:
            self.put_before(start, WRAP)
        elif self.leaf is not None:     # (what is stored is put down by one instruction: the address is cut before it)
            self.put_before(self.leaf, WRAP)
            self.copy(start)
        else:
            value = self.local(STORES[opcode])
            self.put_before(start, SET, value, WRAP, GET, value)
        # (the offset is written anew, since the linker gave it the room of 64 bits)
        self.out += bytes([opcode, align]) + number(offset)
        self.copied = self.reader.at

    def prefixed(self, start):
        opcode = self.reader.number()
        if opcode == MEMORY_COPY:
            self.reader.bytes(2)
            count, source = self.local(I64), self.local(I64, 1)
            self.put_before(start, SET, count, SET, source, WRAP, GET, source, WRAP, GET, count, WRAP)
        elif opcode == MEMORY_FILL:
            self.reader.bytes(1)
            count, value = self.local(I64), self.local(I32)
            self.put_before(start, SET, count, SET, value, WRAP, GET, value, GET, count, WRAP)
        elif opcode > LAST_CONVERSION:
            raise Unknown("the instruction FC %d" % opcode)

    def instruction(self):
        reader = self.reader
        start, opcode = reader.at, reader.byte()
        if opcode in WITH_NUMBER:
            reader.skip_number()
        elif 0x28 <= opcode <= 0x3E:
            self.access(start, opcode)
        elif opcode == BRANCH_TABLE:
            for _ in range(reader.number() + 1):
                reader.skip_number()
        elif opcode == CALL_INDIRECT:
            reader.skip_number()
            reader.skip_number()
            self.put_before(start, WRAP)
        elif opcode == SELECT:
            reader.vector(reader.byte)
        elif opcode == MEMORY_SIZE:
            reader.byte()
            self.put_after(EXTEND_UNSIGNED)
        elif opcode == MEMORY_GROW:
            reader.byte()
            self.put_before(start, WRAP)
            self.put_after(EXTEND_SIGNED)
        elif opcode in (CONST_F32, CONST_F64):
            reader.bytes(4 if opcode == CONST_F32 else 8)
        elif opcode == PREFIX:
            self.prefixed(start)
        elif opcode not in ALONE:
            raise Unknown("the instruction %02X" % opcode)
        self.leaf = start if opcode in LEAVES else None

    def lowered(self):
        self.copied = self.reader.at
        while self.reader.more():
            self.instruction()
        self.copy(self.reader.at)
        groups = self.groups + [(1, kind) for kind, _ in self.new]
        return number(len(groups)) + b"".join(number(count) + bytes([kind]) for count, kind in groups) + bytes(self.out)


def vector(items):
    return number(len(items)) + b"".join(items)


def limits(reader):
    """The limits of a memory or table, without the flag of 64-bit addresses."""
    flags, least = reader.byte(), reader.number()
    most = number(reader.number()) if flags & 1 else b""
    return bytes([flags & ~4]) + number(least) + most


def memory(reader, most_pages):
    made = limits(reader)
    return made if most_pages is None else b"\x01" + number(Reader(made, 1).number()) + number(most_pages)


def table(reader):
    return bytes([reader.byte()]) + limits(reader)


def place(reader):
    """The place of a segment, `i64.const N; end`, with 32 bits."""
    if reader.number() != 0:
        raise Unknown("a segment of another kind")
    if reader.byte() not in (0x41, 0x42):
        raise Unknown("a place that is no constant")
    start = reader.at
    reader.skip_number()
    value = reader.data[start:reader.at]
    if reader.byte() != 0x0B:
        raise Unknown("a place that is no constant")
    return b"\x00\x41" + value + b"\x0B"


def element(reader):
    return place(reader) + vector(reader.vector(lambda: number(reader.number())))


def data(reader):
    at, size = place(reader), reader.number()
    return at + number(size) + reader.bytes(size)


def parameters(reader):
    """How many parameters a type of functions has."""
    if reader.byte() != 0x60:
        raise Unknown("a type that is no function's")
    count = reader.number()
    reader.bytes(count)
    reader.bytes(reader.number())
    return count


SECTIONS = {4: table, 9: element, 11: data}
CUSTOM, TYPES, FUNCTIONS, MEMORIES, BODIES = 0, 1, 3, 5, 10
# Sections that have no address: imports, globals, exports, the function to begin with, the number of data segments.
COPIED = (2, 6, 7, 8, 12)


def lowered(module, most_pages=None):
    """The module with a memory of 32-bit addresses; it has at most so many pages, if that is said."""
    reader, out, counts, types = Reader(module, 8), bytearray(module[:8]), [], []
    while reader.more():
        kind = reader.byte()
        content = reader.bytes(reader.number())
        section = Reader(content)
        if kind == CUSTOM:
            continue
        if kind == TYPES:
            counts = section.vector(lambda: parameters(section))
        elif kind == FUNCTIONS:
            types = section.vector(section.number)
        elif kind == BODIES:
            bodies = section.vector(lambda: section.bytes(section.number()))
            made = [Body(body, counts[types[at]]).lowered() for at, body in enumerate(bodies)]
            content = vector([number(len(body)) + body for body in made])
        elif kind == MEMORIES:
            content = vector(section.vector(lambda: memory(section, most_pages)))
        elif kind in SECTIONS:
            content = vector(section.vector(lambda: SECTIONS[kind](section)))
        elif kind not in COPIED:
            raise Unknown("a section of the kind %d" % kind)
        out += bytes([kind]) + number(len(content)) + content
    return bytes(out)
