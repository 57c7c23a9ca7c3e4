"""A WebAssembly module with a memory of 64 bits, as one with a memory of 32 bits, which more browsers and
versions of Node run.

Nothing of the program changes but how it comes to the memory: its pointers stay integers of 64 bits, and
before each access the address loses its upper half. The memory may grow to 2 GiB at most, so that an address
below zero, as behind the end of the stack, stays outside of it and traps. Functions keep their types, so the
host passes the same numbers. An instruction that this module doesn't know is an error.
"""

from wasm.binary import Reader, Unknown, module_of, sections, signed, unsigned, vector

I32, I64, F32, F64, V128 = 0x7F, 0x7E, 0x7D, 0x7C, 0x7B
MOST_PAGES = 32768
WRAP, EXTEND_S, EXTEND_U = b"\xa7", b"\xac", b"\xad"
# The type of what each store takes.
STORES = {0x36: I32, 0x37: I64, 0x38: F32, 0x39: F64, 0x3A: I32, 0x3B: I32, 0x3C: I64, 0x3D: I64, 0x3E: I64}
# How the rest of an instruction is read that has no address.
RESTS = {
    **dict.fromkeys((0x02, 0x03, 0x04, 0x41, 0x42), Reader.signed),
    **dict.fromkeys((0x0C, 0x0D, 0x10, 0x12, *range(0x20, 0x25)), Reader.number),
    **dict.fromkeys((0x11, 0x13), lambda it: it.numbers(2)),
    **dict.fromkeys((0x3F, 0x40), Reader.byte),
    **dict.fromkeys((0x00, 0x01, 0x05, 0x0B, 0x0F, 0x1A, 0x1B, *range(0x45, 0xC5)), lambda it: None),
    0x0E: lambda it: it.numbers(it.number() + 1),
    0x1C: lambda it: it.take(it.number()),
    0x43: lambda it: it.take(4),
    0x44: lambda it: it.take(8),
}
# What stands before and behind an instruction that takes an index of a table, or a number of pages, or gives
# one.
AROUND = {0x11: (WRAP, b""), 0x13: (WRAP, b""), 0x3F: (b"", EXTEND_U), 0x40: (WRAP, EXTEND_S)}


def limits(reader, most=None):
    flags = reader.byte()
    if flags not in (4, 5):
        raise Unknown(f"limits {flags}")
    least, greatest = reader.number(), reader.number() if flags & 1 else None
    if most is not None:
        greatest = most if greatest is None else min(greatest, most)
        if least > greatest:
            raise Unknown("a memory above 2 GiB")
    if greatest is None:
        return bytes([0]) + unsigned(least)
    return bytes([1]) + unsigned(least) + unsigned(greatest)


def offset(reader):
    """A constant address, as that of a segment."""
    if reader.byte() != 0x42:
        raise Unknown("an address that is no constant")
    value = reader.signed()
    if reader.byte() != 0x0B or not 0 <= value < 1 << 32:
        raise Unknown("an address that is no constant")
    return b"\x41" + signed(value - (1 << 32) if value >= 1 << 31 else value) + b"\x0b"


def element(reader):
    flags = reader.number()
    if flags != 0:
        raise Unknown(f"elements {flags}")
    return unsigned(flags) + offset(reader) + vector(reader, lambda it: it.numbers(1))


def segment(reader):
    flags = reader.number()
    if flags != 0:
        raise Unknown(f"data {flags}")
    where = offset(reader)
    count = reader.number()
    return unsigned(flags) + where + unsigned(count) + reader.take(count)


class Body:
    """The body of a function. Locals of its own hold what lies above an address on the stack."""

    def __init__(self, reader, parameters):
        groups = [(reader.number(), reader.byte()) for _ in range(reader.number())]
        self.groups, self.first = groups, parameters + sum(count for count, _ in groups)
        self.own, self.reader, self.made = {}, reader, bytearray()
        while reader.at < reader.end:
            self.instruction()

    def local(self, kind, number=0):
        """A local of this type that nothing else uses: the first or the second."""
        place = self.own.setdefault((kind, number), self.first + len(self.own))
        return unsigned(place)

    def bytes(self):
        groups = self.groups + [(1, kind) for kind, _ in self.own]
        head = unsigned(len(groups)) + b"".join(unsigned(count) + bytes([kind]) for count, kind in groups)
        whole = head + bytes(self.made)
        return unsigned(len(whole)) + whole

    def instruction(self):
        reader, begin = self.reader, self.reader.at
        code = reader.byte()
        if 0x28 <= code <= 0x35:
            self.made += WRAP + bytes([code]) + self.place(reader)
        elif code in STORES:
            held = self.local(STORES[code])
            self.made += b"\x21" + held + WRAP + b"\x20" + held + bytes([code]) + self.place(reader)
        elif code == 0xFC:
            before = self.longer(reader)
            self.made += before + reader.data[begin : reader.at]
        elif code == 0xFD:
            self.vectors(reader)
        elif code in RESTS:
            RESTS[code](reader)
            before, behind = AROUND.get(code, (b"", b""))
            self.made += before + reader.data[begin : reader.at] + behind
        else:
            raise Unknown(f"the instruction {code:#x}")

    def longer(self, reader):
        which = reader.number()
        if which <= 7:
            return b""
        if which not in (10, 11):
            raise Unknown(f"the instruction 0xfc {which}")
        reader.numbers(2 if which == 10 else 1)
        # memory.copy takes two addresses and a length, and memory.fill an address, a byte and a length.
        length = self.local(I64)
        middle = self.local(I64, 1) if which == 10 else self.local(I32)
        other = b"\x20" + middle + (WRAP if which == 10 else b"")
        return b"\x21" + length + b"\x21" + middle + WRAP + other + b"\x20" + length + WRAP

    def vectors(self, reader):
        """An instruction on vectors of 128 bits."""
        begin = reader.at
        which = reader.number()
        code = b"\xfd" + unsigned(which)
        if which <= 10 or which in (92, 93):
            self.made += WRAP + code + self.place(reader)
        elif which == 11 or 84 <= which <= 91:
            held = self.local(V128)
            self.made += b"\x21" + held + WRAP + b"\x20" + held + code + self.place(reader)
            if which != 11:
                self.made += reader.take(1)
        elif which > 255:
            raise Unknown(f"the instruction 0xfd {which}")
        else:
            reader.take(16 if which in (12, 13) else 1 if 21 <= which <= 34 else 0)
            self.made += b"\xfd" + reader.data[begin : reader.at]

    @staticmethod
    def place(reader):
        """What a load or a store adds to its address. (The linker pads it to the length of a number of 64
        bits.)"""
        alignment, place = reader.number(), reader.number()
        if alignment >= 64 or place >= 1 << 31:
            raise Unknown("an access with another memory, or a large offset")
        return unsigned(alignment) + unsigned(place)


def parameters_of(reader):
    if reader.byte() != 0x60:
        raise Unknown("a type that is no function's")
    count = len(reader.take(reader.number()))
    reader.take(reader.number())
    return count


def no_import(_):
    raise Unknown("an import")


def bodies(reader, parameters):
    """The bodies of all functions, which have these numbers of parameters."""
    made = []
    for number in range(reader.number()):
        size = reader.number()
        body = Reader(reader.data, reader.at, reader.at + size)
        made.append(Body(body, parameters[number]).bytes())
        reader.at += size
    return unsigned(len(made)) + b"".join(made)


# How the sections are made anew that have an address or a limit.
CHANGED = {
    2: lambda it: vector(it, no_import),
    4: lambda it: vector(it, lambda one: bytes([one.byte()]) + limits(one)),
    5: lambda it: vector(it, lambda one: limits(one, MOST_PAGES)),
    9: lambda it: vector(it, element),
    11: lambda it: vector(it, segment),
}
# Sections that stay: names, globals, exports and the number of segments.
KEPT = {0, 1, 3, 6, 7, 12}


def narrowed(data):
    """The module with a memory of 32 bits."""
    made, types, kinds = [], [], []
    for kind, content in sections(data):
        reader = Reader(content)
        if kind == 0 and reader.name() == "target_features":
            continue
        if kind == 1:
            types = [parameters_of(reader) for _ in range(reader.number())]
        elif kind == 3:
            kinds = [reader.number() for _ in range(reader.number())]
        elif kind == 10:
            content = bodies(reader, [types[it] for it in kinds])
        elif kind in CHANGED:
            content = CHANGED[kind](reader)
        elif kind not in KEPT:
            raise Unknown(f"the section {kind}")
        made.append((kind, content))
    return module_of(made)
