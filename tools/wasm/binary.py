"""Numbers and vectors of WebAssembly's binary format, and the sections of a module."""


# The bytes of a page of memory.
PAGE = 65536


class Unknown(Exception):
    """The module has something that these tools don't know."""


def unsigned(number):
    made = bytearray()
    while True:
        low, number = number & 127, number >> 7
        made.append(low | (128 if number else 0))
        if not number:
            return bytes(made)


def signed(number):
    made = bytearray()
    while True:
        low, number = number & 127, number >> 7
        is_last = (number == 0 and not low & 64) or (number == -1 and low & 64)
        made.append(low if is_last else low | 128)
        if is_last:
            return bytes(made)


class Reader:
    """Reads bytes from a place on."""

    def __init__(self, data, at=0, end=None):
        self.data, self.at, self.end = data, at, len(data) if end is None else end

    def byte(self):
        self.at += 1
        return self.data[self.at - 1]

    def take(self, count):
        self.at += count
        return self.data[self.at - count : self.at]

    def number(self):
        made = shift = 0
        while True:
            byte = self.byte()
            made |= (byte & 127) << shift
            shift += 7
            if byte < 128:
                return made

    def signed(self):
        made = shift = 0
        while True:
            byte = self.byte()
            made |= (byte & 127) << shift
            shift += 7
            if byte < 128:
                return made - (1 << shift) if byte & 64 else made

    def numbers(self, count):
        """The bytes of this many numbers."""
        begin = self.at
        for _ in range(count):
            self.number()
        return self.data[begin : self.at]

    def name(self):
        return self.take(self.number()).decode()


def vector(reader, one):
    """The bytes of a vector, each element made anew."""
    count = reader.number()
    return unsigned(count) + b"".join(one(reader) for _ in range(count))


def sections(data):
    """The number and the content of each section."""
    if data[:8] != b"\0asm\1\0\0\0":
        raise Unknown("no module")
    reader = Reader(data, 8)
    while reader.at < len(data):
        kind, size = reader.byte(), reader.number()
        yield kind, reader.take(size)


def module_of(parts):
    """A module of these sections."""
    return b"\0asm\1\0\0\0" + b"".join(bytes([kind]) + unsigned(len(it)) + it for kind, it in parts)


def exports_of(data):
    """The names of the functions that a module exports."""
    found = []
    for kind, content in sections(data):
        reader = Reader(content)
        for _ in range(reader.number() if kind == 7 else 0):
            name = reader.name()
            if reader.byte() == 0:
                found.append(name)
            reader.number()
    return found


def imports_of(data):
    """The number of things that a module imports."""
    return sum(Reader(content).number() for kind, content in sections(data) if kind == 2)


def with_memory(data, pages):
    """A module whose memory has this number of pages and never grows."""
    if pages < least_pages(data):
        raise Unknown(f"a memory below {least_pages(data) * PAGE} bytes")
    # (a memory of 64 bits stays one)
    fixed = lambda given: bytes([1, 1 | given[1] & 4]) + 2 * unsigned(pages)
    return module_of((kind, fixed(it) if kind == 5 else it) for kind, it in sections(data))


def least_pages(data):
    """The number of pages that a module's memory has at first."""
    content = next(content for kind, content in sections(data) if kind == 5)
    return Reader(content, 2).number()
