"""Wraps a component in another one."""
import collections

from written import number, section, text

CORE_FUNCTION, CORE_MODULE, FUNCTION, TYPE, COMPONENT, INSTANCE = (
    b"\0\x10", b"\0\x11", b"\1", b"\3", b"\4", b"\5")


class CannotWrap(Exception):
    """It has an import after what isn't a type or an alias."""


class Reader:
    """Reads numbers, names and sorts (component model, binary format)."""

    def __init__(self, data, at=0):
        self.data, self.at = data, at

    def byte(self):
        self.at += 1
        return self.data[self.at - 1]

    def number(self):
        value = shift = 0
        while True:
            byte = self.byte()
            value |= (byte & 0x7F) << shift
            shift += 7
            if byte < 0x80:
                return value

    def text(self):
        length = self.number()
        self.at += length
        return self.data[self.at - length:self.at]

    def name(self):
        """An import's or an export's, without its options."""
        form, name = self.byte(), self.text()
        for _ in range(self.number() if form == 2 else 0):
            self.byte()
            self.text()
        return name

    def sort(self):
        first = self.byte()
        return bytes([first, self.byte()]) if first == 0 else bytes([first])

    def type(self):
        """The sort of an item by its type."""
        kind = self.byte()
        if kind == 0:
            self.byte()
        is_index = kind != 3 or self.byte() == 0
        if is_index:
            self.number()
        return CORE_MODULE if kind == 0 else bytes([kind])


def sections(data):
    reader = Reader(data, 8)
    while reader.at < len(data):
        start, kind = reader.at, reader.byte()
        body = reader.text()
        yield kind, data[start:reader.at], Reader(body)


class Wrapper:
    def __init__(self):
        self.counts = collections.Counter()
        # the types and imports, the arguments for these, and the exports
        self.front, self.arguments, self.exports = b"", [], []
        self.is_front = True

    def add(self, kind, whole, reader):
        if kind == 10:
            if not self.is_front:
                raise CannotWrap
            self.add_imports(reader)
        elif kind == 11:
            self.is_front = False
            for _ in range(reader.number()):
                self.add_export(reader)
        elif kind in (3, 7) and self.is_front:
            self.counts[TYPE if kind == 7 else CORE_FUNCTION] += reader.number()
        elif kind == 6 and self.is_front:
            self.is_front = self.add_aliases(reader)
        elif kind != 0:
            self.is_front = False
        if self.is_front and kind != 0:
            self.front += whole

    def add_imports(self, reader):
        for _ in range(reader.number()):
            name, sort = reader.name(), reader.type()
            self.arguments.append(text(name) + sort + number(self.counts[sort]))
            self.counts[sort] += 1

    def add_aliases(self, reader):
        """Adds aliases if all of them are of exports of instances."""
        new = collections.Counter()
        for _ in range(reader.number()):
            sort = reader.sort()
            if reader.byte() != 0:
                return False
            reader.number()
            reader.text()
            new[sort] += 1
        self.counts += new
        return True

    def add_export(self, reader):
        start = reader.at
        bare = reader.name()
        name = reader.data[start:reader.at]
        sort, _ = reader.sort(), reader.number()
        if reader.byte():
            reader.type()
        self.exports.append((name, bare, sort))


def wrap(data):
    """Returns a component that imports what this one imports, instantiates it with that, and
    exports what it exports."""
    wrapper = Wrapper()
    for kind, whole, reader in sections(data):
        wrapper.add(kind, whole, reader)
    counts, arguments = wrapper.counts, wrapper.arguments
    out = data[:8] + wrapper.front + b"\4" + text(data)
    component = number(counts[COMPONENT])
    out += section(5, [b"\0" + component + number(len(arguments)) + b"".join(arguments)])
    instance = number(counts[INSTANCE])
    counts[INSTANCE] += 1
    for name, bare, sort in wrapper.exports:
        out += section(6, [sort + b"\0" + instance + text(bare)])
        out += section(11, [name + sort + number(counts[sort]) + b"\0"])
        counts[sort] += 2
    return out
