"""What an ELF file says of sections, symbols and relocations: as much as the pictures need."""

from dataclasses import dataclass

ALLOC, WRITE, EXECUTE = 2, 1, 4
HAS_BYTES, NO_BYTES, SYMBOLS, ADDENDS = 1, 8, 2, 4
OBJECT, FUNCTION = 1, 2


@dataclass
class Section:
    name: str
    kind: int
    flags: int
    base: int
    offset: int
    size: int
    link: int
    info: int
    entry: int

    def holds(self, address):
        return self.base <= address < self.base + self.size


@dataclass
class Symbol:
    name: str
    value: int
    size: int
    kind: int
    section: int


@dataclass
class Relocation:
    at: int
    kind: int
    symbol: Symbol
    target: int


@dataclass
class Segment:
    base: int
    size: int
    offset: int
    bytes_in_file: int


def text_at(table, offset):
    return table[offset:table.index(b"\0", offset)].decode("utf-8", "replace")


class Elf:
    """A file that spmlink accepts: it is not checked here once more."""

    def __init__(self, name):
        with open(name, "rb") as file:
            self.data = file.read()
        self.entry = self.number(24)
        self.sections = self.read_sections()
        self.symbols = self.read_symbols()
        self.relocations = self.read_relocations()
        self.segments = self.read_segments()

    def number(self, at, size=4):
        return int.from_bytes(self.data[at:at + size], "little")

    def read_sections(self):
        start, count, names_at = self.number(32), self.number(48, 2), self.number(50, 2)
        heads = [[self.number(start + 40 * k + 4 * i) for i in range(10)] for k in range(count)]
        names = self.data[heads[names_at][4]:][:heads[names_at][5]] if heads else b""
        return [Section(text_at(names, h[0]), h[1], h[2], h[3], h[4], h[5], h[6], h[7], h[9]) for h in heads]

    def content(self, section):
        return self.data[section.offset:section.offset + section.size]

    def read_symbols(self):
        table = next((section for section in self.sections if section.kind == SYMBOLS), None)
        if table is None:
            return []
        names = self.content(self.sections[table.link])
        return [self.read_symbol(at, names) for at in range(table.offset, table.offset + table.size, 16)]

    def read_symbol(self, at, names):
        name, value, size = (self.number(at + 4 * i) for i in range(3))
        return Symbol(text_at(names, name), value, size, self.data[at + 12] & 15, self.number(at + 14, 2))

    def read_relocations(self):
        """Those of sections with memory."""
        found = []
        for section in self.sections:
            if section.kind == ADDENDS and self.sections[section.info].flags & ALLOC:
                for at in range(section.offset, section.offset + section.size, 12):
                    found.append(self.read_relocation(at))
        return found

    def read_relocation(self, at):
        place, info, addend = (self.number(at + 4 * i) for i in range(3))
        symbol = self.symbols[info >> 8]
        return Relocation(place, info & 255, symbol, symbol.value + addend & 0xFFFFFFFF)

    def read_segments(self):
        start, count = self.number(28), self.number(44, 2)
        heads = [[self.number(start + 32 * k + 4 * i) for i in range(8)] for k in range(count)]
        return [Segment(h[2], h[5], h[1], h[4]) for h in heads if h[0] == 1 and h[5]]

    def loaded(self):
        """The sections that have memory, by address."""
        return sorted((s for s in self.sections if s.flags & ALLOC and s.size), key=lambda s: s.base)

    def section_of(self, address):
        return next((section for section in self.loaded() if section.holds(address)), None)

    def data_objects(self):
        """The ranges with a symbol of type OBJECT, each once: (home, size, first name)."""
        found = {}
        for symbol in self.symbols:
            if symbol.kind == OBJECT and symbol.size and symbol.value:
                section = self.section_of(symbol.value)
                if section and not section.flags & EXECUTE:
                    found.setdefault((symbol.value, symbol.size), symbol.name)
        return [(home, size, name) for (home, size), name in sorted(found.items())]
