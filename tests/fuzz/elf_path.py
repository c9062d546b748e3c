"""The second path of ELF files: the first fault of a file, its tables, and the faults of a file for a board.

The checks follow the tables of docs/COMMAND_LINE.md. All fields are little-endian (System V ABI, ELF-32).
"""

import struct
from collections.abc import Iterator
from dataclasses import dataclass

from board_path import Board
from fault import WORD, Fault, Untold

HEADER, PROGRAM, SECTION, SYMBOL, RELOCATION = 52, 32, 40, 16, 12  # bytes of a record
NULL, PROGBITS, SYMTAB, STRTAB, RELA, NOBITS, REL = 0, 1, 2, 3, 4, 8, 9
WITHOUT_BYTES = (NULL, NOBITS)
LOAD, DYNAMIC, INTERPRETER = 1, 2, 3
WRITE, ALLOC, EXECUTE, COMPRESSED = 1, 2, 4, 0x800
OBJECT, FUNCTION = 1, 2
RESERVED = 0xFF00  # section numbers from here on name no section
SUPPORTED = {0, 1, 16, 17, 18, 19, 23, 24, 25, 26, 27, 28, 33, 34, 35, 37, 38, 39, 43, *range(51, 58), 60, 61}

MOST_BYTES, MOST_MEMORY = 64 << 20, 16 << 20
MOST_PROGRAMS, MOST_SECTIONS, MOST_SYMBOLS, MOST_RELOCATIONS = 64, 4096, 65536, 262144
MOST_OBJECTS, MOST_BLOCKS, FARTHEST = 4096, 65536, 1 << 20
START_CODE, FENCE_I = 84, 4  # bytes that a patch range has room for


@dataclass(frozen=True)
class Segment:
    """A program header of type LOAD."""

    index: int
    offset: int
    address: int
    file_size: int
    size: int

    def memory(self) -> range:
        return range(self.address, self.address + self.size)

    def in_file(self) -> range:
        return range(self.offset, self.offset + self.file_size)


@dataclass(frozen=True)
class Section:
    name_at: int
    kind: int
    flags: int
    address: int
    offset: int
    size: int
    link: int
    info: int
    align: int
    entry_size: int

    def memory(self) -> range:
        return range(self.address, self.address + self.size)

    def in_file(self) -> range:
        """The section's bytes in the file, none where its type has none."""
        return range(self.offset, self.offset + (0 if self.kind in WITHOUT_BYTES else self.size))

    def has(self, flag: int) -> bool:
        return self.flags & flag != 0


@dataclass(frozen=True)
class Symbol:
    name: bytes
    value: int
    size: int
    kind: int
    section: int


@dataclass(frozen=True)
class Relocation:
    at: int
    kind: int
    symbol: int
    addend: int
    section: int


@dataclass
class Header:
    entry: int
    programs_at: int
    sections_at: int
    programs: int
    sections: int
    names: int

    def program_table(self) -> range:
        return range(self.programs_at, self.programs_at + PROGRAM * self.programs)

    def section_table(self) -> range:
        return range(self.sections_at, self.sections_at + SECTION * self.sections)


@dataclass
class File:
    """The tables of a file without a fault."""

    bytes: bytes
    header: Header
    segments: list[Segment]
    sections: list[Section]
    names: list[bytes]
    symbols: list[Symbol]
    relocations: list[Relocation]


def meet(first: range, second: range) -> bool:
    """Whether two ranges share a number; an empty one shares none."""
    return max(first.start, second.start) < min(first.stop, second.stop)


def within(inner: range, outer: range) -> bool:
    return outer.start <= inner.start and inner.stop <= outer.stop


def read(file: bytes) -> File:
    """The tables of a file, or its first fault."""
    header = read_header(file)
    segments = read_segments(file, header)
    sections = read_sections(file, header)
    names = read_section_names(file, header, sections)
    table, symbols = read_symbols(file, header, sections)
    relocations = read_relocations(file, sections, table, len(symbols))
    return File(file, header, segments, sections, names, symbols, relocations)


def read_header(file: bytes) -> Header:
    if len(file) > MOST_BYTES:
        raise Fault(5, "over-limit", 1, len(file))
    if len(file) < HEADER:
        raise Fault(5, "too-short", HEADER, len(file))
    for at, byte in enumerate(b"\x7fELF"):
        if file[at] != byte:
            raise Fault(5, "not-elf", at)
    (kind, machine, version, entry, programs_at, sections_at, flags, header_size,
     program_size, programs, section_size, sections, names) = struct.unpack_from("<2H5I6H", file, 16)
    checks = [
        (1, file[4], file[4] == 1),
        (2, file[5], file[5] == 1),
        (3, file[6], file[6] == 1),
        (4, kind, kind == 2),
        (5, machine, machine == 243),
        (6, version, version == 1),
        (7, flags, flags & 0b1001 == 0),
        (8, header_size, header_size == HEADER),
        (9, program_size, program_size == PROGRAM or programs == 0),
        (10, section_size, section_size == SECTION or sections == 0),
    ]
    for field, value, holds in checks:
        if not holds:
            raise Fault(5, "wrong-kind", field, value)
    if programs > MOST_PROGRAMS:
        raise Fault(5, "over-limit", 2, programs)
    if sections > MOST_SECTIONS:
        raise Fault(5, "over-limit", 3, sections)
    return Header(entry, programs_at, sections_at, programs, sections, names)


def check_table(file: bytes, table: range, size: int, number: int) -> None:
    """Each record of a table lies inside the file."""
    for index in range(len(table) // size):
        if table.start + size * (index + 1) > len(file):
            raise Fault(5, "out-of-file", number, index)


def read_segments(file: bytes, header: Header) -> list[Segment]:
    table = header.program_table()
    check_table(file, table, PROGRAM, 1)
    segments = []
    for index in range(header.programs):
        kind, offset, address, _, file_size, size, _, _ = struct.unpack_from("<8I", file, table.start + PROGRAM * index)
        if kind in (DYNAMIC, INTERPRETER):
            raise Fault(5, "wrong-kind", 11, kind)
        if kind != LOAD:
            continue
        if offset + file_size > len(file):
            raise Fault(5, "out-of-file", 2, index)
        if file_size > size:
            raise Fault(5, "wrong-kind", 12, file_size)
        if address + size >= WORD:
            raise Fault(5, "wrong-kind", 13, size)
        segments.append(Segment(index, offset, address, file_size, size))
    check_memory(segments)
    return segments


def check_memory(segments: list[Segment]) -> None:
    memory = sum(segment.size for segment in segments)
    if memory > MOST_MEMORY:
        raise Fault(5, "over-limit", 4, memory)
    for place, first in enumerate(segments):
        for second in segments[place + 1:]:
            if meet(first.memory(), second.memory()):
                raise Fault(5, "overlap", first.index, second.index)


def read_sections(file: bytes, header: Header) -> list[Section]:
    table = header.section_table()
    check_table(file, table, SECTION, 3)
    elf_header = range(HEADER)
    if meet(table, elf_header):
        raise Fault(5, "wrong-kind", 20, 0)
    records = struct.iter_unpack("<10I", file[table.start:table.stop])
    sections = [Section(name, kind, flags, address, offset, size, link, info, align, entry_size)
                for name, kind, flags, address, offset, size, link, info, align, entry_size in records]
    for index, section in enumerate(sections):
        if section.kind in WITHOUT_BYTES:
            continue
        if section.offset + section.size > len(file):
            raise Fault(5, "out-of-file", 4, index)
        if meet(section.in_file(), elf_header):
            raise Fault(5, "wrong-kind", 20, index)
    for index, section in enumerate(sections):
        if section.has(ALLOC) and section.has(COMPRESSED):
            raise Fault(5, "compressed", index)
    for section in sections:
        if section.has(ALLOC) and (section.kind == REL or section.kind == RELA and section.size > 0):
            raise Fault(5, "wrong-kind", 14, section.kind)
    return sections


def content(file: bytes, section: Section) -> bytes:
    return file[section.offset:section.offset + section.size]


def is_string_table(sections: list[Section], index: int) -> bool:
    return index < len(sections) and sections[index].kind == STRTAB


def name_in(strings: bytes, at: int) -> bytes | None:
    """The name that begins there, None where it does not begin and end among the strings."""
    end = strings.find(b"\0", at) if at < len(strings) else -1
    return None if end < 0 else strings[at:end]


def read_section_names(file: bytes, header: Header, sections: list[Section]) -> list[bytes]:
    if not sections:
        return []
    if not is_string_table(sections, header.names):
        raise Fault(5, "bad-index", 3, header.names)
    strings = content(file, sections[header.names])
    names = []
    for index, section in enumerate(sections):
        name = name_in(strings, section.name_at)
        if name is None:
            raise Fault(5, "bad-index", 5, index)
        names.append(name)
    return names


def read_symbols(file: bytes, header: Header, sections: list[Section]) -> tuple[int | None, list[Symbol]]:
    """The symbol table's number, None where there is no such table, and its symbols."""
    tables = [index for index, section in enumerate(sections) if section.kind == SYMTAB]
    if len(tables) > 1:
        raise Fault(5, "wrong-kind", 15, tables[1])
    if not tables:
        return None, []
    table = sections[tables[0]]
    if table.size % SYMBOL or table.entry_size != SYMBOL:
        raise Fault(5, "wrong-kind", 16, table.entry_size)
    others = [section.in_file() for index, section in enumerate(sections) if index != tables[0]]
    if any(meet(table.in_file(), other) for other in [header.section_table(), *others]):
        raise Fault(5, "wrong-kind", 21, tables[0])
    if not is_string_table(sections, table.link):
        raise Fault(5, "bad-index", 4, table.link)
    if table.size // SYMBOL > MOST_SYMBOLS:
        raise Fault(5, "over-limit", 5, table.size // SYMBOL)
    strings = content(file, sections[table.link])
    symbols = []
    for index, (at, value, size, info, _, section) in enumerate(struct.iter_unpack("<3I2BH", content(file, table))):
        name = name_in(strings, at)
        if name is None or len(sections) <= section < RESERVED:
            raise Fault(5, "bad-index", 6, index)
        symbols.append(Symbol(name, value, size, info & 15, section))
    return tables[0], symbols


def read_relocations(file: bytes, sections: list[Section], table: int | None, symbols: int) -> list[Relocation]:
    for section in sections:
        if section.kind == REL and section.info < len(sections) and sections[section.info].has(ALLOC):
            raise Fault(5, "wrong-kind", 14, REL)
    taken = [section for index, section in relocation_sections(sections, table)]
    count = sum(section.size // RELOCATION for section in taken)
    if count > MOST_RELOCATIONS:
        raise Fault(5, "over-limit", 6, count)
    relocations: list[Relocation] = []
    for section in taken:
        for at, info, addend in struct.iter_unpack("<2Ii", content(file, section)):
            index, symbol, kind = len(relocations), info >> 8, info & 0xFF
            if symbol >= symbols:
                raise Fault(5, "bad-index", 8, index)
            if kind not in SUPPORTED:
                raise Fault(6, "unsupported", index, kind)
            relocations.append(Relocation(at, kind, symbol, addend, section.info))
    return relocations


def relocation_sections(sections: list[Section], table: int | None) -> Iterator[tuple[int, Section]]:
    """The sections of relocations of sections with memory, in order."""
    for index, section in enumerate(sections):
        if section.kind != RELA or section.has(ALLOC):
            continue
        if section.info >= len(sections):
            raise Fault(5, "bad-index", 7, index)
        if not sections[section.info].has(ALLOC):
            continue
        if section.link != table:
            raise Fault(5, "bad-index", 7, index)
        if section.entry_size != RELOCATION or section.size % RELOCATION:
            raise Fault(5, "wrong-kind", 17, section.entry_size)
        yield index, section


def is_loaded(file: File, section: Section) -> bool:
    """Whether a section has memory, lies in a segment's memory and, where it has bytes, is loaded from just these."""
    if not section.has(ALLOC) or section.kind not in (PROGBITS, NOBITS):
        return False
    return any(within(section.memory(), segment.memory()) and is_loaded_by(file, section, segment)
               for segment in file.segments)


def is_loaded_by(file: File, section: Section, segment: Segment) -> bool:
    if section.kind == NOBITS:
        return section.address >= segment.address + segment.file_size
    if section.offset - segment.offset != section.address - segment.address:
        return False
    others = [other.in_file() for other in file.sections if other is not section]
    others += [other.in_file() for other in file.segments if other is not segment]
    others += [file.header.program_table(), file.header.section_table()]
    return within(section.in_file(), segment.in_file()) and not any(meet(section.in_file(), other) for other in others)


def code_ranges(file: File) -> list[range]:
    return [section.memory() for section in file.sections
            if section.kind == PROGBITS and section.has(EXECUTE) and is_loaded(file, section)]


def first_word(code: range) -> int:
    return (code.start + 3) // 4 * 4


def has_word(code: range, address: int) -> bool:
    return address % 4 == 0 and code.start <= address and address + 4 <= code.stop


def check_analysis(file: File, board: Board) -> None:
    """The first fault of a file without ELF faults for the commands that analyse it on a board."""
    if file.header.programs == MOST_PROGRAMS:
        raise Fault(5, "over-limit", 2, MOST_PROGRAMS)
    code = code_ranges(file)
    check_layout(file, board, code)
    if not any(has_word(stretch, first_word(stretch)) for stretch in code):
        raise Fault(5, "no-text")
    if not any(has_word(stretch, file.header.entry) for stretch in code):
        raise Fault(5, "entry-not-leader")
    if sum(len(stretch) for stretch in code) // 4 > MOST_BLOCKS:
        raise Untold("there may be too many blocks")
    check_regions(file, board, code)


def check_layout(file: File, board: Board, code: list[range]) -> None:
    segments = [segment for segment in file.segments if segment.size > 0]
    for word, taken in (("spm-overlap", board.spm), ("patch-overlap", board.patch)):
        for segment in segments:
            if meet(segment.memory(), taken):
                raise Fault(7, word, segment.index)
    stretches = [stretch for stretch in code if stretch] + [board.patch]
    span = max(stretch.stop for stretch in stretches) - min(stretch.start for stretch in stretches)
    if span > FARTHEST:
        raise Fault(7, "patch-far", span)
    if meet(board.spm, board.patch):
        raise Fault(7, "spm-meets-patch")
    if board.spm.start < 16:
        raise Fault(7, "spm-at-zero")
    for segment in segments:
        if not any(within(segment.memory(), area) for area in (board.main, *board.areas)):
            raise Fault(7, "no-area", segment.index)
    if sum(symbol.kind == OBJECT for symbol in file.symbols) > MOST_OBJECTS:
        raise Untold("there may be too many objects")
    need = START_CODE + (FENCE_I if board.fence_i else 0)
    if len(board.patch) < need:
        raise Fault(7, "patch-too-small", need, len(board.patch))


def functions(file: File, code: list[range]) -> list[Symbol]:
    """The function symbols that lie in code, by address; of those that overlap the first and largest."""
    inside = [symbol for symbol in file.symbols if symbol.kind == FUNCTION and symbol.size > 0
              and any(within(range(symbol.value, symbol.value + symbol.size), stretch) for stretch in code)]
    kept: list[Symbol] = []
    for symbol in sorted(inside, key=lambda symbol: (symbol.value, -symbol.size)):
        if not kept or kept[-1].value + kept[-1].size <= symbol.value:
            kept.append(symbol)
    return kept


def named_function(file: File, starts: set[int], name: bytes) -> int | None:
    """Where the function of a name starts, of those that start there: the first symbol of this name counts."""
    return next((symbol.value for symbol in file.symbols
                 if symbol.kind == FUNCTION and symbol.name == name and symbol.value in starts), None)


def check_regions(file: File, board: Board, code: list[range]) -> None:
    """Each listed name stands for a function, and for one that was not listed before."""
    starts = {function.value for function in functions(file, code)}
    listed = set()
    for name in (name.encode() for region in board.regions for name in region):
        start = named_function(file, starts, name)
        if start is None:
            raise Fault(5, "unknown-function", name=name)
        if start in listed:
            raise Fault(5, "two-regions", name=name)
        listed.add(start)
