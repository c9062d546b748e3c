"""The second path of what a file has: objects that may move, the sites that make their addresses, leaders and call pairs.

docs/COMMAND_LINE.md has the rules by which an object stays. Kinds of relocations are those of the RISC-V psABI.
"""

from dataclasses import dataclass, field

import instructions as code
from board_path import Board
from elf_path import (EXECUTE, FUNCTION, HEADER, NOBITS, OBJECT, PROGBITS, SYMTAB, File, Relocation, Section, Symbol,
                      code_ranges, first_word, is_loaded, meet, within)
from fault import WORD
from machine_path import load_image

NONE, WORD_32, BRANCH, JAL, CALL, CALL_PLT, PCREL_HI, PCREL_LO_I, PCREL_LO_S, HI, LO_I, LO_S, ALIGN, RELAX = (
    0, 1, 16, 17, 18, 19, 23, 24, 25, 26, 27, 28, 43, 51)
CALLS, PCREL_LOS, WITHOUT_EFFECT = (CALL, CALL_PLT), (PCREL_LO_I, PCREL_LO_S), (NONE, RELAX, ALIGN)
WITHOUT_ADDRESS = (*WITHOUT_EFFECT, BRANCH, JAL, *CALLS, *PCREL_LOS)
BYTES = {CALL: 8, CALL_PLT: 8} | {kind: 2 for kind in (34, 38, 55)} | {kind: 1 for kind in (33, 37, 52, 53, 54, 60, 61)}
SECTION_SYMBOL = 3
GLOBAL_POINTER = b"__global_pointer$"


@dataclass
class Object:
    home: int
    size: int
    symbols: list[Symbol]
    sections: list[int]
    is_fixed: bool = False

    def memory(self) -> range:
        return range(self.home, self.home + self.size)


@dataclass(frozen=True)
class Site:
    """A word that makes an address: its object, the offset, and whether it makes the upper part."""

    at: int
    object: int
    offset: int
    is_upper: bool


@dataclass
class Objects:
    """The objects that may move by home, their sites and data words by address, and what the code has."""

    objects: list[Object]
    sites: dict[int, Site]
    data_words: dict[int, Site]
    words: dict[int, int] = field(default_factory=dict)
    firsts: set[int] = field(default_factory=set)  # the first word of each section of code
    pairs: dict[int, int] = field(default_factory=dict)  # the targets of call pairs
    leaders: set[int] = field(default_factory=set)
    indirect: set[int] = field(default_factory=set)

    def goes_on(self, at: int) -> bool:
        """Whether a section of code has a word there that is not its first, so that a block may go on."""
        return at in self.words and at not in self.firsts


def upper_part(address: int) -> int:
    return (address + 0x800) % WORD & 0xFFFFF000


def lower_part(address: int) -> int:
    return code.signed(address, 12)


def reads_or_adds(word: int) -> bool:
    return code.has_meaning(word) and (
        code.opcode(word) == code.LOAD or code.opcode(word) == code.IMMEDIATE and code.funct3(word) == code.ADDI)


def writes(word: int) -> bool:
    return code.has_meaning(word) and code.opcode(word) == code.STORE


class Finder:
    """Finds the objects of a file for a board, and their sites."""

    def __init__(self, file: File, board: Board):
        self.file, self.board = file, board
        self.loaded = {index for index, section in enumerate(file.sections) if is_loaded(file, section)}
        self.relocations = [relocation for relocation in file.relocations if relocation.section in self.loaded]
        image = load_image(file)
        self.image = image
        self.words = {at: int.from_bytes(bytes(image.get(at + k, 0) for k in range(4)), "little")
                      for stretch in code_ranges(file) for at in range((stretch.start + 3) // 4 * 4, stretch.stop - 3, 4)}
        self.objects = self.ranges()

    def ranges(self) -> list[Object]:
        """All ranges of object symbols, by home."""
        found: dict[tuple[int, int], Object] = {}
        for symbol in self.file.symbols:
            if self.is_object(symbol):
                one = found.setdefault((symbol.value, symbol.size), Object(symbol.value, symbol.size, [], []))
                one.symbols.append(symbol)
                one.sections.append(symbol.section)
        return [found[key] for key in sorted(found)]

    def is_object(self, symbol: Symbol) -> bool:
        if symbol.kind != OBJECT or symbol.size == 0 or symbol.value == 0 or symbol.section not in self.loaded:
            return False
        section = self.section(symbol)
        memory = range(symbol.value, symbol.value + symbol.size)
        return not section.has(EXECUTE) and within(memory, section.memory())

    def section(self, symbol: Symbol) -> Section:
        return self.file.sections[symbol.section]

    def symbol(self, relocation: Relocation) -> Symbol:
        return self.file.symbols[relocation.symbol]

    def value(self, relocation: Relocation) -> int:
        """The address that a relocation means: S + A."""
        return (self.symbol(relocation).value + relocation.addend) % WORD

    def meant(self, relocation: Relocation) -> list[int]:
        """The objects that a relocation means."""
        symbol = self.symbol(relocation)
        if symbol.kind == SECTION_SYMBOL:
            return [number for number, one in enumerate(self.objects) if self.value(relocation) in one.memory()]
        return [number for number, one in enumerate(self.objects) if any(symbol is other for other in one.symbols)]

    def fix(self) -> None:
        """Marks the objects that stay by another rule than those of their sites."""
        names = {name.encode() for name in self.board.fix}
        pinned = self.pinned_sections()
        for one in self.objects:
            sections = [self.file.sections[index] for index in one.sections]
            called = {symbol.name for symbol in one.symbols} | {self.file.names[index] for index in one.sections}
            one.is_fixed = (any(other is not one and meet(one.memory(), other.memory()) for other in self.objects)
                            or not self.board.bss_movable and any(section.kind == NOBITS for section in sections)
                            or bool(called & names) or any(index in pinned for index in one.sections))

    def pinned_sections(self) -> set[int]:
        """The sections into whose objects a relocation leads by a symbol that names no object."""
        pinned = set()
        for relocation in self.relocations:
            symbol = self.symbol(relocation)
            if self.is_object(symbol) or symbol.kind == SECTION_SYMBOL or symbol.name == GLOBAL_POINTER:
                continue
            for one in self.objects:
                if symbol.value in one.memory() or self.value(relocation) in one.memory():
                    pinned |= set(one.sections)
        return pinned

    def find(self) -> Objects:
        self.fix()
        sites: list[Site] = []
        for relocation in self.relocations:
            for number in self.meant(relocation):
                made = self.made(relocation, number)
                if made is None:
                    self.objects[number].is_fixed = True
                else:
                    sites += made
        by_address: dict[int, list[Site]] = {}
        for site in sites:
            by_address.setdefault(site.at, []).append(site)
        for sharing in by_address.values():
            if len(sharing) > 1:
                for site in sharing:
                    self.objects[site.object].is_fixed = True
        return self.moving([sharing[0] for sharing in by_address.values()])

    def moving(self, sites: list[Site]) -> Objects:
        """What is left when the objects that stay are left out."""
        numbers = {}
        for number, one in enumerate(self.objects):
            if not one.is_fixed:
                numbers[number] = len(numbers)
        kept = [Site(site.at, numbers[site.object], site.offset, site.is_upper) for site in sites if site.object in numbers]
        return Objects([self.objects[number] for number in numbers],
                       {site.at: site for site in kept if site.at in self.words},
                       {site.at: site for site in kept if site.at not in self.words})

    def made(self, relocation: Relocation, number: int) -> list[Site] | None:
        """The sites of a relocation that means an object, None where it doesn't tell all of how the address is made."""
        one = self.objects[number]
        value = self.value(relocation)
        offset = (value - one.home) % WORD
        if relocation.kind in WITHOUT_EFFECT:
            return []
        if offset > one.size:
            return None
        site = Site(relocation.at, number, offset, relocation.kind in (HI, PCREL_HI))
        if relocation.kind == WORD_32:
            return [site] if self.is_data_word(relocation) else None
        word = self.words.get(relocation.at)
        if word is None:
            return None
        if relocation.kind == HI:
            return [site] if code.opcode(word) == code.LUI and code.upper(word) == upper_part(value) else None
        if relocation.kind in (LO_I, LO_S):
            return [site] if holds_lower_part(word, relocation.kind == LO_S, value) else None
        return self.made_by_pc(relocation, site, word) if relocation.kind == PCREL_HI else None

    def made_by_pc(self, relocation: Relocation, site: Site, word: int) -> list[Site] | None:
        distance = (self.value(relocation) - relocation.at) % WORD
        if code.opcode(word) != code.AUIPC or code.upper(word) != upper_part(distance):
            return None
        if any(other.kind in CALLS and other.at == relocation.at for other in self.relocations):
            return None
        lows = [other for other in self.relocations
                if other.kind in PCREL_LOS and self.symbol(other).value == relocation.at]
        for low in lows:
            if low.addend or low.at not in self.words:
                return None
            if not holds_lower_part(self.words[low.at], low.kind == PCREL_LO_S, distance):
                return None
        return [site] + [Site(low.at, site.object, site.offset, False) for low in lows]

    def is_data_word(self, relocation: Relocation) -> bool:
        place = range(relocation.at, relocation.at + 4)
        sections = [self.file.sections[index] for index in self.loaded]
        return (any(section.kind == PROGBITS and not section.has(EXECUTE) and within(place, section.memory())
                    for section in sections)
                and all(within(place, one.memory()) or not meet(place, one.memory()) for one in self.objects)
                and int.from_bytes(bytes(self.image.get(at, 0) for at in place), "little") == self.value(relocation)
                and not any(other is not relocation and other.kind not in WITHOUT_EFFECT
                            and meet(place, range(other.at, other.at + BYTES.get(other.kind, 4)))
                            for other in self.relocations))


def holds_lower_part(word: int, is_store: bool, value: int) -> bool:
    if is_store:
        return writes(word) and code.store_offset(word) == lower_part(value)
    return reads_or_adds(word) and code.immediate(word) == lower_part(value)


def find(file: File, board: Board) -> Objects:
    """What a file without a fault for this board has."""
    finder = Finder(file, board)
    found = finder.find()
    found.words = finder.words
    found.firsts = {first_word(stretch) for stretch in code_ranges(file)}
    find_leaders(finder, found)
    return found


def find_leaders(finder: Finder, found: Objects) -> None:
    """Leaders, those that are reached by registers, and call pairs."""
    words, relocations = finder.words, finder.relocations
    indirect = {finder.file.header.entry} | {symbol.value for symbol in finder.file.symbols if symbol.kind == FUNCTION}
    indirect |= {finder.value(relocation) for relocation in relocations if relocation.kind not in WITHOUT_ADDRESS}
    direct = set()
    for at, word in words.items():
        opcode = code.opcode(word)
        if not code.has_meaning(word):
            continue
        if opcode == code.BRANCH:
            direct |= {(at + code.branch_offset(word)) % WORD, at + 4}
        elif opcode == code.JAL:
            direct.add((at + code.jump_offset(word)) % WORD)
        if opcode in (code.JAL, code.JALR) and code.rd(word):
            indirect.add(at + 4)
    called = {finder.value(relocation) for relocation in relocations if relocation.kind in CALLS}
    for relocation in relocations:
        if relocation.kind in CALLS:
            target = pair_target(relocation.at, finder.value(relocation), words)
            if target is not None and relocation.at + 4 not in direct | indirect | called:
                found.pairs[relocation.at] = target
    found.indirect = {at for at in indirect if at in words}
    found.leaders = {at for at in direct | indirect | set(found.pairs.values()) if at in words}


def pair_target(at: int, value: int, words: dict[int, int]) -> int | None:
    """Where AUIPC and JALR at an address jump together, None where they are no call pair for this value."""
    first, second = words.get(at), words.get(at + 4)
    if first is None or second is None or not code.has_meaning(second):
        return None
    register = code.rd(first)
    if code.opcode(first) != code.AUIPC or code.opcode(second) != code.JALR or register == 0:
        return None
    if code.rs1(second) != register or code.rd(second) not in (0, register):
        return None
    target = (at + code.upper(first) + code.immediate(second)) % WORD
    return target if target == value and value in words else None


def own_bytes(file: File) -> set[int]:
    """The addresses at which a segment loads the ELF header or the symbol table."""
    parts = [range(HEADER)] + [section.in_file() for section in file.sections if section.kind == SYMTAB]
    own: set[int] = set()
    for segment in file.segments:
        for part in parts:
            start, stop = max(part.start, segment.offset), min(part.stop, segment.offset + segment.file_size)
            own |= set(range(start - segment.offset + segment.address, stop - segment.offset + segment.address))
    return own
