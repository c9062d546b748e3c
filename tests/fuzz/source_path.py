"""The second path of measured runs: the machine on which objects that may move have no addresses.

A pointer to such an object is the object and an offset. docs/COMMAND_LINE.md lists the reasons of address faults.
"""

from collections import Counter
from collections.abc import Callable
from dataclasses import dataclass

import instructions as code
from board_path import Board
from elf_path import WRITE as WRITABLE
from elf_path import File, code_ranges
from fault import WORD, Fault
from machine_path import ADDRESS, COUNT, EXIT, FIRST, NOT_IMPLEMENTED, NUMBER, READ, WRITE, Exited, Trap, load_image, outcome_of
from objects_path import Object, Objects, find, own_bytes

OUTSIDE, MISALIGNED, UNMAPPED, BY_NUMBER, NO_ADDRESS, NO_LEADER, UNKNOWN_BRANCH, UNKNOWN_CALL, READ_ONLY = range(1, 10)


@dataclass(frozen=True)
class Address:
    """The address of an object, with an offset."""

    object: int
    offset: int


@dataclass(frozen=True)
class Upper:
    """What the site of an upper part leaves in its register."""

    object: int
    offset: int


@dataclass(frozen=True)
class Low:
    """A number of which only what is below the grain is known."""

    low: int


@dataclass(frozen=True)
class Part:
    """One byte of an address or of an upper part: a cell, or what a load of it gives."""

    whole: Address | Upper
    place: int


@dataclass(frozen=True)
class Unknown:
    pass


Value = int | Address | Upper | Low | Part | Unknown
Cell = int | Part | Unknown


class AddressFault(Exception):
    def __init__(self, reason: int):
        super().__init__(reason)
        self.reason = reason


class Source:
    """A run of a file's program, and what happened in it."""

    def __init__(self, file: File, board: Board, given: bytes):
        self.found: Objects = find(file, board)
        self.objects: list[Object] = self.found.objects
        self.writable = [file.sections[one.symbols[0].section].has(WRITABLE) for one in self.objects]
        self.grain, self.prices = board.grain, board.prices
        self.mapped = [board.main, *board.areas]
        self.unmapped = [board.spm, board.patch, *code_ranges(file)]
        self.own = own_bytes(file)
        self.cells: dict[int, Cell] = dict(load_image(file))
        for at, site in self.found.data_words.items():
            self.cells |= {at + k: Part(Address(site.object, site.offset), k) for k in range(4)}
        self.registers: list[Value] = [0] * 32
        self.pc, self.next = file.header.entry, 0
        self.given, self.written = given, bytearray()
        self.steps = self.fetches = self.loads = self.stores = 0
        self.began: Counter[int] = Counter()
        self.reads, self.writes = [0] * len(self.objects), [0] * len(self.objects)

    def run(self, steps: int) -> str:
        """The outcome after so many steps; an address fault is a fault of status 8."""
        try:
            return outcome_of(self.step, steps)
        except AddressFault as fault:
            raise Fault(8, "address-fault", self.pc, fault.reason) from fault

    def energy(self) -> int:
        return (self.fetches * self.prices["main_fetch"] + self.loads * self.prices["main_read"]
                + self.stores * self.prices["main_write"])

    def step(self) -> None:
        at, word = self.pc, self.found.words[self.pc]
        self.steps += 1
        self.began[at] += at in self.found.leaders
        is_pair = at in self.found.pairs
        self.fetches += 2 if is_pair else 1
        if not code.has_meaning(word):
            raise Trap
        effect = self.call_pair(word) if is_pair else FAMILIES[code.opcode(word)](self, word)
        is_within_block = self.next == at + 4 and code.opcode(word) not in ENDING and self.found.goes_on(self.next)
        if self.next not in self.found.leaders and not is_within_block:
            raise AddressFault(NO_LEADER)
        if effect:
            effect()
        self.pc = self.next

    def set(self, register: int, value: Value) -> None:
        if register:
            self.registers[register] = value % WORD if isinstance(value, int) else value

    def first(self, word: int) -> Value:
        return self.registers[code.rs1(word)]

    def call_pair(self, word: int) -> "Effect":
        at, register = self.pc, code.rd(word)
        self.next = self.found.pairs[at]
        links = code.rd(self.found.words[at + 4]) != 0
        return lambda: self.set(register, at + 8 if links else Unknown())

    def load_upper(self, word: int) -> "Effect":
        self.next = self.pc + 4
        site = self.found.sites.get(self.pc)
        value: Value = code.upper(word) + (self.pc if code.opcode(word) == code.AUIPC else 0)
        if site and site.is_upper:
            value = Upper(site.object, site.offset)
        return lambda: self.set(code.rd(word), value)

    def jump(self, word: int) -> "Effect":
        at = self.pc
        self.next = (at + code.jump_offset(word)) % WORD
        return lambda: self.set(code.rd(word), at + 4)

    def jump_by_register(self, word: int) -> "Effect":
        at, base = self.pc, self.first(word)
        if not isinstance(base, int):
            raise AddressFault(NO_LEADER)
        self.next = (base + code.immediate(word)) % WORD & ~1
        if self.next not in self.found.indirect:
            raise AddressFault(NO_LEADER)
        return lambda: self.set(code.rd(word), at + 4)

    def branch(self, word: int) -> "Effect":
        is_taken = self.compare(code.funct3(word), self.first(word), self.registers[code.rs2(word)])
        if is_taken is None:
            raise AddressFault(UNKNOWN_BRANCH)
        self.next = (self.pc + (code.branch_offset(word) if is_taken else 4)) % WORD
        return None

    def address(self, word: int, offset: int) -> Value:
        """The address of a load or store."""
        site = self.found.sites.get(self.pc)
        if site:
            return self.joined(self.first(word), site.object, site.offset)
        return self.operated(code.ADD, self.first(word), offset % WORD)

    def joined(self, value: Value, number: int, offset: int) -> Value:
        """An upper part and the lower part of a site, where both are of one chunk of the object."""
        if not isinstance(value, Upper) or value.object != number:
            return Unknown()
        home = self.objects[number].home
        chunks = {(home + part) % WORD // self.grain for part in (value.offset, offset)}
        return Address(number, offset) if len(chunks) == 1 else Unknown()

    def places(self, value: Value, size: int) -> list[int]:
        """The places of so many bytes from an address, in what the cells are kept by, or the first reason that it has none."""
        places = []
        for k in range(size):
            if isinstance(value, Address):
                one, offset = self.objects[value.object], (value.offset + k) % WORD
                if offset >= one.size:
                    raise AddressFault(OUTSIDE)
                places.append(one.home + offset)
            else:
                assert isinstance(value, int)
                self.check_number(value + k)
                places.append(value + k)
        return places

    def check_number(self, at: int) -> None:
        if any(at in one.memory() for one in self.objects):
            raise AddressFault(BY_NUMBER)
        is_mapped = any(at in stretch for stretch in self.mapped) and not any(at in stretch for stretch in self.unmapped)
        if not is_mapped or at in self.own:
            raise AddressFault(UNMAPPED)

    def access(self, value: Value, size: int) -> list[int]:
        """The places of a load or store."""
        if not isinstance(value, int | Address):
            raise AddressFault(NO_ADDRESS)
        if self.number(value) % size:
            raise AddressFault(MISALIGNED)
        return self.places(value, size)

    def number(self, value: int | Address) -> int:
        return value if isinstance(value, int) else (self.objects[value.object].home + value.offset) % WORD

    def load_register(self, word: int) -> "Effect":
        self.next = self.pc + 4
        size, is_signed = code.LOADS[code.funct3(word)]
        address = self.address(word, code.immediate(word))
        cells = [self.cells.get(at, 0) for at in self.access(address, size)]

        def effect() -> None:
            self.loads += 1
            if isinstance(address, Address):
                self.reads[address.object] += 1
            self.set(code.rd(word), loaded(cells, is_signed))
        return effect

    def store_register(self, word: int) -> "Effect":
        self.next = self.pc + 4
        size = code.STORES[code.funct3(word)]
        address, value = self.address(word, code.store_offset(word)), self.registers[code.rs2(word)]
        places = self.access(address, size)
        if isinstance(address, Address) and not self.writable[address.object]:
            raise AddressFault(READ_ONLY)

        def effect() -> None:
            self.stores += 1
            if isinstance(address, Address):
                self.writes[address.object] += 1
            self.cells |= dict(zip(places, split(value)))
        return effect

    def operate(self, word: int) -> "Effect":
        self.next = self.pc + 4
        is_register = code.opcode(word) == code.REGISTER
        second = self.registers[code.rs2(word)] if is_register else code.operand(word)
        value = self.operated(code.operation(word), self.first(word), second)
        site = self.found.sites.get(self.pc)
        if site and not is_register:
            value = self.joined(self.first(word), site.object, site.offset)
        return lambda: self.set(code.rd(word), value)

    def fence(self, word: int) -> "Effect":
        self.next = self.pc + 4
        return None

    def call(self, word: int) -> "Effect":
        self.next = self.pc + 4
        if word == code.EBREAK:
            raise Trap
        number = self.plain(NUMBER)
        if number == EXIT:
            raise Exited(self.plain(FIRST))
        if number == WRITE:
            return self.write()
        if number == READ:
            return self.read()
        return lambda: self.set(FIRST, NOT_IMPLEMENTED)

    def plain(self, register: int) -> int:
        value = self.registers[register]
        if not isinstance(value, int):
            raise AddressFault(UNKNOWN_CALL)
        return value

    def called_with(self, count: int) -> list[int]:
        """The places of the bytes of a call."""
        value = self.registers[ADDRESS]
        if count == 0:
            return []
        if not isinstance(value, int | Address):
            raise AddressFault(NO_ADDRESS)
        return self.places(value, count)

    def write(self) -> "Effect":
        count = self.plain(COUNT)
        cells = [self.cells.get(at, 0) for at in self.called_with(count)]
        if not all(isinstance(cell, int) for cell in cells):
            raise AddressFault(UNKNOWN_CALL)

        def effect() -> None:
            self.written += bytes(cells)  # type: ignore[arg-type]
            self.set(FIRST, count)
        return effect

    def read(self) -> "Effect":
        count = min(self.plain(COUNT), len(self.given))
        value = self.registers[ADDRESS]
        if count and isinstance(value, Address):
            self.places(value, 1)
            if not self.writable[value.object]:
                raise AddressFault(READ_ONLY)
        places = self.called_with(count)

        def effect() -> None:
            self.cells |= dict(zip(places, self.given))
            self.given = self.given[count:]
            self.set(FIRST, count)
        return effect

    def low(self, value: Value) -> int | None:
        """What is known of a value below the grain."""
        if isinstance(value, int | Address):
            return self.number(value) % self.grain
        if isinstance(value, Upper):
            return 0
        return value.low % self.grain if isinstance(value, Low) else None

    def operated(self, operation: tuple[int, int], first: Value, second: Value) -> Value:
        if isinstance(first, int) and isinstance(second, int):
            return code.OPERATIONS[operation](first, second) % WORD
        if operation in SYMMETRIC and isinstance(first, int):
            first, second = second, first
        exact = self.operated_exactly(operation, first, second)
        if exact is not None:
            return exact
        lows = self.low(first), self.low(second)
        if operation in (code.ADD, code.SUB, *SYMMETRIC) and None not in lows:
            return Low(code.OPERATIONS[operation](*lows) % self.grain)  # type: ignore[arg-type]
        return Unknown()

    def operated_exactly(self, operation: tuple[int, int], first: Value, second: Value) -> Value | None:
        """The result where it is an address or a number."""
        if operation == code.SLTU:
            is_below = self.compare(code.BLTU, first, second)
            return None if is_below is None else int(is_below)
        if operation == code.SUB and isinstance(first, Address) and isinstance(second, Address):
            return (first.offset - second.offset) % WORD if first.object == second.object else None
        if not isinstance(second, int):
            return None
        if isinstance(first, Address):
            offset = self.moved(operation, first, second)
            if offset is not None:
                return Address(first.object, offset % WORD)
        low = self.low(first)
        return low & second if operation == code.AND and low is not None and second < self.grain else None

    def moved(self, operation: tuple[int, int], address: Address, number: int) -> int | None:
        """The offset that an address and a number give."""
        low = self.number(address) % self.grain
        if operation == code.ADD:
            return address.offset + number
        if operation == code.SUB:
            return address.offset - number
        if operation == code.AND and number >= WORD - self.grain:
            return address.offset - (low & ~number)
        if operation in (code.OR, code.XOR) and number < self.grain:
            return address.offset + code.OPERATIONS[operation](low, number) - low
        return None

    def compare(self, kind: int, first: Value, second: Value) -> bool | None:
        """Whether a branch is taken, None where that isn't known."""
        if isinstance(first, int) and isinstance(second, int):
            return code.CONDITIONS[kind](first, second)
        if kind in (code.BLT, code.BGE):
            return None
        if isinstance(first, Address) and isinstance(second, Address):
            return self.compare_addresses(kind, first, second)
        for address, number, order in ((first, second, (1, 0)), (second, first, (0, 1))):
            if isinstance(address, Address) and number == 0 and address.offset <= self.objects[address.object].size:
                return code.CONDITIONS[kind](*order)
        return None

    def compare_addresses(self, kind: int, first: Address, second: Address) -> bool | None:
        sizes = self.objects[first.object].size, self.objects[second.object].size
        if first.object == second.object:
            is_known = kind in (code.BEQ, code.BNE) or max(first.offset, second.offset) <= sizes[0]
            return code.CONDITIONS[kind](first.offset, second.offset) if is_known else None
        is_apart = first.offset < sizes[0] and second.offset < sizes[1]
        return kind == code.BNE if is_apart and kind in (code.BEQ, code.BNE) else None


Effect = Callable[[], None] | None
ENDING = (code.BRANCH, code.JAL, code.JALR)
SYMMETRIC = (code.ADD, code.AND, code.OR, code.XOR)
FAMILIES: dict[int, Callable[[Source, int], Effect]] = {
    code.LUI: Source.load_upper,
    code.AUIPC: Source.load_upper,
    code.JAL: Source.jump,
    code.JALR: Source.jump_by_register,
    code.BRANCH: Source.branch,
    code.LOAD: Source.load_register,
    code.STORE: Source.store_register,
    code.IMMEDIATE: Source.operate,
    code.REGISTER: Source.operate,
    code.FENCE: Source.fence,
    code.SYSTEM: Source.call,
}


def split(value: Value) -> list[Cell]:
    """The four cells of a word."""
    if isinstance(value, int):
        return list(value.to_bytes(4, "little"))
    if isinstance(value, Address | Upper):
        return [Part(value, place) for place in range(4)]
    return [value if isinstance(value, Part) else Unknown()] + [Unknown()] * 3


def loaded(cells: list[Cell], is_signed: bool) -> Value:
    """The value of the cells of a load."""
    if all(isinstance(cell, int) for cell in cells):
        number = int.from_bytes(bytes(cells), "little")  # type: ignore[arg-type]
        return code.signed(number, 8 * len(cells)) % WORD if is_signed else number
    first = cells[0]
    if isinstance(first, Part) and len(cells) == 1:
        return first
    if isinstance(first, Part) and cells == [Part(first.whole, place) for place in range(4)]:
        return first.whole
    return Unknown()
