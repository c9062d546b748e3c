"""The second path of runs: the flat machine of docs/FLAT_MACHINE.md, over a map of bytes."""

from collections.abc import Callable

import instructions as code
from board_path import Board
from elf_path import File
from fault import WORD, Endless

EXIT, WRITE, READ = 93, 64, 63
NOT_IMPLEMENTED = -38
NUMBER, FIRST, ADDRESS, COUNT = 17, 10, 11, 12  # registers of a call
MOST_OUTPUT = 1 << 20


class Trap(Exception):
    """The step changes nothing but the outcome."""


class Exited(Exception):
    """The step exits with this code."""

    def __init__(self, code: int):
        super().__init__(code)
        self.code = code % 256


def outcome_of(step: Callable[[], None], steps: int, is_enough: Callable[[], bool] = lambda: False) -> str:
    """The outcome after so many steps, or where there are enough."""
    for _ in range(steps):
        if is_enough():
            break
        try:
            step()
        except Exited as exited:
            return f"exited {exited.code}"
        except Trap:
            return "trapped"
    return "running"


def load_image(file: File) -> dict[int, int]:
    """The bytes of a file's segments by their addresses."""
    image: dict[int, int] = {}
    for segment in file.segments:
        image.update(enumerate(file.bytes[segment.offset:segment.offset + segment.file_size], segment.address))
    return image


class Machine:
    """A hart over the load image of a file, on a board."""

    def __init__(self, file: File, board: Board, given: bytes):
        self.mapped = joined(board.mapped())
        self.memory = load_image(file)
        self.registers = [0] * 32
        self.pc = file.header.entry
        self.given = given
        self.written = bytearray()

    def run(self, steps: int, enough: int | None = None) -> str:
        """The outcome after so many steps, or where so many bytes are written."""
        return outcome_of(self.step, steps, lambda: enough is not None and len(self.written) >= enough)

    def check(self, address: int, size: int) -> None:
        if not any(address in stretch and address + size <= stretch.stop for stretch in self.mapped):
            raise Trap

    def load(self, address: int, size: int) -> int:
        if address % size:
            raise Trap
        self.check(address, size)
        return int.from_bytes(bytes(self.memory.get(address + k, 0) for k in range(size)), "little")

    def set(self, register: int, word: int) -> None:
        if register:
            self.registers[register] = word % WORD

    def step(self) -> None:
        word = self.load(self.pc, 4)
        if not code.has_meaning(word):
            raise Trap
        self.pc = FAMILIES[code.opcode(word)](self, word) % WORD

    def first(self, word: int) -> int:
        return self.registers[code.rs1(word)]

    def second(self, word: int) -> int:
        return self.registers[code.rs2(word)]

    def load_upper(self, word: int) -> int:
        self.set(code.rd(word), code.upper(word) + (self.pc if code.opcode(word) == code.AUIPC else 0))
        return self.pc + 4

    def jump(self, word: int) -> int:
        self.set(code.rd(word), self.pc + 4)
        return self.pc + code.jump_offset(word)

    def jump_by_register(self, word: int) -> int:
        target = self.first(word) + code.immediate(word)
        self.set(code.rd(word), self.pc + 4)
        return target & ~1

    def branch(self, word: int) -> int:
        is_taken = code.CONDITIONS[code.funct3(word)](self.first(word), self.second(word))
        return self.pc + (code.branch_offset(word) if is_taken else 4)

    def load_register(self, word: int) -> int:
        size, is_signed = code.LOADS[code.funct3(word)]
        value = self.load((self.first(word) + code.immediate(word)) % WORD, size)
        self.set(code.rd(word), code.signed(value, 8 * size) if is_signed else value)
        return self.pc + 4

    def store_register(self, word: int) -> int:
        size, address = code.STORES[code.funct3(word)], (self.first(word) + code.store_offset(word)) % WORD
        if address % size:
            raise Trap
        self.check(address, size)
        self.memory.update(enumerate((self.second(word) % 256**size).to_bytes(size, "little"), address))
        return self.pc + 4

    def operate(self, word: int) -> int:
        second = self.second(word) if code.opcode(word) == code.REGISTER else code.operand(word)
        self.set(code.rd(word), code.OPERATIONS[code.operation(word)](self.first(word), second))
        return self.pc + 4

    def fence(self, word: int) -> int:
        return self.pc + 4

    def call(self, word: int) -> int:
        if word == code.EBREAK:
            raise Trap
        number = self.registers[NUMBER]
        if number == EXIT:
            raise Exited(self.registers[FIRST])
        if number == WRITE:
            self.write()
        elif number == READ:
            self.read()
        else:
            self.set(FIRST, NOT_IMPLEMENTED)
        return self.pc + 4

    def write(self) -> None:
        address, count = self.registers[ADDRESS], self.registers[COUNT]
        if count:
            self.check(address, count)
        if len(self.written) + count > MOST_OUTPUT:
            raise Endless
        self.written += bytes(self.memory.get(address + k, 0) for k in range(count))
        self.set(FIRST, count)

    def read(self) -> None:
        address, count = self.registers[ADDRESS], min(self.registers[COUNT], len(self.given))
        if count:
            self.check(address, count)
        self.memory.update(enumerate(self.given[:count], address))
        self.given = self.given[count:]
        self.set(FIRST, count)


FAMILIES: dict[int, Callable[[Machine, int], int]] = {
    code.LUI: Machine.load_upper,
    code.AUIPC: Machine.load_upper,
    code.JAL: Machine.jump,
    code.JALR: Machine.jump_by_register,
    code.BRANCH: Machine.branch,
    code.LOAD: Machine.load_register,
    code.STORE: Machine.store_register,
    code.IMMEDIATE: Machine.operate,
    code.REGISTER: Machine.operate,
    code.FENCE: Machine.fence,
    code.SYSTEM: Machine.call,
}


def joined(stretches: list[range]) -> list[range]:
    """The same addresses as ranges that do not touch."""
    apart: list[range] = []
    for stretch in sorted(stretches, key=lambda stretch: stretch.start):
        if apart and stretch.start <= apart[-1].stop:
            apart[-1] = range(apart[-1].start, max(apart[-1].stop, stretch.stop))
        else:
            apart.append(stretch)
    return apart
