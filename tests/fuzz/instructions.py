"""The instructions of RV32I, M and Zifencei, by the tables of the RISC-V Unprivileged ISA manual."""

from collections.abc import Callable

LUI, AUIPC, JAL, JALR, BRANCH, LOAD, STORE, IMMEDIATE, REGISTER, FENCE, SYSTEM = (
    0x37, 0x17, 0x6F, 0x67, 0x63, 0x03, 0x23, 0x13, 0x33, 0x0F, 0x73)
ECALL, EBREAK = 0x00000073, 0x00100073
ADDI = 0  # its funct3


def signed(word: int, bits: int = 32) -> int:
    word &= (1 << bits) - 1
    return word - (1 << bits) if word >> (bits - 1) else word


def opcode(word: int) -> int:
    return word & 0x7F


def rd(word: int) -> int:
    return word >> 7 & 31


def funct3(word: int) -> int:
    return word >> 12 & 7


def rs1(word: int) -> int:
    return word >> 15 & 31


def rs2(word: int) -> int:
    return word >> 20 & 31


def funct7(word: int) -> int:
    return word >> 25


def upper(word: int) -> int:
    return word & 0xFFFFF000


def immediate(word: int) -> int:
    return signed(word >> 20, 12)


def store_offset(word: int) -> int:
    return signed(word >> 25 << 5 | word >> 7 & 31, 12)


def branch_offset(word: int) -> int:
    return signed((word >> 31) << 12 | (word >> 7 & 1) << 11 | (word >> 25 & 0x3F) << 5 | (word >> 8 & 0xF) << 1, 13)


def jump_offset(word: int) -> int:
    return signed((word >> 31) << 20 | (word >> 12 & 0xFF) << 12 | (word >> 20 & 1) << 11 | (word >> 21 & 0x3FF) << 1, 21)


def quotient(a: int, b: int) -> int:
    """Rounded towards zero."""
    return abs(a) // abs(b) * (1 if (a < 0) == (b < 0) else -1)


def divide(a: int, b: int) -> int:
    return -1 if b == 0 else quotient(signed(a), signed(b))


def remainder(a: int, b: int) -> int:
    return a if b == 0 else signed(a) - signed(b) * quotient(signed(a), signed(b))


ADD, SUB, XOR, OR, AND, SLTU = (0, 0x00), (0, 0x20), (4, 0x00), (6, 0x00), (7, 0x00), (3, 0x00)
SHIFTS = (1, 5)
# By funct3 and funct7. Operands are words, and a result counts modulo 2^32.
OPERATIONS: dict[tuple[int, int], Callable[[int, int], int]] = {
    ADD: lambda a, b: a + b,
    SUB: lambda a, b: a - b,
    (1, 0x00): lambda a, b: a << (b & 31),
    (2, 0x00): lambda a, b: int(signed(a) < signed(b)),
    SLTU: lambda a, b: int(a < b),
    XOR: lambda a, b: a ^ b,
    (5, 0x00): lambda a, b: a >> (b & 31),
    (5, 0x20): lambda a, b: signed(a) >> (b & 31),
    OR: lambda a, b: a | b,
    AND: lambda a, b: a & b,
    (0, 0x01): lambda a, b: a * b,
    (1, 0x01): lambda a, b: signed(a) * signed(b) >> 32,
    (2, 0x01): lambda a, b: signed(a) * b >> 32,
    (3, 0x01): lambda a, b: a * b >> 32,
    (4, 0x01): divide,
    (5, 0x01): lambda a, b: -1 if b == 0 else a // b,
    (6, 0x01): remainder,
    (7, 0x01): lambda a, b: a if b == 0 else a % b,
}
BEQ, BNE, BLT, BGE, BLTU, BGEU = 0, 1, 4, 5, 6, 7
CONDITIONS: dict[int, Callable[[int, int], bool]] = {
    BEQ: lambda a, b: a == b,
    BNE: lambda a, b: a != b,
    BLT: lambda a, b: signed(a) < signed(b),
    BGE: lambda a, b: signed(a) >= signed(b),
    BLTU: lambda a, b: a < b,
    BGEU: lambda a, b: a >= b,
}
LOADS = {0: (1, True), 1: (2, True), 2: (4, False), 4: (1, False), 5: (2, False)}  # bytes, and whether they are signed
STORES = {0: 1, 1: 2, 2: 4}


def operation(word: int) -> tuple[int, int]:
    """The operation of an instruction with an immediate or with two registers, which need not be there."""
    has_funct7 = opcode(word) == REGISTER or funct3(word) in SHIFTS
    return funct3(word), funct7(word) if has_funct7 else 0


def operand(word: int) -> int:
    """The second operand of an instruction with an immediate."""
    return rs2(word) if funct3(word) in SHIFTS else immediate(word) % 2**32


def is_immediate_operation(word: int) -> bool:
    return operation(word) in OPERATIONS and not (funct3(word) in SHIFTS and funct7(word) == 1)


MEANINGS: dict[int, Callable[[int], bool]] = {
    LUI: lambda word: True,
    AUIPC: lambda word: True,
    JAL: lambda word: True,
    JALR: lambda word: funct3(word) == 0,
    BRANCH: lambda word: funct3(word) in CONDITIONS,
    LOAD: lambda word: funct3(word) in LOADS,
    STORE: lambda word: funct3(word) in STORES,
    IMMEDIATE: is_immediate_operation,
    REGISTER: lambda word: operation(word) in OPERATIONS,
    FENCE: lambda word: funct3(word) <= 1,
    SYSTEM: lambda word: word in (ECALL, EBREAK),
}


def has_meaning(word: int) -> bool:
    return opcode(word) in MEANINGS and MEANINGS[opcode(word)](word)
