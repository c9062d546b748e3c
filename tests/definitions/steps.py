"""Runs on the flat machine and under qemu-riscv32 (crates/flat_machine/specs, crates/rv32im/specs/Acts.antt, Operations.antt,
Memory.antt).

A program is a row of cases. Each case sets all registers, runs drawn instructions, and writes its memory and all registers
out. So the two outputs tell the effects of each case.
"""

import functools
import signal
import subprocess
from collections.abc import Iterator
from random import Random

import tools
from tools import Options, Tally

USUAL = 10_000
CASES = 100  # of a program
UNITS = 40  # drawn units of a case; most are an instruction
WINDOW = 256  # memory of a case: so many bytes before and behind the base register
WRITTEN = 2 * WINDOW + 4 * 32 + 4  # the memory, the registers, and what the last write gave
FAR_EACH = 25  # one of so many programs has the farthest jumps
BOARD = "main = [0x00010000, 0x00800000]\nsteps = 100000000\n"
SCRIPT = "SECTIONS { . = 0x20000; .text : { *(.text) } . = ALIGN(4096); .data : { *(.data) } }\n"
VALUES = (0, 1, 2, 3, 4, 5, 7, 8, 15, 16, 31, 32, 33, 63, 64, 127, 128, 255, 256, 0x7FF, 0x800, 0xFFF, 0x1000, 0x7FFF, 0x8000,
          0xFFFF, 0x10000, 0x7FFFFFFE, 0x7FFFFFFF, 0x80000000, 0x80000001, 0xAAAAAAAA, 0x55555555, 0xFFFF0000, 0xFFFF8000,
          0xFFFFFF80, 0xFFFFFFE0, 0xFFFFFFFD, 0xFFFFFFFE, 0xFFFFFFFF)
IMMEDIATES = (-2048, -2047, -1024, -256, -32, -31, -2, -1, 0, 1, 2, 31, 32, 255, 1024, 2046, 2047)
REG_OPS = "add sub sll slt sltu xor srl sra or and mul mulh mulhsu mulhu div divu rem remu".split()
IMM_OPS = "addi slti sltiu xori ori andi".split()
SHIFTS = "slli srli srai".split()
BRANCHES = "beq bne blt bge bltu bgeu".split()
LOADS = {"lb": 1, "lbu": 1, "lh": 2, "lhu": 2, "lw": 4}
STORES = {"sb": 1, "sh": 2, "sw": 4}
WIDTHS = LOADS | STORES
CALL_REGISTERS = (10, 11, 12, 17)
# Words that mean nothing in RV32 with any extension that qemu has.
MEANINGLESS = ("0x00000000", "0xffffffff", "0x00002063", "0x00003063", "0x00003003", "0x00007003", "0x00003023", "0x00001067",
               "0x40001033", "0x04000033", "0x80000033", "0xc0001013", "0x00004073", "0x0000200f", "0x0000005b")
UNMAPPED = (0x0, 0x8, 0x0000FFFC, 0x40000000, 0x7FFFF000, 0xFFFFFFFC)


def compare(options: Options) -> Tally:
    count = options.count_or(USUAL)
    programs = [(number, min(CASES, count - number * CASES)) for number in range(-(-count // CASES))]
    total = tools.spread(functools.partial(compare_program, options), programs, options.processes)
    traps = list(trap_lines(Random(f"{options.seed} traps")))
    total.add(tools.spread(functools.partial(compare_trap, options), traps, options.processes))
    return total


# Programs of many cases.


def compare_program(options: Options, program: tuple[int, int]) -> Tally:
    number, size = program
    random = Random(f"{options.seed} steps {number}")
    given = random.randbytes(random.choice((0, 100, 5000)))
    code = random.randrange(2**32)
    lines = list(program_lines(random, size, number % FAR_EACH == 0, code))
    with tools.folder() as folder:
        name = linked(folder, lines, random.randbytes(2 * WINDOW))
        ours, theirs = ran(options, folder, name, given), ran_by_qemu(folder, name, given)
    if options.mistake:
        theirs = (theirs[0], changed_byte(theirs[1], 2 * WINDOW + 4 * 7))
    tally = Tally()
    for case in range(size):
        part = slice(case * WRITTEN, (case + 1) * WRITTEN)
        tally.count("cases", ours[1][part] == theirs[1][part] and len(ours[1][part]) == WRITTEN,
                    functools.partial(told_case, number, case, ours[1][part], theirs[1][part]))
    tally.count("ends", ours[0] == theirs[0] == f"exited {code % 256}" and len(ours[1]) == len(theirs[1]),
                lambda: f"program {number}: {ours[0]} after {len(ours[1])} bytes, and qemu {theirs[0]} after {len(theirs[1])}")
    return tally


def changed_byte(content: bytes, at: int) -> bytes:
    return content[:at] + bytes([content[at] ^ 1]) + content[at + 1 :]


def told_case(number: int, case: int, ours: bytes, theirs: bytes) -> str:
    at = next((at for at, (one, other) in enumerate(zip(ours, theirs)) if one != other), min(len(ours), len(theirs)))
    where = f"x{(at - 2 * WINDOW) // 4}" if at >= 2 * WINDOW else f"memory at {at - WINDOW}"
    return f"program {number}, case {case}, {where}: {ours[at : at + 4].hex()}, and qemu {theirs[at : at + 4].hex()}"


def program_lines(random: Random, size: int, is_far: bool, code: int) -> Iterator[str]:
    yield from (".option norelax", ".globl _start", "_start:")
    if is_far:
        yield from far_lines()
    for case in range(size):
        yield from case_lines(random)
    yield from (f"li x10, {code}", "li x17, 93", "ecall")


def far_lines() -> Iterator[str]:
    """The farthest jumps and branches, forward and back. A word between them would trap."""
    yield from ("jal x0, a", "b: beq x0, x0, c", "a: jal x0, d", ".org b + 4092", "c: jal x0, f")
    yield from (".org a + 1044516", "g: jal x0, h", ".org a + 1048572", "d: jal x0, b", ".org g + 4096", "f: bgeu x0, x0, g", "h:")


def case_lines(random: Random) -> Iterator[str]:
    """A case. All registers but the base are drawn, and none but the base keeps an address."""
    base = random.randrange(1, 32)
    yield f"la x{base}, window + {WINDOW}"
    for register in range(1, 32):
        if register != base:
            yield f"li x{register}, {drawn_value(random)}"
    for _ in range(UNITS):
        yield from unit_lines(random, base)
    for register in range(32):
        yield f"sw x{register}, {WINDOW + 4 * register}(x{base})"
    yield from ("li x10, 1", "la x11, window", f"li x12, {WRITTEN}", "li x17, 64", "ecall")
    yield from (f"la x5, window + {WINDOW}", f"sw x10, {WINDOW + 128}(x5)")


def drawn_value(random: Random) -> int:
    return random.choice(VALUES) if random.random() < 0.7 else random.getrandbits(32)


def unit_lines(random: Random, base: int) -> Iterator[str]:
    """One drawn instruction, or a few that belong together. None writes the base register."""
    target = drawn_target(random, base)
    one, other = random.randrange(32), random.randrange(32)
    kind = random.random()
    if kind < 0.40:
        yield f"{random.choice(REG_OPS)} x{target}, x{one}, x{other}"
    elif kind < 0.52:
        immediate = random.choice(IMMEDIATES) if random.random() < 0.6 else random.randrange(-2048, 2048)
        yield f"{random.choice(IMM_OPS)} x{target}, x{one}, {immediate}"
    elif kind < 0.60:
        yield f"{random.choice(SHIFTS)} x{target}, x{one}, {random.choice((0, 1, 15, 16, 30, 31, random.randrange(32)))}"
    elif kind < 0.65:
        upper = random.choice((0, 1, 0x7FFFF, 0x80000, 0xFFFFF, random.randrange(2**20)))
        yield f"{random.choice(('lui', 'auipc'))} x{target}, {upper}"
    elif kind < 0.83:
        yield from access_lines(random, base, target, one)
    elif kind < 0.94:
        yield from jump_lines(random, base, target, one, other)
    elif kind < 0.96:
        yield random.choice(("fence", "fence.i", "fence w, r", ".word 0x8330000f", ".word 0x0ff0000f", ".word 0x0aa1828f"))
    else:
        yield from call_lines(random, base)


def drawn_target(random: Random, *but: int) -> int:
    return random.choice([register for register in range(32) if register not in but])


def access_lines(random: Random, base: int, target: int, value: int) -> Iterator[str]:
    """A load or a store in the window, at any alignment of its width, by the base or by another register."""
    name = random.choice([*LOADS] * 3 + [*STORES] * 4)
    at = random.randrange(-WINDOW, WINDOW - 3) // WIDTHS[name] * WIDTHS[name]
    by, off = base, at
    if random.random() < 0.5:
        off = random.choice((-2048, -2047, -1, 0, 1, 2047, *(random.randrange(-2048, 2048) for _ in range(4))))
        if -2048 <= at - off <= 2047:
            by = drawn_target(random, base, 0)
            yield f"addi x{by}, x{base}, {at - off}"
        else:
            off = at
    yield f"{name} x{target if name in LOADS else value}, {off}(x{by})"


def jump_lines(random: Random, base: int, target: int, one: int, other: int) -> Iterator[str]:
    """A branch or a jump, forward or back, over an instruction that tells whether it was taken."""
    told = f"addi x{drawn_target(random, base)}, x{random.randrange(32)}, {random.randrange(-2048, 2048)}"
    branch = f"{random.choice(BRANCHES)} x{one}, x{other}"
    kind = random.random()
    if kind < 0.5:
        yield from (f"{branch}, 1f", told, "1:")
    elif kind < 0.65:
        yield from ("jal x0, 2f", f"1: {told}", "jal x0, 3f", f"2: {branch}, 1b", "3:")
    elif kind < 0.8:
        yield from (f"jal x{target}, 1f", told, "1:")
    else:
        by, off = drawn_target(random, base, 0), random.choice((-2048, -1, 0, 1, 2047, random.randrange(-2048, 2048)))
        over = 16 + random.randrange(2) - off
        yield from (f"auipc x{by}, 0", f"addi x{by}, x{by}, {over if -2048 <= over <= 2047 else 16}")
        yield from (f"jalr x{target}, {off if -2048 <= over <= 2047 else 0}(x{by})", told)


def call_lines(random: Random, base: int) -> Iterator[str]:
    """A call: of a number that nothing has, a read into the window, or a write of nothing from nowhere."""
    if base in CALL_REGISTERS:
        return
    if random.random() < 0.5:
        yield from (f"li x17, {random.choice((1_000, 5_000, 65_536, 0x7FFFFFFF))}", "ecall")
    elif random.random() < 0.7:
        yield from ("li x10, 0", f"addi x11, x{base}, {random.randrange(-WINDOW, 0)}", f"li x12, {random.randrange(WINDOW)}")
        yield from ("li x17, 63", "ecall")
    else:
        yield from ("li x10, 1", f"addi x11, x{base}, 0", "li x12, 0", "li x17, 64", "ecall")


# Programs that trap.


def trap_lines(random: Random) -> Iterator[tuple[str, list[str]]]:
    """What traps, and how: a rule or what qemu's signal is."""
    for name, width in WIDTHS.items():
        for at in (at for at in range(1, 8) if at % width):
            yield "misaligned", [f"{name} x7, {at}(x8)"]
    for off in (-2, 2, 6):
        yield "jump between words", [f"jal x0, . + {off % 4 + 4}", ".word 0x00010001", ".word 0x00010001"]
    for word in MEANINGLESS:
        yield "SIGILL", [f".word {word}"]
    yield "SIGTRAP", ["ebreak"]
    for address in UNMAPPED:
        yield "SIGSEGV", [f"li x6, {address}", f"jalr x1, 0(x6)"]
        for name in WIDTHS:
            yield "SIGSEGV", [f"li x6, {address}", f"{name} x{random.randrange(32)}, 0(x6)"]


def compare_trap(options: Options, trap: tuple[str, list[str]]) -> Tally:
    """Both write what stands before the trap. qemu's program then ends by a signal, or by a rule goes on."""
    kind, lines = trap
    write = ["li x10, 1", "la x11, window", "li x12, 8", "li x17, 64", "ecall"]
    whole = [".option norelax", ".globl _start", "_start:", *write, f"la x8, window + {WINDOW}", *lines, *write]
    with tools.folder() as folder:
        name = linked(folder, [*whole, "li x10, 7", "li x17, 93", "ecall"], bytes(range(256)) * 2)
        ours, theirs = ran(options, folder, name, b""), ran_by_qemu(folder, name, b"")
    goes_on = kind[:3] != "SIG"
    wanted = ("exited 7", bytes(range(8)) * 2) if goes_on else (kind, bytes(range(8)))
    if options.mistake and kind == "SIGTRAP":
        wanted = ("SIGILL", wanted[1])
    tally = Tally()
    tally.count(f"traps, {kind}", ours == ("trapped", bytes(range(8))) and theirs == wanted,
                lambda: f"{'; '.join(lines)}: {ours}, and qemu {theirs}")
    if goes_on:
        tally.excepted[f"{kind}: qemu goes on, and the flat machine traps"] += 1
    return tally


# Both machines.


def linked(folder: str, lines: list[str], memory: bytes) -> str:
    """A program of these lines, with so much memory before its registers."""
    data = [".data", ".balign 16", "window:", f".byte {','.join(map(str, memory))}", ".skip 256"]
    tools.write(f"{folder}/program.s", "\n".join([".text", *lines, *data, ""]))
    tools.write(f"{folder}/script", SCRIPT)
    tools.call([tools.AS, "-march=rv32im_zifencei", "-mabi=ilp32", "program.s", "-o", "program.o"], cwd=folder)
    words = [tools.LD, "-melf32lriscv", "-z", "max-page-size=4096", "-T", "script", "program.o", "-o", "program"]
    tools.call(words, cwd=folder)
    return f"{folder}/program"


def ran(options: Options, folder: str, name: str, given: bytes) -> tuple[str, bytes]:
    tools.write(f"{folder}/board", BOARD)
    tools.write(f"{folder}/input", given)
    status, told = tools.program_call(options.program, ["run", name, "board", "input", "out"], folder)
    return (told.strip(), tools.read(f"{folder}/out")) if status == 0 else (f"status {status}: {told}", b"")


def ran_by_qemu(folder: str, name: str, given: bytes) -> tuple[str, bytes]:
    tools.write(f"{folder}/input", given)
    with open(f"{folder}/input", "rb") as file:
        done = subprocess.run([tools.QEMU, name], stdin=file, stdout=subprocess.PIPE, stderr=subprocess.DEVNULL)
    if done.returncode < 0:
        return signal.Signals(-done.returncode).name, done.stdout
    return f"exited {done.returncode}", done.stdout
