"""Words, as `decode` reads them and as binutils' disassembler for rv32im does (crates/rv32im/specs/Table.antt, Fields.antt)."""

import functools
import itertools
import re
import subprocess
from collections.abc import Iterator
from random import Random

import tools
from tools import Options, Tally

USUAL = 10_000_000
PART = 250_000
SLOT = 32  # the longest instruction of the manual has 22 bytes, and so it ends before the next slot begins
EXTREMES = (0, 1, 2, 15, 16, 31)
FUNCT7 = (0x00, 0x01, 0x02, 0x10, 0x1F, 0x20, 0x21, 0x3F, 0x40, 0x5F, 0x60, 0x7E, 0x7F)
OPCODES = (0x37, 0x17, 0x6F, 0x67, 0x63, 0x03, 0x23, 0x13, 0x33, 0x0F, 0x73)
LINE = re.compile(rb" *([0-9a-f]+):\t([0-9a-f ]+?) *\t(\S+)\t?(.*)")
# Instructions of opcode SYSTEM that binutils counts as part of every RISC-V; `unimp` writes a CSR that can't be written.
SYSTEM = {"mret", "sret", "uret", "hret", "dret", "wfi", "sfence.vm", "sfence.vma", "unimp"}
SHIFTS = {"slli", "srli", "srai"}
OPERAND = re.compile(r"[-\w]+")


def compare(options: Options) -> Tally:
    count = options.count_or(USUAL)
    tell = tools.built_tell()
    parts = [(number, min(PART, count - number * PART)) for number in range(-(-count // PART))]
    work = functools.partial(compare_part, options, tell)
    return tools.spread(work, [("extreme", 0), *((number, size) for number, size in parts)], options.processes)


def compare_part(options: Options, tell: str, part: tuple[int | str, int]) -> Tally:
    """Compares the words with extreme fields, or so many drawn ones: first those of 32 bits, then the others, each in a slot."""
    number, size = part
    words = list(extreme_words()) if number == "extreme" else drawn_words(Random(f"{options.seed} words {number}"), size)
    whole = [word for word in words if length_of(word) == 4]
    other = [word for word in words if length_of(word) != 4]
    tally = Tally()
    compare_words(options, tell, whole, 4, tally)
    compare_words(options, tell, other, SLOT, tally)
    return tally


def length_of(word: int) -> int:
    """The bytes of an instruction that begins so (RISC-V Unprivileged ISA, "Expanded Instruction-Length Encoding")."""
    return 2 if word & 3 != 3 else 4 if word & 0x1F != 0x1F else 6


def extreme_words() -> Iterator[int]:
    """Each opcode of 32 bits with extreme fields, each funct3 and each funct7 that tells rows apart; and all upper twelve bits of
    SYSTEM and FENCE."""
    opcodes = [opcode for opcode in range(3, 128, 4) if opcode & 0x1F != 0x1F]
    for opcode, funct3 in itertools.product(opcodes, range(8)):
        for rd, rs1, rs2, funct7 in itertools.product(EXTREMES, EXTREMES, EXTREMES, FUNCT7):
            yield funct7 << 25 | rs2 << 20 | rs1 << 15 | funct3 << 12 | rd << 7 | opcode
    for upper, opcode in itertools.product(range(1 << 12), (0x73, 0x0F)):
        yield upper << 20 | opcode


def drawn_words(random: Random, size: int) -> list[int]:
    """Most words are of an opcode of RV32IM, and a third of these have extreme fields. The others are any words."""
    words = []
    for _ in range(size):
        word, kind = random.getrandbits(32), random.random()
        if kind < 0.7:
            word = word & ~0x7F | random.choice(OPCODES)
        elif kind < 0.98:
            word |= 3
        if kind < 0.25:
            word = word & ~(0xFE << 24) | random.choice(FUNCT7) << 25
        words.append(word)
    return words


def compare_words(options: Options, tell: str, words: list[int], step: int, tally: Tally) -> None:
    filler = b"\1\0" * ((step - 4) // 2)
    with tools.folder() as folder:
        tools.write(f"{folder}/words", b"".join(word.to_bytes(4, "little") for word in words))
        tools.write(f"{folder}/text", b"".join(word.to_bytes(4, "little") + filler for word in words))
        theirs = disassembled(folder, step)
        told = subprocess.Popen([tell, "words", f"{folder}/words"], stdout=subprocess.PIPE)
        for word, line in zip(words, told.stdout, strict=True):
            judge(options, word, line.decode().split(), next(theirs), tally)
        if told.wait() or next(theirs, None):
            raise SystemExit("the two lists of words have other lengths")


def disassembled(folder: str, step: int) -> Iterator[list[str]]:
    """What binutils says of the word at each multiple of `step`."""
    tools.write(f"{folder}/empty.s", ".text\nnop\n")
    tools.call([tools.AS, "-march=rv32im_zifencei", "-mabi=ilp32", f"{folder}/empty.s", "-o", f"{folder}/empty.o"])
    tools.call([tools.OBJCOPY, "--update-section", f".text={folder}/text", f"{folder}/empty.o", f"{folder}/words.o"])
    words = [tools.OBJDUMP, "-d", "-z", "-M", "no-aliases,numeric", f"{folder}/words.o"]
    with subprocess.Popen(words, stdout=subprocess.PIPE) as dump:
        for line in dump.stdout:
            if (found := LINE.match(line)) and (at := int(found[1], 16)) % step == 0:
                yield fields_of(found[3].decode(), found[4].decode(), at)


def fields_of(name: str, operands: str, at: int) -> list[str]:
    """The name and the fields of an instruction, as `tell` orders them, or `-`."""
    if name.startswith("."):
        return ["-"]
    operands = operands.partition(" <")[0].partition(" #")[0]
    if name in ("fence", "fence.i"):
        return [name, str(fence_bits(operands))]
    fields = OPERAND.findall(operands)
    if name[0] == "b" or name == "jal":
        fields[-1] = str(signed(int(fields[-1], 16) - at))
    return [name, *map(plain, fields)]


def plain(field: str) -> str:
    """A register's number, or a number in decimal."""
    return field[1:] if field[0] == "x" else str(int(field, 16)) if field[:2] == "0x" else field


def signed(number: int) -> int:
    return (number + 2**31) % 2**32 - 2**31


def fence_bits(operands: str) -> int:
    """The bits of the two sets of a FENCE, in their places. An empty set is told as `unknown`."""
    if not operands:
        return 0
    before, behind = (sum(1 << "wroi".index(it) for it in part.replace("unknown", "")) for part in operands.split(","))
    return before << 24 | behind << 20


def judge(options: Options, word: int, ours: list[str], theirs: list[str], tally: Tally) -> None:
    if options.mistake and ours[0] == "srai":
        theirs = ["srli", *theirs[1:]]
    rule = "" if ours == theirs else exception(word, ours, theirs)
    if rule:
        tally.excepted[rule] += 1
    what = "refused" if theirs == ["-"] else theirs[0]
    tally.count(what, ours == theirs or bool(rule),
                lambda: f"{word:#010x} is {' '.join(ours)}, and binutils says {' '.join(theirs)}")


def exception(word: int, ours: list[str], theirs: list[str]) -> str:
    """The rule by which binutils differs knowingly."""
    if word & 0x707F == 0x0F and ours == ["fence", str(word & ~0x707F)] and theirs in (["-"], ["fence.tso"]):
        return "FENCE with reserved fields"
    if word & 0x707F == 0x100F and ours == ["fence.i", str(word & ~0x707F)] and theirs == ["-"]:
        return "FENCE.I with reserved fields"
    if word & 0x7F == 0x73 and ours == ["-"] and theirs[0] in SYSTEM:
        return "privileged instructions and unimp"
    if ours == ["-"] and theirs[0] in SHIFTS and int(theirs[3]) >= 32:
        return "shifts by 32 places and more, of RV64"
    return ""
