"""The words of moved addresses, as `relink` writes them and as GNU ld links them (crates/object_graph/specs,
crates/relocator/specs).

A drawn program is linked and relinked. Then the same object files are linked once more, by a script that puts each object that
moved at the place that the report tells, and all else where it was. Each word of the code and of the data, and each symbol of
an object, must be the same in both.
"""

import functools
import re
import shutil
from collections.abc import Iterator
from dataclasses import dataclass
from random import Random

import tools
from files import relocations_of, sections_of, symbols_of
from tools import Options, Tally

USUAL = 200
SPMS = (0x01000000, 0x00100000, 0x0FFFF800, 0x20000400, 0x7FFFF000, 0x80000000, 0x80000800, 0xFFF00000, 0xFFFFE000)
PRICES = "price = { main_fetch = 10, main_read = 40, main_write = 40, spm_fetch = 10, spm_read = 1, spm_write = 1 }\n"
FLAGS = ["-march=rv32im", "-mabi=ilp32", "-ffreestanding", "-fdata-sections", "-msmall-data-limit=0", "-mno-relax",
         "-fno-common", "-c"]
GCC_FLAGS = ["-fno-section-anchors", "-fno-ivopts", "-fno-tree-loop-distribute-patterns"]
CLANG_FLAGS = ["--target=riscv32-unknown-elf"]
NAMES = {1: "32", 26: "HI20", 27: "LO12_I", 28: "LO12_S", 23: "PCREL_HI20", 24: "PCREL_LO12_I", 25: "PCREL_LO12_S"}
TYPES = {"unsigned char": 1, "unsigned short": 2, "unsigned": 4}
ROUNDS = 40
RELATIVE = "parts of relative addresses, which relink writes as parts of the same absolute ones"
AUIPC = 0x17
ADDRESS_FAULT = 8
START = """.section .text.start
.globl _start
_start: la sp, __stack_top
call main
call written_by_hand
li a7, 93
ecall
"""


def compare(options: Options) -> Tally:
    links = range(options.count_or(USUAL))
    return tools.spread(functools.partial(compare_link, options), links, options.processes)


def compare_link(options: Options, number: int) -> Tally:
    random = Random(f"{options.seed} relocations {number}")
    tally = Tally()
    with tools.folder() as folder:
        compiled(random, folder)
        link(folder, "file", f"{tools.ROOT}/examples/board.ld")
        tools.write(f"{folder}/board", drawn_board(random))
        tools.write(f"{folder}/input", b"")
        status, report = tools.program_call(options.program, ["relink", "file", "board", "input", "out", "cert"], folder)
        places = {name: int(place, 16) for place, name in re.findall(r"^static data (0x[0-9a-f]{8}) \d+ (\S+)$", report, re.M)}
        if status == ADDRESS_FAULT:
            tally.excepted["programs that relink refuses by an address fault"] += 1
        elif status == 0 and not places:
            tally.excepted["programs of which nothing moved"] += 1
        else:
            tally.count("programs", status == 0 and " code " not in report,
                        lambda: f"program {number}: status {status}, {report}")
            compare_places(options, folder, places, number, tally)
    return tally


def drawn_board(random: Random) -> str:
    """A board on which any data gains and no code does, with a scratchpad for some of the data or for all."""
    grain = random.choice((16, 16, 32, 64))
    size = random.choice((64, 128, 256, 512, 1024, 4096))
    return f'bss = "movable"\nspm = [{random.choice(SPMS):#x}, {size}]\ngrain = {grain}\nnodes = 2000\nregions = [[]]\n' + PRICES


# The program.


@dataclass
class Item:
    """An object of a program: its elements' type and number, and whether it may be written."""

    name: str
    kind: str
    count: int
    is_const: bool = False

    def width(self) -> int:
        return TYPES.get(self.kind, 4)


def compiled(random: Random, folder: str) -> None:
    """A drawn program as object files: by GCC, or by clang where it is there; and some by hand."""
    items = drawn_items(random)
    tools.write(f"{folder}/program.c", "\n".join([*program_lines(random, items), ""]))
    tools.write(f"{folder}/hand.s", "\n".join([*hand_lines(random, items), ""]))
    tools.write(f"{folder}/start.s", START)
    words = ["clang", *CLANG_FLAGS] if random.random() < 0.3 and has_clang() else [tools.GCC, *GCC_FLAGS]
    how = [random.choice(("-O0", "-O1", "-O2", "-Os")), f"-mcmodel={random.choice(('medlow', 'medany'))}"]
    tools.call([*words, *FLAGS, *how, "program.c", "-o", "program.o"], cwd=folder)
    for name in ("start", "hand"):
        tools.call([tools.AS, "-march=rv32im", "-mabi=ilp32", "-mno-relax", f"{name}.s", "-o", f"{name}.o"], cwd=folder)


@functools.cache
def has_clang() -> bool:
    return bool(shutil.which("clang")) and b"riscv32" in tools.call(["clang", "--print-targets"]).stdout


def drawn_items(random: Random) -> list[Item]:
    """Numbers, and behind them tables of pointers to these."""
    counts = (1, 2, 4, 8, 16, 32, 64, 128)
    items = [Item(f"o{at}", random.choice(list(TYPES)), random.choice(counts)) for at in range(random.randint(4, 14))]
    items += [Item(f"p{at}", "void *", random.choice(counts[:4])) for at in range(random.randint(1, 4))]
    for item in items:
        item.is_const = random.random() < 0.25
    return items


def program_lines(random: Random, items: list[Item]) -> Iterator[str]:
    numbers = [item for item in items if item.kind in TYPES]
    for item in items:
        yield declaration(random, item, numbers)
    names = [f"f{number}" for number in range(random.randint(2, 8))]
    for name in names:
        yield f"static __attribute__((noinline)) unsigned {name}(unsigned i) {{ unsigned sum = i;"
        yield from (statement(random, random.choice(items)) for _ in range(random.randint(2, 8)))
        yield "  return sum; }"
    calls = " ".join(f"sum += {name}(i);" for name in names)
    yield f"int main(void) {{ unsigned sum = 0; for (unsigned i = 0; i < {ROUNDS}; i++) {{ {calls} }} return sum & 255; }}"


def declaration(random: Random, item: Item, numbers: list[Item]) -> str:
    align = random.choice(("", "", f" __attribute__((aligned({random.choice((4, 8, 16, 32, 64))})))"))
    head = f"{item.kind} {'const ' * item.is_const}volatile {item.name}[{item.count}]{align}"
    if item.kind not in TYPES:
        aims = [random.choice(numbers) for _ in range(item.count)]
        return f"{head} = {{ {', '.join(f'(void *)&{aim.name}[{random.randrange(aim.count)}]' for aim in aims)} }};"
    if not item.is_const and random.random() < 0.4:
        return f"{head};"
    return f"{head} = {{ {', '.join(str(random.randrange(1, 256)) for _ in range(item.count))} }};"


def statement(random: Random, item: Item) -> str:
    """Reads or writes an element, or reads what a pointer leads to."""
    place = f"{item.name}[{random.choice((f'i % {item.count}', str(random.randrange(item.count)), str(item.count - 1)))}]"
    if item.kind not in TYPES:
        return f"  sum += *(volatile unsigned char *){place};"
    if not item.is_const and random.random() < 0.4:
        return f"  {place} = sum;"
    return f"  sum += {place};"


def hand_lines(random: Random, items: list[Item]) -> Iterator[str]:
    """Loads and stores by each kind of address, with an offset into the object."""
    yield from (".text", ".globl written_by_hand", "written_by_hand:")
    for label, item in enumerate(random.sample(items, min(4, len(items)))):
        letter, aim = {1: "b", 2: "h", 4: "w"}[item.width()], f"{item.name} + {item.width() * random.randrange(item.count)}"
        yield from (f"lui t0, %hi({aim})", f"l{letter} t1, %lo({aim})(t0)", f"addi t2, t0, %lo({aim})", f"l{letter} t1, 0(t2)")
        yield from (f".L{label}: auipc t0, %pcrel_hi({aim})", f"l{letter} t1, %pcrel_lo(.L{label})(t0)")
        yield f"addi t2, t0, %pcrel_lo(.L{label})"
        if not item.is_const:
            yield from (f"lui t0, %hi({aim})", f"s{letter} t1, %lo({aim})(t0)")
            yield from (f".M{label}: auipc t0, %pcrel_hi({aim})", f"s{letter} t1, %pcrel_lo(.M{label})(t0)")
    yield "ret"


# Both links.


def link(folder: str, name: str, script: str) -> None:
    words = [tools.LD, "-melf32lriscv", "-N", "--emit-relocs", "--no-relax", "--no-warn-rwx-segments", "-T", script, "-o", name]
    tools.call([*words, "start.o", "program.o", "hand.o"], cwd=folder)


def compare_places(options: Options, folder: str, places: dict[str, int], number: int, tally: Tally) -> None:
    """Links anew with the places of the report, and compares words, bytes and symbols with the relinked file."""
    homes = objects_of(f"{folder}/file")
    tools.write(f"{folder}/script", script_of(homes, places))
    link(folder, "linked", "script")
    file, ours, theirs = (memory_of(f"{folder}/{name}") for name in ("file", "out", "linked"))
    kinds, partners = kinds_of(f"{folder}/file")
    if options.mistake:
        theirs = {at: byte ^ 0x40 if kinds.get(at - 2) == "HI20" else byte for at, byte in theirs.items()}
    for at, kind in kinds.items():
        moved = moved_to(at, homes, places)
        was, one, other = word_at(file, at), word_at(ours, at), word_at(theirs, moved)
        is_excepted = one != other and is_same_part(ours, theirs, at, kind, partners[at])
        tally.excepted[RELATIVE] += is_excepted
        tally.count(f"words of {kind}, {'as before' if one == was else 'changed'}", one == other or is_excepted,
                    lambda: f"program {number}, at {at:#x}: {one:#010x}, before {was:#010x}, and ld {other:#010x} at {moved:#x}")
    related = {at + byte for at in kinds for byte in range(4)}
    for at in sorted(file.keys() - related):
        moved = moved_to(at, homes, places)
        wanted = theirs.get(moved, file[at])  # between two objects ld has no byte, since each is a section there
        tally.count("other bytes", ours.get(at) == wanted,
                    lambda: f"program {number}, at {at:#x}: {ours.get(at)}, and ld {wanted} at {moved:#x}")
    compare_symbols(folder, homes, number, tally)


def compare_symbols(folder: str, homes: dict[str, tuple[int, int]], number: int, tally: Tally) -> None:
    ours, theirs = objects_of(f"{folder}/out"), objects_of(f"{folder}/linked")
    for name in homes:
        tally.count("symbols", ours.get(name) == theirs.get(name),
                    lambda: f"program {number}, {name}: {ours.get(name)}, and ld has {theirs.get(name)}")


def script_of(homes: dict[str, tuple[int, int]], places: dict[str, int]) -> str:
    """A linker script with each object at its home, or at its place, which is aligned to the board's grain and no more; the code
    and the stack are as in examples/board.ld."""
    parts = [f".at.{name} {places.get(name, home):#x} : SUBALIGN(1) {{ *(.data.{name} .rodata.{name} .bss.{name}) }}"
             for name, (home, _) in sorted(homes.items(), key=lambda it: it[1])]
    text = ".text 0x10000 : { KEEP(*(.text.start)) *(.text .text.*) }"
    return "OUTPUT_ARCH(riscv)\nENTRY(_start)\nSECTIONS {\n" + "\n".join([text, *parts, "__stack_top = 0x90000;", "}", ""])


def moved_to(at: int, homes: dict[str, tuple[int, int]], places: dict[str, int]) -> int:
    """Where the word of an address of FILE stands in the other link."""
    for name, place in places.items():
        home, size = homes[name]
        if home <= at < home + size:
            return place + at - home
    return at


def told_by_readelf(name: str) -> str:
    return tools.call([tools.READELF, "-W", "-l", "-t", "-s", "-r", "--sym-base=10", name]).stdout.decode()


def objects_of(name: str) -> dict[str, tuple[int, int]]:
    """The value and the size of each object's symbol."""
    told = told_by_readelf(name)
    lines = (line.split(" ", 5) for line in symbols_of(told, sections_of(told)))
    return {fields[5]: (int(fields[0]), int(fields[1])) for fields in lines if fields[2] == "1"}


def kinds_of(name: str) -> tuple[dict[int, str], dict[int, int]]:
    """The kind of the relocation at each address, and of a low part where its upper part stands."""
    told = told_by_readelf(name)
    sections = sections_of(told)
    symbols, kinds, partners = symbols_of(told, sections), {}, {}
    for line in relocations_of(told, sections):
        at, kind, symbol, _, _ = map(int, line.split())
        if kind in NAMES:
            kinds[at] = NAMES[kind]
            partners[at] = int(symbols[symbol].split()[0])
    return kinds, partners


def is_same_part(ours: dict[int, int], theirs: dict[int, int], at: int, kind: str, partner: int) -> bool:
    """Whether two words are parts of one address that both pairs make, by LUI or by AUIPC."""
    return kind.startswith("PCREL") and part_of(ours, at, kind, partner) == part_of(theirs, at, kind, partner)


def part_of(memory: dict[int, int], at: int, kind: str, partner: int) -> tuple[int, int]:
    """The address that a word makes with its upper part, and the word's other fields. Of an upper part the register is enough,
    since its low parts tell the address."""
    word = word_at(memory, at)
    if kind == "PCREL_HI20":
        return word >> 7 & 31, word & 0x5F  # LUI and AUIPC differ in one bit
    low = word >> 20 if kind == "PCREL_LO12_I" else word >> 25 << 5 | word >> 7 & 31
    upper = word_at(memory, partner)
    base = (upper & 0xFFFFF000) + (partner if upper & 0x7F == AUIPC else 0)
    return (base + (low ^ 0x800) - 0x800) % 2**32, word & (0xFFFFF if kind == "PCREL_LO12_I" else 0x1FFF07F)


def memory_of(name: str) -> dict[int, int]:
    """The bytes of a file's sections with memory, by address."""
    content, memory = tools.read(name), {}
    for _, flags, address, offset, size, _, _, in_file, _ in sections_of(told_by_readelf(name)):
        if flags & 2 and in_file:
            memory.update(zip(range(address, address + size), content[offset : offset + size]))
    return memory


def word_at(memory: dict[int, int], at: int) -> int:
    """Four bytes of memory as a number, or -1 where some are missing."""
    found = [memory.get(at + byte) for byte in range(4)]
    return -1 if None in found else int.from_bytes(bytes(found), "little")
