"""ELF files, as `read` sees them and as readelf does (crates/elf_reader/specs), and texts in Intel HEX, as spmlink, objcopy and
SRecord write and read them (crates/hex_image/specs).

The files are those of the repository's tests, of folders that are named, and what GCC makes of examples/ by other flags; and
all these with changed fields, where spmlink accepts them.
"""

import functools
import glob
import itertools
import os
import re
import subprocess
import sys
from concurrent.futures import ProcessPoolExecutor
from random import Random

import tools
from tools import Options, Tally

sys.path.append(f"{tools.ROOT}/tests/fuzz")
import mutate  # noqa: E402

USUAL = 1_000
PART = 50
PROGRAMS = ("filter", "vending", "interpreter", "phases")
STACK = "-Wl,--defsym=__stack_top=0x90000"
COMPILE = ["-march=rv32im", "-mabi=ilp32", "-ffreestanding", "-fno-section-anchors"]
LEVELS = ("-O0", "-O1", "-O2", "-O3", "-Os")
FLAGS = ((), ("-g",), ("-mcmodel=medany",), ("-ffunction-sections", "-fdata-sections"))
LINKS = (("-T", "board.ld", "-Wl,--emit-relocs", "-Wl,--no-relax"), ("-T", "board.ld", "-s"),
         (STACK, "-Wl,-Ttext=0x11000", "-Wl,--no-relax"),
         (STACK, "-Wl,-N", "-Wl,-Ttext=0x80000000", "-Wl,--emit-relocs", "-Wl,--no-relax"))
TYPES = {"NULL": 0, "PROGBITS": 1, "SYMTAB": 2, "STRTAB": 3, "RELA": 4, "HASH": 5, "DYNAMIC": 6, "NOTE": 7, "NOBITS": 8,
         "REL": 9, "SHLIB": 10, "DYNSYM": 11, "INIT_ARRAY": 14, "FINI_ARRAY": 15, "PREINIT_ARRAY": 16, "GROUP": 17,
         "SYMTAB SECTION INDICES": 18, "RELR": 19, "RISCV_ATTRIBUTES": 0x70000003}
KINDS = {"NOTYPE": 0, "OBJECT": 1, "FUNC": 2, "SECTION": 3, "FILE": 4, "COMMON": 5, "TLS": 6, "RELC": 8, "SRELC": 9, "IFUNC": 10}
PLACES = {"UND": 0, "ABS": 0xFFF1, "COM": 0xFFF2}
LOAD = re.compile(r"^  (\S+(?: \S+)*?) +0x([0-9a-f]+) 0x([0-9a-f]+) 0x([0-9a-f]+) 0x([0-9a-f]+) 0x([0-9a-f]+) (.{3}) ", re.M)
SECTION = re.compile(r"^  \[ *\d+\] ?(.*)\n +(\S.*?) +([0-9a-f]{8,}) ([0-9a-f]{6,}) ([0-9a-f]{6,}) [0-9a-f]{2,}"
                     r" +(\d+) +(\d+) +\d+\n +\[([0-9a-f]+)\]", re.M)
SYMBOL = re.compile(r"^ *\d+: ([0-9a-f]{8}) +(\d+) (\S+(?:(?: specific>)?: *\d+)?) +\S+(?:(?: specific>)?: *\d+)?"
                    r" +(?:DEFAULT|INTERNAL|HIDDEN|PROTECTED)(?:  ?\[.*?\])?"
                    r" +(\d+|UND|ABS|COM|(?:PRC|OS |RSV)\[0x[0-9a-f]+\]) (.*)$", re.M)
RELOCATION = re.compile(r"^([0-9a-f]{8})  ([0-9a-f]{8}) .*?(?:([+-]) |(-)?)([0-9a-f]+)$", re.M)
TABLE = re.compile(r"^Relocation section .* contains \d+ entr.*$", re.M)
HEADER = {"entry": "Entry point address", "flags": "Flags", "ph_at": "Start of program headers",
          "ph_count": "Number of program headers"}
# The fields that a fault tells, and that readelf tells as a number.
FAULTS = {"WrongKind { field: 6": "Version", "WrongKind { field: 7": "Flags", "WrongKind { field: 8": "Size of this header",
          "WrongKind { field: 9": "Size of program headers", "WrongKind { field: 10": "Size of section headers",
          "OverLimit { what: 2": "Number of program headers", "OverLimit { what: 3": "Number of section headers"}


def compare(options: Options) -> Tally:
    tell, count = tools.built_tell(), options.count_or(USUAL)
    with tools.folder() as folder:
        made = made_files(options, folder, -(-count // 2))
        total = tools.spread(functools.partial(compare_made, options, tell), batched(made), options.processes)
        wanted = count - total.compared["files"]
        parts = [(number, min(PART, wanted - number * PART)) for number in range(-(-wanted // PART))]
        total.add(tools.spread(functools.partial(compare_changed, options, tell, made), parts, options.processes))
        total.add(tools.spread(functools.partial(compare_hex, options), made, options.processes))
    return total


def batched(names: list[str]) -> list[list[str]]:
    return [names[at : at + PART] for at in range(0, len(names), PART)]


# The files.


def given_files(options: Options) -> list[str]:
    patterns = [f"{tools.ROOT}/crates/*/data/*.elf", f"{tools.ROOT}/examples/*.elf"]
    patterns += [f"{it}/**/*.elf" for it in options.folders]
    return sorted(name for pattern in patterns for name in glob.glob(pattern, recursive=True))


def made_files(options: Options, folder: str, most: int) -> list[str]:
    """So many files at most, drawn of those that are given and those that GCC can make."""
    drawn = [*given_files(options), *itertools.product(PROGRAMS, LEVELS, FLAGS, LINKS)]
    Random(f"{options.seed} files").shuffle(drawn)
    drawn = drawn[:most]
    ways = [it for it in drawn if not isinstance(it, str)]
    with ProcessPoolExecutor(options.processes) as executor:
        compiled_ones = executor.map(functools.partial(compiled, folder), range(len(ways)), ways)
        return [it for it in drawn if isinstance(it, str)] + list(compiled_ones)


def compiled(folder: str, number: int, way: tuple) -> str:
    program, level, flags, link = way
    name = f"{folder}/{number}.elf"
    sources = ["crt0.S", "calls.c", f"{program}.c"]
    words = [tools.GCC, *COMPILE, level, *flags, "-nostdlib", "-static", *link, "-o", name, *sources, "-lgcc"]
    tools.call(words, cwd=f"{tools.ROOT}/examples")
    return name


def compare_changed(options: Options, tell: str, made: list[str], part: tuple[int, int]) -> Tally:
    """Compares so many files with changed fields that spmlink accepts, and the faults of those that it refuses on the way."""
    number, size = part
    random = Random(f"{options.seed} files {number}")
    tally = Tally()
    while tally.compared["files"] < size:
        with tools.folder() as folder:
            names = [tools.write(f"{folder}/{at}", changed(random, tools.read(random.choice(made)))) for at in range(size)]
            compare_files(options, tell, names, size - tally.compared["files"], tally)
    return tally


def changed(random: Random, file: bytes) -> bytes:
    content = bytearray(file)
    for _ in range(random.choice((1, 1, 2, 4))):
        random.choice((mutate.change_field, mutate.change_field, mutate.copy_record))(random, content)
    return bytes(content)


# What spmlink's reader and readelf see.


def compare_made(options: Options, tell: str, names: list[str]) -> Tally:
    tally = Tally()
    compare_files(options, tell, names, len(names), tally)
    return tally


def compare_files(options: Options, tell: str, names: list[str], most: int, tally: Tally) -> None:
    """Compares what is told of files, of the accepted ones so many at most."""
    told = tools.call([tell, "files", *names]).stdout.decode("latin-1")
    for name, text in zip(names, re.split(r"^file .*\n", told, flags=re.M)[1:], strict=True):
        ours, theirs = text.split("\n")[:-1], read_by_readelf(name)
        if ours[0].startswith("fault "):
            compare_fault(ours[0].removeprefix("fault "), theirs, name, tally)
        elif most > 0:
            most -= 1
            tally.count("files", True, str)
            compare_view(options, ours, theirs, name, tally)


def read_by_readelf(name: str) -> str:
    """What readelf tells of a file, which may have faults."""
    words = [tools.READELF, "-W", "-h", "-l", "-t", "-s", "-r", "--sym-base=10", name]
    done = subprocess.run(words, stdin=subprocess.DEVNULL, stdout=subprocess.PIPE, stderr=subprocess.DEVNULL)
    return done.stdout.decode("latin-1")


def compare_fault(fault: str, theirs: str, name: str, tally: Tally) -> None:
    """A fault that tells a number of the header, which readelf tells too."""
    head, _, value = fault.rstrip(" }").rpartition(", ")
    if head in FAULTS:
        number = header_number(theirs, FAULTS[head])
        tally.count("faults", int(value.split()[1]) == number, lambda: f"{name}: {fault}, and readelf says {number}")


def header_number(theirs: str, what: str) -> int:
    """The last number of this name in what readelf tells of the header."""
    number = re.findall(rf"^  {what}: +(0x[0-9a-f]+|\d+)", theirs, re.M)[-1]
    return int(number, 0)


def compare_view(options: Options, ours: list[str], theirs: str, name: str, tally: Tally) -> None:
    by_kind: dict[str, list[str]] = {"header": [], "segment": [], "section": [], "symbol": [], "relocation": []}
    for line in ours:
        kind, fields = line.split(" ", 1)
        by_kind[kind].append(fields)
    sections = sections_of(theirs)
    seen = {
        "header": [" ".join(str(header_number(theirs, it)) for it in HEADER.values())],
        "segment": segments_of(theirs),
        "section": [" ".join(map(str, section)) for section in sections],
        "symbol": symbols_of(theirs, sections),
        "relocation": relocations_of(theirs, sections),
    }
    for kind, lines in by_kind.items():
        tally.count(f"{kind} lists", len(lines) == len(seen[kind]),
                    lambda: f"{name}: {len(lines)}, and readelf has {len(seen[kind])}")
    if options.mistake and seen["symbol"]:
        seen["symbol"][-1] = "1" + seen["symbol"][-1]
    by_kind["symbol"] = [with_name_of_section(line, other, sections, tally)
                         for line, other in zip(by_kind["symbol"], seen["symbol"])]
    by_kind["segment"] = [without_further_flags(line, tally) for line in by_kind["segment"]]
    by_kind["section"] = [without_unknown_type(line, other, tally) for line, other in zip(by_kind["section"], seen["section"])]
    for kind, lines in by_kind.items():
        for at, (one, other) in enumerate(zip(lines, seen[kind])):
            tally.count(f"{kind}s", shown(one) == other, lambda: f"{name}: {kind} {at} is {one!r}, and readelf says {other!r}")


def shown(line: str) -> str:
    """A line as `readelf` prints it: control characters by a caret, and bytes that are no ASCII by their number."""
    return "".join(shown_byte(it) for it in line)


def shown_byte(it: str) -> str:
    if ord(it) < 32 or ord(it) == 127:
        return f"^{chr(ord(it) ^ 64)}"
    return it if ord(it) < 128 else f"<{ord(it):02X}>"


def with_name_of_section(line: str, other: str, sections: list[tuple], tally: Tally) -> str:
    """readelf gives most symbols of sections, which have no name, that of the section."""
    _, _, kind, place, _, name = line.split(" ", 5)
    if line == other or name or int(kind) != KINDS["SECTION"] or not 0 < int(place) < len(sections):
        return line
    tally.excepted["names of sections' symbols, which readelf takes from the section"] += 1
    return line + sections[int(place)][-1]


def without_further_flags(line: str, tally: Tally) -> str:
    *fields, flags = line.split()
    if int(flags) > 7:
        tally.excepted["flags of segments beyond R, W and E, which readelf does not tell"] += 1
    return " ".join([*fields, str(int(flags) % 8)])


def without_unknown_type(ours: str, theirs: str, tally: Tally) -> str:
    if not theirs.startswith("None "):
        return ours
    tally.excepted["types of sections that readelf does not tell as a number"] += 1
    return "None " + ours.split(" ", 1)[1]


def segments_of(theirs: str) -> list[str]:
    table = theirs.partition("\nProgram Headers:\n")[2].partition("\n\n")[0]
    lines = []
    for index, (kind, offset, address, _, in_file, in_memory, flags) in enumerate(LOAD.findall(table)):
        if kind == "LOAD":
            bits = sum(bit for letter, bit in (("R", 4), ("W", 2), ("E", 1)) if letter in flags)
            lines.append(" ".join(map(str, (index, *(int(it, 16) for it in (offset, address, in_file, in_memory)), bits))))
    return lines


def sections_of(theirs: str) -> list[tuple]:
    """Type, flags, address, offset, size, link, info, bytes in the file, and name of each section."""
    table = theirs.partition("\nSection Headers:\n")[2].partition("\n\n")[0]
    sections = []
    for name, kind, address, offset, size, link, info, flags in SECTION.findall(table):
        number = type_of(kind)
        in_file = 0 if number in (TYPES["NULL"], TYPES["NOBITS"]) else int(size, 16)
        flags, address, offset, size = (int(it, 16) for it in (flags, address, offset, size))
        sections.append((number, flags, address, offset, size, int(link), int(info), in_file, name))
    return sections


def type_of(kind: str) -> int | None:
    if kind in TYPES:
        return TYPES[kind]
    for base, number in (("LOOS", 0x60000000), ("LOPROC", 0x70000000), ("LOUSER", 0x80000000)):
        if kind.startswith(f"{base}+"):
            return number + int(kind.partition("+")[2], 16)
    found = re.match(r"([0-9a-f]+): <unknown>", kind)
    return int(found[1], 16) if found else None


def symbols_of(theirs: str, sections: list[tuple]) -> list[str]:
    starts = [section[3] for section in sections if section[0] == TYPES["SYMTAB"]]
    table = theirs.partition("\nSymbol table ")[2].partition("\n\n")[0]
    lines = []
    for at, (value, size, kind, place, name) in enumerate(SYMBOL.findall(table)):
        number = KINDS.get(kind)
        number = int(kind.rpartition(":")[2]) if number is None else number
        index = PLACES.get(place)
        index = int(place.rpartition("[")[2].rstrip("]"), 0) if index is None else index
        lines.append(f"{int(value, 16)} {size} {number} {index} {starts[0] + 16 * at} {name}")
    return lines


def relocations_of(theirs: str, sections: list[tuple]) -> list[str]:
    tables = TABLE.split(theirs)[1:]
    lines = []
    for section in sections:
        kind, flags, size, changes = section[0], section[1], section[4], section[6]
        if kind not in (TYPES["RELA"], TYPES["REL"]) or size == 0:
            continue
        rows = tables.pop(0)
        if kind == TYPES["RELA"] and not flags & 2 and changes < len(sections) and sections[changes][1] & 2:
            for at, info, sign, other, addend in RELOCATION.findall(rows):
                number = int(addend, 16) * (-1 if "-" in (sign, other) else 1)
                lines.append(f"{int(at, 16)} {int(info, 16) % 256} {int(info, 16) >> 8} {number} {changes}")
    return lines


# Texts in Intel HEX.


def compare_hex(options: Options, name: str) -> Tally:
    """What spmlink writes, read by objcopy and SRecord; and what these write, read by spmlink."""
    tally = Tally()
    with tools.folder() as folder:
        status, told = tools.program_call(options.program, ["hex", name, "hex"], folder)
        if status:
            tally.excepted["files that hex refuses"] += 1
            return tally
        wanted = loaded_bytes(name, options.mistake)
        if not wanted[0]:
            tally.excepted["files without a loaded byte, whose text objcopy refuses"] += 1
            return tally
        tools.call([tools.OBJCOPY, "-I", "ihex", "-O", "srec", "--srec-forceS3", "hex", "by_objcopy"], cwd=folder)
        tools.call([tools.SREC_CAT, "hex", "-Intel", "-o", "by_srec_cat", "-Motorola", "-address-length=4"], cwd=folder)
        for reader in ("by_objcopy", "by_srec_cat"):
            seen = srec_bytes(tools.read(f"{folder}/{reader}").decode())
            tally.count(f"hex read {reader}", seen == wanted, lambda: f"{name}: {reader} sees {difference(seen, wanted)}")
        compare_hexcheck(options, name, folder, tally)
    return tally


def compare_hexcheck(options: Options, name: str, folder: str, tally: Tally) -> None:
    """What SRecord writes of spmlink's text, and what objcopy writes of the sections."""
    tools.call([tools.SREC_CAT, "hex", "-Intel", "-o", "again", "-Intel", "-address-length=4", "-line-length=44"], cwd=folder)
    answer = tools.program_call(options.program, ["hexcheck", name, "again"], folder)
    tally.count("hex by srec_cat", answer == (0, "same\n"), lambda: f"{name}: {answer}")
    if not loaded_sections(name):
        tally.excepted["files without loaded sections, of which objcopy writes nothing"] += 1
        return
    tools.call([tools.OBJCOPY, "-O", "ihex", name, "sections"], cwd=folder)
    kinds = {int(line[7:9], 16) for line in tools.read(f"{folder}/sections").decode().split()}
    answer = tools.program_call(options.program, ["hexcheck", name, "sections"], folder)
    if kinds & {2, 3}:
        is_refused = answer[0] == 14 and answer[1].startswith("error 14 bad-kind ") and answer[1].split()[-1] in "23"
        tally.count("hex by objcopy, with records of 16-bit machines", is_refused, lambda: f"{name}: {answer}")
        tally.excepted["objcopy writes records 02 and 03, which hexcheck refuses; srec_cat turns them into 04 and 05"] += 1
        tools.call([tools.SREC_CAT, "sections", "-Intel", "-o", "sections", "-Intel", "-address-length=4"], cwd=folder)
        answer = tools.program_call(options.program, ["hexcheck", name, "sections"], folder)
    compare_sections(name, folder, answer, tally)


def compare_sections(name: str, folder: str, answer: tuple[int, str], tally: Tally) -> None:
    """What hexcheck says of the text of the sections: it is the same where they hold all bytes of the segments."""
    tools.call([tools.OBJCOPY, "-O", "srec", "--srec-forceS3", name, "sections.srec"], cwd=folder)
    seen, wanted = srec_bytes(tools.read(f"{folder}/sections.srec").decode()), loaded_bytes(name, False)
    at = least_difference(seen, wanted)
    if seen == wanted:
        tally.count("hex by objcopy, of all bytes", answer == (0, "same\n"), lambda: f"{name}: {answer}")
    else:
        tally.count("hex by objcopy, of other bytes", answer == (11, f"error 11 differs {at} 0\n"), lambda: f"{name}: {answer}, at {at}")


def loaded_sections(name: str) -> list[tuple]:
    """The sections with memory and with bytes in the file."""
    told = tools.call([tools.READELF, "-W", "-t", name]).stdout.decode("latin-1")
    return [section for section in sections_of(told) if section[1] & 2 and section[7]]


def loaded_bytes(name: str, is_mistake: bool) -> tuple[dict[int, int], int]:
    """The bytes of the segments by address, and the entry, as readelf tells them."""
    theirs, content = tools.call([tools.READELF, "-W", "-h", "-l", name]).stdout.decode(), tools.read(name)
    memory = {}
    for line in segments_of(theirs):
        _, offset, address, size, _, _ = map(int, line.split())
        memory.update(zip(range(address, address + size), content[offset : offset + size]))
    return memory, header_number(theirs, HEADER["entry"]) + is_mistake


def srec_bytes(text: str) -> tuple[dict[int, int], int]:
    """The bytes and the start of a text in Motorola's S records."""
    memory, start = {}, 0
    for line in text.split():
        size, record = int(line[2:4], 16), bytes.fromhex(line[4:])
        width = {"1": 2, "2": 3, "3": 4, "7": 4, "8": 3, "9": 2}.get(line[1], 0)
        address, content = int.from_bytes(record[:width], "big"), record[width : size - 1]
        if line[1] in "123":
            memory.update(zip(range(address, address + len(content)), content))
        elif line[1] in "789":
            start = address
    return memory, start


def least_difference(one: tuple[dict[int, int], int], other: tuple[dict[int, int], int]) -> int:
    """The least address at which the bytes differ, or else the entry of the second."""
    differing = [at for at in one[0].keys() | other[0].keys() if one[0].get(at) != other[0].get(at)]
    return min(differing, default=other[1])


def difference(one: tuple[dict[int, int], int], other: tuple[dict[int, int], int]) -> str:
    told = f"{len(one[0])} bytes and start {one[1]:#x}, and readelf {len(other[0])} and {other[1]:#x}"
    return f"{told}; first at {least_difference(one, other):#x}"
