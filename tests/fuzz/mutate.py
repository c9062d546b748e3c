"""Changes of files and texts, drawn by a seeded generator."""

import re
from collections.abc import Callable
from random import Random
from typing import TypeVar

import hex_path
from board_path import PRICES
from elf_path import HEADER, NOBITS, NULL, PROGRAM, RELA, RELOCATION, SECTION, SUPPORTED, SYMBOL, SYMTAB

Element = TypeVar("Element")

CORNERS = (0, 1, 2, 3, 4, 5, 8, 9, 15, 16, 31, 32, 52, 64, 65, 255, 256, 4095, 4096, 4097, 0x1000, 0xFF00, 0xFFFF, 0x10000,
           0x90000, 0x1000000, 0x7FFFFFFF, 0x80000000, 0xFFFFFFF0, 0xFFFFFFFE, 0xFFFFFFFF)
HEADER_FIELDS = [(at, 1) for at in range(16)] + [(16, 2), (18, 2)] + [(at, 4) for at in range(20, 40, 4)] \
    + [(at, 2) for at in range(40, 52, 2)]
WORDS = {PROGRAM: range(0, PROGRAM, 4), SECTION: range(0, SECTION, 4), RELOCATION: range(0, RELOCATION, 4)}
SYMBOL_FIELDS = [(0, 4), (4, 4), (8, 4), (12, 1), (13, 1), (14, 2)]
MOST_CHANGES = 4


def fields(size: int) -> list[tuple[int, int]]:
    """The places and sizes of the fields of a record of so many bytes."""
    if size == HEADER:
        return HEADER_FIELDS
    return SYMBOL_FIELDS if size == SYMBOL else [(at, 4) for at in WORDS[size]]


def word(file: bytes, at: int) -> int:
    return int.from_bytes(file[at:at + 4], "little")


def half(file: bytes, at: int) -> int:
    return int.from_bytes(file[at:at + 2], "little")


def put(file: bytearray, at: int, size: int, value: int) -> None:
    file[at:at + size] = (value % 256**size).to_bytes(size, "little")


def whole(file: bytes, at: int, size: int, count: int) -> list[tuple[int, int]]:
    """The records of a table that lie in the file, as place and size; none of a file without a header."""
    if len(file) < HEADER:
        return []
    return [(start, size) for start in range(at, min(at + size * count, len(file) - size + 1), size)]


def section_headers(file: bytes) -> list[tuple[int, int]]:
    return whole(file, word(file, 32), SECTION, half(file, 48))


def program_headers(file: bytes) -> list[tuple[int, int]]:
    return whole(file, word(file, 28), PROGRAM, half(file, 44))


def records(file: bytes, kind: int, size: int) -> list[tuple[int, int]]:
    """The records of the sections of one type."""
    return [record for at, _ in section_headers(file) if word(file, at + 4) == kind
            for record in whole(file, word(file, at + 16), size, word(file, at + 20) // size)]


def tables(file: bytes) -> list[list[tuple[int, int]]]:
    """The records of a file, a list for each kind that it has."""
    kinds = [whole(file, 0, HEADER, 1), program_headers(file), section_headers(file), records(file, SYMTAB, SYMBOL),
             records(file, RELA, RELOCATION)]
    return [kind for kind in kinds if kind]


def change_field(random: Random, file: bytearray) -> None:
    kinds = tables(file)
    if not kinds:
        return flip(random, file)
    kind = random.choice(kinds)
    start, record = random.choice(kind)
    at, size = random.choice(fields(record))
    old = int.from_bytes(file[start + at:start + at + size], "little")
    other = random.choice(kind)[0] + at
    values = [
        random.choice(CORNERS),
        old + random.choice((-4, -1, 1, 4)),
        old ^ 1 << random.randrange(8 * size),
        int.from_bytes(file[other:other + size], "little"),
        len(file) + random.choice((-1, 0, 1)),
        random.randrange(len(file)),
    ]
    put(file, start + at, size, random.choice(values))


def flip(random: Random, file: bytearray) -> None:
    for _ in range(random.randint(1, 4)):
        if file:
            at = random.randrange(min(len(file), random.choice((HEADER, 400, len(file)))))
            file[at] ^= random.randint(1, 255)


def change_word(random: Random, file: bytearray) -> None:
    """Puts an instruction somewhere into the bytes of a segment."""
    places = [(word(file, at + 4), word(file, at + 16)) for at, _ in program_headers(file)]
    places = [(start, size // 4) for start, size in places if size >= 4 and start + size <= len(file)]
    for start, words in places[:random.randint(1, 2)]:
        put(file, start + 4 * random.randrange(min(words, random.choice((8, 64, words)))), 4, instruction(random))


def instruction(random: Random) -> int:
    """A word whose opcode is one of RV32I, with any other fields."""
    opcode = random.choice((0x37, 0x17, 0x6F, 0x67, 0x63, 0x03, 0x23, 0x13, 0x13, 0x33, 0x33, 0x0F, 0x73, random.randrange(128)))
    if opcode == 0x73 and random.random() < 0.8:
        return random.choice((0x73, 0x100073))
    funct7 = random.choice((0, 0x20, 1, random.randrange(128)))
    registers = [random.choice((0, 1, 2, 5, 10, 11, 12, 13, 17, random.randrange(32))) for _ in range(3)]
    return funct7 << 25 | registers[0] << 20 | registers[1] << 15 | random.randrange(8) << 12 | registers[2] << 7 | opcode


def cut(random: Random, file: bytearray) -> None:
    del file[random.randrange(len(file) + 1):]


def extend(random: Random, file: bytearray) -> None:
    file += random.choice((bytes(random.randint(1, 64)), random.randbytes(random.randint(1, 64))))


def copy_record(random: Random, file: bytearray) -> None:
    """One record in place of another of its kind, or both change places."""
    kinds = [kind for kind in tables(file) if len(kind) > 1]
    if not kinds:
        return
    (first, size), (second, _) = random.sample(random.choice(kinds), 2)
    one, other = file[first:first + size], file[second:second + size]
    file[first:first + size] = other
    if random.random() < 0.5:
        file[second:second + size] = one


def move_section(random: Random, file: bytearray) -> None:
    """Gives a section the place, or the address, of another one or of a segment."""
    sections = section_headers(file)
    if not sections:
        return
    at = random.choice(sections)[0]
    other = random.choice(sections)[0]
    column = random.choice((12, 16, 20))
    value = word(file, other + column) + random.choice((0, 0, -4, 4, word(file, other + 20)))
    put(file, at + column, 4, value)


def move_segment(random: Random, file: bytearray) -> None:
    """Gives a segment an address about one at which the upper half changes."""
    for at, _ in program_headers(file)[:random.randint(1, 3)]:
        put(file, at + 8, 4, random.choice((0x10000, 0x20000, 0xFFFF0000)) - random.randrange(300))


def lengthen_table(random: Random, file: bytearray) -> None:
    """Gives the symbol table, or a table of relocations, a place behind the file, where it has too many records."""
    kind, size = random.choice(((SYMTAB, SYMBOL * 65536), (RELA, RELOCATION * 262144)))
    for at, _ in section_headers(file):
        if word(file, at + 4) == kind:
            put(file, at + 16, 4, len(file))
            put(file, at + 20, 4, size + random.choice((0, 4, 48)))
            file += bytes(size + 48)
            return


def change_kind(random: Random, file: bytearray) -> None:
    """Gives a section another type."""
    sections = section_headers(file)
    if sections:
        put(file, random.choice(sections)[0] + 4, 4, random.choice((NULL, 1, 2, 3, RELA, NOBITS, 9, 14)))


def splice(random: Random, file: bytearray, others: list[bytes]) -> None:
    """Bytes of another file in place of some of this one."""
    other = random.choice(others)
    start, at, size = random.randrange(len(other)), random.randrange(len(file) + 1), random.randint(1, 200)
    file[at:at + size] = other[start:start + size]


CHANGES: list[tuple[int, Callable[[Random, bytearray], None]]] = [
    (400, change_field), (100, flip), (150, change_word), (30, cut), (40, extend), (60, copy_record), (60, move_section),
    (40, change_kind), (30, move_segment), (1, lengthen_table)]


def change_symbol(random: Random, file: bytearray) -> None:
    """Gives a symbol another value, size, kind or section, near its own or that of another symbol."""
    symbols = records(file, SYMTAB, SYMBOL)
    if symbols:
        (at, _), (other, _) = random.choice(symbols), random.choice(symbols)
        field, size = random.choice(((4, 4), (4, 4), (8, 4), (12, 1), (14, 2)))
        near = word(file, at + field) + random.choice((-4, -1, 1, 2, 4, 16))
        value = random.choice((word(file, other + field), near, random.choice((0, 1, 2, 3, 4, 16))))
        put(file, at + field, size, value)


def change_relocation(random: Random, file: bytearray) -> None:
    """Gives a relocation another place, kind, symbol or addend."""
    relocations = records(file, RELA, RELOCATION)
    symbols = len(records(file, SYMTAB, SYMBOL))
    if not relocations:
        return change_word(random, file)
    (at, _), (other, _) = random.choice(relocations), random.choice(relocations)
    action = random.randrange(5)
    if action == 0:
        put(file, at, 4, word(file, random.choice((at, other))) + random.choice((-4, 0, 1, 2, 4)))
    elif action == 1:
        put(file, at + 4, 1, random.choice(sorted(SUPPORTED)))
    elif action == 2:
        put(file, at + 5, 3, random.randrange(symbols + 1))
    elif action == 3:
        put(file, at + 8, 4, word(file, at + 8) + random.choice((-4, -1, 1, 2, 4, 16, 64)))
    else:
        file[at:at + RELOCATION] = file[other:other + RELOCATION]


def meet_relocation(random: Random, file: bytearray) -> None:
    """Puts a symbol or a relocation to where another relocation is, or to a word behind it."""
    symbols, relocations = records(file, SYMTAB, SYMBOL), records(file, RELA, RELOCATION)
    if relocations and symbols:
        place = word(file, random.choice(relocations)[0]) + random.choice((0, 4, 8))
        put(file, random.choice((random.choice(symbols)[0] + 4, random.choice(relocations)[0])), 4, place)


def change_flags(random: Random, file: bytearray) -> None:
    """Takes from a section that it can be written, is code, or has memory, or gives it that."""
    sections = section_headers(file)
    if sections:
        at = random.choice(sections)[0]
        put(file, at + 8, 4, word(file, at + 8) ^ random.choice((1, 2, 4)))


def split_section(random: Random, file: bytearray) -> None:
    """Makes two sections of one, of which a part may be empty; another section's header is lost."""
    sections = section_headers(file)
    if len(sections) < 2:
        return
    (first, _), (second, _) = random.sample(sections, 2)
    size = word(file, first + 20)
    part = random.choice((0, size, 4 * random.randint(0, size // 4), random.randint(0, size)))
    file[second:second + SECTION] = file[first:first + SECTION]
    put(file, first + 20, 4, part)
    for column, value in ((12, part), (16, part), (20, -part)):
        put(file, second + column, 4, word(file, second + column) + value)


def change_part(random: Random, file: bytearray) -> None:
    """Another register, function or immediate in an instruction, which is most often the one of a relocation."""
    places = [(word(file, at + 4), word(file, at + 8), word(file, at + 16)) for at, _ in program_headers(file)]
    relocated = [word(file, at) for at, _ in records(file, RELA, RELOCATION)]
    for offset, address, size in random.sample(places, min(1, len(places))):
        spots = [at for at in relocated if address <= at and at + 4 <= address + size]
        at = random.choice(spots) if spots and random.random() < 0.5 else address + 4 * random.randrange(size // 4 + 1)
        at += offset - address
        if at + 4 <= len(file):
            low, bits = random.choice(((7, 5), (12, 3), (15, 5), (20, 5), (25, 7), (20, 12), (30, 1)))
            kept = word(file, at) & ~((1 << bits) - 1 << low)
            put(file, at, 4, kept | random.randrange(1 << bits) << low)


GENTLE = (change_word, change_part, change_part, change_symbol, change_relocation, change_relocation, change_flags,
          split_section, meet_relocation)


def program(random: Random, seeds: list[bytes]) -> bytes:
    """A seed with a few changes to its instructions, symbols and relocations, which most often leave it a file."""
    file = bytearray(random.choice(seeds))
    for change in random.choices(GENTLE, k=random.choice((1, 1, 2, 3))):
        change(random, file)
    return bytes(file)


def elf(random: Random, seeds: list[bytes]) -> bytes:
    """A seed with a few changes."""
    file = bytearray(random.choice(seeds))
    weights, changes = zip(*CHANGES)
    for change in random.choices(changes, weights, k=random.choice((1, 1, 1, 2, 3, MOST_CHANGES))):
        change(random, file)
    if random.random() < 0.03:
        splice(random, file, seeds)
    return bytes(file)


def drop_and_insert(random: Random, parts: list[Element], pool: list[Element]) -> None:
    """Drops, doubles, replaces or swaps parts of a list, or inserts one of a pool."""
    for _ in range(random.choice((1, 1, 1, 2, 3))):
        at = random.randrange(len(parts) + 1)
        other = random.randrange(len(parts) + 1)
        action = random.randrange(5)
        if action == 0:
            del parts[at:at + 1]
        elif action == 1:
            parts[at:at] = parts[other:other + 1]
        elif action == 2:
            parts[at:at + 1] = [random.choice(pool)]
        elif action == 3:
            parts.insert(at, random.choice(pool))
        elif at < len(parts) and other < len(parts):
            parts[at], parts[other] = parts[other], parts[at]


TOKEN = re.compile(rb'"[^"\n]*"|\w+|\s+|.', re.DOTALL)
TOKENS = [
    b"0", b"1", b"-1", b"16", b"17", b"32", b"64", b"4096", b"10000", b"10001", b"0x1000000", b"0x1000001", b"0xFFFFFFFF",
    b"4294967295", b"4294967296", b"9223372036854775807", b"9223372036854775808", b"-9223372036854775808",
    b"-9223372036854775809", b"1_000", b"1__0", b"007", b"0x_1", b"0b101", b"0o17", b"+5", b"1.5", b"1e3", b"inf", b"nan",
    b"true", b"false", b"True", b"[", b"]", b"[]", b"{", b"}", b"{}", b"[[", b"]]", b",", b"=", b".", b"#", b'"', b"'",
    b'"""', b"\n", b"\r\n", b"\r", b" ", b"\t", b"\\", b'"text"', b"'text'", b'"\\n"', b'"\\u0041"', b'"\\q"', b"\xff", b"\0",
    b"\xc3\xa9", b"\xef\xbb\xbf", b"main", b"spm", b"price", b"fix", b"grain", b"colour", b'""', b"\x7f", b"a.b", b"[price]",
    b"1979-05-27", b"[[1, 2]]", b'[["f"]]', b'["a", 1]', b"[0, 16]", b"[16]", b"[16, 0]", b"[1, 2, 3]"]


def tokens(random: Random, text: bytes) -> bytes:
    """A text of which some tokens are other ones, or some bytes."""
    if random.random() < 0.15:
        changed = bytearray(text)
        flip(random, changed)
        return bytes(changed)
    parts = TOKEN.findall(text)
    drop_and_insert(random, parts, TOKENS)
    return b"".join(parts)


HEX_LINES = [
    hex_path.record(hex_path.END, 0, b""), hex_path.record(hex_path.UPPER_ADDRESS, 0, b"\xff\xff"),
    hex_path.record(hex_path.DATA, 0xFFF8, bytes(8)), hex_path.record(hex_path.DATA, 0xFFF8, bytes(9)),
    hex_path.record(hex_path.DATA, 0, b""), hex_path.record(hex_path.ENTRY, 0, bytes(4)), hex_path.record(2, 0, bytes(2)),
    hex_path.record(3, 0, bytes(4)), hex_path.record(hex_path.ENTRY, 1, bytes(4)), hex_path.record(hex_path.END, 1, b""),
    hex_path.record(hex_path.UPPER_ADDRESS, 0, b"\0"), hex_path.record(hex_path.END, 0, b"\0"), b"\n", b":\n", b":00\n",
    b":00000001FF", b":00000001ff\r\n", b":00000001FF\r\r\n", b" \n", b";comment\n"]


RANGES = ["[0x10000, 0x80000]", "[0x10000, 4096]", "[0, 0xFFFFFFFF]", "[0, 0x100000000]", "[0x20000000, 64]", "[16, 16]",
          "[0x1000000, 256]", "[0x1000000, 16777216]", "[0x1000000, 16777232]", "[0x90000, 65536]", "[0x90000, 1048576]",
          "[0x90000, 1048640]", "[0x90000, 64]", "[0x90000, 84]", "[0x90000, 128]", "[64, 0]", "[-16, 64]", "[1, 4294967294]",
          "[1, 4294967295]", "[0x90020, 96]", "[0x1000030, 48]", "[64]", "[64, 64, 64]", '[64, "64"]', "[64, 64.0]", "64", "[]"]
LISTS = ["[]", '["main"]', '["f", "g"]', '["table", ".data"]', '[""]', '["f", 1]', '"f"', "[[]]", '["\u00e9"]']
NESTED = ["[]", "[[]]", '[["main"]]', '[["f"], ["g"]]', '[["f", "f"]]', '[["f"], ["k0", "main"], ["f"]]', '[["no such"]]',
          "[[], [], [], [], [], [], [], []]", "[[], [], [], [], [], [], [], [], []]", '[["f"], "g"]', '["f"]', "[[1]]", "1"]
AREAS = ["[]", "[[0x100000, 4096]]", "[[0x10000, 0x20000], [0, 1]]", "[[0, 1, 2]]", "[[0, 0]]", "[[0, 1], 5]", "[0, 1]",
         f"[{', '.join(['[0, 1]'] * 16)}]", f"[{', '.join(['[0, 1]'] * 17)}]", "{}"]
SWITCHES = ["true", "false", "0", '"true"', "[]"]
# What a board may say of each key; numbers are a corner or beside one.
VALUES = {
    "main": RANGES, "spm": RANGES, "patch": RANGES, "areas": AREAS, "fix": LISTS, "bss": ['"fixed"', '"movable"', '"Fixed"', "1"],
    "grain": ["16", "32", "64", "8", "128", '"16"', "16.0", "0x10"], "fence_i": SWITCHES, "twins": SWITCHES,
    "driver": ['"main"', '"f"', '""', "1", "['main']"], "regions": NESTED,
    "steps": ["1", "300", "300", "300", "0", "1000000000", "1000000001", "1e3", "-1", '"1"'],
    "nodes": ["1", "100", "0", "10000000", "10000001", "true"],
    "price": ["{}", "1", "[]", "{ main_fetch = 1 }", "{ colour = 1 }"],
    "colour": ["1"], "Main": ["1"], '"a b"': ["[]"], '""': ["{}"], '"\u00e9"': ["1"], "price.a": ["1"], "main.a": ["1"],
}
PRICE_VALUES = ["0", "1", "10", "10000", "10001", "-1", "1.0", "true", "[1]"]


def board(random: Random) -> bytes:
    """The text of a board of some keys in any order, of which few have a fault."""
    lines = []
    for key in random.sample(list(VALUES), random.choice((1, 2, 3, 6))):
        values = VALUES[key]
        lines.append(f"{key} = {random.choice(values if random.random() < 0.5 else values[:3])}\n")
    if random.random() < 0.95 and not any(line.startswith("steps") for line in lines):
        lines.append("steps = 300\n")
    prices = [f"{key} = {random.choice(PRICE_VALUES[:3] if random.random() < 0.9 else PRICE_VALUES)}"
              for key in (*PRICES, *random.choice(((), (), ("colour", "b"), ("spm",)))) if random.random() < 0.97]
    random.shuffle(prices)
    form = random.randrange(4)
    if form == 0:
        lines.insert(random.randrange(len(lines) + 1), f"price = {{ {', '.join(prices)} }}\n")
    elif form == 1:
        lines += ["[price]\n", *(f"{price}\n" for price in prices)]
    elif form == 2:
        lines += [f"price.{price}\n" for price in prices]
    return "".join(lines).encode()


def hex_text(random: Random, text: bytes) -> bytes:
    """A text of records in another spelling or order, or with other lines, fields or bytes."""
    lines = text.splitlines(keepends=True)
    for change in random.choices((spell_anew, change_record, change_lines, change_bytes, keep), k=random.choice((1, 1, 2))):
        lines = change(random, lines)
    return b"".join(lines)


def keep(random: Random, lines: list[bytes]) -> list[bytes]:
    return lines


def spell_anew(random: Random, lines: list[bytes]) -> list[bytes]:
    """Other cases of digits, other line ends and another order of data, which mean the same within a block."""
    if random.random() < 0.5:
        lines = [line.lower() for line in lines]
    if random.random() < 0.5:
        lines = [line.replace(b"\n", b"\r\n") for line in lines]
    data = lines[1:-2]
    random.shuffle(data)
    return lines[:1] + data + lines[-2:]


def change_record(random: Random, lines: list[bytes]) -> list[bytes]:
    """Another type, address or datum in a record, most often with a check byte that holds."""
    at = random.randrange(len(lines)) if lines else 0
    try:
        body = bytearray.fromhex(lines[at].strip()[1:].decode())
        body[random.choice((0, 1, 2, 3, 3, -2))] = random.choice((0, 1, 2, 3, 4, 5, 6, 16, 255))
    except (IndexError, ValueError):
        return lines
    if random.random() < 0.8:
        body[-1] = -sum(body[:-1]) % 256
    return lines[:at] + [b":%s\n" % bytes(body).hex().upper().encode()] + lines[at + 1:]


def change_lines(random: Random, lines: list[bytes]) -> list[bytes]:
    changed = list(lines)
    drop_and_insert(random, changed, HEX_LINES)
    return changed


def change_bytes(random: Random, lines: list[bytes]) -> list[bytes]:
    parts = [bytes([byte]) for byte in b"".join(lines)]
    drop_and_insert(random, parts, [b"0", b"F", b"g", b":", b"\n", b"\r", b" ", b"\0", b"\xff"])
    return [b"".join(parts)]


NUMBERS = [0, 1, 2, 3, 4, 5, 9, 10, 127, 128, 16384, 65535, 65536, 65537, 2**32 - 1, 2**32, 2**63, 2**64 - 1, 2**64]


def leb128(number: int) -> bytes:
    """A number in the shortest unsigned LEB128."""
    groups = [number >> place & 0x7F for place in range(0, max(number.bit_length(), 1), 7)]
    return bytes(group | 0x80 for group in groups[:-1]) + bytes(groups[-1:])


def numbers(random: Random, given: list[int]) -> bytes:
    """A text of numbers, some of which are other ones, or are not in their shortest form, or with other bytes."""
    parts = [leb128(number) for number in given]
    if random.random() < 0.6:
        drop_and_insert(random, parts, [leb128(number) for number in NUMBERS])
    if parts and random.random() < 0.1:
        at = random.randrange(len(parts))
        longer = parts[at][:-1] + bytes([parts[at][-1] | 0x80]) if parts[at] else b""
        parts[at] = longer + random.choice((b"\0", b"\x80\0", b"\1", b"\xff" * random.randint(1, 9)))
    text = bytearray(b"".join(parts))
    if random.random() < 0.2:
        random.choice((flip, cut, extend))(random, text)
    return bytes(text)
