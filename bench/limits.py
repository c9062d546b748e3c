#!/usr/bin/env python3
"""Writes ELF files whose tables are at spmlink's limits, to time how long they take to be read.

usage: bench/limits.py many|long|code|data OUT [DIVISOR]

many  4,096 section headers, 65,536 symbols, 262,144 relocations and 64 program headers
long  the same section headers and symbols, each with a name that begins at the same byte of a string
      table of 60 MB without zeros but its last byte
code  4,091 executable sections of 16 words with a function each, in 63 segments, and 262,144 relocations
      of their words
data  4,090 sections of one object of 16 words each, in 63 segments, and 262,144 relocations: a word of data
      that holds an object's address for each word, and others that change nothing

With DIVISOR the tables of code and data are that much shorter.
"""
import struct
import sys

SECTIONS, SYMBOLS, RELOCATIONS, PROGRAMS = 4096, 65536, 262144, 64
# lui x17, 0; addi x17, x17, 93; ecall: exits with 0
CODE = struct.pack("<3I", 0x000008B7, 0x05D88893, 0x00000073)
# What is spread over many sections: how many words a section has, where the first stands, and in how many
# segments they are. A file that is to be relinked has at most 63.
WORDS, START, SEGMENTS = 16, 0x10000, 63
# lui x5, 0x10; addi x5, x5, 0; beq x0, x0, 8; nop
EXECUTED = struct.pack("<4I", 0x000102B7, 0x00028293, 0x00000463, 0x00000013) * (WORDS // 4)


def section(name, kind, flags, addr, offset, size, link=0, info=0, entsize=0):
    return struct.pack("<10I", name, kind, flags, addr, offset, size, link, info, 4, entsize)


def symbol(name, value, size, kind, number):
    return struct.pack("<3I2BH", name, value, size, 0x10 + kind, 0, number)


def header_of(headers_at, programs, sections):
    return b"\x7fELF\1\1\1" + bytes(9) + struct.pack(
        "<2H5I6H", 2, 243, 1, START, 52, headers_at, 0, 52, 32, programs, 40, sections, 2)


def elf(long_names):
    strings = (b"a" * 60_000_000 + b"\0") if long_names else b"\0name\0"
    name = 0 if long_names else 1
    relocations = 0 if long_names else RELOCATIONS
    at = 52 + 32 * PROGRAMS
    code_at, at = at, at + len(CODE)
    symbols_at, at = at, at + 16 * SYMBOLS
    strings_at, at = at, at + len(strings)
    at = (at + 3) // 4 * 4
    relocations_at, at = at, at + 12 * relocations
    headers_at = at
    programs = b"".join(
        struct.pack("<8I", 1, code_at, START + 16 * k, 0, len(CODE), len(CODE), 5, 4)
        for k in range(PROGRAMS))
    symbols = symbol(name, START, 0, 0, 1) * SYMBOLS
    kinds = struct.pack("<3I", START, (SYMBOLS - 1) * 256 + 51, 0) * relocations
    headers = section(name, 0, 0, 0, 0, 0)
    headers += section(name, 1, 6, START, code_at, len(CODE))
    headers += section(name, 3, 0, 0, strings_at, len(strings))
    headers += section(name, 2, 0, 0, symbols_at, 16 * SYMBOLS, 2, 1, 16)
    headers += section(name, 4, 0, 0, relocations_at, 12 * relocations, 3, 1, 12)
    headers += section(name, 1, 0, 0, code_at, len(CODE)) * (SECTIONS - 5)
    file = header_of(headers_at, PROGRAMS, SECTIONS) + programs + CODE + symbols + strings
    return file + bytes(relocations_at - len(file)) + kinds + headers


def relocation_of(i, count, is_code):
    """Relocation `i` of a file whose sections with words are `count`: its word, symbol and kind."""
    word = i % (count * WORDS)
    if not is_code:
        return word, 1 + word // WORDS, 1 if i < count * WORDS else 51
    # HI20 at the LUI, LO12_I at the ADDI, and CALL and RELAX, which here make no pair
    return word, 1, (26, 27, 18, 51)[word % 4]


def spread(is_code, divisor):
    count = (SECTIONS - 5) // divisor - (0 if is_code else 1)
    size = 4 * WORDS
    base = START if is_code else START + size
    addresses = [base + size * k for k in range(count)]
    if is_code:
        # the first section exits
        content = CODE + EXECUTED[len(CODE):] + EXECUTED * (count - 1)
    else:
        content = CODE + bytes(size - len(CODE)) + b"".join(struct.pack("<I", a) * WORDS for a in addresses)
    chunk = (len(content) // SEGMENTS // size + 1) * size
    starts = list(range(0, len(content), chunk))
    content_at = 52 + 32 * len(starts)
    sizes = [len(content[at:at + chunk]) for at in starts]
    programs = b"".join(
        struct.pack("<8I", 1, content_at + at, START + at, 0, filled, filled, 7, 4)
        for at, filled in zip(starts, sizes))
    kind, flags = (2, 6) if is_code else (1, 3)
    numbered = 5 if is_code else 6
    symbols = symbol(0, 0, 0, 0, 0) + b"".join(
        symbol(1, a, size, kind, numbered + k) for k, a in enumerate(addresses))
    symbols += symbol(1, START, 0, 0, 5) * (SYMBOLS // divisor - 1 - count)
    relocations = RELOCATIONS // divisor
    kinds = b"".join(
        struct.pack("<3I", base + 4 * word, target * 256 + form, 0)
        for word, target, form in (relocation_of(i, count, is_code) for i in range(relocations)))
    strings = b"\0name\0\0\0"
    symbols_at = content_at + len(content)
    strings_at = symbols_at + len(symbols)
    relocations_at = strings_at + len(strings)
    headers_at = relocations_at + len(kinds)
    headers = section(0, 0, 0, 0, 0, 0)
    headers += section(1, 1, 0, 0, 0, 0)
    headers += section(1, 3, 0, 0, strings_at, len(strings))
    headers += section(1, 2, 0, 0, symbols_at, len(symbols), 2, 1, 16)
    headers += section(1, 4, 0, 0, relocations_at, len(kinds), 3, 5, 12)
    if not is_code:
        headers += section(1, 1, 6, START, content_at, len(CODE))
    headers += b"".join(
        section(1, 1, flags, a, content_at + a - START, size) for a in addresses)
    sections = len(headers) // 40
    file = header_of(headers_at, len(starts), sections) + programs + content + symbols + strings
    return file + kinds + headers


if __name__ == "__main__":
    if len(sys.argv) not in (3, 4) or sys.argv[1] not in ("many", "long", "code", "data"):
        sys.exit(__doc__)
    divisor = int(sys.argv[3]) if len(sys.argv) == 4 else 1
    form = sys.argv[1]
    with open(sys.argv[2], "wb") as out:
        out.write(elf(form == "long") if form in ("many", "long") else spread(form == "code", divisor))
