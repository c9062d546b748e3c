#!/usr/bin/env python3
"""Writes an ELF file that qemu-riscv32 can run as a program of Linux: with all memory that its board has.

usage: mapped.py FILE BOARD OUT

Linux maps what the segments of a file take and no more. The stack of board.ld and the scratchpad are in no segment. So OUT
has a segment for each range of the board, with the bytes that FILE loads there, in pages. Calls of the flat machine have
the numbers of Linux.
"""

import sys
import tomllib

PAGE = 4096
DEFAULTS = {"main": [0x00010000, 0x00080000], "spm": [0x01000000, 4096], "patch": [0x00090000, 65536], "areas": []}


def ranges(board):
    """The pages of the board's ranges, as (first byte, byte behind the last), joined where they meet."""
    joined = []
    for base, size in sorted([board["main"], board["spm"], board["patch"], *board["areas"]]):
        first, last = base // PAGE * PAGE, -(-(base + size) // PAGE) * PAGE
        if joined and first <= joined[-1][1]:
            joined[-1][1] = max(last, joined[-1][1])
        else:
            joined.append([first, last])
    return joined


def number(data, at, size=4):
    return int.from_bytes(data[at:at + size], "little")


def loaded(data):
    """The segments with bytes: address and bytes."""
    start, count = number(data, 28), number(data, 44, 2)
    for head in range(start, start + 32 * count, 32):
        kind, offset, address, _, size = (number(data, head + 4 * k) for k in range(5))
        if kind == 1 and size:
            yield address, data[offset:offset + size]


def words(*numbers):
    return b"".join(value.to_bytes(4, "little") for value in numbers)


def mapped(data, board):
    memories = [(first, bytearray(last - first)) for first, last in ranges(board)]
    for address, content in loaded(data):
        for first, memory in memories:
            if first <= address < first + len(memory):
                memory[address - first:address - first + len(content)] = content
    head = bytearray(data[:52])
    head[28:36], head[44:46], head[46:52] = words(52, 0), len(memories).to_bytes(2, "little"), bytes(6)
    heads, body, offset = b"", b"", PAGE
    for first, memory in memories:
        kept = bytes(memory).rstrip(b"\0")
        heads += words(1, offset, first, first, len(kept), len(memory), 7, PAGE)
        body += kept + bytes(-len(kept) % PAGE)
        offset = PAGE + len(body)
    return (head + heads).ljust(PAGE, b"\0") + body


def main():
    file, board, out = sys.argv[1:]
    with open(file, "rb") as data, open(board, "rb") as keys, open(out, "wb") as result:
        result.write(mapped(data.read(), DEFAULTS | tomllib.load(keys)))


if __name__ == "__main__":
    main()
