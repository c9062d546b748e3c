"""An ELF file by pages, as qemu's user mode asks for them: segments of a file may share a page, and the scratchpad and the stack
lie in no segment."""
from __future__ import annotations

import struct

PAGE = 4096
PT_LOAD = 1


def segments(file: bytes) -> list[tuple[int, bytes]]:
    """Each with its zeros."""
    at, size, count = struct.unpack_from("<I", file, 28)[0], *struct.unpack_from("<HH", file, 42)
    headers = (struct.unpack_from("<8I", file, at + size * number) for number in range(count))
    return [(it[2], file[it[1]:it[1] + it[4]].ljust(it[5], b"\0")) for it in headers if it[0] == PT_LOAD]


def paged(file: bytes, further: list[tuple[int, int]]) -> bytes:
    """The same program with a segment for each run of pages, and with further ranges (base, size) of zeros."""
    pages: dict[int, bytearray] = {}
    for start, content in [*((base, bytes(size)) for base, size in further), *segments(file)]:
        for at in range(start // PAGE, -(-(start + len(content)) // PAGE)):
            page, first = pages.setdefault(at, bytearray(PAGE)), at * PAGE
            low, high = max(start, first), min(start + len(content), first + PAGE)
            page[low - first:high - first] = content[low - start:high - start]
    runs: list[tuple[int, bytearray]] = []
    for at in sorted(pages):
        if runs and runs[-1][0] + len(runs[-1][1]) == at * PAGE:
            runs[-1][1].extend(pages[at])
        else:
            runs.append((at * PAGE, bytearray(pages[at])))
    header = bytearray(file[:52])
    struct.pack_into("<I", header, 28, 52)
    struct.pack_into("<I", header, 32, 0)
    struct.pack_into("<HHHHH", header, 42, 32, len(runs), 0, 0, 0)
    out, offset = header, PAGE
    for start, content in runs:
        out += struct.pack("<8I", PT_LOAD, offset, start, start, len(content), len(content), 7, PAGE)
        offset += len(content)
    return bytes(out.ljust(PAGE, b"\0")) + b"".join(bytes(content) for _, content in runs)
