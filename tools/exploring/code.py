"""The code of an ELF file, as far as it tells how many steps a basic block has."""
from __future__ import annotations

import struct
from bisect import bisect_right

PT_LOAD = 1
BRANCH, JALR, JAL, SYSTEM, AUIPC = 0x63, 0x67, 0x6F, 0x73, 0x17
LEAVING = (BRANCH, JALR, JAL)
ECALL = 0x73


class Code:
    def __init__(self, file: bytes):
        at, size, count = struct.unpack_from("<I", file, 28)[0], *struct.unpack_from("<HH", file, 42)
        headers = (struct.unpack_from("<8I", file, at + size * number) for number in range(count))
        self.segments = sorted((it[2], file[it[1]:it[1] + it[4]]) for it in headers if it[0] == PT_LOAD)
        self.starts = [address for address, _ in self.segments]

    def word(self, address: int) -> int | None:
        """None where the file has none."""
        number = bisect_right(self.starts, address) - 1
        if number < 0:
            return None
        start, data = self.segments[number]
        part = data[address - start:address - start + 4]
        return int.from_bytes(part, "little") if len(part) == 4 else None

    def steps(self, block: int, begun: set[int]) -> int:
        """The steps of a block up to what leaves it or begins another one. A call of two words is one step."""
        address, count = block, 0
        while True:
            word, after = self.word(address), self.word(address + 4)
            pair = word is not None and word & 127 == AUIPC and after is not None and after & 127 == JALR
            address += 8 if pair else 4
            count += 1
            if word is None or pair or word & 127 in LEAVING or address in begun:
                return count
