"""Blocks, units and pieces of a program's code, by the rules of docs/COMMAND_LINE.md (which code may be copied)."""

from bisect import bisect_left, bisect_right
from dataclasses import dataclass, field

from pictures.elf import EXECUTE, FUNCTION, HAS_BYTES

CALLS = (18, 19)  # relocations of calls
NO_ADDRESS = (0, 16, 17, 18, 19, 24, 25, 43, 51)  # kinds of relocations that make no address
EBREAK, ECALL = 0x00100073, 0x73


def bits(word, low, count):
    return word >> low & (1 << count) - 1


def signed(value, count):
    return value - (1 << count) if value >> count - 1 else value


def is_branch(word):
    return word & 127 == 0x63 and bits(word, 12, 3) not in (2, 3)


def is_jal(word):
    return word & 127 == 0x6F


def is_jalr(word):
    return word & 127 == 0x67 and bits(word, 12, 3) == 0


def is_auipc(word):
    return word & 127 == 0x17


def is_load(word):
    return word & 127 == 0x03 and bits(word, 12, 3) in (0, 1, 2, 4, 5)


def is_store(word):
    return word & 127 == 0x23 and bits(word, 12, 3) in (0, 1, 2)


def links(word):
    return bits(word, 7, 5) != 0


def has_meaning(word):
    opcode, kind, upper = word & 127, bits(word, 12, 3), word >> 25
    if opcode in (0x37, 0x17, 0x6F):
        return True
    if opcode == 0x13:
        return upper == 0 if kind == 1 else upper in (0, 32) if kind == 5 else True
    if opcode == 0x33:
        return upper in (0, 1) or upper == 32 and kind in (0, 5)
    if opcode == 0x0F:
        return kind in (0, 1)
    return is_branch(word) or is_jalr(word) or is_load(word) or is_store(word) or word in (ECALL, EBREAK)


def branch_target(word, at):
    offset = word >> 31 << 12 | bits(word, 7, 1) << 11 | bits(word, 25, 6) << 5 | bits(word, 8, 4) << 1
    return at + signed(offset, 13) & 0xFFFFFFFF


def jal_target(word, at):
    offset = word >> 31 << 20 | bits(word, 12, 8) << 12 | bits(word, 20, 1) << 11 | bits(word, 21, 10) << 1
    return at + signed(offset, 21) & 0xFFFFFFFF


def pair_target(upper, lower, at):
    return at + (upper & 0xFFFFF000) + signed(lower >> 20, 12) & 0xFFFFFFFF


@dataclass
class Block:
    """Units are (address, words). `way` is how the block ends, `target` where a branch, jump or call leads to."""
    start: int
    units: list
    way: str
    target: int | None = None
    function: int | None = None
    counts: dict = field(default_factory=dict)

    @property
    def end(self):
        at, words = self.units[-1]
        return at + 4 * words

    @property
    def words(self):
        return sum(words for _, words in self.units)


@dataclass
class Function:
    start: int
    size: int
    name: str
    region: int = 0


class Code:
    def __init__(self, elf, movable):
        """`movable` has the homes and sizes of the objects that may move."""
        self.words = self.read_words(elf)
        self.sites = self.read_sites(elf, movable)
        self.functions = self.read_functions(elf)
        self.pairs, self.leaders = self.read_leaders(elf)
        self.starts = sorted(self.leaders)
        self.blocks = {start: self.read_block(start) for start in self.starts}

    def read_words(self, elf):
        words = {}
        for section in elf.loaded():
            if section.flags & EXECUTE and section.kind == HAS_BYTES:
                content = elf.content(section)
                for at in range(-section.base % 4, section.size - 3, 4):
                    words[section.base + at] = int.from_bytes(content[at:at + 4], "little")
        return words

    def read_sites(self, elf, movable):
        """The AUIPCs that make a part of the address of an object that may move. Their copies take one word."""
        return {r.at for r in elf.relocations if r.kind == 23 and any(home <= r.target < home + size for home, size in movable)}

    def read_functions(self, elf):
        """Of functions that overlap, the first and largest."""
        found = []
        ends = 0
        symbols = [s for s in elf.symbols if s.kind == FUNCTION and s.size and s.value & -4 in self.words]
        for symbol in sorted(symbols, key=lambda s: (s.value, -s.size)):
            if symbol.value >= ends:
                found.append(Function(symbol.value, symbol.size, symbol.name))
                ends = symbol.value + symbol.size
        return found

    def function_of(self, address):
        """The place of the function in whose range the address lies."""
        place = bisect_right(self.functions, address, key=lambda f: f.start) - 1
        if place >= 0 and address < self.functions[place].start + self.functions[place].size:
            return place
        return None

    def read_leaders(self, elf):
        named = {elf.entry} | {s.value for s in elf.symbols if s.kind == FUNCTION}
        named |= {r.target for r in elf.relocations if r.kind not in NO_ADDRESS}
        early = {at for at in named if at in self.words}
        for at, word in self.words.items():
            ways = []
            if is_branch(word):
                ways = [branch_target(word, at), at + 4]
            elif is_jal(word):
                ways = [jal_target(word, at)] + ([at + 4] if links(word) else [])
            elif is_jalr(word) and links(word):
                ways = [at + 4]
            early.update(way for way in ways if way in self.words)
        pairs = self.read_pairs(elf, early)
        late = set()
        for at, target in pairs.items():
            late.update([target] + ([at + 8] if links(self.words[at + 4]) and at + 8 in self.words else []))
        return pairs, early | late

    def read_pairs(self, elf, early):
        """Calls of two words, AUIPC and JALR: where each leads to."""
        calls = [r for r in elf.relocations if r.kind in CALLS]
        called, pairs = {r.target for r in calls}, {}
        for call in calls:
            upper, lower = self.words.get(call.at), self.words.get(call.at + 4)
            if upper is None or lower is None or call.at + 4 in early or call.at + 4 in called:
                continue
            register = bits(upper, 7, 5)
            fits = is_auipc(upper) and is_jalr(lower) and register and bits(lower, 15, 5) == register
            if fits and bits(lower, 7, 5) in (0, register) and pair_target(upper, lower, call.at) == call.target in self.words:
                pairs[call.at] = call.target
        return pairs

    def read_block(self, start):
        units, at = [], start
        while True:
            word = self.words[at]
            units.append((at, 2 if at in self.pairs else 1))
            way, target = self.ending(word, at)
            if way is None and at + 4 in self.leaders:
                way = "fall"
            elif way is None and at + 4 not in self.words:
                way = "stop"
            if way:
                return Block(start, units, way, target, self.function_of(start))
            at += 4

    def ending(self, word, at):
        if at in self.pairs:
            return "call" if links(self.words[at + 4]) else "tail", self.pairs[at]
        if is_branch(word):
            return "branch", branch_target(word, at)
        if is_jal(word):
            return "call" if links(word) else "jump", jal_target(word, at)
        if is_jalr(word):
            return "linking" if links(word) else "indirect", None
        return ("stop", None) if word == EBREAK or not has_meaning(word) else (None, None)

    # ---- pieces

    def copy_words(self, first, last):
        """How many words a copy of the blocks from `first` to `last` has (places in `starts`)."""
        low, high = self.starts[first], self.starts[last]
        inside = lambda at: at in self.leaders and low <= at <= high
        return sum(self.block_words(self.blocks[start], inside) for start in self.starts[first:last + 1])

    def block_words(self, block, inside):
        words = sum(2 if is_auipc(self.words[at]) and at not in self.sites else 1 for at, _ in block.units[:-1])
        at, _ = block.units[-1]
        if block.way in ("branch", "jump", "call", "tail", "indirect", "linking"):
            words += {"branch": 1 if block.way == "branch" and inside(block.target) else 3,
                      "jump": 1 if block.way == "jump" and inside(block.target) else 2,
                      "call": 4, "tail": 2, "indirect": 1, "linking": 3}[block.way]
        else:
            words += 2 if is_auipc(self.words[at]) and at not in self.sites else 1
        if block.way in ("fall", "branch") and not inside(block.end):
            words += 2
        return words

    def pieces_at(self, home, size):
        """The pieces that begin at `home`, and whose copy has `size` bytes: of each the starts of its blocks. The report
        doesn't tell where a piece ends. Mostly one piece alone has a copy of that size."""
        first = bisect_left(self.starts, home)
        if first == len(self.starts) or self.starts[first] != home:
            return []
        return [self.starts[first:last + 1] for last in self.ends_of_pieces(first) if 4 * self.copy_words(first, last) == size]

    def ends_of_pieces(self, first):
        """The last blocks of a function, a loop or a block that begins there."""
        home = self.starts[first]
        function = self.blocks[home].function
        last = first
        while last + 1 < len(self.starts) and self.blocks[self.starts[last + 1]].function == function:
            last += 1
        ends = {first} | {k for k in range(first, last + 1) if self.is_back(self.blocks[self.starts[k]], home)}
        if function is not None and (first == 0 or self.blocks[self.starts[first - 1]].function != function):
            ends.add(last)
        return sorted(ends)

    def is_back(self, block, home):
        return block.way in ("branch", "jump") and block.target == home
