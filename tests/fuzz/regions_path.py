"""The second path of blocks, dead registers and regions, as `show` prints them.

docs/BOARD.md tells what a region is, and where one is given up.
"""

from dataclasses import dataclass, field

import instructions as code
from board_path import Board
from elf_path import File, code_ranges, functions, named_function
from fault import WORD
from objects_path import Objects

MOST_REGIONS = 8
FIRST_DEAD = 5  # registers below it are kept for other uses
USED_BY_CALL, DEFINED_BY_CALL = {10, 11, 12, 17}, {10}
WRITING = (code.LUI, code.AUIPC, code.JAL, code.JALR, code.LOAD, code.IMMEDIATE, code.REGISTER)
READING_ONE = (code.JALR, code.LOAD, code.IMMEDIATE)
READING_TWO = (code.BRANCH, code.STORE, code.REGISTER)


@dataclass
class Block:
    """Units of one section from a leader on, by their addresses, and where control goes behind them."""

    units: list[int]
    targets: list[int]  # what the last unit names, a leader or not
    named: int | None = None  # the target of a call
    is_indirect: bool = False
    used: set[int] = field(default_factory=set)
    defined: set[int] = field(default_factory=set)


def uses(word: int) -> set[int]:
    opcode = code.opcode(word)
    if word == code.ECALL:
        return USED_BY_CALL
    if opcode in READING_TWO:
        return {code.rs1(word), code.rs2(word)} - {0}
    return {code.rs1(word)} - {0} if opcode in READING_ONE else set()


def defines(word: int) -> set[int]:
    if word == code.ECALL:
        return DEFINED_BY_CALL
    return {code.rd(word)} - {0} if code.opcode(word) in WRITING else set()


def block_at(found: Objects, start: int) -> Block:
    block = Block([], [])
    at = start
    while True:
        word = found.words[at]
        block.units.append(at)
        if at in found.pairs:
            block.named, block.targets = found.pairs[at], [found.pairs[at]]
            block.defined |= defines(word)
            return block
        if not code.has_meaning(word):
            return block
        block.used |= uses(word) - block.defined
        block.defined |= defines(word)
        if code.opcode(word) in (code.BRANCH, code.JAL, code.JALR) or word == code.EBREAK:
            end(block, at, word)
            return block
        at += 4
        if at in found.leaders or not found.goes_on(at):
            block.targets = [at]
            return block


def end(block: Block, at: int, word: int) -> None:
    """Tells where a block goes by its last unit, which is no call pair and doesn't fall through."""
    if code.opcode(word) == code.BRANCH:
        block.targets = [(at + code.branch_offset(word)) % WORD, at + 4]
    elif code.opcode(word) == code.JAL:
        block.targets = [(at + code.jump_offset(word)) % WORD]
        block.named = block.targets[0] if code.rd(word) else None
    block.is_indirect = code.opcode(word) == code.JALR


class Regions:
    """The regions of a file's functions on a board."""

    def __init__(self, file: File, board: Board, found: Objects):
        self.found, self.board, self.file = found, board, file
        self.functions = functions(file, code_ranges(file))
        self.blocks = {start: block_at(found, start) for start in sorted(found.leaders)}
        self.live = self.find_live()
        numbers = self.listed() if board.regions else self.called()
        self.of_block = {start: numbers.get(self.function(start), 0) for start in self.blocks}
        given_up = {self.of_block[start] for start in self.border() if self.is_without_stub(start)}
        self.of_block = {start: 0 if region in given_up else region for start, region in self.of_block.items()}

    def edges(self, start: int) -> list[int]:
        """The blocks to which a block goes directly."""
        return [target for target in self.blocks[start].targets if target in self.blocks]

    def find_live(self) -> dict[int, set[int]]:
        """The registers that are read before they are written, from each block on."""
        live = {start: set(block.used) for start, block in self.blocks.items()}
        has_changed = True
        while has_changed:
            has_changed = False
            behind_registers = set().union(*(live[start] for start in self.found.indirect))
            for start, block in self.blocks.items():
                behind = set().union(*(live[target] for target in self.edges(start)))
                if block.is_indirect:
                    behind |= behind_registers
                now = block.used | (behind - block.defined)
                has_changed |= now != live[start]
                live[start] = now
        return live

    def function(self, at: int) -> int | None:
        """The start of the function in whose range an address lies."""
        return next((one.value for one in self.functions if one.value <= at < one.value + one.size), None)

    def named(self, name: str) -> int | None:
        return named_function(self.file, {one.value for one in self.functions}, name.encode())

    def listed(self) -> dict[int | None, int]:
        return {self.named(name): number for number, names in enumerate(self.board.regions, 1) for name in names}

    def called(self) -> dict[int | None, int]:
        """Regions by the functions that the driver calls, each with what it alone leads to."""
        driver = self.named(self.board.driver)
        if driver is None:
            return {}
        leads: dict[int | None, set[int | None]] = {one.value: set() for one in self.functions}
        roots = set()
        for start, block in self.blocks.items():
            function = self.function(start)
            if function is not None:
                leads[function] |= {self.function(target) for target in self.edges(start)} - {None, driver}
            if function == driver and block.named is not None:
                roots.add(self.function(block.named))
        reached = [reach(leads, root) for root in sorted(root for root in roots - {driver} if root is not None)]
        return {function: number for number, functions_of in enumerate(reached[:MOST_REGIONS], 1) for function in functions_of
                if sum(function in others for others in reached) == 1}

    def border(self) -> list[int]:
        """The blocks with a region by which control may enter it."""
        entered = {target for start in self.blocks for target in self.edges(start)
                   if self.of_block[start] != self.of_block[target]}
        return [start for start in self.blocks
                if self.of_block[start] and (start in entered or start in self.found.indirect)]

    def is_without_stub(self, start: int) -> bool:
        """Whether no register is free at a block, or its first unit can't stand elsewhere."""
        block, word = self.blocks[start], self.found.words[start]
        if self.live[start] >= set(range(FIRST_DEAD, 32)):
            return True
        if start not in self.found.pairs and not code.has_meaning(word):
            return False
        if code.opcode(word) == code.JALR:
            return code.rd(word) == code.rs1(word) != 0
        is_jump = start in self.found.pairs or code.opcode(word) in (code.BRANCH, code.JAL)
        return is_jump and any(target not in self.blocks for target in block.targets)

    def lines(self) -> list[bytes]:
        return [b"function 0x%08x %d %s\n" % (one.value, self.of_block.get(one.value, 0), one.name) for one in self.functions]


def reach(leads: dict[int | None, set[int | None]], root: int) -> set[int | None]:
    """What a function leads to, itself among it."""
    reached: set[int | None] = set()
    waiting: list[int | None] = [root]
    while waiting:
        function = waiting.pop()
        if function not in reached:
            reached.add(function)
            waiting += leads[function]
    return reached
