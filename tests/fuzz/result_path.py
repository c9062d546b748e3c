"""The second path of `paid` and `trace` where nothing is moved, so that the result is the file itself: the machine of a
measured run, and beside it the flat machine."""

import instructions as code
from board_path import Board
from elf_path import File
from fault import WORD
from machine_path import Exited, Machine, Trap
from source_path import Address, Source, Value

NEAR, FAR = "spm", "main"


class Watched(Machine):
    """A flat machine that tells the access of each step and adds up what its steps cost. One that has ended stays as it is."""

    def __init__(self, file: File, board: Board, given: bytes):
        super().__init__(file, board, given)
        self.board = board
        self.outcome = "running"
        self.paid = 0
        self.access: int | None = None
        self.first_access: int | None = None  # that of the first step of a unit

    def price(self, what: str, at: int) -> int:
        return self.board.prices[f"{NEAR if at in self.board.spm else FAR}_{what}"]

    def watch(self) -> None:
        """Takes a step."""
        self.access = None
        if self.outcome != "running":
            return
        self.paid += self.price("fetch", self.pc)
        kind, at = self.reached()
        try:
            self.step()
        except Exited as exited:
            self.outcome = f"exited {exited.code}"
        except Trap:
            self.outcome = "trapped"
        else:
            if kind:
                self.access = at
                self.paid += self.price(kind, at)

    def reached(self) -> tuple[str, int]:
        """Whether the next step is to read or to write, and where."""
        try:
            word = self.load(self.pc, 4)
        except Trap:
            return "", 0
        if code.opcode(word) == code.LOAD:
            return "read", (self.first(word) + code.immediate(word)) % WORD
        if code.opcode(word) == code.STORE:
            return "write", (self.first(word) + code.store_offset(word)) % WORD
        return "", 0


def paid(file: File, board: Board, given: bytes, steps: int) -> Watched:
    """The machine behind so many steps, or where it ended."""
    machine = Watched(file, board, given)
    for _ in range(steps):
        if machine.outcome != "running":
            break
        machine.watch()
    return machine


class Tracing(Source):
    """A measured run that tells the object that each step reaches."""

    def access(self, value: Value, size: int) -> list[int]:
        self.reached = value
        return super().access(value, size)

    def unit(self) -> tuple[int, bytes, bool]:
        """Takes a step. Its address, what a trace tells of its access but the address, and whether the program ended."""
        home, before = self.pc, (self.loads, self.stores)
        self.reached: Value = 0
        try:
            self.step()
        except (Exited, Trap):
            return home, b"", True
        if (self.loads, self.stores) == before or not isinstance(self.reached, Address):
            return home, b"", False
        letter, name = b"r" if self.stores == before[1] else b"w", self.objects[self.reached.object].symbols[0].name
        return home, b" %s %s %d" % (letter, name, self.reached.offset), False


def units(file: File, board: Board, given: bytes, count: int) -> list[bytes]:
    """What the lines of a trace of so many steps tell of the program."""
    source, told = Tracing(file, board, given), []
    for _ in range(min(count, board.steps)):
        home, reached, ended = source.unit()
        told.append(b"0x%08x%s" % (home, reached))
        if ended:
            break
    return told


def traced(file: File, board: Board, given: bytes, count: int) -> tuple[bytes, str]:
    """The lines of a trace of so many steps, and what is printed of it."""
    source, machine = Tracing(file, board, given), Watched(file, board, given)
    lines, ended = [b"start 0\n"], False
    while len(lines) <= min(count, board.steps) and not ended:
        home, reached, ended = source.unit()
        at = machine.pc
        steps = follow(machine, None if ended else source.pc, 12 * len(board.spm) + 256)
        if steps is None or reached and machine.first_access is None:
            return b"".join(lines), f"lost {len(lines) - 1}"
        access = b"%s 0x%08x" % (reached, machine.first_access) if reached else b""
        lines.append(b"0x%08x 0x%08x %d%s\n" % (home, at, steps, access))
    return b"".join(lines), f"steps {len(lines) - 1}"


def follow(machine: Watched, to: int | None, most: int) -> int | None:
    """Takes a machine to where the next unit is, or to its end, and tells in how many steps. None where it comes nowhere."""
    for steps in range(1, most + 1):
        machine.watch()
        if steps == 1:
            machine.first_access = machine.access
        if machine.outcome != "running" if to is None else machine.pc == to:
            return steps
    return None
