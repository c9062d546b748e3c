"""What other scratchpads would save: the energy over the size, by grain and by place, at the board's prices."""
from __future__ import annotations

from dataclasses import dataclass

from .boards import GRAIN, PATCH, SPM, Board
from .store import Answer, Question, Store

LEAST = 256
GREATEST = 1 << 24
STANDING = {"static": 2, "overlay": 3, "kept": 4}  # where the place is in such a line of a report
UNIT = 64  # bytes: each grain divides it


@dataclass(frozen=True)
class Row:
    size: int
    without: float
    overlaid: float  # the least with any of the lists


def scratchpad(board: Board) -> tuple[int, int, int]:
    base, size = board.value("spm", SPM)
    return base, size, board.value("grain", GRAIN)


def used_bytes(answer: Answer, base: int) -> int:
    """Up to the end of the last thing that a report tells to stand in the scratchpad."""
    ends = [0]
    for words in (it.split(" ") for it in answer.lines):
        if words[0] in STANDING:
            at = STANDING[words[0]]
            ends.append(int(words[at], 16) + int(words[at + 1]) - base)
    return max(ends)


class Sizes:
    def __init__(self, store: Store, boards: list[Board]):
        """The first board is without regions."""
        self.store, self.boards = store, boards
        self.base, self.size, self.grain = scratchpad(boards[0])

    def row(self, answers: list[Answer], size: int) -> Row:
        return Row(size, answers[0].after, min(it.after for it in answers))

    def enough(self) -> int:
        """The bytes that are used where the scratchpad is as large as may be there."""
        for size in (GREATEST >> it for it in range(16)):
            answer = self.store.relink(self.boards[0].with_scratchpad(self.base, size, self.grain))
            if answer.status == 0:
                return used_bytes(answer, self.base)
        return LEAST

    def over_size(self) -> list[Row]:
        """From 256 bytes to where nothing more is won without regions."""
        enough, sizes = self.enough(), [LEAST]
        while sizes[-1] < enough:
            sizes += [sizes[-1] * 3 // 2, sizes[-1] * 2]
        rows = self.rows([(self.base, size, self.grain) for size in sorted({*sizes, self.size})])
        return [it for it in rows if it.without < float("inf")]

    def rows(self, scratchpads: list[tuple[int, int, int]]) -> list[Row]:
        """One for each base, size and grain."""
        asked = [Question("relink", board.with_scratchpad(*it)) for it in scratchpads for board in self.boards]
        answers = iter(self.store.ask_all(asked))
        return [self.row([next(answers) for _ in self.boards], size) for _, size, _ in scratchpads]

    def near(self) -> int:
        """The first place behind the patch range."""
        end: int = sum(self.boards[0].value("patch", PATCH))
        return -(-end // UNIT) * UNIT

    def by_grain_and_place(self) -> dict[str, Row]:
        """Rows that may be refused: where the base or the size is no multiple of the grain, or the place is taken."""
        asked = {f"grain {grain}": (self.base, self.size, grain) for grain in (16, 32, 64)}
        asked[f"place {self.near():#010x}"] = (self.near(), self.size, self.grain)
        return dict(zip(asked, self.rows(list(asked.values()))))
