"""What else of the board holds energy back: names in `fix`, `bss`, and the bound of the search."""
from __future__ import annotations

from dataclasses import dataclass

from .boards import Board
from .search import quoted
from .store import Question, Store

NODES = 100_000
MOST_NODES = 10_000_000


@dataclass(frozen=True)
class Change:
    what: str
    after: float
    fault: str  # of the first board


def changes_of(board: Board, bounded: bool) -> dict[str, Board]:
    """Boards with one change each."""
    names = board.value("fix", [])
    found = {}
    for name in dict.fromkeys(names):
        rest = ", ".join(quoted(it) for it in names if it != name)
        found[f"fix without {quoted(name)}"] = board.with_keys({"fix": f"[{rest}]"})
    if board.value("bss", "fixed") == "fixed":
        found['bss = "movable"'] = board.with_keys({"bss": '"movable"'})
    nodes = min(MOST_NODES, 10 * board.value("nodes", NODES))
    if bounded:
        found[f"nodes = {nodes}"] = board.with_keys({"nodes": str(nodes)})
    return found


def held_back(store: Store, boards: list[Board], bounded: bool) -> list[Change]:
    """The least of some boards with each change. `bounded` tells that the search of the best one came to no end."""
    changed = [changes_of(it, bounded) for it in boards]
    asked = [Question("relink", it[what]) for what in changed[0] for it in changed]
    answers = iter(store.ask_all(asked))
    found = []
    for what in changed[0]:
        some = [next(answers) for _ in boards]
        found.append(Change(what, min(it.after for it in some), some[0].fault))
    return found
