"""The search over lists of regions. Each trial is a real `relink`, which takes overlay only where that saves."""
from __future__ import annotations

from concurrent.futures import ThreadPoolExecutor
from itertools import combinations, islice
from typing import Iterator

from .boards import Board, Lists
from .phases import Window, by_phases, functions_of, groups_of, hottest, shared_out, steps_by_group
from .store import Hear, Question, Store

REGIONS = 8
BATCH = 16  # trials of which the best is taken
DRIVERS = 256
CLIMBS = 3  # lists from which moves begin
PAIRINGS = 15


def may_have_region(store: Store, board: Board, names: list[str]) -> list[str]:
    """A function can't that has no region where it is the only one of its list: an entry of it can't have a stub."""
    chunks = [names[at:at + REGIONS] for at in range(0, len(names), REGIONS)]
    asked = [Question("show", board.with_regions(tuple((it,) for it in chunk))) for chunk in chunks]
    found: set[str] = set()
    for chunk, answer in zip(chunks, store.ask_all(asked)):
        if answer.status and len(chunk) > 1:
            found.update(*(may_have_region(store, board, [it]) for it in chunk))
        else:
            shown = functions_of(answer)
            found.update(name for name, region in zip(shown.names, shown.regions) if region)
    return [it for it in names if it in found]


def by_drivers(store: Store, board: Board, names: list[str]) -> list[Lists]:
    """The lists that come of it where each region is what a function calls, for each such function."""
    asked = [Question("show", board.with_keys({"regions": "[]", "driver": quoted(it)})) for it in names[:DRIVERS]]
    return [functions_of(it).lists() for it in store.ask_all(asked)]


def quoted(name: str) -> str:
    return '"' + name.replace("\\", "\\\\").replace('"', '\\"') + '"'


class Search:
    def __init__(self, store: Store, board: Board, names: list[str], windows: list[Window], trials: int, hear: Hear):
        self.store, self.board, self.windows, self.trials, self.hear = store, board, windows, trials, hear
        self.names = names
        self.hot = hottest(windows, names)
        self.first = {name: number for number, it in reversed(list(enumerate(windows))) for name in it}
        self.tried: dict[Lists, float] = {}

    def first_lists(self) -> list[Lists]:
        """The windows are put together while spmlink is asked what the drivers give."""
        singles = [tuple((it,) for it in self.hot[:count]) for count in range(1, REGIONS + 1)]
        executed = hottest(self.windows, sorted({name for it in self.windows for name in it}))
        with ThreadPoolExecutor(1) as aside:
            drivers = aside.submit(by_drivers, self.store, self.board, executed)
            try:
                return [*by_phases(self.windows, self.names), *singles, *drivers.result()]
            except BaseException:
                self.store.stop(())  # also what is asked aside
                raise

    def ordered(self, lists: Lists) -> Lists:
        """One spelling of the same lists: regions by the window in which they begin."""
        return tuple(sorted((tuple(sorted(it)) for it in lists if it), key=lambda it: (self.begin(it), it)))

    def begin(self, names: tuple[str, ...]) -> int:
        return min(self.first.get(it, len(self.windows)) for it in names)

    def try_all(self, lists: list[Lists]) -> None:
        fresh = list(dict.fromkeys(it for it in map(self.ordered, lists) if it and it not in self.tried and len(it) <= REGIONS))
        fresh = fresh[:max(0, self.trials - len(self.tried))]
        answers = self.store.ask_all([Question("relink", self.board.with_regions(it)) for it in fresh], self.hear)
        self.tried.update((it, answer.after) for it, answer in zip(fresh, answers))

    def best_lists(self) -> list[Lists]:
        """Of lists that cost the same, one with few functions."""
        return sorted(self.tried, key=lambda it: (self.tried[it], sum(map(len, it)), it))

    def climb(self, start: Lists, trials: int) -> None:
        """Moves by which energy falls, until none is left or so many trials were made."""
        here, limit, first = start, len(self.tried) + trials, 0
        moves = self.moves(here, first)
        while len(self.tried) < min(limit, self.trials):
            batch = list(islice((it for it in moves if it not in self.tried), BATCH))
            if not batch:
                break
            self.try_all(batch)
            found = min((it for it in batch if it in self.tried), key=lambda it: self.tried[it], default=here)
            if self.tried[found] < self.tried[here]:
                here, first = found, first + 1
                moves = self.moves(here, first)

    def moves(self, lists: Lists, first: int) -> Iterator[Lists]:
        """Shifts of one function begin with another one each time, so that each function has its turn."""
        at = first % max(1, len(self.hot))
        found = [*joins(lists), *self.splits(lists)] if first == 0 else []
        for moved in [*found, *shifts(lists, self.hot[at:] + self.hot[:at]), *joins(lists), *self.splits(lists)]:
            yield self.ordered(moved)

    def splits(self, lists: Lists) -> Iterator[Lists]:
        """A region in two, by the windows in which its functions run."""
        for number, names in enumerate(lists):
            parts = [Window({name: it[name] for name in names}) for it in self.windows]
            running = [it for it in parts if sum(it.values())]
            if len(names) > 1 and len(running) > 1 and len(lists) < REGIONS:
                sums = steps_by_group(running, groups_of(running, list(names), 2))
                yield lists[:number] + shared_out(sums, list(names), 0) + lists[number + 1:]

    def run(self, given: Lists) -> None:
        """`given` are the lists of the board."""
        self.try_all([given, *self.first_lists()])
        for start in self.best_lists()[:CLIMBS]:
            self.climb(start, (self.trials - len(self.tried)) // 2)

    def pair(self) -> None:
        """The best lists as twins, in some of the ways in which they make pairs."""
        for lists in self.best_lists()[:1]:
            orders = list(islice(pairings(lists), PAIRINGS))
            boards = [self.board.with_keys({"twins": "true"}).with_regions(it) for it in orders if len(it) > 1]
            self.store.ask_all([Question("relink", it) for it in boards], self.hear)


def joins(lists: Lists) -> Iterator[Lists]:
    for one, other in combinations(range(len(lists)), 2):
        rest = tuple(it for number, it in enumerate(lists) if number not in (one, other))
        yield (lists[one] + lists[other], *rest)


def shifts(lists: Lists, names: list[str]) -> Iterator[Lists]:
    """One function out of its region, into each other one, and into one of its own."""
    for name in names:
        rest = tuple(tuple(it for it in one if it != name) for one in lists)
        yield rest
        for number in range(len(rest)):
            yield (*rest[:number], (*rest[number], name), *rest[number + 1:])
        if len(lists) < REGIONS:
            yield (*rest, (name,))


def pairings(lists: Lists) -> Iterator[Lists]:
    """Orders in which different regions stand beside each other, two by two."""
    if len(lists) < 3:
        yield lists
        return
    for number in range(1, len(lists)):
        rest = lists[1:number] + lists[number + 1:]
        for tail in pairings(rest):
            yield (lists[0], lists[number], *tail)
