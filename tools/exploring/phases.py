"""The phases of a run: windows of it, how many steps each function takes in each, and which windows are alike."""
from __future__ import annotations

import math
import random
from bisect import bisect_right
from collections import Counter
from dataclasses import dataclass

from .boards import Board, Lists
from .code import Code
from .store import Answer, Question, Store

WINDOW = 4000  # steps
WINDOWS = 150  # at most, of one input
PROFILED = 2_000_000_000  # steps of all profiles of one input, at most, where that leaves LEAST windows
LEAST = 16
HOT = 32  # functions by which windows are compared
STARTS, ROUNDS = 4, 12  # of k-means
GROUPS = (2, 3, 4, 5, 6, 8)
SHARES = (0.95, 0.9, 0.8, 0.7, 0.6)

Window = Counter[str]  # steps by function


@dataclass(frozen=True)
class Functions:
    starts: list[int]
    names: list[str]
    regions: list[int]

    def at(self, address: int) -> str:
        return self.names[max(bisect_right(self.starts, address) - 1, 0)]

    def lists(self) -> Lists:
        """The functions of each region that is left."""
        found: dict[int, list[str]] = {}
        for name, region in zip(self.names, self.regions):
            if region and name.isprintable():
                found.setdefault(region, []).append(name)
        return tuple(tuple(found[region]) for region in sorted(found))


def functions_of(shown: Answer) -> Functions:
    words = sorted((int(address, 16), name, int(region)) for kind, address, region, name
                   in (it.split(" ", 3) for it in shown.lines if it.count(" ") > 2) if kind == "function")
    return Functions([it[0] for it in words], [it[1] for it in words], [it[2] for it in words])


def window_count(steps: int) -> int:
    """Each window is the difference of two runs from the start, so half of all windows times all steps are run."""
    return max(1, min(steps // WINDOW, WINDOWS, max(LEAST, 2 * PROFILED // steps)))


class Profiler:
    def __init__(self, store: Store, board: Board, functions: Functions):
        self.store, self.board, self.functions = store, board, functions
        self.code = Code(store.file)
        self.lengths: dict[int, int] = {}

    def measure(self, whole: Answer) -> None:
        """Tells how long the blocks are that the whole run begins."""
        begun = {block for block, _ in blocks_of(whole)}
        self.lengths.update((block, self.code.steps(block, begun)) for block in begun)

    def steps(self, answer: Answer) -> Window:
        found = Window()
        for block, times in blocks_of(answer):
            found[self.functions.at(block)] += times * self.lengths[block]
        return found

    def windows(self, number: int, whole: Answer) -> list[Window]:
        """Those of one input."""
        self.measure(whole)
        steps = whole.number("steps") or 1
        count = window_count(steps)
        cuts = [Question("profile", self.board.with_keys({"steps": str(max(1, steps * it // count))}), number)
                for it in reversed(range(1, count))]  # the longest first, so that no processor is left with it at the end
        sums = [self.steps(it) for it in [*reversed(self.store.ask_all(cuts)), whole]]
        return [after - before for before, after in zip([Window(), *sums], sums)]


def blocks_of(answer: Answer) -> list[tuple[int, int]]:
    words = (it.split(" ") for it in answer.lines if it.startswith("block "))
    return [(int(address, 16), int(times)) for _, address, times in words]


def cost_of(steps: int) -> int:
    """The steps of all profiles of one input."""
    return steps * (window_count(steps) - 1) // 2


def points_of(windows: list[Window], names: list[str]) -> list[list[float]]:
    """For each window the share of each function in its steps."""
    return [[it[name] / max(1, sum(it.values())) for name in names] for it in windows]


def distance(one: list[float], other: list[float]) -> float:
    return math.dist(one, other) ** 2


def centre_of(points: list[list[float]]) -> list[float]:
    return [sum(column) / len(points) for column in zip(*points)]


def first_centres(points: list[list[float]], count: int, draw: random.Random) -> list[list[float]]:
    """Points that are drawn one after the other, each the likelier the farther it is from those before it."""
    centres = [draw.choice(points)]
    while len(centres) < count:
        far = [min(distance(point, it) for it in centres) for point in points]
        if not any(far):
            break
        centres.append(draw.choices(points, far)[0])
    return centres


def grouped(points: list[list[float]], count: int, draw: random.Random) -> tuple[float, list[int]]:
    """One start of k-means: the sum of the distances, and the group of each point."""
    centres = first_centres(points, count, draw)
    groups: list[int] = []
    for _ in range(ROUNDS):
        nearest = [min((distance(point, it), number) for number, it in enumerate(centres)) for point in points]
        if groups == [number for _, number in nearest]:
            break
        groups = [number for _, number in nearest]
        members = [[point for point, group in zip(points, groups) if group == it] for it in range(len(centres))]
        centres = [centre_of(it) if it else centre for it, centre in zip(members, centres)]
    return sum(it for it, _ in nearest), groups


def groups_of(windows: list[Window], names: list[str], count: int) -> list[int]:
    points, draw = points_of(windows, names), random.Random(count)
    return min(grouped(points, count, draw) for _ in range(STARTS))[1]


def steps_by_group(windows: list[Window], groups: list[int]) -> dict[int, Window]:
    sums = {group: Window() for group in sorted(set(groups))}
    for window, group in zip(windows, groups):
        sums[group].update(window)
    return sums


def shared_out(sums: dict[int, Window], names: list[str], share: float) -> Lists:
    """Each function in the group that has most of its steps, where it has at least that share of them."""
    lists: dict[int, list[str]] = {}
    for name in names:
        group = max(sums, key=lambda it: sums[it][name])
        if sums[group][name] >= share * sum(it[name] for it in sums.values()) > 0:
            lists.setdefault(group, []).append(name)
    return tuple(map(tuple, lists.values()))


def hottest(windows: list[Window], names: list[str]) -> list[str]:
    """Those that take steps, most first."""
    sums = sum(windows, Window())
    return sorted((it for it in names if sums[it]), key=lambda it: (-sums[it], it))


def by_phases(windows: list[Window], names: list[str]) -> list[Lists]:
    """Lists by all numbers of groups and all shares. `names` are the functions that may have a region."""
    hot, found = hottest(windows, names), []
    if len(windows) < 2 or len(hot) < 2:
        return []
    for count in GROUPS:
        sums = steps_by_group(windows, groups_of(windows, hot[:HOT], count))
        found += [shared_out(sums, hot, share) for share in SHARES]
    return found
