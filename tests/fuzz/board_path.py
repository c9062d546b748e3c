"""The second path of board files: the first fault of a text, or the board that it describes (docs/BOARD.md)."""

import math
import re
import tomllib
from collections.abc import Callable
from dataclasses import dataclass
from typing import Any

from fault import WORD, Fault, Untold

PRICES = {"main_fetch": 10, "main_read": 10, "main_write": 10, "spm_fetch": 2, "spm_read": 2, "spm_write": 2}
KEYS = ("main", "spm", "patch", "areas", "price", "fix", "bss", "grain", "fence_i", *(None for _ in PRICES),
        "driver", "regions", "steps", "nodes", "twins")
GRAINS = (16, 32, 64)
FIRST_PRICE = 10  # the number of the first price's key
# Texts that TOML 1.1 reads and TOML 1.0, so tomllib, refuses; and dates, whose calendar is nobody's matter here.
NEWER = re.compile(rb"\\[ex]|\{[^}]*\n|,\s*\}|\d:\d|\d-\d")


@dataclass
class Board:
    main: range
    spm: range
    patch: range
    areas: list[range]
    prices: dict[str, int]
    fix: list[str]
    bss_movable: bool
    grain: int
    fence_i: bool
    driver: str
    regions: list[list[str]]
    steps: int
    nodes: int

    def mapped(self) -> list[range]:
        return [self.main, self.spm, self.patch, *self.areas]


def read(text: bytes) -> Board:
    """The board of a text, or its first fault."""
    table = Table(parse(text))
    return table.board()


def parse(text: bytes) -> dict[str, Any]:
    try:
        table = tomllib.loads(text.decode().removeprefix("\ufeff"), parse_float=parse_float)
    except RecursionError as error:
        raise Untold("values are nested deep") from error
    except ValueError as error:
        if NEWER.search(text):
            raise Untold("TOML 1.0 and 1.1 may differ") from error
        raise Fault(4, "not-toml") from error
    if not all(-(2**63) <= number < 2**63 for number in integers(table)):
        raise Fault(4, "not-toml")
    return table


def parse_float(text: str) -> float:
    """TOML leaves it open what a number beyond all 64-bit floats is. Here it is refused."""
    if math.isinf(float(text)) and "inf" not in text:
        raise Fault(4, "not-toml")
    return float(text)


def integers(value: Any) -> list[int]:
    """All integers in a value."""
    if is_integer(value):
        return [value]
    parts = value.values() if isinstance(value, dict) else value if isinstance(value, list) else []
    return [number for part in parts for number in integers(part)]


def is_integer(value: Any) -> bool:
    return isinstance(value, int) and not isinstance(value, bool)


def is_text(value: Any) -> bool:
    return isinstance(value, str)


def is_boolean(value: Any) -> bool:
    return isinstance(value, bool)


def is_list_of(of: Callable[[Any], bool]) -> Callable[[Any], bool]:
    return lambda value: isinstance(value, list) and all(of(element) for element in value)


def is_pair(value: Any) -> bool:
    return is_list_of(is_integer)(value) and len(value) == 2


def is_range(pair: list[int]) -> bool:
    base, size = pair
    return 0 <= base and 1 <= size and base + size < WORD


def as_range(pair: list[int]) -> range:
    return range(pair[0], pair[0] + pair[1])


class Table:
    """The keys of a text, each checked for its type and then for its range."""

    def __init__(self, table: dict[str, Any]):
        self.table = table

    def get(self, table: dict[str, Any], key: str, number: int, default: Any,
            typed: Callable[[Any], bool], ranged: Callable[[Any], bool] = lambda _: True) -> Any:
        value = table.get(key, default)
        if not typed(value):
            raise Fault(4, "wrong-type", number)
        if not ranged(value):
            raise Fault(4, "out-of-range", number)
        return value

    def top(self, key: str, default: Any, typed: Callable[[Any], bool],
            ranged: Callable[[Any], bool] = lambda _: True) -> Any:
        return self.get(self.table, key, KEYS.index(key) + 1, default, typed, ranged)

    def board(self) -> Board:
        main = self.top("main", [0x00010000, 0x00080000], is_pair, is_range)
        spm = self.top("spm", [0x01000000, 4096], is_pair, self.is_scratchpad)
        patch = self.top("patch", [0x00090000, 65536], is_pair, is_patch_range)
        areas = self.top("areas", [], is_list_of(is_pair),
                         lambda pairs: len(pairs) <= 16 and all(is_range(pair) for pair in pairs))
        price = self.top("price", {}, lambda value: isinstance(value, dict))
        fix = self.top("fix", [], is_list_of(is_text))
        bss = self.top("bss", "fixed", is_text, lambda text: text in ("fixed", "movable"))
        grain = self.top("grain", 16, is_integer, lambda grain: grain in GRAINS)
        fence_i = self.top("fence_i", False, is_boolean)
        self.check_prices(price)
        driver = self.top("driver", "main", is_text)
        regions = self.top("regions", [], is_list_of(is_list_of(is_text)), lambda lists: len(lists) <= 8)
        steps = self.top("steps", 100_000_000, is_integer, lambda steps: 1 <= steps <= 10**9)
        nodes = self.top("nodes", 100_000, is_integer, lambda nodes: 1 <= nodes <= 10**7)
        self.top("twins", False, is_boolean)
        check_unknown(self.table, KEYS)
        check_unknown(price, tuple(PRICES))
        return Board(as_range(main), as_range(spm), as_range(patch), [as_range(pair) for pair in areas],
                     {key: price.get(key, default) for key, default in PRICES.items()}, fix, bss == "movable", grain,
                     fence_i, driver, regions, steps, nodes)

    def is_scratchpad(self, pair: list[int]) -> bool:
        """The grain that counts here is the default one where the key has a fault."""
        given = self.table.get("grain")
        grain = given if is_integer(given) and given in GRAINS else 16
        return is_range(pair) and pair[0] % grain == 0 and pair[1] % grain == 0 and pair[1] <= 2**24

    def check_prices(self, price: dict[str, Any]) -> None:
        if "price" not in self.table:
            return
        for number, key in enumerate(PRICES, FIRST_PRICE):
            if key not in price:
                raise Fault(4, "missing", number)
            self.get(price, key, number, None, is_integer, lambda energy: 0 <= energy <= 10_000)


def is_patch_range(pair: list[int]) -> bool:
    return is_range(pair) and pair[0] % 64 == 0 and pair[1] % 64 == 0 and pair[1] <= 2**20


def check_unknown(table: dict[str, Any], keys: tuple[str | None, ...]) -> None:
    unknown = sorted(key.encode() for key in table if key not in keys)
    if unknown:
        raise Fault(4, "unknown-key", name=unknown[0])
