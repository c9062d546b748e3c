"""A board file as text. Keys at its top are read and replaced; prices, comments and all else stay as they are."""
from __future__ import annotations

import ast
import json
import re
from dataclasses import dataclass
from typing import Any, List, Tuple, TypeVar

T = TypeVar("T", int, str, bool, List[Any])
Lists = Tuple[Tuple[str, ...], ...]  # the functions of each region

SPM = [0x01000000, 4096]
PATCH = [0x00090000, 65536]
GRAIN = 16

TOKEN = re.compile(
    r'"""(?:[^\\]|\\.)*?"""|\'\'\'.*?\'\'\'|"(?:[^"\\\n]|\\.)*"|\'[^\'\n]*\'|#[^\n]*|[\[\]{},=\n]|[^"\'#\[\]{},=\n]+|.', re.S)
KEY = re.compile(r'\s*(?:"([^"\\\n]*)"|\'([^\'\n]*)\'|([A-Za-z0-9_-]+))\s*=')
HEADER = re.compile(r"[ \t]*\[")


@dataclass(frozen=True)
class Board:
    text: str

    def value(self, key: str, default: T) -> T:
        given = [it for it in statements(self.text)[0] if key_of(it) == key]
        found: T = evaluated(given[0].split("=", 1)[1]) if given else default
        return found

    def with_keys(self, values: dict[str, str]) -> Board:
        """The board in which these keys have these values, which are TOML: where they stand, or else in front."""
        lines = {key: f"{key} = {value}\n" for key, value in values.items()}
        kept, rest = statements(self.text)
        changed = [lines.pop(key_of(it) or "", it) for it in kept]
        return Board("".join([*lines.values(), *changed]) + rest)

    def with_regions(self, lists: Lists) -> Board:
        return self.with_keys({"regions": listed(lists)})

    def with_scratchpad(self, base: int, size: int, grain: int) -> Board:
        return self.with_keys({"spm": f"[{base:#010x}, {size}]", "grain": str(grain)})


def statements(text: str) -> tuple[list[str], str]:
    """The statements before the first table, each with its line end, and all behind them."""
    found, start, at, depth = [], 0, 0, 0
    for token in TOKEN.findall(text):
        if at == start and HEADER.match(text, at):
            break
        at += len(token)
        depth += token.count("[") + token.count("{") - token.count("]") - token.count("}") if len(token) == 1 else 0
        if token == "\n" and depth == 0:
            found.append(text[start:at])
            start = at
    else:
        if start < len(text):
            found.append(text[start:] + "\n")
            start = len(text)
    return found, text[start:]


def key_of(statement: str) -> str | None:
    match = KEY.match(statement)
    return next(name for name in match.groups() if name is not None) if match else None


def evaluated(text: str) -> Any:
    """A TOML value: its tokens are nearly those of Python."""
    words = []
    for token in TOKEN.findall(text):
        if token.startswith("#") or token == "\n":
            continue
        literal = token.startswith("'")
        words.append(repr(token.strip("'")) if literal else {"true": "True", "false": "False"}.get(token.strip(), token))
    return ast.literal_eval("".join(words).strip())


def listed(lists: Lists) -> str:
    """The value of `regions`. No list at all is told by one without a function, which has nothing overlaid."""
    return json.dumps([list(names) for names in lists] or [[]], ensure_ascii=False)
