"""Reads the lists of crates/case_runner/data: calls, what they print, and the files that they find (docs/CASES.md)."""

from __future__ import annotations

import re
import struct
import tomllib
from collections.abc import Iterator
from pathlib import Path
from typing import Any, NamedTuple

DATA = Path(__file__).resolve().parents[2] / "crates/case_runner/data"
TOKEN = re.compile(r"\"\"\".*?\"\"\"|'''.*?'''|\"(?:\\.|[^\"\\])*\"|'[^']*'|#[^\n]*|.", re.DOTALL)


Contents = dict[str, "bytes | None"]  # None where some bytes alone are told


class Call(NamedTuple):
    """A call of a case, with the bytes of FILE and of what trace writes, where the list tells them."""

    case: str
    words: list[str]
    status: int
    prints: bytes | None
    files: dict[str, bytes]
    written: bytes | None


def one_line(text: str) -> str:
    """A list without comments, and with each inline table on one line, as TOML 1.0 asks for it."""
    made: list[str] = []
    depth = 0
    for token in TOKEN.findall(text):
        depth += (token == "{") - (token == "}")
        if token.startswith("#") or depth > 0 and token in " \n":
            continue
        if token == "}" and made[-1] == ",":
            made.pop()
        made.append(token)
    return "".join(made)


def read_toml(path: Path) -> dict[str, Any]:
    return tomllib.loads(one_line(path.read_text()))


def pieces(path: Path) -> bytes:
    made = b""
    for piece in read_toml(path)["piece"]:
        steps = piece.get("steps", [])
        for time in range(piece.get("times", 1)):
            words = [word + time * step for word, step in zip(piece.get("words", []), steps + [0] * 1000)]
            made += piece.get("text", "").encode() + struct.pack(f"<{len(words)}I", *(word % 2**32 for word in words))
    return made


def content(given: Any) -> bytes | None:
    """The bytes of a content, None where it tells some bytes of a file alone."""
    if isinstance(given, str):
        return given.encode()
    if isinstance(given, list):
        return bytes(given)
    if "has" in given:
        return None
    path = DATA / given["file"]
    made = bytearray(pieces(path) if path.suffix == ".pieces" else path.read_bytes())
    del made[given.get("first", len(made)):]
    for place, others in given.get("with", {}).items():
        made[int(place):int(place) + len(others)] = bytes(others)
    return bytes(made)


def calls() -> Iterator[Call]:
    """All calls of all lists, those of a case with lengths once for each length."""
    for path in sorted(DATA.glob("*.toml")):
        listed = read_toml(path)
        for case in listed.get("case", []):
            files = {**listed.get("files", {}), **case.get("files", {})}
            found = {name: content(given) for name, given in files.items()}
            after = {name: content(given) for name, given in case.get("after", {}).items()}
            for length in range(*case.get("lengths", [0, 1])):
                for call in case["calls"]:
                    yield made_call(case["name"], call, length, {**after, **found}, after)


def made_call(case: str, call: dict[str, Any], length: int, files: Contents, after: Contents) -> Call:
    words = call["words"].split(" ")
    prints = call.get("prints")
    text = None if prints is None else prints.replace("{length}", str(length)).encode()
    known = {name: found for name, found in files.items() if found is not None}
    written = after.get(words[6]) if words[0] == "trace" and len(words) > 6 and not call.get("status") else None
    return Call(case, words, call.get("status", 0), text, known, written)
