"""Where a run makes its accesses, by word, symbol, stub and pad."""
from __future__ import annotations

import re
import subprocess
import tempfile
from pathlib import Path

from pages import segments
from programs import OUT, SPM, said

PATCH, PATCH_END = 0x00090000, 0x000a0000
JAL = 0x6F  # that leaves no way back


def counted(path: Path, given: Path) -> dict[int, tuple[int, int]]:
    """How often each word is fetched, and how often loaded or stored."""
    with given.open("rb") as opened, tempfile.NamedTemporaryFile() as counts:
        said([OUT / "price", path, SPM, 0, counts.name], stdin=opened, stderr=subprocess.DEVNULL)
        words = [map(int, it.split()) for it in Path(counts.name).read_text().splitlines()]
    return {address: (fetches, loads + stores) for address, fetches, loads, stores in words}


def symbols(path: Path) -> dict[str, tuple[int, int]]:
    """Address and size by name."""
    told = said(["riscv64-unknown-elf-nm", "-S", path]).stdout.decode()
    return {name: (int(at, 16), int(size, 16)) for at, size, name in re.findall(r"^(\w+) (\w+) \w (\S+)$", told, re.M)}


def words_at(path: Path) -> dict[int, int]:
    """Those of the code."""
    return {start + at: int.from_bytes(content[at:at + 4], "little")
            for start, content in segments(path.read_bytes()) if start < PATCH for at in range(0, len(content), 4)}


def pads(file: Path, out: Path) -> set[int]:
    """The words at home that a relinked file has changed to jumps."""
    old, new = words_at(file), words_at(out)
    return {it for it, word in new.items() if word & 0xfff == JAL and old.get(it, word) != word}
