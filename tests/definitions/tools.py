"""What the parts share: the outside tools, the program, what is built without proof, and what is counted."""

import glob
import os
import shutil
import subprocess
import sys
import tempfile
import time
from collections import Counter
from collections.abc import Callable, Iterable
from concurrent.futures import ProcessPoolExecutor
from dataclasses import dataclass, field

HERE = os.path.dirname(os.path.realpath(__file__))
ROOT = os.path.normpath(f"{HERE}/../..")
PREFIX = "riscv64-unknown-elf-"
AS, LD, GCC, OBJDUMP, OBJCOPY, READELF = (PREFIX + it for it in ("as", "ld", "gcc", "objdump", "objcopy", "readelf"))
QEMU, SREC_CAT = "qemu-riscv32", "srec_cat"
PACKAGES = {AS: "binutils-riscv64-unknown-elf", GCC: "gcc-riscv64-unknown-elf", QEMU: "qemu-user", SREC_CAT: "srecord"}
MEMORY = "/dev/shm" if os.path.isdir("/dev/shm") else None
TOLD = 10  # so many differences of a part are told
CASES = 40  # so often `rt try` runs what it made, which makes seconds of it
TELL_CRATES = ("list_checks", "rv32im", "elf_reader", "board_config")


@dataclass
class Options:
    """What the command line asks for."""

    program: str
    seed: int
    count: int | None
    processes: int
    mistake: bool
    folders: list[str]

    def count_or(self, usual: int) -> int:
        return usual if self.count is None else self.count


@dataclass
class Tally:
    """What was compared, what differed, and what a rule excepts."""

    compared: Counter[str] = field(default_factory=Counter)
    wrong: list[str] = field(default_factory=list)
    excepted: Counter[str] = field(default_factory=Counter)

    def count(self, what: str, is_same: bool, told: Callable[[], str]) -> None:
        self.compared[what] += 1
        if not is_same:
            self.wrong.append(f"{what}: {told()}")

    def add(self, other: "Tally") -> None:
        self.compared.update(other.compared)
        self.wrong += other.wrong
        self.excepted.update(other.excepted)


def call(words: list[str], **how) -> subprocess.CompletedProcess:
    """Calls a tool, which must succeed."""
    done = subprocess.run(words, stdin=subprocess.DEVNULL, stdout=subprocess.PIPE, stderr=subprocess.PIPE, **how)
    if done.returncode:
        raise SystemExit(f"{' '.join(words)[:300]}: {done.stderr.decode(errors='replace')[:2000]}")
    return done


def program_call(program: str, words: list[str], folder: str) -> tuple[int, str]:
    """The status and the lines of a call of spmlink in a folder."""
    how = {"stdin": subprocess.DEVNULL, "stdout": subprocess.PIPE, "stderr": subprocess.PIPE}
    done = subprocess.run([program, *words], cwd=folder, **how)
    return done.returncode, done.stdout.decode(errors="replace")


def spread(work: Callable[..., Tally], parts: Iterable, processes: int) -> Tally:
    """The tally of all parts, which processes work through."""
    total = Tally()
    with ProcessPoolExecutor(processes) as executor:
        for tally in executor.map(work, parts):
            total.add(tally)
    return total


def folder() -> tempfile.TemporaryDirectory:
    return tempfile.TemporaryDirectory(dir=MEMORY, prefix="definitions-")


def missing_tools() -> list[str]:
    return sorted({package for tool, package in PACKAGES.items() if not shutil.which(tool)})


def write(name: str, content: bytes | str) -> str:
    with open(name, "wb") as file:
        file.write(content.encode() if isinstance(content, str) else content)
    return name


def read(name: str) -> bytes:
    with open(name, "rb") as file:
        return file.read()


# The program that tells what the crates make of words, files and boards.


def built_tell() -> str:
    """The program `tell`, built without proof where it isn't there or its sources are newer.

    The kit builds no program that isn't proved, but `rt try` runs one. So the program that it runs is kept.
    """
    kept = f"{HERE}/out/tell"
    sources = glob.glob(f"{HERE}/tell/*.rattle") + [file for name in TELL_CRATES for file in sources_of(name)]
    if not os.path.exists(kept) or any(os.path.getmtime(file) > os.path.getmtime(kept) for file in sources):
        if not shutil.which("rt"):
            sys.exit("tests/definitions/run: tests/definitions/tell is not built, and `rt` of the Rattle kit is not on the PATH")
        os.makedirs(f"{HERE}/out", exist_ok=True)
        with tempfile.TemporaryDirectory(prefix="definitions-") as place:
            lay_out(place)
            keep_tried(f"{place}/crates/tell", f"{place}/try", f"{place}/tell")
            shutil.copy(f"{place}/tell", f"{kept}.new")
        os.replace(f"{kept}.new", kept)
    return kept


def sources_of(crate: str) -> list[str]:
    return [file for part in ("src", "specs", "proofs")
            for file in glob.glob(f"{ROOT}/crates/{crate}/{part}/**", recursive=True) if os.path.isfile(file)]


def lay_out(place: str) -> None:
    """A repository of `tell` and of what it stands on. The gate allows no source outside a crate that it lists, so the sources
    of `tell` have other names here."""
    with open(f"{ROOT}/crates.txt") as file:
        lines = [line for line in file if line.partition(":")[0] in TELL_CRATES]
    write(f"{place}/crates.txt", "".join(lines) + f"tell: {' '.join(TELL_CRATES)} anyhow\n")
    for name in TELL_CRATES:
        for file in sources_of(name):
            copy(file, f"{place}/{os.path.relpath(file, ROOT)}")
    for file in glob.glob(f"{HERE}/tell/*.rattle"):
        copy(file, f"{place}/crates/tell/src/{os.path.basename(file).removesuffix('.rattle')}.rt")


def copy(file: str, to: str) -> None:
    os.makedirs(os.path.dirname(to), exist_ok=True)
    shutil.copyfile(file, to)


def keep_tried(crate: str, place: str, kept: str) -> None:
    """Keeps the executable that `rt try` makes and removes: a second name is made for it while it runs on some cases."""
    os.makedirs(f"{place}/cases")
    for case in range(CASES):
        write(f"{place}/cases/{case}", b"")
    words = ["rt", "try", "--cases", f"{place}/cases", "--data", f"none={os.devnull}", "--", "words", "none"]
    tried = subprocess.Popen(words, cwd=crate, env={**os.environ, "TMPDIR": place}, stdin=subprocess.DEVNULL,
                             stdout=subprocess.PIPE, stderr=subprocess.STDOUT)
    while tried.poll() is None:
        for name in glob.glob(f"{place}/*/*/program*"):
            link_program(name, kept)
        time.sleep(0.02)
    said = tried.stdout.read().decode(errors="replace")
    if tried.returncode or not os.path.exists(kept):
        sys.exit(f"rt try does not run tests/definitions/tell:\n{said}")


def link_program(name: str, kept: str) -> None:
    try:
        with open(name, "rb") as file:
            is_program = file.read(4) == b"\x7fELF"
        if is_program:
            os.link(name, kept)
    except OSError:
        pass  # it was moved or removed meanwhile, or is kept already
