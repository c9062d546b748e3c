"""Runs spmlink's commands and reads what they print."""

import json
import os
import shutil
import subprocess
import sys
import tempfile
import tomllib
from dataclasses import dataclass, field

TOP = os.path.dirname(os.path.dirname(os.path.dirname(os.path.realpath(__file__))))
PRICES = {"main_fetch": 10, "main_read": 10, "main_write": 10, "spm_fetch": 2, "spm_read": 2, "spm_write": 2}
DEFAULTS = {"main": [0x00010000, 0x00080000], "spm": [0x01000000, 4096], "patch": [0x00090000, 65536], "grain": 16,
            "steps": 100000000}
REGIONS_IN = {"static": 0, "overlay": 1, "kept": 2}  # how many regions such a line of a report names
MOST_TRACED = 100000  # steps, by one call of `trace`


@dataclass
class Profile:
    steps: int = 0
    outcome: str = ""
    blocks: dict = field(default_factory=dict)
    accesses: list = field(default_factory=list)  # (reads, writes, name) by home


@dataclass
class Line:
    """A line of a report: what stands where. `told` is an object's name, or the address of a piece's first block."""
    regions: tuple
    kind: str
    place: int
    size: int
    told: str


@dataclass
class Report:
    proof: str = ""
    before: int = 0
    after: int = 0
    lines: list = field(default_factory=list)
    said: list = field(default_factory=list)


@dataclass
class Step:
    """A line of a trace. `file_steps` is how many steps the relinked file takes for it."""
    home: int
    place: int
    file_steps: int
    access: tuple | None = None  # ("r" or "w", name, offset, address)


def read_board(name):
    """The keys of a board file, and those with a default that the pictures need."""
    with open(name, "rb") as text:
        keys = tomllib.load(text)
    board = DEFAULTS | keys
    board["price"] = PRICES | keys.get("price", {})
    return board


def write_board(board, name):
    """TOML for a board: what JSON writes for these values TOML reads."""
    with open(name, "w", encoding="utf-8") as out:
        for key, value in board.items():
            if key != "price":
                out.write(f"{key} = {json.dumps(value)}\n")
        out.write("[price]\n" + "".join(f"{key} = {value}\n" for key, value in board["price"].items()))


def read_report(lines, said):
    report = Report(said=said)
    for line in lines:
        first, *words = line.split(" ")
        if first in ("before", "after"):
            setattr(report, first, int(words[0]))
        elif first in REGIONS_IN:
            regions = tuple(int(words.pop(0)) for _ in range(REGIONS_IN[first]))
            kind, place, size, *told = words
            report.lines.append(Line(regions, kind, int(place, 16), int(size), " ".join(told)))
        else:
            report.proof = line
    return report


def read_step(line):
    home, place, file_steps, *rest = line.split(" ", 4)
    access = None
    if rest:
        name, offset, address = rest[1].rsplit(" ", 2)
        access = (rest[0], name, int(offset), int(address, 16))
    return Step(int(home, 16), int(place, 16), int(file_steps), access)


class Commands:
    """spmlink's answers for one FILE, BOARD and INPUT. What it writes goes to a folder that vanishes with it."""

    def __init__(self, file, board, text):
        self.program = os.environ.get("SPMLINK", os.path.join(TOP, "spmlink"))
        self.file, self.board_file, self.input = file, board, text
        self.board = read_board(board)
        self.folder = tempfile.mkdtemp(prefix="spmlink-pictures-")
        self.result, self.certificate = os.path.join(self.folder, "result"), os.path.join(self.folder, "certificate")
        self.profiles = {}

    def __enter__(self):
        return self

    def __exit__(self, *_):
        shutil.rmtree(self.folder)

    def call(self, *words):
        """The lines on standard output and those on standard error."""
        done = subprocess.run([self.program, *words], stdin=subprocess.DEVNULL, capture_output=True, check=False)
        lines, said = (text.decode("utf-8", "replace").splitlines() for text in (done.stdout, done.stderr))
        if done.returncode:
            sys.exit("\n".join([f"spmlink {words[0]} ended with status {done.returncode}", *lines, *said]))
        return lines, [line.removeprefix("spmlink: ") for line in said]

    def show(self):
        """The objects that may move, as (home, size, name), and the functions, as (start, region, name)."""
        objects, functions = [], []
        for line in self.call("show", self.file, self.board_file)[0]:
            kind, address, number, name = line.split(" ", 3)
            (objects if kind == "object" else functions).append((int(address, 16), int(number), name))
        return objects, functions

    def profile(self, steps=None):
        """The counts of the whole run, or of its first steps: a board with fewer `steps` cuts the run there."""
        if steps not in self.profiles:
            board = self.board_file
            if steps is not None:
                board = os.path.join(self.folder, "cut.toml")
                write_board(self.board | {"steps": steps}, board)
            self.profiles[steps] = self.read_profile(self.call("profile", self.file, board, self.input)[0])
        return self.profiles[steps]

    def read_profile(self, lines):
        profile = Profile()
        for line in lines:
            kind, *words = line.split(" ", 3)
            if kind == "steps":
                profile.steps = int(words[0])
            elif kind == "block":
                profile.blocks[int(words[0], 16)] = int(words[1])
            elif kind == "object":
                profile.accesses.append((int(words[0]), int(words[1]), words[2]))
            else:
                profile.outcome = line
        return profile

    def relink(self):
        return read_report(*self.call("relink", self.file, self.board_file, self.input, self.result, self.certificate))

    def take(self, report, certificate):
        """What an earlier `relink` printed and wrote, in place of a new one. `check` makes sure that both are of this run."""
        self.certificate = certificate
        with open(report, encoding="utf-8", errors="replace") as text:
            taken = read_report(text.read().splitlines(), [])
        checked = read_report(*self.call("check", self.file, self.board_file, self.input, certificate))
        if (checked.before, checked.after) != (taken.before, taken.after):
            sys.exit(f"{report} is no report of {certificate}: its energies differ")
        taken.said = checked.said
        return taken

    def paid(self):
        """What the relinked file pays and how many calls were inward; None where the program didn't exit."""
        numbers = {}
        for line in self.call("paid", self.file, self.board_file, self.input, self.certificate)[0]:
            word, _, rest = line.partition(" ")
            numbers[word] = rest
        return (int(numbers["paid"]), int(numbers["inward"])) if "paid" in numbers else None

    def trace(self, steps):
        """How many steps the start takes in the relinked file, and the first steps of the program; None where one is lost."""
        out = os.path.join(self.folder, "trace")
        count = str(min(steps, MOST_TRACED))
        lines, _ = self.call("trace", self.file, self.board_file, self.input, self.certificate, count, out)
        with open(out, encoding="utf-8", errors="replace") as text:
            first, *rest = text.read().splitlines()
        if lines[0].startswith("lost"):
            return None
        return int(first.split(" ")[1]), [read_step(line) for line in rest]
