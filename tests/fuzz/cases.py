"""Draws calls of spmlink on hostile files, each with the answer that the second paths tell."""

import glob
import os
from collections.abc import Callable
from dataclasses import dataclass
from random import Random

import board_path
import cert_path
import elf_path
import hex_path
import mutate
import result_path
from answers import Answer, Beside, Paid, Told
from cert_path import BOUND, BRANCH, DEEPEST, LEAF, MARK, OVER, Programme, Side
from command_path import PATHS, told
from elf_path import File
from fault import Fault, Untold

HERE = os.path.dirname(os.path.abspath(__file__))
ROOT = os.path.normpath(f"{HERE}/../..")


@dataclass
class Case:
    """A call: its words, the files that it finds, the names that it writes, and its answer."""

    words: list[str]
    files: dict[str, bytes]
    outputs: list[str]
    answer: Answer | None  # None where it isn't to be called


def contents(pattern: str) -> list[bytes]:
    files = []
    for name in sorted(glob.glob(f"{ROOT}/{pattern}")):
        with open(name, "rb") as file:
            files.append(file.read())
    return files


def is_accepted(file: bytes) -> bool:
    """Whether a file has no fault on the board without keys."""
    try:
        elf_path.check_analysis(elf_path.read(file), board_path.read(b""))
    except (Fault, Untold):
        return False
    return True


class Seeds:
    """What the cases are drawn from: files of the repository."""

    def __init__(self) -> None:
        self.elf = contents("crates/case_runner/data/*.elf") + contents("crates/listings/data/*.elf")
        self.small = [file for file in self.elf if len(file) < 4096]
        self.boards = contents("examples/*.toml") + [text.encode() for text in BOARDS + LAYOUTS]
        self.known = [known_program(*known) for known in KNOWN]
        self.programs = [file for file in self.elf if is_accepted(file)]
        self.in_turn = [contents(f"crates/case_runner/data/{name}")[0] for name in IN_TURN]


DATA_PRICES = "price = { main_fetch = 10, main_read = 10, main_write = 10, spm_fetch = 10, spm_read = 2, spm_write = 2 }\n"
CODE_PRICES = "price = { main_fetch = 40, main_read = 1, main_write = 1, spm_fetch = 1, spm_read = 1, spm_write = 1 }\n"
HIGH_PRICES = "price = { main_fetch = 3, main_read = 50, main_write = 60, spm_fetch = 1, spm_read = 2, spm_write = 3 }\n"
BOARDS = [
    "",
    "spm = [0x01000000, 256]\n" + DATA_PRICES,
    'grain = 64\nspm = [0x20000040, 64]\nfix = ["a", ".data"]\nbss = "movable"\nsteps = 1000\nnodes = 1\n',
    'regions = [["f"], ["g", "main"], []]\ntwins = true\ndriver = "start"\nfence_i = true\n',
    "areas = [[0x20000, 1], [0, 4], [0xFFFFFFF0, 15]]\nmain = [0, 0xFFFFFFFF]\npatch = [64, 1048576]\n",
    "[price]\nmain_fetch = 0\nmain_read = 10000\nmain_write = 1\nspm_fetch = 2\nspm_read = 3\nspm_write = 4\n",
]

# What of the layouts a file may meet: other scratchpads, patch ranges and memories, and regions.
LAYOUTS = [
    "",
    "",
    "",
    "",
    "spm = [0x00011000, 256]\n",
    "patch = [0x00010000, 4096]\n",
    "patch = [0x00012000, 65536]\n",
    "patch = [0x00090000, 64]\n",
    "patch = [0x00400000, 65536]\n",
    "spm = [0, 256]\n",
    "spm = [0x00090000, 4096]\n",
    "main = [0x00010000, 4096]\n",
    "main = [0x00010000, 4096]\nareas = [[0x00011000, 4096], [0x00012000, 0x20000]]\n",
    'regions = [["main"], ["f"], ["g"]]\n',
    'regions = [["main", "main"]]\n',
    'regions = [["f"], ["g"], ["f"]]\n',
    'regions = [["k0", "k1"], ["k2"], [""]]\n',
    'bss = "movable"\ntwins = true\n',
    "fence_i = true\npatch = [0x00090000, 64]\n",
]

# The parts of boards on which objects and code of a program may move.
MOVING = [
    ["", "spm = [0x01000000, 64]\n", "spm = [0x01000000, 192]\n", "grain = 32\nspm = [0x80000800, 256]\n",
     "grain = 64\nspm = [0x000a0000, 512]\n"],
    ["", DATA_PRICES, CODE_PRICES, HIGH_PRICES],
    ["", "", "", "twins = true\n", "regions = [[]]\n", 'regions = [["f"], ["g"]]\n', 'driver = "f"\n'],
    ["", 'bss = "movable"\n', 'bss = "movable"\n', 'fix = ["table", ".rodata"]\n', "fence_i = true\n"],
    ["nodes = 1\n", "nodes = 50\n", "nodes = 5000\n"],
]
# Programs of some 35,000 steps in which regions have objects and code in turn.
IN_TURN = ("tables_and_loops.elf", "caller_and_callee_in_turn.elf")
STEPS_IN_TURN = 40_000

# A program reads each word of a table of 64 words 100 times, which is 6,400 reads that save 8 each, less the copy of the
# table. Its code has six blocks, and gains nothing at these prices.
ONE_TABLE = "base 326040\nside off fixed 50\nrows 256 65452 1 1 1 1 1 1\nvar 47172 0:256 1:44\n"
# Programs whose programmes are known, with their boards. The base, which is the energy of the run with nothing
# moved, tells which programme it is: that above, or one of crates/solver_bench/data/regions.txt.
KNOWN = [
    ("caller_and_callee.elf", 'spm = [0x01000000, 48]\nregions = [["f"], ["g"]]\n', 30590),
    ("two_phases.elf", "spm = [0x01000000, 1024]\n" + DATA_PRICES, 4116840),
    ("shared_table.elf", "spm = [0x01000000, 1024]\ntwins = true\n" + DATA_PRICES, 4322670),
    ("sums.elf", "spm = [0x01000000, 256]\n" + DATA_PRICES, 326040),
]
KNOWN_WEIGHTS = (500, 2, 1, 30)  # the longer ones run for some 300,000 steps
NOTHING_TAKEN = MARK + bytes(3)


@dataclass
class Known:
    """A program and a board whose programme is known."""

    file: bytes
    board: bytes
    programme: Programme

    def verdict(self, text: bytes) -> Answer:
        return Told(0, cert_path.check(self.programme, board_path.read(self.board).nodes, text), {})


def known_program(file: str, board: str, base: int) -> Known:
    programmes = cert_path.read_programmes(ONE_TABLE + contents("crates/solver_bench/data/regions.txt")[0].decode())
    programme = next(programme for programme in programmes if programme.base == base)
    return Known(contents(f"crates/case_runner/data/{file}")[0], board.encode(), programme)


# The words of each command behind its name. `out` and `cert` are written, and `count` is a number. Behind a bar stand files
# that another one lists.
WORDS = {
    "run": "file board input out",
    "show": "file board",
    "profile": "file board input",
    "relink": "file board input out cert",
    "check": "file board input text",
    "compare": "file result board input",
    "hex": "file out",
    "hexcheck": "file text",
    "paid": "file board input text",
    "trace": "file board input text count out",
    "mix": "file board mix out cert | input",
    "checkmix": "file board mix text | input",
}
# How often a command is called: on any file, and on a program.
READING = {"run": 50, "show": 10, "profile": 10, "relink": 10, "check": 3, "compare": 10, "hex": 10, "hexcheck": 10,
           "paid": 3, "trace": 5, "mix": 3, "checkmix": 3}
ANALYSING = {"show": 25, "profile": 35, "relink": 25, "compare": 8, "check": 5, "run": 10, "paid": 15, "trace": 20, "mix": 8,
             "checkmix": 5}
COUNTS = (b"1", b"7", b"100", b"002000", b"100000")
MIXES = (b"1 input\n", b"3 input\n", b"1000 input\n1 input\n", b"1 input\n" * 16, b"1 input\n" * 17, b"", b"1 input", b"01 input\n",
         b"1001 input\n", b"0 input\n", b"2  input\n", b"2 input\n-1 input\n", b"2 input \n", b"7 -\n", b"2 input\r\n", b"2 in\xc3\xa9\n")


def one_of(random: Random, weights: dict[str, int]) -> str:
    return random.choices(list(weights), list(weights.values()))[0]


def call(command: str, contents: dict[str, bytes]) -> Case:
    """The case of a command on files, of which it may read some only."""
    names, _, listed = WORDS[command].partition(" | ")
    given = {name: contents[name] for name in (names + " " + listed).split() if name in contents}
    answer = told(PATHS[command], *given.values())
    count = given.pop("count", b"").decode()
    words = [count if name == "count" else name for name in names.split()]
    return Case([command, *words], given, [name for name in names.split() if name not in contents], answer)


def with_others(random: Random, seeds: Seeds, command: str, files: dict[str, bytes]) -> dict[str, bytes]:
    """The files of a command, with a result, a text or a certificate where it reads one."""
    if command == "compare":
        other = random.choice(seeds.small)
        files = files | {"result": other}
        if random.random() < 0.5:
            files |= {"file": other, "result": files["file"]}
    elif command in ("mix", "checkmix"):
        texts = MIXES if command == "checkmix" else (*MIXES, b"7 cert\n")
        files = files | {"mix": random.choice(MIXES[:3] if random.random() < 0.7 else texts)}
    if command in ("check", "paid", "trace", "checkmix"):
        files = files | {"text": random.choice((NOTHING_TAKEN, mutate.numbers(random, list(NOTHING_TAKEN))))}
    if command == "trace":
        files = files | {"count": random.choice(COUNTS)}
    if command == "hexcheck":
        files = files | {"text": hex_of(random.choice((files["file"], random.choice(seeds.small))))}
    return files


def hex_of(file: bytes) -> bytes:
    """The text of a file, or an empty one where the file has a fault."""
    try:
        return hex_path.write(elf_path.read(file))
    except Fault:
        return hex_path.record(hex_path.END, 0, b"")


def elf_case(random: Random, seeds: Seeds) -> Case:
    """A file with changes, on a board of few steps on which it may not fit."""
    steps = random.choice((1, 30, 300, 300, 300, 2000))
    text = random.choice(LAYOUTS) + f"steps = {steps}\nnodes = {random.choice((1, 50))}\n"
    files = {"file": mutate.elf(random, seeds.elf), "board": text.encode(), "input": random.randbytes(random.choice((0, 3, 100)))}
    command = one_of(random, READING)
    return call(command, with_others(random, seeds, command, files))


def program_case(random: Random, seeds: Seeds) -> Case:
    """A program with changes that most often leave it one, under the commands that analyse or run it."""
    is_long = random.random() < 0.03
    file = mutate.program(random, seeds.in_turn if is_long else seeds.programs)
    steps = STEPS_IN_TURN if is_long else random.choice((3, 100, 1000, 1000, 3000))
    text = "".join(random.choice(lines) for lines in MOVING) + f"steps = {steps}\n"
    files = {"file": file, "board": text.encode(), "input": random.randbytes(random.choice((0, 3, 100)))}
    command = "relink" if is_long else one_of(random, ANALYSING)
    return call(command, with_others(random, seeds, command, files))


def board_case(random: Random, seeds: Seeds) -> Case:
    """A board with changes, under `run`, and under `show` of a file that has functions."""
    file = random.choice(seeds.programs)
    if random.random() < 0.2:
        text = memory_about(random, elf_path.read(file))
    else:
        text = mutate.board(random) if random.random() < 0.8 else random.choice(seeds.boards)
        if random.random() < 0.4:
            text = mutate.tokens(random, text)
    return call(random.choice(("show", "run", "run")), {"file": file, "board": text, "input": b"input"})


def memory_about(random: Random, file: File) -> bytes:
    """A board whose memory begins and ends about where the segments of a file do."""
    ranges = []
    for _ in range(random.randint(1, 4)):
        segment = random.choice(file.segments)
        start = segment.address + random.choice((-4, -1, 0, 0, 0, 1, 4, random.randrange(segment.size + 1)))
        end = segment.address + segment.size + random.choice((-4, -1, 0, 0, 0, 1, 64, -random.randrange(segment.size + 1)))
        ranges.append(f"[{start}, {max(end - start, 1)}]")
    return f"main = {ranges[0]}\nareas = [{', '.join(ranges[1:])}]\nsteps = 300\n".encode()


def cert_case(random: Random, seeds: Seeds) -> Case:
    """A certificate of a programme that is known, most often with changes."""
    known = random.choices(seeds.known, KNOWN_WEIGHTS)[0]
    numbers = certificate(random, known.programme)
    text = mutate.numbers(random, numbers) if random.random() < 0.8 else b"".join(map(mutate.leb128, numbers))
    files = {"file": known.file, "board": known.board, "input": b"", "text": text}
    command, verdict = random.choices(("check", "paid", "trace"), (6, 2, 2))[0], told(known.verdict, text)
    if command == "check" or not isinstance(verdict, Told) or verdict.status:
        outputs = ["out"] if command == "trace" else []
        return Case([command, *files, *(["5", "out"] if outputs else [])], files, outputs, verdict)
    if command == "paid":
        return Case([command, *files], files, [], Paid(int(verdict.printed.split()[-1])))
    count = random.choice((1, 30, 300))
    units = result_path.units(elf_path.read(known.file), board_path.read(known.board), b"", count)
    return Case([command, *files, str(count), "out"], files, ["out"], Beside(units))


def hex_case(random: Random, seeds: Seeds) -> Case:
    """The text of a small file, most often with changes."""
    file = random.choice(seeds.small)
    return call("hexcheck", {"file": file, "text": mutate.hex_text(random, hex_of(file))})


def certificate(random: Random, programme: Programme) -> list[int]:
    """The numbers of a certificate of some choice, whose trees show that it is a best one where it is."""
    number = random.randrange(len(programme.sides))
    side = programme.sides[number]
    taken = max((choice(random, side) for _ in range(random.choice((1, 20)))), key=side.gain)
    head = [*MARK, int(random.random() < 0.8), number, len(taken), *sorted(taken)]
    if not head[4]:
        return head
    if random.random() < 0.03:
        return head + [1] + deep_tree(random)
    gain = max(side.gain(taken) - side.fixed, 0)
    trees = [tree(random, side, {}, gain + side.fixed) for side in programme.sides]
    return head + [len(trees)] + [number for nodes in trees for number in nodes]


def choice(random: Random, side: Side) -> list[int]:
    """Some variables that fit, taken one after the other."""
    taken: list[int] = []
    for var in random.sample(range(len(side.gains)), random.randint(0, len(side.gains))):
        if side.fits([*taken, var]):
            taken.append(var)
    return taken


def deep_tree(random: Random) -> list[int]:
    """The numbers of a tree whose last node is about as deep as any may be."""
    return [BRANCH, 0] * random.randint(DEEPEST - 1, DEEPEST + 1) + [random.choice((BRANCH, LEAF, LEAF, 4))] + [LEAF] * 5000


def tree(random: Random, side: Side, part: dict[int, bool], limit: int) -> list[int]:
    """The numbers of a tree over a part of the choices, whose leaves hold where nothing of it gains over the limit."""
    taken = [var for var, is_taken in part.items() if is_taken]
    for row, capacity in enumerate(side.rows):
        if side.weight(row, taken) > capacity:
            return [OVER, row]
    free = [var for var in range(len(side.gains)) if var not in part]
    if not free:
        return [LEAF]
    bound = (BOUND, random.randint(1, 3), multipliers(random, side))
    if random.random() < 0.02 or cert_path.holds(side, bound, part, limit):
        return [BOUND, bound[1], len(bound[2]), *(number for pair in bound[2] for number in pair)]
    var = random.choice(free)
    return [BRANCH, var, *tree(random, side, {**part, var: False}, limit), *tree(random, side, {**part, var: True}, limit)]


def multipliers(random: Random, side: Side) -> list[tuple[int, int]]:
    """A few rows, each with a multiplier about the gain that a unit of it may bring."""
    rows = sorted(random.sample(range(len(side.rows)), random.choice((0, 0, 1, 2))))
    greatest = max(side.gains)
    return [(row, random.randrange(2 * greatest // side.rows[row] + 2)) for row in rows]


KINDS: dict[str, Callable[[Random, Seeds], Case]] = {
    "elf": elf_case,
    "program": program_case,
    "board": board_case,
    "cert": cert_case,
    "hex": hex_case,
}
