"""The second path of certificates: the first fault of a text, and the verdict on it for a known programme.

docs/COMMAND_LINE.md has the grammar. A programme is read from the texts of bench/solver/README.md.
"""

from dataclasses import dataclass, field

from fault import WORD, Fault

MARK = b"SPC1"
BRANCH, OVER, BOUND, LEAF = 0, 1, 2, 3
DEEPEST = 4096
LARGEST_SCALE = 65536
LONGEST = 10  # bytes of a number below 2^64


@dataclass
class Side:
    fixed: int
    rows: list[int] = field(default_factory=list)
    gains: list[int] = field(default_factory=list)
    weights: list[dict[int, int]] = field(default_factory=list)

    def weight(self, row: int, taken: list[int]) -> int:
        return sum(self.weights[var].get(row, 0) for var in taken)

    def fits(self, taken: list[int]) -> bool:
        return all(self.weight(row, taken) <= capacity for row, capacity in enumerate(self.rows))

    def gain(self, taken: list[int]) -> int:
        """What is gained, the side's fixed cost left aside."""
        return sum(self.gains[var] for var in taken)


@dataclass
class Programme:
    base: int
    sides: list[Side]


@dataclass
class Certificate:
    """A text that reads well: its choice, and its trees as lists of nodes in the order of the text."""

    side: int
    taken: list[int]
    trees: list[list[tuple]]


def read_programmes(text: str) -> list[Programme]:
    programmes: list[Programme] = []
    for line in text.splitlines():
        key, *words = line.split() or [""]
        if key == "base":
            programmes.append(Programme(int(words[0]), []))
        elif key == "side":
            programmes[-1].sides.append(Side(int(words[2])))
        elif key == "rows":
            programmes[-1].sides[-1].rows = [int(word) for word in words]
        elif key == "var":
            side = programmes[-1].sides[-1]
            side.gains.append(int(words[0]))
            side.weights.append({int(row): int(weight) for row, weight in (word.split(":") for word in words[1:])})
    return programmes


class Reader:
    """Reads a text from its beginning. `word` is the fault of what breaks the grammar."""

    def __init__(self, text: bytes):
        self.text = text
        self.at = 0
        self.word = "bad-head"

    def fail(self, at: int) -> Fault:
        return Fault(10, self.word, at)

    def byte(self) -> int:
        if self.at == len(self.text):
            raise Fault(10, "truncated", self.at)
        self.at += 1
        return self.text[self.at - 1]

    def one_of(self, allowed: range | bytes) -> int:
        byte = self.byte()
        if byte not in allowed:
            raise self.fail(self.at - 1)
        return byte

    def number(self, least: int = 0, end: int = WORD) -> int:
        """An unsigned LEB128 number in its shortest form, from `least` and below `end`."""
        start, value, place = self.at, 0, 0
        while True:
            byte = self.byte()
            value |= (byte & 0x7F) << 7 * place
            place += 1
            if place == LONGEST and byte > 1:
                raise self.fail(start)
            if byte < 0x80:
                break
        is_shortest = place == 1 or byte > 0
        if not is_shortest or not least <= value < end:
            raise self.fail(start)
        return value

    def ascending(self, count: int, multiplied: bool) -> list[tuple[int, int]]:
        """So many ascending numbers, each with a multiplier where these follow."""
        pairs: list[tuple[int, int]] = []
        for _ in range(count):
            number = self.number(least=pairs[-1][0] + 1 if pairs else 0)
            pairs.append((number, self.number(end=2**64) if multiplied else 1))
        return pairs


def read(text: bytes) -> Certificate:
    """The certificate that a text spells, or its first fault."""
    reader = Reader(text)
    for byte in MARK:
        reader.one_of(bytes([byte]))
    has_trees = reader.one_of(range(2))
    side = reader.one_of(range(2))
    taken = [var for var, _ in reader.ascending(reader.number(), multiplied=False)]
    trees = []
    count = reader.number(least=1, end=3) if has_trees else 0
    reader.word = "bad-node"
    for _ in range(count):
        trees.append(read_tree(reader))
    if reader.at < len(text):
        raise Fault(10, "trailing", reader.at)
    return Certificate(side, taken, trees)


def read_tree(reader: Reader) -> list[tuple]:
    nodes: list[tuple] = []
    depths = [0]  # of the nodes that are still to come
    while depths:
        depth = depths.pop()
        tag = reader.one_of(range(4))
        if depth > DEEPEST:
            raise Fault(10, "too-deep", reader.at - 1)
        if tag == BRANCH:
            nodes.append((tag, reader.number()))
            depths += [depth + 1, depth + 1]
        elif tag == OVER:
            nodes.append((tag, reader.number()))
        elif tag == BOUND:
            scale = reader.number(least=1, end=LARGEST_SCALE + 1)
            nodes.append((tag, scale, reader.ascending(reader.number(), multiplied=True)))
        else:
            nodes.append((tag,))
    return nodes


def check(programme: Programme, nodes: int, text: bytes) -> bytes:
    """What `check` prints of a text for a programme and a board's key `nodes`, or the fault."""
    certificate = read(text)
    gain = gain_of(programme, certificate)
    for number in range(max(len(certificate.trees), len(programme.sides)) if certificate.trees else 0):
        check_tree(programme, certificate, number, gain)
    first = "optimal" if certificate.trees else f"best found {nodes}"
    return f"{first}\nbefore {programme.base}\nafter {programme.base - gain}\n".encode()


def gain_of(programme: Programme, certificate: Certificate) -> int:
    """The choice must be of a side that is there, fit, and gain no less than nothing."""
    taken = certificate.taken
    if certificate.side >= len(programme.sides):
        raise Fault(10, "bad-choice")
    side = programme.sides[certificate.side]
    if any(var >= len(side.gains) for var in taken):
        raise Fault(10, "bad-choice")
    if not side.fits(taken):
        raise Fault(10, "bad-choice")
    if certificate.side == 0 and not taken:
        return 0
    gain = side.gain(taken) - side.fixed
    if gain < 0:
        raise Fault(10, "bad-choice")
    return gain


def check_tree(programme: Programme, certificate: Certificate, number: int, gain: int) -> None:
    """The tree of a side is there just where the side is, and each of its nodes closes its part of the choices."""
    if number >= len(certificate.trees) or number >= len(programme.sides):
        raise Fault(10, "wrong", number, 0)
    side = programme.sides[number]
    parts: list[dict[int, bool]] = [{}]  # what is taken or left in the parts that are still to be closed
    for index, node in enumerate(certificate.trees[number]):
        part = parts.pop()
        if not holds(side, node, part, gain + side.fixed):
            raise Fault(10, "wrong", number, index)
        if node[0] == BRANCH:
            parts += [{**part, node[1]: True}, {**part, node[1]: False}]


def holds(side: Side, node: tuple, part: dict[int, bool], limit: int) -> bool:
    """Whether a node shows that no choice of the part gains more than the limit."""
    taken = [var for var, is_taken in part.items() if is_taken]
    if node[0] == BRANCH:
        return node[1] < len(side.gains) and node[1] not in part
    if node[0] == OVER:
        return node[1] < len(side.rows) and side.weight(node[1], taken) > side.rows[node[1]]
    if node[0] == LEAF:
        return len(part) == len(side.gains) and side.gain(taken) <= limit
    _, scale, multipliers = node
    if any(row >= len(side.rows) for row, _ in multipliers):
        return False
    bound = sum(multiplier * side.rows[row] for row, multiplier in multipliers)
    for var, gain in enumerate(side.gains):
        rest = scale * gain - sum(multiplier * side.weights[var].get(row, 0) for row, multiplier in multipliers)
        bound += (rest if part[var] else 0) if var in part else max(rest, 0)
    return bound <= scale * limit
