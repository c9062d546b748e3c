"""Boards, as `read_board` reads them and as Python's tomllib does, with the rules of docs/BOARD.md
(crates/board_config/specs/Keys.antt, Values.antt, Board.antt).

Those rules stand in tests/fuzz/board_path.py, over the tables that tomllib makes. Here texts are drawn that spell values in
many ways, and each value is compared.
"""

import functools
import sys
from random import Random

import tools
from tools import Options, Tally

sys.path.append(f"{tools.ROOT}/tests/fuzz")
import board_path  # noqa: E402
from fault import Fault, Untold  # noqa: E402

USUAL = 5_000
PART = 250
NAMES = {"not-toml": "NotToml", "missing": "Missing", "wrong-type": "WrongType", "out-of-range": "OutOfRange"}
TEXTS = ("table", ".data", "", "a b", "é", "\u4e2d\u6587", "\U0001f600", "tab\there", 'quote"', "back\\slash",
         "#no comment", "it's", "]", "=")
PRICES = tuple(board_path.PRICES)
EDGES = (-(2**63), -(2**63) - 1, 2**63 - 1, 2**63, -1, 0, 1, 16, 64, 4096, 2**16, 2**20, 2**24, 2**32 - 1, 2**32, 10_000, 10_001,
         10**7, 10**7 + 1, 10**9, 10**9 + 1)
OTHERS = ("1.5", "inf", "nan", "true", '"text"', "[]", "{}", "1979-05-27", "1979-05-27T07:32:00Z", "07:32:00",
          "[1, 2, 3]", "[[1], [2]]")
FAULTY = ("01", "0x", "0xG", "1__0", "_1", "1_", "0b2", "0o8", "+0x1", "'a", '"a', '"\\q"', '"\\ud800"', "[1,,2]", "[1",
          "{a = 1,, b = 2}", "tru", "1 2", "", "'''a", "0X10", "1.", ".5", "1e", "{ a = 1", "[,]")
UNKNOWN = ("Main", "x", "price_", '"a b"', '"é"', "''", "zz")
LINES = ("# comment", "   # comment with é", "", "\t", "#", "[price", "=", "a b = 1", "main", "[[main]]", "[main]",
         "\x0b", "\x00", "# bell \x07")


def compare(options: Options) -> Tally:
    count = options.count_or(USUAL)
    parts = [(number, min(PART, count - number * PART)) for number in range(-(-count // PART))]
    return tools.spread(functools.partial(compare_part, options, tools.built_tell()), parts, options.processes)


def compare_part(options: Options, tell: str, part: tuple[int, int]) -> Tally:
    number, size = part
    random = Random(f"{options.seed} boards {number}")
    texts = [drawn_text(random) for _ in range(size)]
    tally = Tally()
    with tools.folder() as folder:
        for at, text in enumerate(texts):
            tools.write(f"{folder}/{at}", text)
        lines = tools.call([tell, "boards", *map(str, range(size))], cwd=folder).stdout.decode().splitlines()
    for text, line in zip(texts, lines, strict=True):
        judge(options, text, line.split(" ", 1)[1], tally)
    return tally


def judge(options: Options, text: bytes, ours: str, tally: Tally) -> None:
    try:
        theirs, what = values_of(text, options.mistake), "boards"
    except Fault as fault:
        theirs, what = fault_of(fault)
    except Untold:
        tally.excepted["TOML 1.0, which tomllib reads, and 1.1 may differ"] += 1
        return
    tally.count(what, ours == theirs, lambda: f"{text!r} is {ours}, and tomllib says {theirs}")


def fault_of(fault: Fault) -> tuple[str, str]:
    """A fault as `tell` prints it, and its word in a fault line."""
    _, _, word, key, _, *name = fault.text.decode().split(" ", 5)
    if name:
        return " ".join(map(str, text_of("unknown key", name[0]))), word
    return f"fault {NAMES[word]}" + ("" if word == "not-toml" else f" {{ key: {key} }}"), word


def values_of(text: bytes, is_mistake: bool) -> str:
    """The board of a text as `tell` prints it."""
    board = board_path.read(text)
    words = [*range_of("main", board.main), *range_of("spm", board.spm), *range_of("patch", board.patch)]
    words += [word for area in board.areas for word in range_of("area", area)]
    words += ["prices", *(board.prices[key] for key in PRICES), "fix", *texts_of(board.fix)]
    words += ["bss", truth(board.bss_movable), "grain", board.grain, "fence_i", truth(board.fence_i)]
    words += text_of("driver", board.driver)
    words += [word for region in board.regions for word in ("region", *texts_of(region))]
    twins = board_path.parse(text).get("twins", False)
    return " ".join(map(str, [*words, "steps", board.steps + is_mistake, "nodes", board.nodes, "twins", truth(twins)]))


def truth(value: bool) -> str:
    return "true" if value else "false"


def range_of(name: str, addresses: range) -> list[str | int]:
    return [name, addresses.start, len(addresses)]


def text_of(name: str, text: str) -> list[str | list[int]]:
    return [name, list(text.encode())]


def texts_of(texts: list[str]) -> list[str | list[int]]:
    return [word for text in texts for word in text_of("text", text)]


# Texts of boards, in the many ways in which TOML lets one spell them.


def drawn_text(random: Random) -> bytes:
    """Some keys in any order and spelling, most often with values that a board may have."""
    lines = []
    for key in random.sample(sorted(VALUES), random.choice((0, 1, 2, 4, 8, len(VALUES)))):
        pair = drawn_key(random, key), random.choice(("=", " = ", " =", "=\t")), drawn_value(random, key)
        lines.append("".join(pair) + random.choice(("", "", " # why")))
    tables = []
    if random.random() < 0.5:
        drawn_prices(random, lines, tables)
    if random.random() < 0.15:
        lines.append(f"{random.choice(UNKNOWN)} = {random.choice(('1', *OTHERS))}")
    if random.random() < 0.08:
        lines.insert(random.randrange(len(lines) + 1), random.choice(LINES))
    random.shuffle(lines)
    end = random.choice(("\n", "\n", "\r\n"))
    text = end.join([*lines, *tables]) + random.choice((end, ""))
    content = text.encode()
    if random.random() < 0.03:
        at = random.randrange(len(content) + 1)
        content = content[:at] + random.choice((b"\xff", b"\xc3", b"\r", b"\xef\xbb\xbf", b'"', b"\0")) + content[at:]
    return content


def drawn_key(random: Random, key: str) -> str:
    return random.choice((key, key, key, f'"{key}"', f"'{key}'", f"  {key}", f'"\\u{ord(key[0]):04x}{key[1:]}"'))


def drawn_prices(random: Random, lines: list[str], tables: list[str]) -> None:
    """The table of prices: inline, by dotted keys, or by a header; most often whole."""
    keys = list(PRICES) if random.random() < 0.8 else random.sample(PRICES, random.randrange(len(PRICES)))
    random.shuffle(keys)
    pairs = [f"{drawn_key(random, key).strip()} = {drawn_number(random, 0, 10_000)}" for key in keys]
    if random.random() < 0.1:
        pairs.append(f"other = {drawn_number(random, 0, 10)}")
    kind = random.random()
    if kind < 0.4:
        lines.append("price = {" + ", ".join(pairs) + "}")
    elif kind < 0.7:
        lines += [f"{random.choice(('price.', 'price . ', chr(34) + 'price' + chr(34) + '.'))}{pair}" for pair in pairs]
    else:
        tables += [random.choice(("[price]", "[ price ]", '["price"]  # table')), *pairs]


def drawn_value(random: Random, key: str) -> str:
    kind = random.random()
    if kind < 0.015:
        return random.choice(FAULTY)
    if kind < 0.04:
        return random.choice(OTHERS)
    return VALUES[key](random)


def drawn_number(random: Random, low: int, high: int) -> str:
    """A number, most often of this range, in one of TOML's spellings."""
    number = random.choice(EDGES) if random.random() < 0.03 else random.choice((low, high, random.randint(low, high)))
    kind = random.random()
    if kind < 0.4 or number < 0:
        return random.choice((str(number), f"{number:_}"))
    if kind < 0.6:
        return random.choice((f"0x{number:x}", f"0x{number:X}", f"0x{number:08x}", f"0x{number:_x}"))
    return {0: f"0b{number:b}", 1: f"0o{number:o}", 2: f"0b{number:_b}", 3: f"+{number}"}[random.randrange(4)]


def drawn_range(random: Random, grain: int, most: int) -> str:
    base, size = random.randrange(2**32 // grain // 2) * grain, random.randint(1, most // grain) * grain
    return listed(random, [drawn_number(random, base, base), drawn_number(random, size, size)])


def listed(random: Random, items: list[str]) -> str:
    """An array, on one line or on several, with or without a last comma and comments."""
    kind = random.random()
    if kind < 0.7:
        return "[" + ", ".join(items) + random.choice(("]", " ]", ",]" if items else "]"))
    return "[\n" + "".join(f"  {item}, # item\n" for item in items) + "]"


def drawn_string(random: Random, text: str) -> str:
    """A text as a basic or a literal string, on one line or on several."""
    escaped = text.replace("\\", "\\\\").replace('"', '\\"').replace("\t", "\\t")
    by_number = "".join(f"\\U{ord(it):08x}" for it in text)
    kinds = [f'"{escaped}"', f'"""{escaped}"""', f'"""\n{escaped}"""', f'"""\\\n   {escaped}"""', f'"{by_number}"']
    if "'" not in text:
        kinds += [f"'{text}'", f"'''{text}'''", f"'''\n{text}'''"]
    return random.choice(kinds)


def drawn_names(random: Random) -> str:
    return listed(random, [drawn_string(random, random.choice(TEXTS)) for _ in range(random.choice((0, 1, 3)))])


def drawn_truth(random: Random) -> str:
    return random.choice(("true", "false"))


VALUES = {
    "main": lambda random: drawn_range(random, 1, 2**24),
    "spm": lambda random: drawn_range(random, random.choice((64, 64, 16, 4)), 2**24),
    "patch": lambda random: drawn_range(random, random.choice((64, 64, 64, 32)), 2**20),
    "areas": lambda random: listed(random, [drawn_range(random, 1, 2**20) for _ in range(random.choice((0, 1, 2, 16, 17)))]),
    "fix": drawn_names,
    "bss": lambda random: drawn_string(random, random.choice(("fixed", "movable", "movable", "Movable"))),
    "grain": lambda random: drawn_number(random, *random.choice(((16, 16), (32, 32), (64, 64), (16, 64)))),
    "fence_i": drawn_truth,
    "driver": lambda random: drawn_string(random, random.choice(TEXTS)),
    "regions": lambda random: listed(random, [drawn_names(random) for _ in range(random.choice((0, 1, 2, 8, 9)))]),
    "steps": lambda random: drawn_number(random, 1, 10**9),
    "nodes": lambda random: drawn_number(random, 1, 10**7),
    "twins": drawn_truth,
}
