"""Tries tools/json: each text is turned into JSON and back, also with other names."""

from __future__ import annotations

import copy
import importlib.util
import json
import os
import struct
import subprocess
import tempfile
from collections.abc import Callable, Iterator
from importlib.machinery import SourceFileLoader
from pathlib import Path
from types import ModuleType
from typing import Any

from case_lists import Call, DATA, calls
from tally import Tally

TOOL = Path(__file__).resolve().parents[2] / "tools/json"
NAMED = ("relink", "profile", "trace", "mix", "show")
HEADER, SECTION, SYMBOL_TABLE, STRING_TABLE = 52, 40, 2, 3

# The status of a command whose text standard output did not take whole.
PRINT_FAILED = 3

# The objects of the program that `gen 0 4` makes, by its report in relink.toml.
GENERATED = [(b"t0", 1, 0, 192), (b"t1", 1, 0, 64), (b"t2", 1, 0, 192), (b"t3", 1, 0, 192)]

# Names that look like ends of lines, like other lines, or that are no UTF-8.
OTHER_NAMES: list[Callable[[bytes], bytes]] = [
    lambda name: b"a\n " + name,
    lambda name: b" " + name + b" \n",
    lambda name: name + b"\nobject 1 2 " + name,
    lambda name: name + b"\nstatic data 0x01000000 4 " + name + b"\xff",
    lambda name: name + b" 0 0x01000000\n0x00010000 0x00010000 1 r " + name,
    lambda name: b"\xc3(" + name + b"\r\n\x1b[31m",
    lambda name: "Ä\u2028\ufffd".encode() + name,
]

# A text of each kind, and its object, written by hand from tools/JSON.md. The file is sums.elf.
EXPECTED: list[tuple[str, bytes, dict[str, Any]]] = [
    ("run", b"exited 255\n", {"status": 0, "outcome": "exited", "code": 255}),
    ("run", b"trapped\n", {"status": 0, "outcome": "trapped"}),
    ("run", b"running\n", {"status": 0, "outcome": "running"}),
    ("relink", b"optimal\nbefore 340282366920938463463374607431768211455\nafter 0\nstatic data 0x01000000 256 table\n"
     b"static code 0xfffffff0 48 0x00010020\noverlay 2 data 0x01000000 256 table\noverlay 3 code 0x01000000 48 0x00010020\n"
     b"kept 1 2 data 0x01000000 256 table\n",
     {"status": 0, "optimal": True, "before": 2**128 - 1, "after": 0, "moved": [
         {"standing": "static", "kind": "data", "place": 0x01000000, "size": 256, "name": "table"},
         {"standing": "static", "kind": "code", "place": 0xfffffff0, "size": 48, "home": 0x00010020},
         {"standing": "overlay", "region": 2, "kind": "data", "place": 0x01000000, "size": 256, "name": "table"},
         {"standing": "overlay", "region": 3, "kind": "code", "place": 0x01000000, "size": 48, "home": 0x00010020},
         {"standing": "kept", "region": 1, "twin": 2, "kind": "data", "place": 0x01000000, "size": 256, "name": "table"}]}),
    ("mix", b"best found 100000\nbefore 7\nafter 7\n",
     {"status": 0, "optimal": False, "nodes": 100000, "before": 7, "after": 7, "moved": []}),
    ("profile", b"steps 9\ntrapped\nblock 0x00010000 1\nobject 6400 0 table\n",
     {"status": 0, "steps": 9, "outcome": "trapped", "blocks": [{"address": 0x00010000, "began": 1}],
      "objects": [{"reads": 6400, "writes": 0, "name": "table"}]}),
    ("compare", b"same\nexited 64\n", {"status": 0, "same": True, "outcome": "exited", "code": 64}),
    ("check", b"optimal\nbefore 30590\nafter 15574\n", {"status": 0, "optimal": True, "before": 30590, "after": 15574}),
    ("checkmix", b"best found 1\nbefore 2\nafter 1\n",
     {"status": 0, "optimal": False, "nodes": 1, "before": 2, "after": 1}),
    ("paid", b"exited 5\nmodelled 7\nexited 5\npaid 8\ninward 1\n",
     {"status": 0, "outcome": "exited", "code": 5, "modelled": 7, "made_outcome": "exited", "made_code": 5, "paid": 8,
      "inward": 1}),
    ("paid", b"running\nmodelled 7\n", {"status": 0, "outcome": "running", "modelled": 7}),
    ("trace", b"steps 6\n", {"status": 0, "steps": 6, "lost": False}),
    ("trace", b"lost 4\n", {"status": 0, "steps": 4, "lost": True}),
    ("trace", b"start 331\n0x00010000 0x01000000 4\n0x00010014 0x01000010 1 w table 8 0x00011008\n",
     {"start": 331, "trace": [
         {"home": 0x00010000, "pc": 0x01000000, "steps": 4, "access": None},
         {"home": 0x00010014, "pc": 0x01000010, "steps": 1, "access": "write", "name": "table", "offset": 8,
          "address": 0x00011008}]}),
    ("show", b"", {"status": 0, "objects": [], "functions": []}),
    ("map", b"", {"status": 0}),
    ("map", b"start 0x00090040\nstub 0x00090100 1 0x00010010 16 main\nstub 0x00090160 0 0x00008000\nroutine 0x00090200\n"
     b"displaced 0x00090158 0 0x00010010 16 main\ncopy 0x01000000 1 0x00010014 20 main\nobject 0x01000040 2 0x00011000 256 table\n",
     {"status": 0, "start": 0x00090040,
      "stubs": [{"at": 0x00090100, "region": 1, "home": 0x00010010, "offset": 16, "name": "main"},
                {"at": 0x00090160, "region": 0, "home": 0x00008000}],
      "behind": [{"kind": "routine", "at": 0x00090200}],
      "words": [{"kind": "displaced", "at": 0x00090158, "region": 0, "home": 0x00010010, "offset": 16, "name": "main"},
                {"kind": "copy", "at": 0x01000000, "region": 1, "home": 0x00010014, "offset": 20, "name": "main"}],
      "objects": [{"at": 0x01000040, "region": 2, "home": 0x00011000, "size": 256, "name": "table"}]}),
    ("map", b"error 10 bad-choice 0 0\n", {"status": 10, "error": "bad-choice", "a": 0, "b": 0}),
    ("gen", b"kernels 64\n", {"status": 0, "kernels": 64}),
    ("hex", b"records 9\n", {"status": 0, "records": 9}),
    ("hexcheck", b"same\n", {"status": 0, "same": True}),
    ("relink", b"error 8 address-fault 65556 4\n", {"status": 8, "error": "address-fault", "a": 65556, "b": 4}),
    ("compare", b"error 11 differs 18446744073709551615 0\n", {"status": 11, "error": "differs", "a": 2**64 - 1, "b": 0}),
    ("show", b"error 4 unknown-key 0 0 \n", {"status": 4, "error": "unknown-key", "a": 0, "b": 0, "name": ""}),
    ("show", b"error 5 two-regions 0 0 f\n g\xc3\xa4\n",
     {"status": 5, "error": "two-regions", "a": 0, "b": 0, "name": "f\n gä"}),
]

# Texts that no command prints, or that are cut off.
WRONG: list[tuple[str, bytes]] = [
    ("run", b""), ("run", b"exited 5"), ("run", b"exited 05\n"), ("run", b"exited 5\n\n"), ("run", b"same\nexited 5\n"),
    ("compare", b"same\n"), ("check", b"optimal\nbefore 1\n"), ("check", b"optimal\nbefore 1\nafter 1\nstatic data"),
    ("relink", b"optimal\nbefore 1\nafter 1\nstatic data 0x01000000 256 tabl\n"),
    ("relink", b"optimal\nbefore 1\nafter 1\nstatic data 0x01000000 255 table\n"),
    ("relink", b"optimal\nbefore 1\nafter 1\nstatic data 0x0100000A 256 table\n"),
    ("show", b"function 0x00010000 0 main\nobject 0x00011000 256 table\n"), ("show", b"object 0x00011004 256 table\n"),
    ("paid", b"exited 5\nmodelled 7\n"), ("paid", b"trapped\nmodelled 7\ntrapped\npaid 7\ninward 0\n"),
    ("trace", b"start 1\n0x00010000 0x00010000 1 r table 256 0x01000100\n"), ("trace", b"steps 6\nstart 1\n"),
    ("map", b"start 0x00090040\ncopy 0x01000000 1 0x00010014 21 main\n"), ("map", b"images 0x00090100\n"),
    ("gen", b"records 3\n"), ("hexcheck", b"error 11 differs 1\n"), ("hex", b"error 5 overlap 0 1 x\n"),
    ("show", b"error 5 unknown-function 0 0\n"), ("gen", b"kernels 4error 3 write 0 0\n"),
]


def loaded_tool() -> ModuleType:
    loader = SourceFileLoader("tools_json", str(TOOL))
    module = importlib.util.module_from_spec(importlib.util.spec_from_loader("tools_json", loader))
    loader.exec_module(module)
    return module


tool = loaded_tool()


class Given(tool.Names):
    """The names of a file that is given by its bytes."""

    def __init__(self, found: bytes | None) -> None:
        super().__init__(None)
        self.found = found

    def file(self) -> bytes:
        return super().file() if self.found is None else self.found


def through_json(command: str, text: bytes, file: bytes | None) -> Any:
    """The object of a text, as its JSON tells it."""
    return json.loads(json.dumps(tool.read_text(command, text, Given(file))))


def is_refused(command: str, text: bytes, file: bytes | None) -> bool:
    try:
        tool.read_text(command, text, Given(file))
    except tool.Refused:
        return True
    return False


# ---- files with other names

def sections_of(file: bytes) -> list[list[int]]:
    start, = struct.unpack_from("<I", file, 32)
    count, = struct.unpack_from("<H", file, 48)
    return [list(struct.unpack_from("<10I", file, start + SECTION * index)) for index in range(count)]


def renamed(file: bytes, other: dict[bytes, bytes]) -> bytes:
    """A file whose objects and functions have other names: the string table of its symbols stands anew at its end."""
    made, sections = bytearray(file), sections_of(file)
    place = next(index for index, section in enumerate(sections) if section[1] == SYMBOL_TABLE)
    table, strings = sections[place], sections[sections[place][6]]
    text = file[strings[4]:strings[4] + strings[5]]
    for at in range(table[4], table[4] + table[5], 16):
        first, = struct.unpack_from("<I", file, at)
        name = text[first:text.index(b"\0", first)] if first < strings[5] else b""
        if name in other and file[at + 12] & 15 in (1, 2):
            struct.pack_into("<I", made, at, len(text))
            text += other[name] + b"\0"
    start, = struct.unpack_from("<I", file, 32)
    struct.pack_into("<2I", made, start + SECTION * table[6] + 16, len(made), len(text))
    return bytes(made) + text


def made_file(symbols: list[tuple[bytes, int, int, int]]) -> bytes:
    """A file that has symbols alone: name, kind, value and size of each."""
    text, records = b"\0", b""
    for name, kind, value, size in symbols:
        records += struct.pack("<3I2BH", len(text), value, size, kind, 0, 1)
        text += name + b"\0"
    head = b"\x7fELF\x01\x01\x01" + bytes(9) + struct.pack("<2H5I6H", 2, 243, 1, 0, 0, HEADER, 0, HEADER, 32, 0, 40, 3, 2)
    first = HEADER + 3 * SECTION
    tables = [(0, 0, 0, 0, 0, 0, 0, 0, 0, 0), (0, SYMBOL_TABLE, 0, 0, first, len(records), 2, 0, 4, 16),
              (0, STRING_TABLE, 0, 0, first + len(records), len(text), 0, 0, 1, 0)]
    return head + b"".join(struct.pack("<10I", *table) for table in tables) + records + text


def rows_of(value: Any) -> Iterator[Any]:
    for rows in value.values():
        yield from (row for row in rows if "name" in row) if isinstance(rows, list) else ()


def with_names(value: Any, other: dict[bytes, bytes]) -> Any:
    """An object with other names."""
    made = copy.deepcopy(value)
    for row in rows_of(made):
        name = tool.name_of(row)
        row.pop("name_hex", None)
        tool.put_name(row, other.get(name, name))
    return made


# ---- tries

def file_of(call: Call) -> bytes | None:
    if call.words[0] == "gen" or len(call.words) < 2:
        return None
    if call.words[1] == "made":
        return made_file(GENERATED)
    return call.files.get(call.words[1])


def texts_of(call: Call) -> list[bytes]:
    printed = [call.prints] if call.words[0] in tool.FORMS and call.prints is not None else []
    return printed + ([call.written] if call.written is not None else [])


def try_case(tally: Tally, call: Call, text: bytes, file: bytes | None) -> None:
    if text == b"" and call.status != 0:
        return  # standard output failed
    if call.status == PRINT_FAILED and not text.startswith(b"error "):
        tally.note(is_refused(call.words[0], text, file), f"{call.case}: takes a text that is cut off")
        return
    value = through_json(call.words[0], text, file)
    told = value.get("status", call.status) == call.status and value["command"] == call.words[0]
    tally.note(told and tool.text_of(value) == text, f"{call.case}: {text!r}")


def try_cases(tally: Tally) -> None:
    """Each text of the lists comes out of its JSON again."""
    for call in calls():
        for text in texts_of(call):
            try_case(tally, call, text, file_of(call))


def other_names(file: bytes, round_of: int, keeps_functions: bool) -> dict[bytes, bytes]:
    found = Given(file)
    found.read()
    symbols = found.symbols
    names = sorted(name for name in symbols if not keeps_functions or all(one.kind == 1 for one in symbols[name]))
    return {name: OTHER_NAMES[(place + round_of) % len(OTHER_NAMES)](name) for place, name in enumerate(names)}


def try_other_names(tally: Tally) -> None:
    """The texts that commands print for files with other names have the objects with these names."""
    for call in calls():
        file = file_of(call)
        for text in texts_of(call) if call.words[0] in NAMED and call.status == 0 and file is not None else []:
            value = through_json(call.words[0], text, file)
            for round_of in range(len(OTHER_NAMES) if any(rows_of(value)) else 0):
                other = other_names(file, round_of, False)
                expected = with_names(value, other)
                read = through_json(call.words[0], tool.text_of(expected), renamed(file, other))
                tally.note(read == expected, f"{call.case}, with names {round_of}")


def try_expected(tally: Tally) -> None:
    file = (DATA / "sums.elf").read_bytes()
    for command, text, expected in EXPECTED:
        tally.note(through_json(command, text, file) == {"command": command, **expected}, f"{command}: {text!r}")
    for command, text in WRONG:
        tally.note(is_refused(command, text, file), f"{command} takes {text!r}")


def try_bytes(tally: Tally) -> None:
    """The name `table` of sums.elf with other bytes: newlines, blanks, and one that is no UTF-8."""
    file = (DATA / "sums.elf").read_bytes()
    assert file.count(b"\0table\0") == 1
    for name, shown, digits in [(b"ta\nle", "ta\nle", None), (b"t b\ne", "t b\ne", None),
                                (b"\n\n \n ", "\n\n \n ", None), (b"tab\xffe", "tab\ufffde", "746162ff65"),
                                (b"\xef\xbf\xbd\xc3\n", "\ufffd\ufffd\n", "efbfbdc30a")]:
        text = b"object 0x00011000 256 " + name + b"\nfunction 0x00010000 0 main\n"
        value = through_json("show", text, file.replace(b"\0table\0", b"\0" + name + b"\0"))
        row = value["objects"][0]
        right = row["name"] == shown and row.get("name_hex") == digits
        tally.note(right and tool.text_of(value) == text, f"show with the name {name!r}")


def try_two_ways(tally: Tally) -> None:
    """A text that can be read in two ways is refused, and one that can't is not."""
    text = b"steps 1\nexited 0\nobject 1 2 a\nobject 1 2 a\n"
    one, both = (b"a\nobject 1 2 a", 1, 64, 4), (b"a", 1, 72, 4)
    tally.note(is_refused("profile", text, made_file([one, both])), "a text that can be read in two ways")
    tally.note(len(through_json("profile", text, made_file([one]))["objects"]) == 1, "a name of two lines")
    tally.note(len(through_json("profile", text, made_file([both]))["objects"]) == 2, "two lines of one name")
    tally.note(is_refused("profile", text, None), "a text with names, without a file")
    tally.note(is_refused("profile", text, made_file([])), "a text with names, of a file without them")


def ran(words: list[str], given: bytes) -> tuple[int, bytes]:
    done = subprocess.run([str(TOOL), *words], input=given, capture_output=True)
    return done.returncode, done.stdout


def try_words(tally: Tally) -> None:
    """The tool itself, by its words and its statuses."""
    file = str(DATA / "sums.elf")
    text = b"optimal\nbefore 326040\nafter 278918\nstatic data 0x01000000 256 table\n"
    status, made = ran(["relink", file], text)
    tally.note(status == 0 and made.isascii() and made.count(b"\n") == 1, "relink FILE")
    tally.note(ran(["--back"], made) == (0, text), "--back")
    tally.note(ran(["run"], b"exited 0\n")[0] == 0, "run without FILE")
    for words, given, wanted in [(["relink"], text, 1), (["relink", f"{file}.none"], text, 1),
                                 (["relink", str(TOOL)], text, 1), (["--back"], b"{}", 1), (["--back"], b"{", 1),
                                 ([], text, 2), (["relnik", file], text, 2), (["--back", "relink"], made, 2)]:
        tally.note(ran(words, given) == (wanted, b""), f"{words} has not status {wanted}")


# ---- the program

def is_renamable(call: Call) -> bool:
    """Whether it is known what the program prints where the objects of FILE have other names."""
    reads = 2 if call.words[0] == "show" else 4 if call.words[0] == "trace" else 3
    is_given = all(name in call.files for name in call.words[1:reads + 1])
    is_told = call.words[0] in NAMED and call.status == 0 and bool(call.prints)
    return is_told and is_given and b"fix" not in call.files["board"]


def printed_by(program: str, call: Call, file: bytes) -> list[bytes]:
    """What a call prints, and what trace writes."""
    with tempfile.TemporaryDirectory() as folder:
        for name, found in {**call.files, call.words[1]: file}.items():
            Path(folder, name).write_bytes(found)
        words = [os.path.abspath(program), *call.words]
        printed = subprocess.run(words, cwd=folder, stdin=subprocess.DEVNULL, capture_output=True).stdout
        return [printed] + ([Path(folder, call.words[6]).read_bytes()] if call.words[0] == "trace" else [])


def try_program(tally: Tally, program: str) -> None:
    """What the program prints where objects have other names."""
    for round_of, call in enumerate(call for call in calls() if is_renamable(call)):
        file = call.files[call.words[1]]
        other = other_names(file, round_of, True)
        for text, printed in zip(texts_of(call), printed_by(program, call, renamed(file, other))):
            expected = with_names(through_json(call.words[0], text, file), other)
            tally.note(printed == tool.text_of(expected), f"{call.case}: the program prints {printed!r}")
            read = through_json(call.words[0], printed, renamed(file, other))
            tally.note(read == expected, f"{call.case}: the program's text is read as {read}")
