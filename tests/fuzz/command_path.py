"""The second path of commands: what each answers on the bytes of its files, given in the order of its words."""

from collections.abc import Callable

import board_path
import cert_path
import elf_path
import hex_path
import mix_path
import objects_path
import result_path
from answers import MOST_STEPS, Among, Answer, Relinked, Run, Told
from board_path import Board
from elf_path import File
from fault import Endless, Fault, Untold
from machine_path import Machine
from regions_path import Regions
from source_path import Source

LONGEST_RUN = 3_000_000  # steps of a result that the program is to take in one call
STATUSES = {0, 4, 5, 6, 7, 8, 10, 11, 12, 13, 14}


def told(path: Callable[..., Answer], *contents: bytes) -> Answer | None:
    """The answer of a command, or the fault that comes in its place. None where the call would take long."""
    try:
        return path(*contents)
    except Fault as fault:
        return Told(fault.status, fault.line(), {})
    except Untold:
        return Among(STATUSES)
    except Endless:
        return None


def analysed(file: bytes, board: Board) -> File:
    """The tables of a file without a fault for a board."""
    tables = elf_path.read(file)
    elf_path.check_analysis(tables, board)
    return tables


def measured(file: bytes, board: Board, given: bytes) -> tuple[Source, str]:
    """The measured run of a program, and its outcome."""
    source = Source(analysed(file, board), board, given)
    return source, source.run(board.steps)


def run(file: bytes, text: bytes, given: bytes) -> Answer:
    board = board_path.read(text)
    machine = Machine(elf_path.read(file), board, given)
    outcome = machine.run(min(board.steps, MOST_STEPS))
    if outcome == "running" and board.steps > MOST_STEPS:
        raise Endless
    return Told(0, f"{outcome}\n".encode(), {"out": bytes(machine.written)})


def show(file: bytes, text: bytes) -> Answer:
    board = board_path.read(text)
    tables = analysed(file, board)
    found = objects_path.find(tables, board)
    lines = [b"object 0x%08x %d %s\n" % (one.home, one.size, one.symbols[0].name) for one in found.objects]
    return Told(0, b"".join(lines + Regions(tables, board, found).lines()), {})


def profile(file: bytes, text: bytes, given: bytes) -> Answer:
    source, outcome = measured(file, board_path.read(text), given)
    lines = [b"steps %d\n" % source.steps, f"{outcome}\n".encode()]
    lines += [b"block 0x%08x %d\n" % (at, count) for at, count in sorted(source.began.items()) if count]
    lines += [b"object %d %d %s\n" % (reads, writes, one.symbols[0].name)
              for one, reads, writes in zip(source.objects, source.reads, source.writes)]
    return Told(0, b"".join(lines), {})


def relink(file: bytes, text: bytes, given: bytes) -> Answer:
    board = board_path.read(text)
    source, outcome = measured(file, board, given)
    runs = [Run(given, bytes(source.written), outcome, source.steps)]
    other = given[::-1] + b"another input\n"
    try:
        again, outcome = measured(file, board, other)
        runs.append(Run(other, bytes(again.written), outcome, again.steps))
    except Fault:
        pass  # nothing is promised of a run that meets an address fault
    return Relinked(file, board, source.energy(), runs)


def takes_nothing(certificate: bytes) -> bool:
    """Whether a certificate takes nothing and claims nothing, so that the verdict is known. Its fault, if it has one."""
    claim = cert_path.read(certificate)
    return not (claim.side or claim.taken or claim.trees)


def check(file: bytes, text: bytes, given: bytes, certificate: bytes) -> Answer:
    """The verdict is told of a certificate that takes nothing and claims nothing."""
    board = board_path.read(text)
    source, _ = measured(file, board, given)
    if not takes_nothing(certificate):
        return Among({0, 10})
    energy = source.energy()
    return Told(0, b"best found %d\nbefore %d\nafter %d\n" % (board.nodes, energy, energy), {})


def paid(file: bytes, text: bytes, given: bytes, certificate: bytes) -> Answer:
    """What the file itself pays, where nothing is moved."""
    board = board_path.read(text)
    source, outcome = measured(file, board, given)
    if not takes_nothing(certificate):
        return Among({0, 10})
    lines = f"{outcome}\nmodelled {source.energy()}\n"
    if outcome.startswith("exited"):
        machine = result_path.paid(elf_path.read(file), board, given, 2 * source.steps)
        lines += f"{machine.outcome}\npaid {machine.paid}\ninward 0\n"
    return Told(0, lines.encode(), {})


def trace(file: bytes, text: bytes, given: bytes, certificate: bytes, count: bytes) -> Answer:
    """The trace of a program beside its own file, where nothing is moved."""
    board = board_path.read(text)
    measured(file, board, given)
    if not takes_nothing(certificate):
        return Among({0, 10})
    lines, ended = result_path.traced(elf_path.read(file), board, given, int(count))
    return Told(0, f"{ended}\n".encode(), {"out": lines})


def mixed(file: bytes, text: bytes, listed: bytes, given: bytes, outputs: tuple[bytes, ...]) -> tuple[Board, int, list[Run]]:
    """The board, and the energy and the runs of a mix that lists one input, on some lines."""
    lines = mix_path.read(listed, outputs)
    assert all(name == b"input" for _, name in lines)
    board = board_path.read(text)
    source, outcome = measured(file, board, given)
    run = Run(given, bytes(source.written), outcome, source.steps)
    return board, sum(weight for weight, _ in lines) * source.energy(), [run]


def mix(file: bytes, text: bytes, listed: bytes, given: bytes) -> Answer:
    board, energy, runs = mixed(file, text, listed, given, (b"out", b"cert"))
    return Relinked(file, board, energy, runs)


def checkmix(file: bytes, text: bytes, listed: bytes, certificate: bytes, given: bytes) -> Answer:
    board, energy, _ = mixed(file, text, listed, given, ())
    if not takes_nothing(certificate):
        return Among({0, 10})
    return Told(0, b"best found %d\nbefore %d\nafter %d\n" % (board.nodes, energy, energy), {})


def compare(file: bytes, result: bytes, text: bytes, given: bytes) -> Answer:
    board = board_path.read(text)
    tables, machine = analysed(file, board), Machine(elf_path.read(result), board, given)
    source = Source(tables, board, given)
    try:
        outcome = source.run(board.steps)
    except Fault as fault:
        raise Fault(12, *fault.args[1:]) from fault
    limit = (source.steps + 1) * (12 * len(board.spm) + 256)
    ended = machine.run(min(limit, MOST_STEPS), len(source.written) if outcome == "running" else None)
    is_enough = outcome == "running" and len(machine.written) >= len(source.written)
    if ended == "running" and limit > MOST_STEPS and not is_enough:
        if limit > LONGEST_RUN:
            raise Endless
        return Among({0, 11})
    return compared(bytes(source.written), outcome, bytes(machine.written), ended)


def compared(written: bytes, outcome: str, other: bytes, ended: str) -> Answer:
    """What `compare` prints of a program and a result by what they wrote and how they ended."""
    if outcome == "running":
        other = other[:len(written)]
    if written == other and outcome in ("running", ended):
        return Told(0, f"same\n{outcome}\n".encode(), {})
    shorter = min(len(written), len(other))
    raise Fault(11, "differs", next((at for at in range(shorter) if written[at] != other[at]), shorter))


def hex(file: bytes) -> Answer:
    text = hex_path.write(elf_path.read(file))
    return Told(0, b"records %d\n" % text.count(b"\n"), {"out": text})


def hexcheck(file: bytes, text: bytes) -> Answer:
    hex_path.check(elf_path.read(file), text)
    return Told(0, b"same\n", {})


PATHS: dict[str, Callable[..., Answer]] = {
    "run": run, "show": show, "profile": profile, "relink": relink, "check": check, "compare": compare, "hex": hex,
    "hexcheck": hexcheck, "paid": paid, "trace": trace, "mix": mix, "checkmix": checkmix}
