"""What the second paths tell of a call, and whether what came is that."""

import re
from dataclasses import dataclass

import elf_path
from board_path import Board
from fault import Endless, Fault
from machine_path import Machine

MOST_STEPS = 5000  # of a run that is compared
FAULT = re.compile(rb"error (\d+) ([a-z-]+) \d+ \d+( .*)?\n", re.DOTALL)
# Refusals whose line says all: standard error says no more of them.
PLAIN_STATUSES = (10, 11, 14)
PLAIN_WORDS = (b"unknown-function", b"two-regions", b"patch-too-small", b"spm-meets-patch", b"spm-at-zero")


class Failure(Exception):
    """What came isn't what the second paths tell."""


@dataclass
class Came:
    """What came of a call: its status, what it printed, and what stands then under each name."""

    status: int
    printed: bytes
    said: bytes
    after: dict[str, bytes]


@dataclass
class Told:
    """Status, standard output, and what stands then under the names that were written."""

    status: int
    printed: bytes
    written: dict[str, bytes]
    is_compared = True

    def judge(self, came: Came) -> None:
        if (came.status, came.printed) != (self.status, self.printed):
            raise Failure(f"answers {came.status} {came.printed!r}, and is to answer {self.status} {self.printed!r}")
        for name, content in self.written.items():
            if came.after.get(name) != content:
                raise Failure(f"wrote another {name} than {content!r:.200}")


@dataclass
class Among:
    """One of some statuses: the second paths tell no more."""

    statuses: set[int]
    is_compared = False

    def judge(self, came: Came) -> None:
        if came.status not in self.statuses:
            raise Failure(f"answers {came.status} {came.printed!r}, and is to answer one of {sorted(self.statuses)}")


@dataclass
class Run:
    """What a program does on an input: what it writes, how it ends, and in how many steps."""

    given: bytes
    written: bytes
    outcome: str
    steps: int


@dataclass
class Relinked:
    """A report whose choice is free, and a file that does what the program did on each input."""

    file: bytes
    board: Board
    before: int
    runs: list[Run]
    is_compared = True

    def judge(self, came: Came) -> None:
        report = re.fullmatch(rb"(optimal|best found %d)\nbefore %d\nafter (\d+)\n(.*)" % (self.board.nodes, self.before),
                              came.printed, re.DOTALL)
        if came.status or not report:
            raise Failure(f"answers {came.status} {came.printed!r}, and is to print a report with before {self.before}")
        if report[3]:
            for run in self.runs:
                self.judge_result(came.after.get("out", b""), run)
        elif came.after.get("out") != self.file or int(report[2]) != self.before:
            raise Failure("moved nothing, and changed the file or its energy")

    def judge_result(self, result: bytes, run: Run) -> None:
        try:
            machine = Machine(elf_path.read(result), self.board, run.given)
            outcome = machine.run(2 * run.steps + MOST_STEPS)
        except Fault as fault:
            raise Failure(f"made a file that has a fault: {fault.text!r}") from fault
        except Endless:
            return
        shorter = min(len(machine.written), len(run.written))
        if machine.written[:shorter] != run.written[:shorter]:
            raise Failure(f"made a file that writes {bytes(machine.written)!r:.200}, and not {run.written!r:.200}")
        if "running" not in (outcome, run.outcome) and (outcome, machine.written) != (run.outcome, run.written):
            raise Failure(f"made a file whose outcome is {outcome}, and not {run.outcome}")


@dataclass
class Paid:
    """What a choice of known energy pays: just that, where no call is inward."""

    after: int
    is_compared = True

    def judge(self, came: Came) -> None:
        lines = re.fullmatch(rb"(exited \d+)\nmodelled (\d+)\n(.*)\npaid (\d+)\ninward (\d+)\n", came.printed)
        if came.status or not lines or lines[1] != lines[3] or int(lines[2]) != self.after:
            raise Failure(f"answers {came.status} {came.printed!r}, and is to model {self.after}")
        if int(lines[5]) == 0 and lines[4] != lines[2]:
            raise Failure(f"prints {came.printed!r}, which isn't what is modelled")


@dataclass
class Beside:
    """What a trace tells of a program, step by step, whatever is moved."""

    units: list[bytes]
    is_compared = True

    def judge(self, came: Came) -> None:
        if (came.status, came.printed) != (0, b"steps %d\n" % len(self.units)):
            raise Failure(f"answers {came.status} {came.printed!r}, and is to trace {len(self.units)} steps")
        first, *lines = came.after.get("out", b"").split(b"\n")[:-1]
        told = [re.fullmatch(rb"(0x[0-9a-f]{8}) 0x[0-9a-f]{8} [1-9][0-9]*(?:( [rw] .* [0-9]+) 0x[0-9a-f]{8})?", line) for line in lines]
        if not re.fullmatch(rb"start [0-9]+", first) or [line and line[1] + (line[2] or b"") for line in told] != self.units:
            raise Failure(f"traces {lines!r:.400}, and is to tell of {self.units!r:.400}")


Answer = Told | Among | Relinked | Paid | Beside


def judge(answer: Answer, came: Came, command: str) -> None:
    answer.judge(came)
    if came.status:
        judge_refusal(came, command)


def judge_refusal(came: Came, command: str) -> None:
    line = FAULT.fullmatch(came.printed)
    if not line or int(line[1]) != came.status:
        raise Failure(f"answers {came.status} and prints {came.printed!r}")
    is_plain = came.status in PLAIN_STATUSES or line[2] in PLAIN_WORDS
    is_of_result = command == "compare" and came.status in (5, 6)
    if not (came.said or is_plain or is_of_result):
        raise Failure("says nothing on standard error")
