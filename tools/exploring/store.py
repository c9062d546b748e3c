"""Calls of spmlink, each made once: what one answered stands in a folder under the hash of all that it read."""
from __future__ import annotations

import contextlib
import fcntl
import hashlib
import json
import os
import shutil
import signal
import subprocess
import sys
import threading
from concurrent.futures import Future, ThreadPoolExecutor, as_completed, wait
from dataclasses import dataclass
from pathlib import Path
from typing import BinaryIO, Callable, Iterable

from .boards import Board

REFUSALS = range(4, 9)  # statuses that tell of the file and the board; all others are no answer to keep


class Unanswered(Exception):
    """spmlink was ended, or could not read, write or have memory."""


@dataclass(frozen=True)
class Answer:
    status: int
    lines: list[str]
    told: list[str]  # on standard error

    def number(self, word: str) -> int | None:
        return next((int(it.split(" ")[1]) for it in self.lines if it.startswith(word + " ")), None)

    @property
    def after(self) -> float:
        """Infinite where the call was refused."""
        found = self.number("after")
        return float("inf") if found is None or self.status else found

    @property
    def overlays(self) -> bool:
        return any(it.startswith(("overlay ", "kept ")) for it in self.lines)

    @property
    def fault(self) -> str:
        return " ".join(self.lines[:1])


@dataclass(frozen=True)
class Question:
    command: str  # relink, profile or show
    board: Board
    input: int = 0  # for profile: which one


Hear = Callable[[Question, Answer], None]


class Store:
    def __init__(self, folder: Path, program: str, file: Path, inputs: list[Path], weights: list[int], processes: int):
        self.folder, self.program, self.weights, self.processes = folder, program, weights, processes
        self.answers: dict[str, Answer] = {}
        self.running: set[subprocess.Popen[bytes]] = set()
        self.mutex, self.stopped = threading.Lock(), False
        self.made = {"relink": 0, "profile": 0, "show": 0}
        self.kept = 0
        self.results, self.trials = folder / "results", folder / "trials"
        self.lock = locked(folder)
        self.results.mkdir(exist_ok=True)
        self.take_up()
        shutil.rmtree(self.trials, ignore_errors=True)
        self.trials.mkdir()
        self.file = self.snapshot(file, "file")
        self.inputs = [self.snapshot(path, f"input{number}") for number, path in enumerate(inputs)]
        self.hashes = [hashlib.sha256(it).hexdigest() for it in (self.file, *self.inputs)]
        self.names = [f"input{number}" for number in range(len(inputs))]
        (self.trials / "mix").write_text("".join(f"{weight} {name}\n" for weight, name in zip(weights, self.names)))

    def snapshot(self, path: Path, name: str) -> bytes:
        """What stands under the path now is what all calls read."""
        content = path.read_bytes()
        (self.trials / name).write_bytes(content)
        return content

    def take_up(self) -> None:
        """The answers of relinks that were under way when a call was killed. Each holds the lock of its output to its end."""
        for path in self.trials.glob("*.out"):
            with path.open() as out:
                fcntl.flock(out, fcntl.LOCK_EX)
            answer = Answer(*self.printed(path.stem))
            if answer.number("after") is not None:
                self.keep(path.stem, answer)

    def printed(self, key: str) -> tuple[int, list[str], list[str]]:
        """The status by what was printed, and both outputs."""
        out, told = ((self.trials / f"{key}.{it}").read_text(errors="surrogateescape").split("\n")[:-1] for it in ("out", "err"))
        words = out[0].split(" ") if out else []
        return int(words[1]) if words[:1] == ["error"] else 0, out, told

    def keep(self, key: str, answer: Answer) -> None:
        new = self.trials / f"{key}.json"
        new.write_text(json.dumps(vars(answer)))
        os.replace(new, self.results / key)

    def ask(self, question: Question) -> Answer:
        return self.ask_all([question])[0]

    def relink(self, board: Board) -> Answer:
        return self.ask(Question("relink", board))

    def ask_all(self, questions: list[Question], hear: Hear = lambda question, answer: None) -> list[Answer]:
        """The answers in the order of the questions. `hear` is told of each answer as it comes."""
        keys = [self.key(it) for it in questions]
        wanted = {}
        for key, question in zip(keys, questions):
            if self.known(key):
                hear(question, self.answers[key])
            else:
                wanted[key] = question
        with ThreadPoolExecutor(self.processes) as pool:
            futures = {pool.submit(self.call, key, question): (key, question) for key, question in wanted.items()}
            try:
                for future in as_completed(futures):
                    key, question = futures[future]
                    self.answers[key] = future.result()
                    hear(question, self.answers[key])
            except BaseException:
                self.stop(futures)
                raise
        return [self.answers[key] for key in keys]

    def key(self, question: Question) -> str:
        """Of `show` the inputs are no part, and of `profile` one is."""
        read = [*self.hashes[1:], *map(str, self.weights)]
        if question.command != "relink":
            read = [self.hashes[1 + question.input]] if question.command == "profile" else []
        parts = [question.command, self.hashes[0], question.board.text, *read]
        return hashlib.sha256("\0".join(parts).encode(errors="surrogateescape")).hexdigest()

    def known(self, key: str) -> bool:
        if key not in self.answers:
            try:
                self.answers[key] = Answer(**json.loads((self.results / key).read_text()))
            except FileNotFoundError:
                return False
            self.kept += 1
        return True

    def call(self, key: str, question: Question) -> Answer:
        board = self.trials / f"{key}.toml"
        board.write_text(question.board.text, encoding="utf-8", errors="surrogateescape")
        answer = self.run(self.words(question, key), key)
        self.keep(key, answer)
        for ending in ("toml", "cert", "out", "err"):
            (self.trials / f"{key}.{ending}").unlink(missing_ok=True)
        with self.mutex:
            self.made[question.command] += 1
        return answer

    def words(self, question: Question, key: str) -> list[str]:
        if question.command == "show":
            return ["show", "file", f"{key}.toml"]
        if question.command == "profile":
            return ["profile", "file", f"{key}.toml", self.names[question.input]]
        several = self.weights != [1]
        return ["mix" if several else "relink", "file", f"{key}.toml", "mix" if several else "input0", "/dev/null", f"{key}.cert"]

    def run(self, words: list[str], key: str) -> Answer:
        with (self.trials / f"{key}.out").open("wb") as out, (self.trials / f"{key}.err").open("wb") as told:
            fcntl.flock(out, fcntl.LOCK_EX)
            process = self.begin(words, out, told)
            process.wait()
        with self.mutex:
            self.running.discard(process)
        answer = Answer(*self.printed(key))
        if process.returncode != answer.status or process.returncode not in (0, *REFUSALS):
            raise Unanswered("\n".join([f"{' '.join([self.program, *words])}: status {process.returncode}",
                                        *answer.lines, *answer.told]))
        return answer

    def begin(self, words: list[str], out: BinaryIO, told: BinaryIO) -> subprocess.Popen[bytes]:
        with self.mutex:
            if self.stopped:
                raise Unanswered("stopped")
            process = subprocess.Popen([self.program, *words], cwd=self.trials, stdin=subprocess.DEVNULL, stdout=out, stderr=told,
                                       start_new_session=True)
            self.running.add(process)
        return process

    def stop(self, futures: Iterable[Future[Answer]]) -> None:
        """Begins nothing more, and waits for what is under way. A further signal cuts that off."""
        with self.mutex:
            self.stopped = True
        for future in futures:
            future.cancel()
        try:
            wait(futures)
        except BaseException:
            self.cut_off()
            raise

    def cut_off(self) -> None:
        with self.mutex:
            for process in self.running:
                with contextlib.suppress(ProcessLookupError):
                    os.killpg(process.pid, signal.SIGTERM)

    def close(self) -> None:
        shutil.rmtree(self.trials, ignore_errors=True)
        os.close(self.lock)


def locked(folder: Path) -> int:
    """Two searches in one folder would make the same calls."""
    folder.mkdir(parents=True, exist_ok=True)
    lock = os.open(folder / "lock", os.O_CREAT | os.O_RDWR, 0o644)
    try:
        fcntl.flock(lock, fcntl.LOCK_EX | fcntl.LOCK_NB)
    except OSError:
        sys.exit(f"explore: another explore is at work in {folder}")
    return lock
