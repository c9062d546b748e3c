"""Counts what was tried."""

from __future__ import annotations


class Tally:
    def __init__(self) -> None:
        self.tried, self.wrong, self.skipped = 0, 0, 0

    def note(self, is_right: bool, what: str) -> None:
        self.tried += 1
        if not is_right:
            self.wrong += 1
            print(f"wrong: {what}")

    def skip(self, why: str) -> None:
        self.skipped += 1
        print(f"skipped: {why}")
