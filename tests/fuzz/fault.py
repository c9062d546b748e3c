"""What a command answers: a fault line with its status, or that the second path can't tell."""

WORD = 2**32


class Fault(Exception):
    """A refusal: its status, and what its line says."""

    def __init__(self, status: int, word: str, a: int = 0, b: int = 0, name: bytes | None = None):
        super().__init__(status, word, a, b, name)
        self.status = status
        # A number that no word holds is told as the greatest one.
        self.text = f"error {status} {word} {min(a, WORD - 1)} {min(b, WORD - 1)}".encode()
        if name is not None:
            self.text += b" " + name

    def line(self) -> bytes:
        return self.text + b"\n"


class Untold(Exception):
    """The second path doesn't tell what the answer is."""


class Endless(Exception):
    """A run that takes or writes so much that it isn't tried."""
