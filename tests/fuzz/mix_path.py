"""The second path of the text that lists the inputs of a mix (docs/COMMAND_LINE.md, "mix and checkmix")."""

import re

from fault import Fault

LINE = re.compile(rb"([1-9][0-9]{0,2}|1000) ([!-,.-~][!-~]{0,254})\n")
MOST_LINES = 16


def read(text: bytes, outputs: tuple[bytes, ...]) -> list[tuple[int, bytes]]:
    """The weights and names of a text, or its first line that breaks a rule. The names of `outputs` are written."""
    lines: list[tuple[int, bytes]] = []
    at = 0
    while at < len(text) or not lines:
        line = LINE.match(text, at)
        if not line or len(lines) == MOST_LINES or line[2] in outputs:
            raise Fault(13, "bad-mix", at)
        lines.append((int(line[1]), line[2]))
        at = line.end()
    return lines
