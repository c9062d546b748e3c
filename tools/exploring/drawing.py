"""Draws what is saved over the size of the scratchpad, as SVG for light and dark pages."""
from __future__ import annotations

import html
from math import ceil, floor, log2

from .sizes import Row

WIDTH, HEIGHT = 640, 380
LEFT, RIGHT, TOP, BOTTOM = 56, 24, 76, 56
STYLE = """
  text { font: 13px system-ui, sans-serif; fill: #1c2733; }
  .title { font-size: 15px; font-weight: 600; }
  .small { font-size: 12px; fill: #55616d; }
  .grid { stroke: #d8dde3; }
  .axis { stroke: #7b8794; }
  .page { fill: #ffffff; }
  .own { stroke: #7b8794; stroke-dasharray: 4 4; }
  .line { fill: none; stroke-width: 2.25; }
  .without { stroke: #b35c00; } .dot-without { fill: #b35c00; }
  .with { stroke: #1769aa; } .dot-with { fill: #1769aa; }
  @media (prefers-color-scheme: dark) {
    text { fill: #e4e9ee; } .small { fill: #a5b0bb; }
    .grid { stroke: #38424c; } .axis, .own { stroke: #7f8b97; } .page { fill: #14191e; }
    .without { stroke: #f0a35a; } .dot-without { fill: #f0a35a; }
    .with { stroke: #6db7f2; } .dot-with { fill: #6db7f2; }
  }
"""


def saved(before: float, after: float) -> float:
    """In percent."""
    return 100 * (before - after) / before if before else 0.0


def bytes_text(size: int) -> str:
    return f"{size} B" if size < 1024 else f"{size / 1024:g} KiB" if size < 1 << 20 else f"{size / (1 << 20):g} MiB"


class Drawing:
    def __init__(self, title: str, before: float, rows: list[Row], own: int):
        self.title, self.before, self.rows, self.own = title, before, rows, own
        values = [saved(before, it) for row in rows for it in (row.without, row.overlaid)]
        self.low = 10 * floor(min(values) / 10)
        self.top = max(self.low + 10, 10 * ceil(max(values) / 10))
        self.first, self.last = log2(rows[0].size), max(log2(rows[-1].size), log2(rows[0].size) + 1)

    def x(self, size: int) -> float:
        return LEFT + (WIDTH - LEFT - RIGHT) * (log2(size) - self.first) / (self.last - self.first)

    def y(self, percent: float) -> float:
        return HEIGHT - BOTTOM - (HEIGHT - TOP - BOTTOM) * (percent - self.low) / (self.top - self.low)

    def grid(self) -> list[str]:
        parts = []
        for percent in range(self.low, self.top + 1, 5 if self.top - self.low <= 30 else 10):
            y = self.y(percent)
            parts += [f'<line class="grid" x1="{LEFT}" y1="{y:.1f}" x2="{WIDTH - RIGHT}" y2="{y:.1f}"/>',
                      f'<text class="small" x="{LEFT - 8}" y="{y + 4:.1f}" text-anchor="end">{percent} %</text>']
        step = max(1, round((self.last - self.first) / 8))
        for power in range(ceil(self.first), int(self.last) + 1, step):
            x = self.x(1 << power)
            parts += [f'<line class="axis" x1="{x:.1f}" y1="{self.y(self.low):.1f}" x2="{x:.1f}" y2="{self.y(self.low) + 5:.1f}"/>',
                      f'<text class="small" x="{x:.1f}" y="{self.y(self.low) + 20:.1f}" text-anchor="middle">'
                      f'{bytes_text(1 << power)}</text>']
        return [*parts, f'<line class="axis" x1="{LEFT}" y1="{self.y(self.low):.1f}" x2="{WIDTH - RIGHT}" y2="{self.y(self.low):.1f}"/>']

    def line(self, kind: str, values: list[float]) -> list[str]:
        points = [(self.x(row.size), self.y(saved(self.before, after))) for row, after in zip(self.rows, values)]
        path = " ".join(f"{x:.1f},{y:.1f}" for x, y in points)
        dots = [f'<circle class="dot-{kind}" cx="{x:.1f}" cy="{y:.1f}" r="3"/>' for x, y in points]
        return [f'<polyline class="line {kind}" points="{path}"/>', *dots]

    def key(self) -> list[str]:
        parts, x = [], LEFT
        for kind, text in (("without", "without regions"), ("with", "with regions")):
            parts += [f'<line class="line {kind}" x1="{x}" y1="50" x2="{x + 28}" y2="50"/>',
                      f'<circle class="dot-{kind}" cx="{x + 14}" cy="50" r="3"/>',
                      f'<text x="{x + 36}" y="54">{text}</text>']
            x += 170
        return [*parts, f'<line class="own" x1="{x}" y1="50" x2="{x + 28}" y2="50"/>',
                f'<text x="{x + 36}" y="54">the board\'s size, {bytes_text(self.own)}</text>']

    def parts(self) -> list[str]:
        own = self.x(self.own)
        return [f"<style>{STYLE}</style>", f'<rect class="page" width="{WIDTH}" height="{HEIGHT}"/>',
                f'<text class="title" x="{LEFT}" y="26">{html.escape(self.title)}</text>', *self.key(), *self.grid(),
                f'<line class="own" x1="{own:.1f}" y1="{TOP}" x2="{own:.1f}" y2="{self.y(self.low):.1f}"/>',
                *self.line("without", [it.without for it in self.rows]),
                *self.line("with", [it.overlaid for it in self.rows]),
                f'<text class="small" x="{(LEFT + WIDTH - RIGHT) / 2}" y="{HEIGHT - 12}" text-anchor="middle">'
                f'size of the scratchpad</text>']

    def text(self) -> str:
        parts = "\n".join(self.parts())
        return (f'<svg xmlns="http://www.w3.org/2000/svg" viewBox="0 0 {WIDTH} {HEIGHT}" width="{WIDTH}" '
                f'height="{HEIGHT}" role="img">\n<title>{html.escape(self.title)}</title>\n{parts}\n</svg>\n')
