"""SVG pictures that grow downwards, in light and in dark: each file has the colours of both, and the viewer takes those
that it prefers. The paper is drawn, so that a viewer that knows no preference shows dark ink on white."""

import html

COLOURS = ["#3b78c3", "#b5621b", "#2f8a4c", "#b8434e", "#7d5fb8", "#1f8791", "#a84a8c", "#7a7416", "#8a6242", "#5661c9"]
STYLE = """
  text { font: 12px system-ui, 'Segoe UI', 'DejaVu Sans', Arial, sans-serif; fill: #1f2328 }
  rect { shape-rendering: crispEdges }
  .title { font-size: 17px; font-weight: 600 } .head { font-size: 14px; font-weight: 600 }
  .small { font-size: 11px } .soft { fill: #59636e } .on { fill: #ffffff; font-weight: 600 }
  .end { text-anchor: end } .middle { text-anchor: middle }
  .paper { fill: #ffffff } .frame { fill: #eef0f3; stroke: #9aa4af } .main { fill: #a3adb8 } .spm { fill: #3b78c3 }
  .moving { fill: #d0761f } .hollow { fill: none; stroke: #59636e } .rule { stroke: #9aa4af } .edge { stroke: #ffffff }
  .left { fill: #d5dae0; stroke: #9aa4af; stroke-dasharray: 2 2 } .line { fill: none; stroke: #1f2328; stroke-width: 1.5 }
  .tie { stroke: none; opacity: .28 }
  @media (prefers-color-scheme: dark) {
    text { fill: #e6edf3 } .soft { fill: #a3adb8 } .on { fill: #ffffff }
    .paper { fill: #0d1117 } .frame { fill: #1c2128; stroke: #6b7580 } .main { fill: #66707b } .spm { fill: #4f8fe0 }
    .moving { fill: #e08a3c } .hollow { stroke: #a3adb8 } .rule { stroke: #6b7580 } .edge { stroke: #0d1117 }
    .left { fill: #2b323b; stroke: #6b7580 } .line { stroke: #e6edf3 } .tie { opacity: .45 }
  }
"""


def escape(words):
    return html.escape("".join(sign if sign.isprintable() else "?" for sign in str(words)))


def colour_of(number):
    return COLOURS[(number - 1) % len(COLOURS)]


def width_of(words, size=12):
    """About how wide a text is. Rather too wide, so that nothing is cut."""
    return len(str(words)) * size * 0.6


def clip(words, width, size=12):
    words = str(words)
    count = int(width / (size * 0.6))
    return words if len(words) <= count else words[:max(count - 1, 0)] + "…"


class Picture:
    def __init__(self, title, width=880):
        self.width, self.height, self.parts, self.title = width, 0, [], title

    def add(self, element):
        self.parts.append(element)

    def box(self, x, y, width, height, kind="", colour=None, hint="", **data):
        """A rectangle of a class, or of a colour; `data` are further attributes, as data-before."""
        told = f"<title>{escape(hint)}</title>" if hint else ""
        paint = f' fill="{colour}"' if colour else ""
        kept = "".join(f' data-{key}="{escape(value)}"' for key, value in data.items())
        self.add(f'<rect class="{kind}" x="{x:.1f}" y="{y:.1f}" width="{max(width, 0):.1f}" height="{height:.1f}"{paint}{kept}>'
                 f"{told}</rect>")

    def text(self, x, y, words, kind=""):
        self.add(f'<text class="{kind}" x="{x:.1f}" y="{y:.1f}">{escape(words)}</text>')

    def rule(self, x1, y1, x2, y2, dashes=""):
        dashed = f' stroke-dasharray="{dashes}"' if dashes else ""
        self.add(f'<line class="rule" x1="{x1:.1f}" y1="{y1:.1f}" x2="{x2:.1f}" y2="{y2:.1f}"{dashed}/>')

    def path(self, way, kind, colour=None):
        paint = f' fill="{colour}"' if colour else ""
        self.add(f'<path class="{kind}" d="{way}"{paint}/>')

    def heading(self, words, kind="head"):
        self.height += 30 if kind == "title" else 28
        self.text(20, self.height, words, kind)
        self.height += 8

    def say(self, words, kind="soft"):
        """A paragraph, in as many lines as it takes."""
        line = ""
        for word in words.split(" "):
            if line and width_of(f"{line} {word}", 11.2) > self.width - 40:
                self.say_line(line, kind)
                line = word
            else:
                line = f"{line} {word}".strip()
        self.say_line(line, kind)

    def say_line(self, words, kind):
        self.height += 17
        self.text(20, self.height, words, kind)

    def markup(self):
        height = self.height + 18
        return (f'<svg xmlns="http://www.w3.org/2000/svg" width="{self.width}" height="{height:.0f}" '
                f'viewBox="0 0 {self.width} {height:.0f}" role="img">\n<title>{escape(self.title)}</title>\n'
                f"<style>{STYLE}</style>\n"
                f'<rect class="paper" width="100%" height="100%"/>\n' + "\n".join(self.parts) + "\n</svg>\n")

    def write(self, name):
        with open(name, "w", encoding="utf-8") as out:
            out.write(self.markup())
