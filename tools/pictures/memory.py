"""The memory map: main memory before and after, and the scratchpad in each region."""

from pictures.svg import Picture, clip, colour_of, width_of

LEFT, WIDTH = 130, 730
TIES = 24  # ties from homes to places, at most


def when(item):
    if not item.regions:
        return "throughout"
    return ("in region " if len(item.regions) == 1 else "in regions ") + " and ".join(map(str, item.regions))


def what(item):
    return f"{item.size} bytes" + (" of code" if item.kind == "code" else "")


def scaled(sizes, width, least):
    """Widths in proportion to sizes, none below the least."""
    small = {k for k, size in enumerate(sizes) if size * width < least * sum(sizes)}
    rest = sum(size for k, size in enumerate(sizes) if k not in small) or 1
    room = width - least * len(small)
    return [least if k in small else size * room / rest for k, size in enumerate(sizes)]


class MainBar:
    """Sections of main memory side by side. Gaps between them are not drawn, and small ones are drawn wider."""

    def __init__(self, run, x, width):
        self.sections = run.elf.loaded()
        self.widths = scaled([s.size for s in self.sections], width, 30)
        self.lefts = [x + sum(self.widths[:k]) for k in range(len(self.sections))]

    def place(self, home, size):
        """Where bytes are drawn: from x, so wide."""
        for section, left, width in zip(self.sections, self.lefts, self.widths):
            if section.holds(home):
                return left + width * (home - section.base) / section.size, max(width * size / section.size, 1.5)
        return None

    def draw(self, picture, y, run, after):
        for section, left, width in zip(self.sections, self.lefts, self.widths):
            picture.box(left, y, width, 30, "frame", hint=f"{section.name}: {section.size} bytes at {section.base:#010x}")
        for item in first_of_each(run.items):
            x, width = self.place(item.home, item.home_bytes)
            hint = f"{item.name}: {item.home_bytes} bytes at {item.home:#010x}"
            if after:
                picture.box(x, y + 2, width, 26, "left", hint=f"home of {hint}", item=item.number)
            else:
                picture.box(x, y + 2, width, 26, "", colour_of(item.number), hint, item=item.number)
        for section, left, width in zip(self.sections, self.lefts, self.widths):
            if not after and width > width_of(section.name, 11):
                picture.text(left, y - 5, section.name, "small soft")


def first_of_each(items):
    """What moves to several places has one home."""
    seen = set()
    return [item for item in items if (item.kind, item.home) not in seen and not seen.add((item.kind, item.home))]


class SpmBar:
    """A scratchpad: the part that is used, at most 16 times stretched."""

    def __init__(self, run):
        self.base, self.size = run.board["spm"]
        used = max((item.place + item.size - self.base for item in run.items), default=0)
        self.shown = self.size if used * 1.5 > self.size or not used else -(-used // 16) * 16

    def x(self, address):
        room = WIDTH if self.shown == self.size else WIDTH - 110
        return LEFT + room * (address - self.base) / self.shown

    def draw(self, picture, y, items):
        picture.box(LEFT, y, WIDTH, 34, "frame")
        for item in items:
            x, width = self.x(item.place), self.x(item.place + item.size) - self.x(item.place)
            hint = f"{item.name}: {what(item)} at {item.place:#010x}, {when(item)}"
            picture.box(x, y + 1, max(width, 2), 32, "edge", colour_of(item.number), hint, item=item.number)
            for label in (f"{item.number} {item.name}", str(item.number)):
                if width_of(label) + 6 < width:
                    picture.text(x + width / 2, y + 21, label, "on middle")
                    break
        if self.shown < self.size:
            picture.text(LEFT + WIDTH - 8, y + 21, f"{self.size - self.shown} bytes free", "small soft end")

    def draw_scale(self, picture, y, items):
        """Addresses of the places, as many as there is room for."""
        right = 0
        for address in sorted({item.place for item in items}):
            x = self.x(address)
            if x > right:
                picture.rule(x, y, x, y + 4)
                picture.text(x, y + 15, f"{address:#010x}", "small soft")
                right = x + width_of("0x00000000", 11) + 6


def draw_ties(picture, main, spm, items, top, bottom):
    """From the home of each thing to its place in the first bar that has it."""
    for item in sorted(items, key=lambda item: -item.size)[:TIES]:
        x, width = main.place(item.home, item.home_bytes)
        to, until = spm.x(item.place), spm.x(item.place + item.size)
        middle = (top + bottom) / 2
        picture.path(f"M{x:.1f} {top} C{x:.1f} {middle} {to:.1f} {middle} {to:.1f} {bottom} L{until:.1f} {bottom} "
                     f"C{until:.1f} {middle} {x + width:.1f} {middle} {x + width:.1f} {top} Z", "tie", colour_of(item.number))


def region_name(run, region):
    names = [f.name for f in run.code.functions if f.region == region]
    return f"region {region}" if region else "whole run", ", ".join(names)


def draw_legend(picture, items):
    half = -(-len(items) // 2)
    top = picture.height + 8
    for k, item in enumerate(items):
        x, y = 20 + 430 * (k // half), top + 19 * (k % half)
        picture.box(x, y, 13, 13, "", colour_of(item.number))
        told = f"{what(item)}, {when(item)}"
        picture.text(x + 20, y + 11, f"{item.number}  {clip(item.name, 400 - width_of(told, 11) - 30)}")
        picture.text(x + 405, y + 11, told, "small soft end")
    picture.height = top + 19 * half


def memory_picture(run, title):
    picture = Picture(f"{title}: memory map")
    picture.heading(f"{title}: what moved, and where to", "title")
    picture.say(f"Energy {run.report.before:,} before and {run.report.after:,} after ({run.report.proof}). Sections are as "
                "wide as they are large; a small one is drawn wider.")
    picture.height += 34
    main = MainBar(run, LEFT, WIDTH - 150)
    for after in (False, True):
        y = picture.height
        picture.text(20, y + 13, "after: OUT" if after else "before: FILE")
        picture.text(20, y + 27, "main memory", "small soft")
        main.draw(picture, y, run, after)
        draw_patch(picture, y, run.patch_bytes if after else 0)
        if not after:
            picture.text(LEFT + WIDTH - 130, y - 5, "patch range", "small soft")
        picture.height += 44 if not after else 30
    draw_scratchpads(picture, run, main)
    picture.height += 26
    if run.items:
        draw_legend(picture, run.items)
        picture.say("Dashed: homes in OUT. Objects keep their old bytes there; where code moved, a jump leads to its stub in the "
                    "patch range, which leads to the copy.")
    return picture


def draw_patch(picture, y, size):
    x = LEFT + WIDTH - 130
    picture.box(x, y, 130, 30, "frame")
    picture.text(x + 65, y + 19, f"{size:,} bytes" if size else "unused", "small middle" if size else "small soft middle")


def draw_scratchpads(picture, run, main):
    spm, top = SpmBar(run), picture.height
    picture.height += 46
    regions = run.regions() or [0]
    drawn = set()
    bars = picture.height
    for k, region in enumerate(regions):
        new = [item for item in run.stands_in(region) if item.number not in drawn]
        drawn |= {item.number for item in new}
        draw_ties(picture, main, spm, new, top, bars + 44 * k)
    for region in regions:
        y = picture.height
        name, functions = region_name(run, region)
        picture.text(20, y + 14, name if region else "scratchpad")
        picture.text(20, y + 28, clip(functions, 108, 11) if region else name, "small soft")
        spm.draw(picture, y, run.stands_in(region))
        picture.height += 44
    spm.draw_scale(picture, picture.height - 9, run.items)
