"""What stands in the scratchpad in each region, and its share of the scratchpad and of the energy there."""

from pictures.energy import percent
from pictures.memory import region_name, when
from pictures.svg import Picture, clip, colour_of, width_of
from pictures.timeline import MIXED, Slice, merge

SHOWN = 12  # things in a region, at most
NAMES, BYTES, ENERGY, ROOM = 20, 300, 560, 150


def energy_of(run, item, part):
    """The energy before and after of what moved, while a region is current."""
    if item.kind == "code":
        return part.pieces.get(item.number, (0, 0))
    place = next(k for k, (home, _, _) in enumerate(run.objects) if home == item.home)
    return part.objects.get(place, (0, 0))


def part_of(line, region):
    """What happens while a region is current; for region 0, where nothing is overlaid, in the whole run."""
    if region:
        return line.regions.get(region)
    whole = Slice(0, 0)
    for part in line.regions.values():
        merge(whole, part)
        whole.last += part.last - part.first
    return whole


def draw_region(picture, run, line, region):
    items = run.stands_in(region)
    name, functions = region_name(run, region)
    part = part_of(line, region)
    taken, size = sum(item.size for item in items), run.board["spm"][1]
    picture.heading(f"{name}: {clip(functions, 560)}" if functions and region else name)
    told = f"{taken:,} of {size:,} bytes are taken ({percent(taken, size)})"
    if part is None or MIXED in line.regions:
        told += "; its energy is not told, since the regions change too often"
        part = None
    else:
        spans = sum(span[2] == region for span in line.spans) if region else 1
        told += f"; current for {part.last - part.first:,} of {line.steps:,} steps" if region else ""
        told += f", in {spans} stretches" if spans > 1 else ""
        told += f"; energy {part.before:,} before, {part.after:,} after, without copies and stubs"
    picture.say(told)
    picture.height += 20
    for x, words in ((BYTES, "share of the scratchpad"), (ENERGY, "share of this energy before → after")):
        picture.text(x, picture.height, words, "small soft")
    picture.height += 6
    draw_items(picture, run, items, part, size)


def draw_items(picture, run, items, part, size):
    rows = [(item, *(energy_of(run, item, part) if part else (None, None))) for item in items]
    rows.sort(key=lambda row: (-(row[1] or 0), row[0].place))
    for item, before, after in rows[:SHOWN]:
        y = picture.height
        picture.box(NAMES, y + 3, 12, 12, "", colour_of(item.number))
        told = when(item) if item.regions else "throughout"
        picture.text(NAMES + 18, y + 14, clip(item.name, 240 - width_of(told, 11)))
        picture.text(BYTES - 16, y + 14, told, "small soft end")
        picture.box(BYTES, y + 3, ROOM, 12, "frame")
        picture.box(BYTES, y + 3, ROOM * item.size / size, 12, "", colour_of(item.number), bytes=item.size)
        picture.text(BYTES + ROOM + 8, y + 14, f"{item.size:,} B", "small")
        if part:
            draw_energy(picture, y, item, before, after, part.before)
        picture.height += 20
    if len(rows) > SHOWN:
        picture.say(f"and {len(rows) - SHOWN} more, of {sum(row[0].size for row in rows[SHOWN:]):,} bytes")
    if part and all(row[2] is not None for row in rows):
        draw_rest(picture, part, rows)


def draw_rest(picture, part, rows):
    """What is left of the energy: what stays in main memory, at the same price."""
    y, stays = picture.height, part.before - sum(row[1] for row in rows)
    picture.text(NAMES + 18, y + 14, "stays in main memory", "soft")
    picture.box(ENERGY, y + 3, ROOM, 12, "frame")
    picture.box(ENERGY, y + 3, ROOM * stays / part.before if part.before else 0, 12, "main")
    picture.text(ENERGY + ROOM + 8, y + 14, percent(stays, part.before), "small")
    picture.height += 22


def draw_energy(picture, y, item, before, after, whole):
    picture.box(ENERGY, y + 3, ROOM, 12, "frame")
    picture.box(ENERGY, y + 3, ROOM * before / whole if whole else 0, 12, "main")
    if after is not None:
        picture.box(ENERGY, y + 3, ROOM * after / whole if whole else 0, 12, "", colour_of(item.number))
    told = percent(before, whole) + ("" if after is None else f" → {percent(after, whole)}")
    picture.text(ENERGY + ROOM + 8, y + 14, told, "small")


def overlay_picture(run, line, title):
    picture = Picture(f"{title}: what stands in the scratchpad")
    picture.heading(f"{title}: what stands in the scratchpad", "title")
    if not run.items:
        picture.say("Nothing moved.")
    elif not run.regions():
        picture.say("Nothing is overlaid: what moved stands there for the whole run.")
    for region in run.regions() or ([0] if run.items else []):
        draw_region(picture, run, line, region)
    return picture
