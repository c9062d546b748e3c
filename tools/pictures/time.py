"""What the run does when: the current region, what is copied, and the energy of each slice of the run."""

from pictures.memory import region_name
from pictures.svg import Picture, clip, width_of
from pictures.timeline import MIXED

LEFT, WIDTH = 150, 700
SHOWN, LEAST = 8, 0.005  # functions, at most, and the share of the fetches' energy that they have at least
TOLD = 6  # switches that are told one by one
REGION_COLOURS = ["#7f8b97", "#1f7a86", "#9a5ba8", "#b5621b", "#3b78c3", "#7a7416", "#b8434e", "#2f8a4c", "#5661c9"]


def names_of(items):
    """Names and bytes, the code together."""
    data = [f"{item.name} ({item.size:,} B)" for item in items if item.kind == "data"]
    code = [item for item in items if item.kind == "code"]
    if code:
        data.append(f"{len(code)} piece{'s' * (len(code) > 1)} of code ({sum(item.size for item in code):,} B)")
    return ", ".join(data) or "nothing"


def switch_text(run, left, entered):
    home, come = run.switched(left, entered)
    return f"copied in: {names_of(come)}" + (f"; copied home: {names_of(home)}" if home else "")


def draw_regions(picture, run, line):
    y, scale = picture.height, WIDTH / line.steps
    picture.text(20, y + 16, "current region")
    for first, last, region in line.spans:
        x, width = LEFT + first * scale, (last - first) * scale
        colour = REGION_COLOURS[region] if region >= 0 else "#856800"
        name, functions = region_name(run, region) if region > 0 else ("none" if region == 0 else "several", "")
        picture.box(x, y, max(width, 0.6), 24, "", colour, f"{name} {functions}: steps {first} to {last}")
        for label in (f"{name}: {functions}" if functions else name, name, str(region)):
            if width > width_of(label) + 8:
                picture.text(x + width / 2, y + 16, label, "on middle")
                break
    picture.height += 30


def draw_switches(picture, run, line, top):
    """Marks, and a line of text for each switch, or for each kind of switch where they are many."""
    if not run.regions():
        return
    scale = WIDTH / line.steps
    many = len(line.switches) > TOLD
    for number, switch in enumerate(line.switches, 1):
        x = LEFT + switch.step * scale
        picture.rule(x, top, x, picture.height, "3 3")
        if not many:
            picture.box(x - 8, top - 19, 16, 16, "moving", hint=f"switch at step {switch.step}")
            picture.text(x, top - 7, number, "on middle small")
    told = [told_switch(run, switch, number) for number, switch in enumerate(line.switches, 1)] if not many else told_kinds(run, line)
    for words in told:
        picture.say(words, "")


def told_switch(run, switch, number):
    took = f", {switch.file_steps:,} steps of OUT" if switch.file_steps else ""
    return f"{number}  region {switch.entered} at step {switch.step:,}{took}: {switch_text(run, switch.left, switch.entered)}"


def told_kinds(run, line):
    kinds = {}
    for switch in line.switches:
        kinds.setdefault((switch.left, switch.entered), []).append(switch)
    for (left, entered), switches in sorted(kinds.items()):
        yield (f"{len(switches)} times from {'no region' if not left else f'region {left}'} to region {entered}: "
               f"{switch_text(run, left, entered)}")


def draw_functions(picture, run, line):
    """A lane for each function with much energy: how much of each slice's energy before its fetches are."""
    parts = sorted((part for part in run.parts if part.kind == "function"), key=lambda part: -part.before)[:SHOWN]
    parts = [part for part in parts if part.before >= LEAST * run.report.before]
    scale = WIDTH / line.steps
    most = max((part.before for part in line.slices), default=0) or 1
    picture.say("Fetches of the functions, by their energy before: blue runs in the scratchpad, grey in main memory")
    picture.height += 10
    for part in parts:
        y = picture.height
        picture.text(LEFT - 10, y + 17, clip(part.name, LEFT - 26), "end")
        picture.rule(LEFT, y + 22, LEFT + WIDTH, y + 22)
        for piece in line.slices:
            draw_cell(picture, run, piece, part, (LEFT + piece.first * scale, y, (piece.last - piece.first) * scale), most)
        picture.height += 27


def draw_cell(picture, run, piece, part, frame, most):
    before, after = piece.functions.get(part.key, (0, 0))
    if not before:
        return
    x, y, width = frame
    saved = run.price["main_fetch"] - run.price["spm_fetch"]
    moved = (before - after) / saved * run.price["main_fetch"] if saved else 0
    height = 22 * before / most
    high = height * moved / before if before else 0
    hint = f"{part.name}, steps {piece.first} to {piece.last}: {before} before, {after} after"
    width = round(x + width, 1) - round(x, 1)
    for kind, top, size in (("main", height, height - high), ("spm", high, high)):
        if size > 0.05:
            picture.box(x, y + 22 - top, width, size, kind, hint=hint, function=part.key)


def draw_energy(picture, line):
    """Energy before as a line, after as a filled shape, both for each slice."""
    scale, high = WIDTH / line.steps, 110
    most = max((max(piece.before / (piece.last - piece.first), 0) for piece in line.slices), default=0) or 1
    picture.height += 8
    picture.say("Energy for each step: before (line) and after (filled, blue in the scratchpad; copies and stubs are not in it)")
    picture.height += 16
    top, floor = picture.height, picture.height + high
    for piece in line.slices:
        draw_slice(picture, piece, (floor, scale, high / most))
    way, y = [], floor
    for piece in line.slices:
        y = floor - high * piece.before / (piece.last - piece.first) / most
        way.append(f"{'L' if way else 'M'}{LEFT + piece.first * scale:.1f} {y:.1f} L{LEFT + piece.last * scale:.1f} {y:.1f}")
    picture.path(" ".join(way), "line")
    for value in (0, most / 2, most):
        y = floor - high * value / most
        picture.text(LEFT - 10, y + 4, f"{value:.1f}", "small soft end")
        picture.rule(LEFT, y, LEFT + WIDTH, y, "1 4" if value else "")
    picture.height = floor
    draw_axis(picture, line)


def draw_slice(picture, piece, frame):
    """What is paid in main memory, and above it what is paid in the scratchpad."""
    floor, scale, unit = frame
    x = round(LEFT + piece.first * scale, 1)
    width, unit = round(LEFT + piece.last * scale, 1) - x, unit / (piece.last - piece.first)
    slow, fast = (piece.after - piece.fast) * unit, piece.fast * unit
    hint = f"steps {piece.first} to {piece.last}: {piece.before} before, {piece.after} after"
    picture.box(x, floor - slow, width, slow, "main", hint=hint, before=piece.before, after=piece.after)
    if piece.fast:
        picture.box(x, floor - slow - fast, width, fast, "spm", hint=hint)


def draw_axis(picture, line):
    step = 10 ** (len(str(line.steps)) - 1)
    step = next(step // part for part in (10, 5, 2, 1) if line.steps / (step // part or 1) <= 10)
    y = picture.height
    for value in range(0, line.steps + 1, max(step, 1)):
        x = LEFT + WIDTH * value / line.steps
        picture.rule(x, y, x, y + 4)
        picture.text(x, y + 16, f"{value:,}", "small soft middle")
    picture.text(20, y + 16, "steps of the program", "small soft")
    picture.height += 22


def time_picture(run, line, title):
    picture = Picture(f"{title}: the run in time")
    picture.heading(f"{title}: the run in time", "title")
    source = "one `trace` of the whole run" if line.source == "trace" else "`profile` on boards with ever more `steps`"
    picture.say(f"{line.steps:,} steps, by {source}. " + regions_told(run, line))
    picture.height += 26 if run.regions() and 0 < len(line.switches) <= TOLD else 12
    top = picture.height
    if run.regions():
        draw_regions(picture, run, line)
    draw_switches(picture, run, line, top)
    picture.height += 8
    draw_functions(picture, run, line)
    draw_energy(picture, line)
    return picture


def regions_told(run, line):
    if not run.regions():
        return "Nothing is overlaid, so nothing is copied while the program runs."
    if not line.whole:
        return "Where the regions change too often, several are told together."
    return f"{len(line.switches)} switches of the region."
