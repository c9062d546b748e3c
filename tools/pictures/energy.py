"""The energy of each function and each object, before and after."""

from dataclasses import replace

from pictures.svg import Picture, clip

SHOWN = 14  # parts of a kind, at most
LEAST = 0.1  # per cent of the energy before that a part has which is shown by itself; what moved is shown in any case
LEFT, WIDTH = 200, 430


def share(part, whole):
    return 100 * part / whole if whole else 0.0


def percent(part, whole):
    value = share(part, whole)
    return "0 %" if not part else "< 0.1 %" if value < 0.05 else f"{value:.1f} %"


def greatest(parts, whole):
    """Those with most energy before, and the others."""
    parts = sorted((part for part in parts if part.before or part.items), key=lambda part: -part.before)
    shown = [part for part in parts if part.items or share(part.before, whole) >= LEAST][:SHOWN]
    others = [part for part in parts if part not in shown]
    return (shown, others) if len(others) != 1 else (parts, [])


def draw_whole(picture, run):
    """The run as two stacked bars: main memory, scratchpad, and what moving costs."""
    fast = sum(part.moved_after for part in run.parts)
    moving = next(part.after for part in run.parts if part.kind == "moving")
    most = max(run.report.before, run.report.after) or 1
    rows = (("before", run.report.before, [("main", run.report.before)]),
            ("after", run.report.after, [("main", run.report.after - fast - moving), ("spm", fast), ("moving", moving)]))
    for name, whole, stack in rows:
        y, x = picture.height, LEFT
        picture.text(LEFT - 10, y + 15, name, "end")
        for kind, energy in stack:
            length = WIDTH * energy / most
            picture.box(x, y, length, 20, kind, hint=f"{kind}: {energy}", energy=energy, whole=name)
            x += length
        told = f"{whole:,}" if name == "before" else f"{whole:,}  ({percent(run.report.before - whole, run.report.before)} saved)"
        picture.text(x + 8, y + 15, told)
        picture.height += 27


def draw_key(picture):
    x = LEFT
    for kind, words in (("main", "in main memory"), ("spm", "in the scratchpad"), ("moving", "copies, pads, stubs and switches")):
        picture.box(x, picture.height + 2, 12, 12, kind)
        picture.text(x + 18, picture.height + 12, words, "small soft")
        x += 30 + 7 * len(words)
    picture.height += 20


def draw_part(picture, part, run, most):
    y = picture.height
    picture.text(LEFT - 10, y + 15, clip(part.name, LEFT - 30), "end")
    after = part.after
    hint = f"{part.name}: {part.before} before, {'not told' if after is None else after} after"
    kept = {"part": part.kind, "before": part.before, "after": "" if after is None else after}
    if part.before:
        picture.box(LEFT, y + 2, max(WIDTH * part.before / most, 1), 6, "main", hint=hint, **kept)
    else:
        picture.box(LEFT, y + 2, 0, 6, "main", hint=hint, **kept)
    if after is not None:
        draw_after(picture, part, y, most)
    told = f"{part.before:,} → in the last bar" if after is None else (
        f"{part.before:,}, stays" if after == part.before and not part.items else f"{part.before:,} → {after:,}")
    picture.text(LEFT + WIDTH + 10, y + 15, told if part.kind != "moving" else f"{after:,}")
    picture.text(picture.width - 20, y + 15, percent(part.before, run.report.before) if part.before else "", "soft end")
    picture.height += 24


def draw_after(picture, part, y, most):
    if part.kind == "moving":
        picture.box(LEFT, y + 9, max(WIDTH * part.after / most, 1), 9, "moving")
        return
    stayed, moved = part.after - part.moved_after, part.moved_after
    picture.box(LEFT, y + 9, WIDTH * stayed / most, 9, "main")
    picture.box(LEFT + WIDTH * stayed / most, y + 9, WIDTH * moved / most, 9, "spm")


def draw_parts(picture, run, heading, kind, most):
    """The greatest parts of a kind, and the rest of them together."""
    parts, others = greatest([part for part in run.parts if part.kind == kind], run.report.before)
    if not parts:
        return
    picture.heading(heading)
    picture.height += 2
    for part in parts:
        draw_part(picture, part, run, most)
    if others:
        draw_part(picture, together(others), run, most)


def together(parts):
    """One part for many. What of them the counts don't tell is in what moving costs, as that of one alone."""
    return replace(parts[0], name=f"{len(parts)} more", before=sum(part.before for part in parts),
                   after=sum(part.after or 0 for part in parts), moved_after=sum(part.moved_after for part in parts),
                   items=[number for part in parts for number in part.items])


def energy_picture(run, title):
    picture = Picture(f"{title}: energy by function and object")
    picture.heading(f"{title}: energy by function and object", "title")
    picture.say(f"{run.profile.steps:,} steps were measured; the program {ending(run)}. Upper bar: before. Lower bar: after. "
                "At the right: the share of the energy before.")
    picture.height += 14
    draw_whole(picture, run)
    draw_key(picture)
    most = max((part.before for part in run.parts), default=0) or 1
    most = max(most, max(part.after or 0 for part in run.parts))
    draw_parts(picture, run, "Fetches of code, by function", "function", most)
    draw_parts(picture, run, "Loads and stores, by object that may move", "object", most)
    picture.heading("All else")
    picture.height += 2
    for part in run.parts:
        if part.kind in ("rest", "moving"):
            draw_part(picture, part, run, most)
    return picture


def ending(run):
    outcome = run.profile.outcome
    return {"running": "went on when the board's steps were used up", "trapped": "trapped"}.get(outcome, outcome)
