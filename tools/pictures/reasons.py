"""Why an object or a function stays in main memory, as far as the commands tell."""

from pictures.elf import NO_BYTES


def copy_cost(run, home, size):
    """What it costs to copy an object in at the start (docs/BOARD.md, "Prices"): each round of the loop five fetches, a read
    and a write, and six fetches for the object."""
    price = run.price
    rounds = size if home % 4 or size % 4 else size // 4
    return rounds * (5 * price["main_fetch"] + price["main_read"] + price["spm_write"]) + 6 * price["main_fetch"]


def why_object(run, part):
    """Of one that may move. Its gain and its cost are those of standing in the scratchpad throughout."""
    home, size, _ = run.objects[part.key]
    if part.items:
        return ""
    if not part.reads + part.writes:
        return "the run never loads from it or stores into it"
    gain, cost = part.before - run.data_price("spm", part.reads, part.writes), copy_cost(run, home, size)
    if size > run.board["spm"][1]:
        return f"it has more bytes than the scratchpad, which has {run.board['spm'][1]:,}"
    if gain <= cost:
        return f"it would save {gain:,} throughout, and copying it in costs {cost:,}"
    return f"it would save {gain - cost:,} throughout; what was chosen saves more in that room"


def why_by_rule(run, home, size, name):
    """Of one that `show` doesn't list (docs/COMMAND_LINE.md, "What may move")."""
    section = run.elf.section_of(home)
    if section.kind == NO_BYTES and run.board.get("bss", "fixed") == "fixed":
        return f'the board keeps {section.name}: bss = "fixed" (rule 2)'
    if {name, section.name} & set(run.board.get("fix", [])):
        return "`fix` of the board lists it (rule 3)"
    for other, count, called in run.elf.data_objects():
        if (other, count) != (home, size) and other < home + size and home < other + count:
            return f"it shares a byte with {called} (rule 1)"
    return f"a relocation makes its address, or one in {section.name}, in a way that can't be changed (rules 4 to 6)"


def why_function(run, part):
    saved = part.fetches * (run.price["main_fetch"] - run.price["spm_fetch"])
    if part.moved_fetches == part.fetches:
        return ""
    if part.moved_fetches:
        rest = part.fetches - part.moved_fetches
        return f"{rest:,} of its {part.fetches:,} fetches stay: their blocks are of no piece that was chosen"
    return f"no piece of it was chosen; all its fetches would save {saved:,}, less copies and jumps"
