"""The energy of a run by function and by object, before and after, from what the commands count.

Before: a word of code costs a fetch of main memory each time that it runs, and a load or store a read or a write of it.
After: words of a piece that moved cost a fetch of the scratchpad, and accesses of an object that moved a read or a write
of it. What is left of `after` is what moving costs: copies, pads, stubs, switches, and longer words in copies. So the
parts are exactly `before` and `after` of the report.
"""

import sys
from dataclasses import dataclass, field

from pictures.code import ECALL, Code, is_load, is_store
from pictures.commands import MOST_TRACED
from pictures.elf import WRITE, Elf

NO_FUNCTION = "code of no function"
REST = "stack, fixed data"
MOVING = "what moving costs"


@dataclass
class Item:
    """A line of the report: what stands in the scratchpad. Without regions it does so for the whole run."""
    number: int
    regions: tuple
    kind: str
    place: int
    size: int
    home: int
    name: str
    blocks: list = field(default_factory=list)  # the starts of a piece's blocks; none where they aren't known
    home_bytes: int = 0
    writable: bool = False


@dataclass
class Part:
    """An energy with a name: of a function's fetches, of an object's accesses, or of all else. `after` is None where the
    counts don't tell, and then it is in what moving costs."""
    name: str
    kind: str
    before: int
    after: int | None
    items: list = field(default_factory=list)
    fetches: int = 0
    moved_fetches: int = 0
    reads: int = 0
    writes: int = 0
    moved_after: int = 0  # what of `after` is paid in the scratchpad
    key: int | None = None  # the function's or the object's place in its list


class Run:
    """A measured run of a file with what was chosen for it."""

    def __init__(self, commands, report=None, certificate=None, result=None):
        self.commands, self.board = commands, commands.board
        self.price = self.board["price"]
        self.elf = Elf(commands.file)
        self.objects, shown = commands.show()
        self.code = Code(self.elf, [(home, size) for home, size, _ in self.objects])
        self.name_regions(shown)
        self.report = commands.take(report, certificate) if report else commands.relink()
        patch, made = self.board["patch"][0], Elf(result or commands.result)
        self.patch_bytes = sum(segment.size for segment in made.segments if segment.base == patch)
        self.profile = commands.profile()
        self.paid = commands.paid()
        self.started = commands.trace(1)
        self.trace = commands.trace(MOST_TRACED) if self.profile.steps <= MOST_TRACED else None
        self.items = self.read_items()
        self.moved_blocks = {start: item for item in self.items for start in item.blocks}
        self.cut = self.cut_units()
        self.parts = self.read_parts()

    def name_regions(self, shown):
        """`show` lists the same functions, with their regions."""
        if [start for start, _, _ in shown] != [function.start for function in self.code.functions]:
            sys.exit("`show` lists other functions than the file's symbols tell")
        for function, (_, region, name) in zip(self.code.functions, shown):
            function.region, function.name = region, name

    # ---- what moved

    def read_items(self):
        """The lines of a report list objects of one kind by home, so of several with one name the next one is meant."""
        items, taken = [], set()
        for number, line in enumerate(self.report.lines, 1):
            if line.kind == "code":
                items.append(self.piece_of(number, line))
                continue
            place, (home, size, name) = self.object_of(line, taken)
            taken.add((line.regions, place))
            writable = bool(self.elf.section_of(home).flags & WRITE)
            items.append(Item(number, line.regions, "data", line.place, size, home, name, home_bytes=size, writable=writable))
        return items

    def object_of(self, line, taken):
        for place, (home, size, name) in enumerate(self.objects):
            fits = (size, name) == (line.size, line.told) and (home - line.place) % self.board["grain"] == 0
            if fits and (line.regions, place) not in taken:
                return place, (home, size, name)
        sys.exit(f"`show` has no object {line.told} of {line.size} bytes for the place {line.place:#010x}")

    def piece_of(self, number, line):
        home = int(line.told, 16)
        pieces = self.code.pieces_at(home, line.size)
        if not pieces:
            sys.exit(f"no piece of code at {home:#010x} has a copy of {line.size} bytes")
        blocks = pieces[0] if len(pieces) == 1 else self.traced_piece(pieces, line)
        home_bytes = sum(4 * self.code.blocks[start].words for start in blocks)
        name = self.name_of(home) + self.shape_of(blocks)
        return Item(number, line.regions, "code", line.place, line.size, home, name, blocks, home_bytes)

    def traced_piece(self, pieces, line):
        """Of pieces whose copies have one size, the one whose blocks a trace sees in the copy, and no others. A block that
        the run doesn't reach makes no difference."""
        longest = max(pieces, key=len)
        block_of = {at: start for start in longest for at, _ in self.code.blocks[start].units}
        traced = self.trace or self.commands.trace(MOST_TRACED)
        inside, outside = set(), set()
        for step in traced[1] if traced else []:
            start = block_of.get(step.home)
            if start is not None:
                (inside if line.place <= step.place < line.place + line.size else outside).add(start)
        fitting = [piece for piece in pieces if inside <= set(piece) and not outside & set(piece)]
        reached = {tuple(start for start in piece if start in self.profile.blocks) for piece in fitting}
        if len(reached) != 1:
            sys.exit(f"several pieces of code at {line.told} have a copy of {line.size} bytes, and `trace` doesn't tell which moved")
        return fitting[0]

    def shape_of(self, blocks):
        function = self.code.blocks[blocks[0]].function
        whole = [start for start in self.code.starts if self.code.blocks[start].function == function]
        if blocks == whole:
            return ""
        last = self.code.blocks[blocks[-1]]
        return " (loop)" if self.code.is_back(last, blocks[0]) else " (block)"

    def name_of(self, address):
        place = self.code.function_of(address)
        if place is None:
            return f"{address:#010x}"
        function = self.code.functions[place]
        return function.name if function.start == address else f"{function.name}+{address - function.start:#x}"

    # ---- counts

    def cost_of_units(self, units):
        """Words, loads and stores."""
        words = [self.code.words[at] for at, _ in units]
        return sum(count for _, count in units), sum(map(is_load, words)), sum(map(is_store, words))

    def block_at(self, start):
        if start not in self.code.blocks:
            sys.exit(f"`profile` lists a block at {start:#010x}, and no block begins there by the file's code")
        return self.code.blocks[start]

    def cut_units(self):
        """The block that the run's end cut, as its start and how many of its units did not run; None where no block was.
        Counts of blocks and of steps differ by these units."""
        begun = sum(count * len(self.block_at(start).units) for start, count in self.profile.blocks.items())
        left = begun - self.profile.steps
        if left == 0:
            return None
        if self.profile.outcome.startswith("exited"):
            ending = [start for start in self.profile.blocks if self.exits(self.code.blocks[start], left)]
            if len(ending) == 1:
                return ending[0], left
        return self.last_block(), left

    def exits(self, block, left):
        """All but the last `left` units of the block end with an ECALL."""
        return len(block.units) > left and self.code.words[block.units[-left - 1][0]] == ECALL

    def steps_of(self, start, count):
        """How many steps a block took that began so often."""
        return count * len(self.code.blocks[start].units) - (self.cut[1] if self.cut and self.cut[0] == start else 0)

    def last_block(self):
        """The block that began last, as runs that are cut ever earlier tell."""
        blocks = self.profile.blocks
        earlier = 0
        while True:
            earlier += 1
            if self.profile.steps <= earlier:
                return next(iter(blocks))
            cut = self.commands.profile(self.profile.steps - earlier).blocks
            differing = [start for start, count in blocks.items() if count != cut.get(start, 0)]
            if differing:
                return differing[0]

    def counts_by_block(self, profile, whole=True):
        """(start, how often it began, words, loads, stores) of the blocks that began; of the whole run less what was cut."""
        for start, count in profile.blocks.items():
            block = self.block_at(start)
            words, loads, stores = (count * each for each in self.cost_of_units(block.units))
            if whole and self.cut and self.cut[0] == start:
                cut = self.cost_of_units(block.units[-self.cut[1]:])
                words, loads, stores = words - cut[0], loads - cut[1], stores - cut[2]
            yield start, count, words, loads, stores

    # ---- parts

    def read_parts(self):
        functions, loads, stores = self.fetch_parts()
        objects = self.object_parts()
        reads, writes = loads - sum(part.reads for part in objects), stores - sum(part.writes for part in objects)
        rest = self.data_price("main", reads, writes)
        parts = functions + objects + [Part(REST, "rest", rest, rest, reads=reads, writes=writes)]
        if sum(part.before for part in parts) != self.report.before:
            sys.exit(f"the parts sum to {sum(part.before for part in parts)}, and `before` is {self.report.before}")
        moving = self.report.after - sum(part.after or 0 for part in parts)
        return parts + [Part(MOVING, "moving", 0, moving)]

    def fetch_parts(self):
        parts, loads, stores = {}, 0, 0
        for start, _, words, block_loads, block_stores in self.counts_by_block(self.profile):
            place = self.code.blocks[start].function
            name = NO_FUNCTION if place is None else self.code.functions[place].name
            part = parts.setdefault(place, Part(name, "function", 0, 0, key=place))
            item = self.moved_blocks.get(start)
            energy = words * self.price["spm_fetch" if item else "main_fetch"]
            part.before += words * self.price["main_fetch"]
            part.after += energy
            part.fetches += words
            if item:
                part.moved_fetches += words
                part.moved_after += energy
                if item.number not in part.items:
                    part.items.append(item.number)
            loads, stores = loads + block_loads, stores + block_stores
        return [parts[place] for place in sorted(parts, key=lambda p: -1 if p is None else p)], loads, stores

    def data_price(self, memory, reads, writes):
        return reads * self.price[f"{memory}_read"] + writes * self.price[f"{memory}_write"]

    def object_parts(self):
        parts = []
        for place, ((home, size, name), (reads, writes, told)) in enumerate(zip(self.objects, self.profile.accesses)):
            if told != name:
                sys.exit(f"`show` and `profile` list other objects: {name} and {told}")
            items = [item for item in self.items if item.kind == "data" and item.home == home]
            fast = self.fast_accesses(home, size, name, items, reads, writes)
            part = Part(name, "object", self.data_price("main", reads, writes), None, [item.number for item in items],
                        reads=reads, writes=writes, key=place)
            if fast is not None:
                part.moved_after = self.data_price("spm", *fast)
                part.after = part.moved_after + self.data_price("main", reads - fast[0], writes - fast[1])
            parts.append(part)
        return parts

    def fast_accesses(self, home, size, name, items, reads, writes):
        """How many reads and writes reach the object in the scratchpad; None where it isn't known."""
        if not items:
            return 0, 0
        where = {region for item in items for region in self.whole_regions(item)}
        if None in where or self.regions_of_object(home, size) <= where:
            return reads, writes
        if self.trace is None:
            return None
        low, high = self.board["spm"][0], sum(self.board["spm"])
        fast = [step.access[0] for step in self.trace[1] if step.access and low <= step.access[3] < high
                and step.access[1] == name and step.access[3] - step.access[2] in {item.place for item in items}]
        return fast.count("r"), fast.count("w")

    def whole_regions(self, item):
        return set(item.regions) or {None}

    def regions_of_object(self, home, size):
        """The regions whose code makes the object's address. What is overlaid is reached in these alone."""
        regions = set()
        for relocation in self.elf.relocations:
            inside = home <= relocation.target < home + size
            if inside and (place := self.code.function_of(relocation.at)) is not None:
                regions.add(self.code.functions[place].region)
        return regions

    # ---- regions

    def region_of_block(self, start):
        place = self.code.blocks[start].function
        return 0 if place is None else self.code.functions[place].region

    def regions(self):
        """Those that the report names."""
        return sorted({region for item in self.items for region in item.regions})

    def stands_in(self, region):
        """What stands in the scratchpad while a region is current; for region 0 what does so throughout."""
        return sorted((item for item in self.items if not item.regions or region in item.regions), key=lambda i: i.place)

    def switched(self, left, entered):
        """What a switch copies home, and what it copies in."""
        home = [item for item in self.items if left in item.regions and entered not in item.regions and item.writable]
        come = [item for item in self.items if entered in item.regions and left not in item.regions]
        return home, come
