"""What a run does when: slices of its steps with the energy of each function and object, and the current region.

Runs that `trace` tells whole are cut by their traces. Longer ones are cut by `profile` on boards with ever more `steps`:
the difference of two counts is what happened between both. So an energy is told of the slice in which its block begins.
"""

from bisect import bisect_right
from dataclasses import dataclass, field

from pictures.code import is_load, is_store

SLICES, PROFILED_SLICES = 80, 50
MOST_STEPS = 100_000_000  # steps that all calls of `profile` together may run
MOST_CALLS = 260
MIXED = -1  # more than one region is current in a part of the run that isn't cut further


@dataclass
class Slice:
    first: int
    last: int  # behind the last step
    functions: dict = field(default_factory=dict)  # by place in the list, None for code of no function: (before, after)
    objects: dict = field(default_factory=dict)  # by place: (before, after); after is None where it isn't known
    pieces: dict = field(default_factory=dict)  # by number of the item, what of the functions is its part: (before, after)
    rest: int = 0
    fast: int = 0  # what of the energy after is paid in the scratchpad, as far as it is known

    @property
    def before(self):
        parts = list(self.functions.values()) + list(self.objects.values())
        return sum(before for before, _ in parts) + self.rest

    @property
    def after(self):
        """Without what moving costs. Where an object's part isn't known, what it was before."""
        parts = list(self.functions.values()) + list(self.objects.values())
        return sum(before if after is None else after for before, after in parts) + self.rest


@dataclass
class Switch:
    """A region becomes current. `step` is how many steps of the program came before, `file_steps` what the switch takes."""
    step: int
    left: int
    entered: int
    file_steps: int | None = None


@dataclass
class Timeline:
    source: str
    steps: int
    slices: list
    spans: list  # (first step, step behind the last, region)
    switches: list
    whole: bool  # all switches are told
    regions: dict = field(default_factory=dict)  # by region, what happens while it is current, as one slice


def add(table, key, before, after):
    old = table.get(key, (0, 0))
    table[key] = old[0] + before, None if after is None or old[1] is None else old[1] + after


def add_words(run, part, start, words):
    """Fetches of a block's words."""
    before = after = words * run.price["main_fetch"]
    item = run.moved_blocks.get(start)
    if item:
        after = words * run.price["spm_fetch"]
        part.fast += after
        add(part.pieces, item.number, before, after)
    add(part.functions, run.code.blocks[start].function, before, after)


class Traced:
    """A timeline by a trace of the whole run."""

    def __init__(self, run):
        self.run, self.steps = run, run.trace[1]
        self.price, code = run.price, run.code
        self.names = {}
        for place, (_, _, name) in enumerate(run.objects):
            self.names.setdefault(name, []).append(place)
        self.spm = run.board["spm"][0], sum(run.board["spm"])
        self.block_of = {at: start for start, block in code.blocks.items() for at, _ in block.units}
        self.words_of = {at: words for block in code.blocks.values() for at, words in block.units}

    def timeline(self):
        count = len(self.steps)
        edges = sorted({round(count * k / SLICES) for k in range(SLICES + 1)})
        slices = [self.slice(first, last) for first, last in zip(edges, edges[1:])]
        spans, switches = self.spans()
        return Timeline("trace", count, slices, spans, switches, True)

    def slice(self, first, last):
        part = Slice(first, last)
        for step in self.steps[first:last]:
            self.add_fetches(part, step)
            self.add_access(part, step)
        return part

    def add_fetches(self, part, step):
        add_words(self.run, part, self.block_of[step.home], self.words_of[step.home])
        word = self.run.code.words[step.home]
        if step.access is None:
            part.rest += is_load(word) * self.price["main_read"] + is_store(word) * self.price["main_write"]

    def add_access(self, part, step):
        if step.access is None:
            return
        way, name, offset, address = step.access
        kind = "read" if way == "r" else "write"
        fast = self.spm[0] <= address < self.spm[1]
        after = self.price[f"spm_{kind}" if fast else f"main_{kind}"]
        part.fast += after if fast else 0
        add(part.objects, self.object_at(name, address - offset), self.price[f"main_{kind}"], after)

    def object_at(self, name, place):
        """Of objects with one name the one that stands there."""
        places = self.names[name]
        if len(places) > 1:
            homes = {self.run.objects[k][0]: k for k in places}
            if place in homes:
                return homes[place]
            return homes[next(i.home for i in self.run.items if i.kind == "data" and i.place == place and i.name == name)]
        return places[0]

    def spans(self):
        if not self.run.regions():
            return [(0, len(self.steps), 0)], []
        spans, switches, current, since = [], [], 0, 0
        for number, step in enumerate(self.steps):
            if step.home not in self.run.code.leaders:
                continue
            region = self.run.region_of_block(step.home)
            if region not in (0, current):
                if number > since:
                    spans.append((since, number, current))
                # The switch runs on the way to this step, so the step before tells how long it is.
                switches.append(Switch(number, current, region, self.steps[number - 1].file_steps if number else None))
                current, since = region, number
        spans.append((since, len(self.steps), current))
        return spans, switches


class Profiled:
    """A timeline by profiles of ever more steps."""

    def __init__(self, run):
        self.run, self.calls, self.left = run, 0, MOST_STEPS
        self.count = run.profile.steps

    def at(self, step):
        """The counts of the first steps."""
        if step == self.count:
            return self.run.profile
        if step and step not in self.run.commands.profiles:
            self.calls, self.left = self.calls + 1, self.left - step
        return self.run.commands.profile(step) if step else None

    def timeline(self):
        number = max(8, min(PROFILED_SLICES, MOST_STEPS // (2 * self.count)))
        edges = sorted({round(self.count * k / number) for k in range(number + 1)})
        slices = [self.slice(first, last) for first, last in zip(edges, edges[1:])]
        spans, switches = self.spans(edges)
        return Timeline("profile", self.count, slices, spans, switches, all(span[2] != MIXED for span in spans))

    def slice(self, first, last):
        part, run = Slice(first, last), self.run
        loads = stores = 0
        for sign, step in ((1, last), (-1, first)):
            if step == 0:
                continue
            for start, _, words, block_loads, block_stores in run.counts_by_block(self.at(step), step == self.count):
                add_words(run, part, start, sign * words)
                loads, stores = loads + sign * block_loads, stores + sign * block_stores
        reads, writes = self.add_objects(part, first, last)
        part.rest = run.data_price("main", loads - reads, stores - writes)
        return part

    def add_objects(self, part, first, last):
        none = [(0, 0, "")] * len(self.run.objects)
        low = self.at(first).accesses if first else none
        parts = {p.key: p for p in self.run.parts if p.kind == "object"}
        all_reads = all_writes = 0
        for place, (now, then) in enumerate(zip(self.at(last).accesses, low)):
            reads, writes = now[0] - then[0], now[1] - then[1]
            all_reads, all_writes = all_reads + reads, all_writes + writes
            if reads or writes:
                before = self.run.data_price("main", reads, writes)
                after = self.object_after(parts[place], before, reads, writes)
                part.fast += after if after is not None and parts[place].items else 0
                add(part.objects, place, before, after)
        return all_reads, all_writes

    def object_after(self, part, before, reads, writes):
        """An object that is reached in the scratchpad always or never has the same price in each slice."""
        if not part.items:
            return before
        return self.run.data_price("spm", reads, writes) if part.after is not None else None

    # ---- the current region

    def spans(self, edges):
        """A part in which blocks of one region alone begin has that region. Others are cut in halves while calls are left.
        Where nothing is overlaid no region ever becomes current."""
        if not self.run.regions():
            return [(0, self.count, 0)], []
        spans, current = [], 0
        stack = [(first, last) for first, last in zip(edges, edges[1:])][::-1]
        while stack:
            first, last = stack.pop()
            begun = self.regions_begun(first, last)
            if begun <= {current}:
                self.extend(spans, first, last, current)
            elif last - first == 1:
                current = begun.pop()
                self.extend(spans, first, last, current)
            elif self.calls < MOST_CALLS and self.left > last:
                middle = (first + last) // 2
                stack += [(middle, last), (first, middle)]
            else:
                current = self.leave(spans, first, last, current, begun)
        return spans, self.switches(spans)

    def leave(self, spans, first, last, current, begun):
        """A part that isn't cut further: its region where it has one, and else what is current behind it is not known."""
        one = len(begun) == 1
        self.extend(spans, first, last, next(iter(begun)) if one and current == MIXED else MIXED)
        return next(iter(begun)) if one else MIXED

    def regions_begun(self, first, last):
        low = self.at(first).blocks if first else {}
        return {region for start, count in self.at(last).blocks.items()
                if count != low.get(start, 0) and (region := self.run.region_of_block(start))}

    def extend(self, spans, first, last, region):
        if spans and spans[-1][2] == region:
            spans[-1] = (spans[-1][0], last, region)
        else:
            spans.append((first, last, region))

    def switches(self, spans):
        return [Switch(now[0], then[2], now[2]) for then, now in zip(spans, spans[1:]) if MIXED not in (then[2], now[2])]


def merge(whole, part):
    for name in ("functions", "objects", "pieces"):
        for key, (before, after) in getattr(part, name).items():
            add(getattr(whole, name), key, before, after)
    whole.rest += part.rest
    whole.fast += part.fast


def timeline(run):
    source = Traced(run) if run.trace else Profiled(run)
    line = source.timeline()
    for first, last, region in line.spans:
        whole = line.regions.setdefault(region, Slice(first, first))
        merge(whole, source.slice(first, last))
        whole.last += last - first
    return line


def region_at(line, step):
    """The region that is current then."""
    return line.spans[bisect_right(line.spans, step, key=lambda span: span[0]) - 1][2]
