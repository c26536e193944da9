"""Solutions: the routes of a design's nets, and the nets that they leave unjoined."""
from typing import Container, Iterable, Iterator, Mapping, Sequence

from groute.texts.designs import Design, Netlist
from groute.texts.files import Fault
from groute.texts.tokens import Tokens, counted, whole

DIGITS = b"0123456789"
FORM = b"(,,)-(,,)"
PASSES = 8      # over a net's runs, before they are joined by another way


def records(design: Design, path: str) -> Iterator[tuple[int, list[bytes]]]:
    """Of each record of a solution's text whose net is routed: its net's id and its segments' tokens."""
    tokens = Tokens(path)
    widths, found = design.widths, set()
    while tokens.at < len(tokens.tokens) or not tokens.is_ended():
        id_ = counted(tokens.take(2)[1])
        if id_ is None or id_ not in widths:
            raise tokens.fault("the id of a net of the design is due")
        if id_ in found:
            raise tokens.fault("an earlier record has this id")
        found.add(id_)
        segments = tokens.until(b"!")
        if segments and not segments[0].startswith(b"("):
            del segments[0]     # a number that says nothing
        if widths[id_] is not None:
            yield id_, segments


def named_records(path: str, ids: Mapping[str, int] | None = None) -> dict[str, list[bytes]]:
    """By the name of its net the segments of each record of a solution's text. It may be of any design; where `ids` are
    given, it is of one with nets of these names and ids."""
    tokens = Tokens(path)
    found: dict[str, list[bytes]] = {}
    while not tokens.is_ended():
        first, id_ = tokens.take(2)
        name = first.decode("utf-8", "surrogateescape")
        if ids is not None and (name not in ids or counted(id_) != ids[name]):
            raise tokens.fault(f"the design has no net {name} with this id")
        if name in found:
            tokens.at -= 1
            raise tokens.fault("nets are told apart by their names, and an earlier one has this name")
        segments = tokens.until(b"!")
        found[name] = segments[1:] if segments and not segments[0].startswith(b"(") else segments
    return found


def first_fault(design: Design, path: str, name: str | None = None) -> Fault | None:
    """Of a solution's text with a segment that isn't one, of any net or of one: which it is, and where it stands."""
    tokens = Tokens(path)
    while not tokens.is_ended():
        mine = tokens.take(2)[0].decode("utf-8", "surrogateescape")
        segments = tokens.until(b"!")
        if name not in (None, mine):
            continue
        for at, segment in enumerate(segments):
            try:
                if at or segment.startswith(b"("):
                    design.run(segment)
            except Fault as fault:
                number = tokens.before + tokens.at - len(segments) + at
                return Fault(f"{path}{tokens.line(number)}: token {number}: {fault}")
    return None


class Numbers(dict[bytes, int]):
    """The number of the tile of a coordinate along one way, by its bytes; of a layer, its number from 0."""

    def __init__(self, start: int, side: int, count: int, last: int) -> None:
        dict.__init__(self)
        self.start, self.side, self.count, self.last = start, side, count, last

    def __missing__(self, text: bytes) -> int:
        value = whole(text)
        if value is None or not self.start <= value <= self.last:
            raise Fault(f"{text.decode()} lies outside the chip")
        return self.setdefault(text, min((value - self.start) // self.side, self.count - 1))


class Ends:
    """The cells of segments' ends, by the texts of the coordinates."""

    def __init__(self, design: Design) -> None:
        self.design = design
        right, top = design.left + design.columns * design.tile_width, design.low + design.rows * design.tile_height
        self.ways = (Numbers(design.left, design.tile_width, design.columns, right),
                     Numbers(design.low, design.tile_height, design.rows, top),
                     Numbers(1, 1, design.layers, design.layers)) * 2

    def of(self, segments: list[bytes]) -> list[tuple[int, ...]]:
        """Column, row and layer of both ends of each segment."""
        if not segments:
            return []
        text = b"".join(segments)
        signs = text.translate(None, DIGITS).replace(b"(-", b"(").replace(b",-", b",")
        try:
            if signs != FORM * len(segments):
                raise ValueError(text)
            numbers = text.replace(b")-(", b",").replace(b")(", b",")[1:-1].split(b",")
            return list(zip(*(map(way.__getitem__, numbers[at::6]) for at, way in enumerate(self.ways))))
        except (Fault, ValueError):
            for segment in segments:
                self.design.run(segment)    # finds the one that is wrong
            raise


def runs_of(design: Design, ends: Iterable[tuple[int, ...]]) -> list[range]:
    """The cells of straight segments, by column, then row, then layer."""
    columns, plane = design.columns, design.columns * design.rows
    found = []
    for column, row, layer, column2, row2, layer2 in ends:
        one, other = layer * plane + row * columns + column, layer2 * plane + row2 * columns + column2
        step = 1 if column != column2 else columns if row != row2 else plane
        found.append(range(one, other + 1, step) if one <= other else range(other, one + 1, step))
    return found


def straight(design: Design, ends: list[tuple[int, ...]]) -> list[range]:
    """The cells of segments, of which none goes two ways."""
    for column, row, layer, column2, row2, layer2 in ends:
        if (column != column2) + (row != row2) + (layer != layer2) > 1:
            raise Fault("a segment of the solution is not straight")
    return runs_of(design, ends)


def routes(design: Design, path: str, ids: Container[int] | None = None) -> Iterator[tuple[int, list[range]]]:
    """Of each record of a solution's text whose net is routed, and is one of these where some are given: its net's id
    and its segments' cells."""
    ends = Ends(design)
    for id_, segments in records(design, path):
        if ids is not None and id_ not in ids:
            continue
        try:
            runs = straight(design, ends.of(segments))
        except Fault as fault:
            raise first_fault(design, path) or fault from None
        yield id_, runs


def has_joined(pins: set[int], runs: list[range]) -> bool:
    """Whether all these cells are one, or some that runs join."""
    if len(pins) < 2:
        return True
    reached = {next(iter(pins))}
    for _ in range(PASSES):
        left = []
        for run in runs:
            if reached.isdisjoint(run):
                left.append(run)
            else:
                reached.update(run)
        if reached >= pins:
            return True
        if len(left) == len(runs):
            return False
        runs = left
    return Joined(runs, reached).has(pins)


class Joined:
    """Which cells runs join; some cells are joined already. Takes time by the number of cells, in any order of runs."""

    def __init__(self, runs: Iterable[range], already: Iterable[int]) -> None:
        self.owner = dict.fromkeys(already, 0)      # by cell: the last run that has it
        self.parent = [0]                           # by run: another of its group, or itself
        for mine, run in enumerate(runs, 1):
            self.parent.append(mine)
            for other in set(map(self.owner.get, run)):
                if other is not None:
                    self.parent[self.group(other)] = mine
            self.owner.update(dict.fromkeys(run, mine))

    def group(self, run: int) -> int:
        """The last run of the group that a run is of."""
        while self.parent[run] != run:
            self.parent[run] = run = self.parent[self.parent[run]]
        return run

    def has(self, cells: Iterable[int]) -> bool:
        """Whether all these cells are joined."""
        owners = [self.owner.get(cell) for cell in cells]
        return None not in owners and len({self.group(run) for run in owners if run is not None}) == 1


def unjoined_without(design: Netlist, ids: Iterable[int]) -> list[int]:
    """The routed nets with pins in several cells that are none of these."""
    found = set(ids)
    return [id_ for id_ in design.ids if id_ not in found and design.widths[id_] is not None
            and len(design.pin_cells(id_)) > 1]


def unjoined_words(count: int) -> str:
    """How many nets are not joined, in words; nothing where all are."""
    return f"{count:,} net{'s' * (count != 1)} unjoined" if count else ""


def unjoined_first(ids: Sequence[int]) -> list[str]:
    """The lines before an answer, where nets are not joined."""
    return [f"unjoined {len(ids)}", ""] if ids else []
