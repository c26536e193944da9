"""The demand of a solution's wire edges, in arrays of numpy: the same as edges_plain, for large designs."""
from typing import TYPE_CHECKING, Any, Iterator, Sequence

import numpy

from groute.texts.designs import EAST, NORTH, UP, Cell, Design, Netlist
from groute.texts.files import Fault
from groute.texts.solutions import first_fault, records

if TYPE_CHECKING:
    import numpy.typing
    Array = numpy.typing.NDArray[Any]
else:
    Array = numpy.ndarray

BATCH = 1 << 19     # segments that are gone through at once
BLANKS, BLANKS_FOR_SIGNS = (bytes.maketrans(marks, b" " * len(marks)) for marks in (b"(),", b"(),-"))


class Edges:
    """demand[way] and capacity[way] by the numbers of wire edges, and how many wire edges and vias all nets have.

    `ids` are the nets with a record. Their runs are five arrays side by side: whose run it is (by its place in ids),
    its way, the number of its first edge, how many edges it has, and what the net takes of each. A net's runs share no
    edge. Those of way UP are numbered as `numbers` says.
    """

    def __init__(self, design: Netlist, solution: str) -> None:
        self.design = design
        self.cells = design.columns * design.rows * design.layers
        self.ids: list[int] = []
        parts: list[list[Array]] = [[numpy.zeros(0, numpy.int32)] * 5]
        for ids, counts, segments in batches(design, solution):
            try:
                parts.append(self.gather(ids, numpy.array(counts), ends(segments)))
            except Fault as fault:
                raise first_fault(design, solution) or fault from None
            self.ids += ids
        self.net, self.way, self.number, self.length, self.need = map(numpy.concatenate, zip(*parts))
        self.vias = int(self.length[self.way == UP].sum(dtype=numpy.int64))
        self.wires = int(self.length.sum(dtype=numpy.int64)) - self.vias
        self.demand = [self.summed(way) for way in (EAST, NORTH)]
        self.capacity = [capacities(design, way) for way in (EAST, NORTH)]
        self.unjoined = self.find_unjoined()

    def gather(self, ids: list[int], counts: Array, points: Array) -> list[Array]:
        """The runs of a batch of nets, each edge of a net once."""
        low, high = self.cells_of(points[:, :3]), self.cells_of(points[:, 3:])
        differ = low != high
        if (differ.sum(axis=1) > 1).any():
            raise Fault("a segment of the solution is not straight")
        straight = differ.any(axis=1)
        net = numpy.repeat(numpy.arange(len(counts)), counts)[straight]
        way = differ.argmax(axis=1)[straight]
        one, other = self.numbers(way, low[straight]), self.numbers(way, high[straight])
        base = (net * 3 + way) * self.cells
        first, last = merged(base + numpy.minimum(one, other), base + numpy.maximum(one, other))
        net, way, number = first // (3 * self.cells), first // self.cells % 3, first % self.cells
        # Of a via this is no layer, and what is needed of it isn't asked for.
        layer = number // (self.design.columns * self.design.rows)
        width = numpy.array([self.design.widths[id_] for id_ in ids], numpy.int64)[net]
        need = numpy.maximum(width, numpy.array(self.design.width)[layer]) + numpy.array(self.design.spacing)[layer]
        return [some.astype(numpy.int32) for some in (net + len(self.ids), way, number, last - first, need)]

    def cell_numbers(self, points: Array) -> Array:
        """Of points of the text, by column, then row, then layer."""
        column, row, layer = self.cells_of(points).T
        numbers: Array = (layer * self.design.rows + row) * self.design.columns + column
        return numbers

    def cells_of(self, points: Array) -> Array:
        """Column, row and layer of points of the text."""
        design = self.design
        size = numpy.array([design.columns, design.rows, design.layers])
        tile = numpy.array([design.tile_width, design.tile_height, 1])
        away = points - numpy.array([design.left, design.low, 1])
        border = size * tile - numpy.array([0, 0, 1])
        if ((away < 0) | (away > border)).any():
            raise Fault("a point lies outside the chip")
        cells: Array = numpy.minimum(away // tile, size - 1)
        return cells

    def numbers(self, way: Array, cells: Array) -> Array:
        """Of cells, going along each one's way first."""
        column, row, layer = cells.T
        design = self.design
        east = (layer * design.rows + row) * design.columns + column
        north = (layer * design.columns + column) * design.rows + row
        up = (row * design.columns + column) * design.layers + layer
        numbers: Array = numpy.choose(way, [east, north, up])
        return numbers

    def summed(self, way: int) -> Array:
        """Demand by number: each run adds its need from its first number to before its last."""
        mine = self.way == way
        first, need = self.number[mine], self.need[mine]
        change = numpy.bincount(first, need, self.cells)
        change -= numpy.bincount(first + self.length[mine], need, self.cells)
        demand: Array = numpy.rint(change.cumsum()).astype(numpy.int64)
        return demand

    def through(self, marked: list[Array], runs: Array | None = None) -> Array:
        """Of each net of `ids`, through how many of the marked wire edges it goes: marked[way] is true or false by
        number. Where the places of some runs are given, only these are looked at."""
        runs = numpy.arange(len(self.net)) if runs is None else runs
        return numpy.rint(numpy.bincount(self.net[runs], self.marks(marked, runs), len(self.ids))).astype(numpy.int64)

    def marks(self, marked: list[Array], runs: Array) -> Array:
        """How many of the marked wire edges each of these runs has."""
        found = numpy.zeros(len(runs), numpy.int64)
        for way in (EAST, NORTH):
            before: Array = numpy.append(0, marked[way].cumsum(dtype=numpy.int64))
            mine = (self.way[runs] == way).nonzero()[0]
            first = self.number[runs[mine]]
            found[mine] = before[first + self.length[runs[mine]]] - before[first]
        return found

    def runs_of(self, id_: int) -> Iterator[tuple[Cell, Cell]]:
        """The first and the last cell of each run of a net: column, row and layer, from 0."""
        design = self.design
        mine = (self.net == self.ids.index(id_)).nonzero()[0] if id_ in self.ids else numpy.zeros(0, int)
        for way, number, length in zip(*(some[mine].tolist() for some in (self.way, self.number, self.length))):
            if way == UP:
                tile = number // design.layers
                low = tile % design.columns, tile // design.columns, number % design.layers
            else:
                low = design.place(way, number)
            column, row, layer = (low[at] + length * (at == way) for at in (EAST, NORTH, UP))
            yield low, (column, row, layer)

    def find_unjoined(self) -> list[int]:
        """The ids of the routed nets with a pin that their edges don't join to the first."""
        design = self.design
        counts = numpy.diff(numpy.array(design.first))
        wanted = counts > 1
        if design.unrouted:
            wanted &= numpy.array([design.widths[id_] is not None for id_ in design.ids], bool)
        net = numpy.arange(len(design.ids))
        if self.ids != design.ids:      # nets without a record are numbered behind the others
            place = {id_: at for at, id_ in enumerate(self.ids)}
            net = numpy.array([place.get(id_, len(place) + at) for at, id_ in enumerate(design.ids)], numpy.int64)
        try:
            cells = self.cell_numbers(numpy.array(design.points, numpy.int64).reshape(-1, 3))
        except Fault:
            design.check_pins()
            raise
        asked = numpy.repeat(wanted, counts)
        loose = self.loose(numpy.repeat(net, counts)[asked], cells[asked])
        return [id_ for id_, number in zip(design.ids, net.tolist()) if number in loose] if loose else []

    def loose(self, net: Array, pin: Array) -> set[int]:
        """Of nets with these pins side by side, each with its net's number and its cell's, those whose pins aren't all
        joined."""
        if not len(net):
            return set()
        first = numpy.append(True, net[1:] != net[:-1])
        group = self.groups_of(net * self.cells + pin)
        one = group[first.nonzero()[0]][first.cumsum() - 1]
        return set(net[group != one].tolist())

    def groups_of(self, wanted: Array) -> Array:
        """Of cells of nets, numbered by net and then by cell, a number that those share that a net's runs join."""
        run, cell = self.cells_of_runs()
        key = self.net[run].astype(numpy.int64) * self.cells + cell
        order = key.argsort(kind="stable")
        key, run = key[order], run[order]
        # Where runs share a cell, they are joined.
        same = (key[1:] == key[:-1]).nonzero()[0]
        group = groups(len(self.net), run[same], run[same + 1])
        if not len(key):
            return wanted
        at = numpy.minimum(key.searchsorted(wanted), len(key) - 1)
        return numpy.where(key[at] == wanted, group[run[at]], -1 - wanted)

    def cells_of_runs(self) -> tuple[Array, Array]:
        """The cells of all runs: the run of each, and its number by column, then row, then layer."""
        design, length = self.design, self.length.astype(numpy.int64) + 1
        number = self.number.astype(numpy.int64)
        plane = design.columns * design.rows
        north_row, north_line = number % design.rows, number // design.rows
        north = (north_line // design.columns * design.rows + north_row) * design.columns + north_line % design.columns
        up = number % design.layers * plane + number // design.layers
        first: Array = numpy.choose(numpy.asarray(self.way, numpy.int64), [number, north, up])
        step = numpy.array([1, design.columns, plane])[self.way]
        run = numpy.repeat(numpy.arange(len(length)), length)
        at = numpy.arange(len(run)) - numpy.repeat(length.cumsum() - length, length)
        return run, first[run] + at * step[run]

    def sizes(self) -> tuple[Array, Array]:
        """Of each net of `ids`, how many wire edges and how many vias it has."""
        wires, vias = (numpy.bincount(self.net[mine], self.length[mine], len(self.ids)).astype(numpy.int64)
                       for mine in (self.way != UP, self.way == UP))
        return wires, vias

    def used(self) -> Iterator[tuple[int, int, int, int]]:
        """Way, number, capacity and demand of each wire edge that is used."""
        for way in (EAST, NORTH):
            numbers = self.demand[way].nonzero()[0]
            columns = numbers, self.capacity[way][numbers], self.demand[way][numbers]
            for number, capacity, demand in zip(*(column.tolist() for column in columns)):
                yield way, number, capacity, demand

    def overflow(self) -> tuple[int, int]:
        """The sum and the greatest of what demand has above capacity."""
        over = [numpy.maximum(self.demand[way] - self.capacity[way], 0) for way in (EAST, NORTH)]
        return sum(int(some.sum()) for some in over), max(int(some.max()) for some in over)

    def are_usable(self) -> bool:
        """Whether each wire edge lies on a layer whose capacity that way is stated to be above 0."""
        layer = numpy.floor_divide(self.number, self.design.columns * self.design.rows)
        return all(numpy.array(self.design.capacity[way])[layer[self.way == way]].all() for way in (EAST, NORTH))


def capacities(design: Design, way: int) -> Array:
    """Capacity by number; numbers at the border, where there is no edge, have none."""
    line = design.columns if way == EAST else design.rows
    stated = numpy.repeat(numpy.array(design.capacity[way]), design.columns * design.rows)
    stated[line - 1::line] = 0
    mine = {number: capacity for (at, number), capacity in design.adjusted.items() if at == way}
    stated[list(mine)] = list(mine.values())
    return stated


def by_layer(design: Design, way: int, values: Array) -> Array:
    """Values by number as an array by layer, row and column, which shares their place."""
    if way == EAST:
        return values.reshape(design.layers, design.rows, design.columns)
    return values.reshape(design.layers, design.columns, design.rows).transpose(0, 2, 1)


def by_number(way: int, array: Array) -> Array:
    """The values of such an array by number."""
    return (array if way == EAST else array.transpose(0, 2, 1)).ravel()


def batches(design: Design, solution: str) -> Iterator[tuple[list[int], list[int], list[bytes]]]:
    """Ids, counts of segments, and the segments, of many nets at once."""
    ids: list[int] = []
    counts: list[int] = []
    segments: list[bytes] = []
    for id_, some in records(design, solution):
        ids.append(id_)
        counts.append(len(some))
        segments += some
        if len(segments) >= BATCH:
            yield ids, counts, segments
            ids, counts, segments = [], [], []
    if ids:
        yield ids, counts, segments


def ends(segments: Sequence[bytes]) -> Array:
    """The six numbers of each segment's token."""
    return parsed(segments, b"(,,)-(,,)", (b"\n(", b")-(", b")\n"), "a segment of the solution has not the form "
                  "(x,y,layer)-(x,y,layer)")


def points(tokens: Sequence[bytes]) -> Array:
    """The three numbers of each point's token."""
    return parsed(tokens, b"(,,)", (b"\n(", b")\n"), "the place of a buffer has not the form (x,y,layer)")


def parsed(tokens: Sequence[bytes], form: bytes, marks: tuple[bytes, ...], fault: str) -> Array:
    """The numbers of tokens, a row for each. `form` is one without its numbers, and marks are where none stand."""
    each, count = form.count(b",") + form.count(b"("), len(tokens)
    text = b"\n" + b"\n".join(tokens) + b"\n" * (count > 0)
    signs = text.translate(None, b"0123456789")
    is_negative = b"(-" in signs or b",-" in signs
    if is_negative:
        signs = signs.replace(b"(-", b"(").replace(b",-", b",")
    has_form = signs == b"\n" + (form + b"\n") * count and all(text.count(mark) == count for mark in marks)
    # A number that is left out would make too few; one that is too large becomes the largest, which is no place.
    blanks = text.replace(b")-(", b" ").translate(BLANKS) if is_negative else text.translate(BLANKS_FOR_SIGNS)
    numbers = numpy.fromstring(blanks, numpy.int64, sep=" ") if has_form and count else numpy.zeros(0, int)
    if len(numbers) != each * count:
        raise Fault(fault)
    return numbers.reshape(count, each)


def merged(first: Array, last: Array) -> tuple[Array, Array]:
    """Runs from first to last, in order, where those that meet are one."""
    order = first.argsort(kind="stable")
    first, last = first[order], numpy.maximum.accumulate(last[order])
    begins = numpy.ones(len(first), bool)
    begins[1:] = first[1:] > last[:-1]
    return first[begins], last[numpy.append(begins[1:], True)] if len(first) else last


def groups(count: int, one: Array, other: Array) -> Array:
    """Of so many runs a number that those share that are joined, by pairs of runs that are."""
    group = numpy.arange(count)
    while len(one):
        # Of several that a group is to be joined to at once, it is to any.
        group[numpy.maximum(one, other)] = numpy.minimum(one, other)
        found = group[group]
        while not (found == group).all():
            group, found = found, found[found]
        one, other = group[one], group[other]
        differ = one != other
        one, other = one[differ], other[differ]
    return group
