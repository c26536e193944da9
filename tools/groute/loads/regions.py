"""What the wire edges of a solution carry: by layer, tile by tile, and the regions where most is too much.

All is of wire edges as they are, layer by layer. An edge of capacity 0 has no use, and what crosses it is overflow that
more room elsewhere would not help: such overflow is counted apart. An edge belongs to the region of its lower end, so
that regions without a common tile have no common edge.
"""
import functools
from dataclasses import dataclass
from typing import Any, Sequence

import numpy

from groute.loads.edges_numpy import Array, Edges, by_layer, by_number
from groute.texts.designs import EAST, NORTH

WAYS = {EAST: "horizontal", NORTH: "vertical"}
SHARES = (0.5, 1, 2, 5)     # percent of the edges, the fullest first
SIDE = 8                    # tiles that a region is wide and high
GRADES = ((1, "1 to 2"), (3, "3 to 5"), (6, "6 or more"))   # of overflow: from what on, and its words


@dataclass
class Line:
    """A row of the table: one layer's wire edges of one direction, or all."""
    layer: str
    direction: str
    resource: int = 0       # the sum of capacities
    demand: int = 0
    maximum: int = 0        # the greatest overflow of an edge
    overflow: int = 0       # the sum, that at capacity 0 within it
    over: int = 0           # how many edges have more demand than capacity
    closed: int = 0         # the overflow on edges of capacity 0

    def use(self) -> float | None:
        """Demand in percent of the resource, or None."""
        return 100 * self.demand / self.resource if self.resource else None

    def cells(self) -> list[str | int]:
        """As a row of a table under HEAD."""
        use = "-" if self.use() is None else f"{self.use():.1f}"
        return [self.layer, self.direction, self.resource, self.demand, use, self.maximum, self.overflow, self.over,
                self.closed]


HEAD = ["layer", "direction", "resource", "demand", "use, %", "greatest", "overflow", "edges over", "at capacity 0"]


@dataclass
class Region:
    """A window of tiles, from a lower to an upper corner (column, row), and what is over capacity in it."""
    low: tuple[int, int]
    high: tuple[int, int]
    overflow: int       # on edges that have capacity
    over: int           # how many edges these are
    closed: int         # overflow on edges of capacity 0
    nets: list[tuple[int, int]]     # (id, how many of these edges it needs), those that need most first


class Loads:
    """Demand, capacity and what demand has above capacity: by way, arrays by layer, row and column."""

    def __init__(self, edges: Edges) -> None:
        self.edges, self.design = edges, edges.design
        self.demand = [by_layer(edges.design, way, edges.demand[way]) for way in (EAST, NORTH)]
        self.capacity = [by_layer(edges.design, way, edges.capacity[way]) for way in (EAST, NORTH)]
        self.excess = [numpy.maximum(demand - capacity, 0) for demand, capacity in zip(self.demand, self.capacity)]
        self.open = [capacity > 0 for capacity in self.capacity]
        self.room = [numpy.where(some, excess, 0) for some, excess in zip(self.open, self.excess)]

    def overflow(self, layers: slice) -> int:
        """Of these layers."""
        return sum(int(excess[layers].sum()) for excess in self.excess)

    def overfull(self) -> int:
        """How many wire edges are over their capacity."""
        return sum(int((excess > 0).sum()) for excess in self.excess)

    def table(self, layers: Sequence[str]) -> list[Line]:
        """A line for each layer and direction that has wires, by the layers' names, and one of totals."""
        lines = []
        for at, name in enumerate(layers):
            for way, direction in WAYS.items():
                demand, capacity, excess = (some[way][at] for some in (self.demand, self.capacity, self.excess))
                line = Line(name, direction, int(capacity.sum()), int(demand.sum()), int(excess.max()),
                            int(excess.sum()), int((excess > 0).sum()), int(excess[capacity == 0].sum()))
                if line.resource or line.demand:
                    lines.append(line)
        total = Line("all", "", maximum=max((line.maximum for line in lines), default=0))
        for word in ("resource", "demand", "overflow", "over", "closed"):
            setattr(total, word, sum(getattr(line, word) for line in lines))
        return [*lines, total]

    @functools.cached_property
    def uses(self) -> Array:
        """Demand over capacity of each wire edge that has capacity, the fullest first."""
        found: Array = numpy.concatenate([self.demand[way][self.open[way]] / self.capacity[way][self.open[way]]
                                          for way in (EAST, NORTH)])
        return numpy.sort(found)[::-1]

    def fullest(self) -> list[float]:
        """The average use in percent of so many percent of the edges, the fullest ones, for each of SHARES."""
        uses = self.uses
        counts = [max(1, int(numpy.ceil(len(uses) * share / 100))) for share in SHARES]
        return [100 * float(uses[:count].mean()) if len(uses) else 0.0 for count in counts]

    def by_tile(self, layers: slice, ways: Sequence[int] = (EAST, NORTH)) -> tuple[Array, Array, Array]:
        """Of the wire edges of each tile, by row and column: the greatest demand over capacity (no number where none
        has capacity), the greatest overflow on an edge that has capacity, and the greatest on one that has none."""
        shape = self.design.rows, self.design.columns
        full, over, closed = numpy.full(shape, numpy.nan), numpy.zeros(shape, int), numpy.zeros(shape, int)
        for way in ways:
            demand, capacity, is_open = (some[way][layers] for some in (self.demand, self.capacity, self.open))
            use = numpy.divide(demand, capacity, out=numpy.full(demand.shape, -1.0), where=is_open).max(axis=0)
            use[use < 0] = numpy.nan
            room = self.room[way][layers].max(axis=0)
            shut = numpy.where(is_open, 0, self.excess[way][layers]).max(axis=0)
            ways_to_join: list[tuple[Array, Array, Any]] = [
                (full, use, numpy.fmax), (over, room, numpy.maximum), (closed, shut, numpy.maximum)]
            for all_, mine, larger in ways_to_join:
                larger(all_, mine, out=all_)    # of the tile at the lower end, then of that at the upper one
                if way == EAST:
                    larger(all_[:, 1:], mine[:, :-1], out=all_[:, 1:])
                else:
                    larger(all_[1:], mine[:-1], out=all_[1:])
        return full, over, closed

    def regions(self, most: int) -> list[Region]:
        """At most so many windows without a common tile, each time the one of most overflow that is left; the first by
        row and then by column where several have as much. Those without overflow are left out."""
        design = self.design
        high, wide = min(SIDE, design.rows), min(SIDE, design.columns)
        left = windows(self.room[EAST].sum(axis=0) + self.room[NORTH].sum(axis=0), high, wide)
        found: list[Region] = []
        overfull = [by_number(way, room > 0) for way, room in enumerate(self.room)]
        runs = self.edges.marks(overfull, numpy.arange(len(self.edges.net))).nonzero()[0]
        while len(found) < most and left.max() > 0:
            row, column = map(int, numpy.unravel_index(left.argmax(), left.shape))
            found.append(self.region(slice(row, row + high), slice(column, column + wide), runs))
            left[max(0, row - high + 1):row + high, max(0, column - wide + 1):column + wide] = 0
        return found

    def region(self, rows: slice, columns: slice, runs: Array) -> Region:
        """The region of these tiles. `runs` has at least the places of the runs through its overfull edges."""
        place = slice(None), rows, columns
        room = [room[place] for room in self.room]
        marked = []
        for way in (EAST, NORTH):
            mine = numpy.zeros(self.room[way].shape, bool)
            mine[place] = room[way] > 0
            marked.append(by_number(way, mine))
        overflow, total = (sum(int(some.sum()) for some in both)
                           for both in (room, [excess[place] for excess in self.excess]))
        through = self.edges.through(marked, runs)
        order = (-through).argsort(kind="stable")[:numpy.count_nonzero(through)]
        nets = [(self.edges.ids[net], int(through[net])) for net in order]
        return Region((columns.start, rows.start), (columns.stop - 1, rows.stop - 1), overflow,
                      sum(int((some > 0).sum()) for some in room), total - overflow, nets)


def windows(values: Array, high: int, wide: int) -> Array:
    """The sums of all windows of this size, by their lower row and column."""
    sums = numpy.zeros((values.shape[0] + 1, values.shape[1] + 1), numpy.int64)
    sums[1:, 1:] = values.cumsum(axis=0).cumsum(axis=1)
    found: Array = sums[high:, wide:] - sums[:-high, wide:] - sums[high:, :-wide] + sums[:-high, :-wide]
    return found
