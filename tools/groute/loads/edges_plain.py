"""The demand of a solution's wire edges, in plain Python: for where numpy is not installed."""
from itertools import repeat
from typing import Iterator

from groute.texts.designs import EAST, NORTH, UP, Cell, Edge, Netlist
from groute.texts.solutions import has_joined, routes, unjoined_without


class Edges:
    """Demand by wire edge, the numbers of wire edges and vias of all nets, and the ids of nets that aren't joined."""

    def __init__(self, design: Netlist, solution: str) -> None:
        self.design = design
        # Of wire edges where some net is, by way and by the lower cell, which goes by column, then row, then layer.
        self.demand: tuple[dict[int, int], dict[int, int]] = {}, {}
        self.wires = self.vias = 0
        self.unjoined: list[int] = []
        self.needs: dict[int, list[int]] = {}       # by width: what is needed on each layer
        ids = []
        for id_, runs in routes(design, solution):
            ids.append(id_)
            self.add(design.widths[id_] or 0, runs)
            if not has_joined(design.pin_cells(id_), runs):
                self.unjoined.append(id_)
        self.unjoined += unjoined_without(design, ids)
        self.unjoined.sort(key=design.places.__getitem__)

    def add(self, width: int, runs: list[range]) -> None:
        """The edges of one net."""
        design = self.design
        plane = design.columns * design.rows
        if width not in self.needs:
            self.needs[width] = [design.need(layer, width) for layer in range(design.layers)]
        needs, edges = self.needs[width], lower_cells(design, runs)
        self.vias += len(edges[UP])
        for way in (EAST, NORTH):
            demand, mine = self.demand[way], edges[way]
            self.wires += len(mine)
            for cell in mine:
                demand[cell] = demand.get(cell, 0) + needs[cell // plane]

    def covered(self, low: Cell, high: Cell) -> Iterator[Edge]:
        """The unit edges between the ends of a run."""
        for way in (EAST, NORTH, UP):
            number, length = self.design.number(way, *low), high[way] - low[way]
            yield from zip(repeat(way), range(number, number + length))

    def used(self) -> Iterator[tuple[int, int, int, int]]:
        """Way, number, capacity and demand of each wire edge that is used."""
        for way in (EAST, NORTH):
            for number, demand in sorted((self.number(way, cell), demand) for cell, demand in self.demand[way].items()):
                yield way, number, capacity_of(self.design, way, number), demand

    def number(self, way: int, cell: int) -> int:
        """Of the edge of this way with this lower cell."""
        return number_of(self.design, way, cell)

    def overflow(self) -> tuple[int, int]:
        """The sum and the greatest of what demand has above capacity."""
        over = [demand - capacity for _, _, capacity, demand in self.used() if demand > capacity]
        return sum(over), max(over, default=0)

    def are_usable(self) -> bool:
        """Whether each wire edge lies on a layer whose capacity that way is stated to be above 0."""
        plane = self.design.columns * self.design.rows
        return all(self.design.capacity[way][cell // plane] for way in (EAST, NORTH) for cell in self.demand[way])


def lower_cells(design: Netlist, runs: list[range]) -> list[set[int]]:
    """By way the lower cells of the edges that runs have."""
    found: list[set[int]] = [set(), set(), set()]
    ways = {1: EAST, design.columns: NORTH, design.columns * design.rows: UP}
    for run in runs:
        if len(run) > 1:
            found[ways[run.step]].update(run[:-1])
    return found


def number_of(design: Netlist, way: int, cell: int) -> int:
    """The number of the edge of this way with this lower cell."""
    if way == EAST:
        return cell
    line, column = divmod(cell, design.columns)
    layer, row = divmod(line, design.rows)
    return design.number(way, column, row, layer)


def capacity_of(design: Netlist, way: int, number: int) -> int:
    """The capacity of a wire edge."""
    stated = design.capacity[way][design.place(way, number)[2]]
    return design.adjusted.get((way, number), stated)
