"""How the routes of a design differ from others, net by net: these are of the same design, or of an earlier one with
the same grid, so that nets are told apart by their names."""
from dataclasses import dataclass, field
from typing import Iterator, NamedTuple

from groute.loads.edges_plain import capacity_of, lower_cells, number_of
from groute.texts.designs import EAST, NORTH, UP, Netlist
from groute.texts.files import Fault
from groute.texts.solutions import Ends, first_fault, has_joined, named_records, straight

GROUPS = ("new", "gone", "same", "other")
BEFORE, AFTER = range(2)
Edges = list[set[int]]      # by way, the lower cells


@dataclass
class Group:
    """Some nets: their names, and of both routes their wire edges, their vias, and the overflow on edges of theirs."""
    names: list[str] = field(default_factory=list)
    wires: list[int] = field(default_factory=lambda: [0, 0])
    vias: list[int] = field(default_factory=lambda: [0, 0])
    overflow: list[int] = field(default_factory=lambda: [0, 0])


class Sizes(NamedTuple):
    """Wire edges and vias of a net in one of the routes."""
    wires: int
    vias: int


class Differences:
    """What differs between two solutions. `gone` are nets that the design lacks, of the width of a layer's own wires;
    `new` have no record before; `same` have the same edges, `other` others. `sizes` has those of other nets, and
    `unjoined` the nets that the later routes leave so."""

    def __init__(self, design: Netlist, before: str, after: str) -> None:
        self.design, self.paths = design, (before, after)
        self.ids = design.by_name()
        self.ends = Ends(design)
        self.records = [named_records(before), named_records(after, self.ids)]
        self.groups = {name: Group() for name in GROUPS}
        self.sizes: dict[str, tuple[Sizes, Sizes]] = {}
        self.unjoined: list[int] = []
        self.demand: list[list[dict[int, int]]] = [[{}, {}], [{}, {}]]
        for name in self.nets():
            self.add(name)
        self.excess = [self.excess_of(demand) for demand in self.demand]
        self.add_overflow()

    def nets(self) -> Iterator[str]:
        """The names of the routed nets, in the design's order, and behind them of those that are gone."""
        yield from (self.design.names[id_] for id_ in self.design.ids if self.design.widths[id_] is not None)
        yield from (name for name in self.records[BEFORE] if name not in self.ids)

    def runs(self, name: str, side: int) -> list[range]:
        """The runs of a net in one of the routes."""
        try:
            return straight(self.design, self.ends.of(self.records[side].get(name, [])))
        except Fault as fault:
            told = first_fault(self.design, self.paths[side], name) or fault
            raise Fault(f"of the net {name}: {told}") from None

    def edges(self, name: str) -> tuple[Edges, Edges]:
        """The edges of a net in both routes."""
        before, after = (lower_cells(self.design, self.runs(name, side)) for side in (BEFORE, AFTER))
        return before, after

    def group_of(self, name: str, edges: tuple[Edges, Edges]) -> str:
        """The group of a net."""
        if name not in self.ids:
            return "gone"
        if name not in self.records[BEFORE]:
            return "new"
        return "same" if edges[BEFORE] == edges[AFTER] else "other"

    def add(self, name: str) -> None:
        """Puts a net into its group, and its edges into the demand."""
        design, edges = self.design, self.edges(name)
        group = self.group_of(name, edges)
        mine, plane = self.groups[group], design.columns * design.rows
        mine.names.append(name)
        width = design.widths[self.ids[name]] if name in self.ids else 0
        needs = [design.need(layer, width or 0) for layer in range(design.layers)]
        sizes = [Sizes(len(some[EAST]) + len(some[NORTH]), len(some[UP])) for some in edges]
        for side, some in enumerate(edges):
            mine.wires[side] += sizes[side].wires
            mine.vias[side] += sizes[side].vias
            for way in (EAST, NORTH):
                demand = self.demand[side][way]
                for cell in some[way]:
                    demand[cell] = demand.get(cell, 0) + needs[cell // plane]
        if group == "other":
            self.sizes[name] = sizes[BEFORE], sizes[AFTER]
        if name in self.ids and not has_joined(design.pin_cells(self.ids[name]), self.runs(name, AFTER)):
            self.unjoined.append(self.ids[name])

    def excess_of(self, demand: list[dict[int, int]]) -> list[dict[int, int]]:
        """By way and lower cell, what demand has above capacity, where it has."""
        found: list[dict[int, int]] = []
        for way in (EAST, NORTH):
            over = ((cell, some - capacity_of(self.design, way, number_of(self.design, way, cell)))
                    for cell, some in demand[way].items())
            found.append({cell: excess for cell, excess in over if excess > 0})
        return found

    def overflow(self, side: int) -> int:
        """The sum of what demand has above capacity."""
        return sum(sum(excess.values()) for excess in self.excess[side])

    def add_overflow(self) -> None:
        """Of each group, the overflow on the edges of its nets, each edge once."""
        for group in self.groups.values():
            over: list[set[tuple[int, int]]] = [set(), set()]
            if any(any(some) for some in self.excess):
                for name in group.names:
                    for side, edges in enumerate(self.edges(name)):
                        for way in (EAST, NORTH):
                            over[side].update((way, cell) for cell in edges[way] & self.excess[side][way].keys())
            for side in (BEFORE, AFTER):
                group.overflow[side] = sum(self.excess[side][way][cell] for way, cell in over[side])
