"""The demand of a solution's wire edges: in arrays of numpy, or where it isn't there in plain Python."""
from typing import Any, Iterator, Protocol

from groute.texts import objects
from groute.texts.designs import Netlist


class Counted(Protocol):
    """What both ways to count have."""
    design: Netlist
    wires: int
    vias: int
    unjoined: list[int]     # the ids of routed nets with a pin that their edges don't join to the first

    def used(self) -> Iterator[tuple[int, int, int, int]]:
        """Way, number, capacity and demand of each wire edge that is used."""

    def overflow(self) -> tuple[int, int]:
        """The sum and the greatest of what demand has above capacity."""

    def are_usable(self) -> bool:
        """Whether each wire edge lies on a layer whose capacity that way is stated to be above 0."""


def counted(design: Netlist, solution: str) -> Counted:
    """The demand of a solution's wire edges."""
    try:
        from groute.loads import edges_numpy
    except ImportError:
        from groute.loads import edges_plain
        return edges_plain.Edges(design, solution)
    return edges_numpy.Edges(design, solution)


def totals(edges: Counted) -> str:
    """The lines of the report, as `groute evaluate` prints them, behind how many nets aren't joined, if some are."""
    overflow, maximum = edges.overflow()
    first = f"unjoined {len(edges.unjoined)}\n" if edges.unjoined else ""
    return (f"{first}routed {edges.design.routed}\noverflow {overflow}\nmaximum {maximum}\n"
            f"wirelength {edges.wires + edges.vias}\nvias {edges.vias}\n")


def totals_object(edges: Counted) -> dict[str, Any]:
    """The same as an object, with the nets that aren't joined."""
    found = objects.totals(edges.design.routed, edges.overflow(), edges.wires, edges.vias, len(edges.unjoined))
    return {**found, "unjoined": [objects.net_of(edges.design, id_) for id_ in edges.unjoined]}
