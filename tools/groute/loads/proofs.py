"""How far routes are from the best that any router could write, by what grbound proves of their design.

Bounds speak of routes that join each routed net; those of wirelength of routes along usable edges alone, by one via
cost. Where overflow is proved, the bound on the wirelength of routes without overflow speaks of none.
"""
from dataclasses import dataclass
from typing import Any

from groute.loads.edges import Counted
from groute.texts.bounds import Bounds

OVERFLOW, WIRELENGTH, BOTH = "overflow", "wirelength", "wirelength and overflow"
KEYS = {OVERFLOW: "overflow_units", WIRELENGTH: "wirelength_edges", BOTH: "wirelength_and_overflow"}    # of an object


@dataclass(frozen=True)
class Proof:
    """A figure of routes, and what it is at least in any routes of their kind."""
    figure: str
    reached: int
    least: int

    def tenths(self) -> int:
        """By how many tenths of a per cent it is above that at most."""
        return -(-1000 * (self.reached - self.least) // self.least)

    def within(self) -> str:
        """The same in words."""
        whole, tenth = divmod(self.tenths(), 10)
        return f"{whole:,}.{tenth} %"

    def words(self) -> str:
        """How near it is, behind the figure, in a verdict."""
        return f"at least {self.least:,} by proof: within {self.within()}"


def wirelength_of(edges: Counted, via_cost: int, told: int | None) -> int | None:
    """The wirelength of routes by a via cost; None where their report tells another one."""
    found = edges.wires + via_cost * edges.vias
    return found if told in (None, found) else None


def proofs(bounds: Bounds, edges: Counted, wirelength: int | None) -> list[Proof]:
    """What bounds prove of routes with this wirelength, if it is known by the via cost of the bounds."""
    least, overflow = bounds.least(), edges.overflow()[0]
    found = [Proof(OVERFLOW, overflow, least.overflow)]
    if wirelength is not None and edges.are_usable():
        found.append(Proof(BOTH, wirelength + overflow, least.both) if overflow
                     else Proof(WIRELENGTH, wirelength, least.wirelength))
    contradict = any(proof.reached < proof.least for proof in found)    # then they are another design's
    return [] if edges.unjoined or contradict else [proof for proof in found if proof.least > 0]


def object_of(found: list[Proof]) -> dict[str, Any]:
    """Proofs as an object."""
    own = {proof.figure: proof for proof in found}
    return {key: {"reached": own[figure].reached, "at_least": own[figure].least,
                  "within_percent": own[figure].tenths() / 10} if figure in own else None
            for figure, key in KEYS.items()}
