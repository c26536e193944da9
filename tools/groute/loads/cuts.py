"""Designs with less capacity."""
from fractions import Fraction
from typing import Iterator, Sequence

import numpy

from groute.loads.edges_numpy import Array
from groute.texts.designs import EAST, NORTH, Netlist
from groute.texts.files import Fault
from groute.texts.names import Terms

Cut = tuple[str, list[str]]     # --layer or --region, and its words

MOST = 10_000   # of which a share is so many parts
MOST_WORD = 20  # letters of a number


def share_of(word: str) -> Fraction:
    """A share from 0 to 1 with at most four decimals."""
    try:
        share = Fraction(word[:MOST_WORD])
    except (ValueError, ZeroDivisionError):
        share = Fraction(-1)
    if not 0 <= share <= 1 or MOST % share.denominator:
        raise Fault(f"{word} is no share from 0 to 1 with at most four decimals")
    return share


def whole(word: str, least: int, most: int, what: str) -> int:
    """A whole number in this range."""
    if not (word.isdecimal() and len(word) < MOST_WORD and least <= int(word) <= most):
        raise Fault(f"{word} is no {what} of the design, which has {least} to {most}")
    return int(word)


def place(terms: Terms, cut: Cut) -> tuple[slice, tuple[int, int], tuple[int, int]]:
    """The layers, rows and columns of a cut, the latter with all their tiles."""
    design, (option, values) = terms.design, cut
    if option == "--layer":
        layer = None if values[0] == "all" else terms.layer(values[0])
        return slice(None) if layer is None else slice(layer - 1, layer), (0, design.rows - 1), (0, design.columns - 1)
    x0, x1 = (whole(word, 0, design.columns - 1, "column") for word in values[:3:2])
    y0, y1 = (whole(word, 0, design.rows - 1, "row") for word in values[1:4:2])
    if x0 > x1 or y0 > y1:
        raise Fault("a region goes from its lower left tile to its upper right one")
    return slice(None), (y0, y1), (x0, x1)


def cut_edges(terms: Terms, capacity: list[Array], cut: Cut, ways: Sequence[int]) -> None:
    """Cuts capacities, by way arrays by layer, row and column, in place."""
    design = terms.design
    layers, rows, columns = place(terms, cut)
    share = share_of(cut[1][-1])
    for way in ways:
        # The edge of the last tile goes on to one outside.
        held = capacity[way][layers, rows[0]:rows[1] + (way == EAST), columns[0]:columns[1] + (way == NORTH)]
        for layer, some in zip(range(design.layers)[layers], held):
            track = max(1, design.width[layer] + design.spacing[layer])
            # Across the wires, so that along a wire capacities stay even.
            across = some.T if way == EAST else some
            if share != 1:
                across[:] = track * spread(across // track, share)


def spread(tracks: Array, share: Fraction) -> Array:
    """So many tracks of each that all are their share to within one, and none more than before."""
    total = tracks.ravel().cumsum()
    kept = (2 * share.numerator * total + share.denominator) // (2 * share.denominator)
    few: Array = numpy.diff(kept, prepend=0).reshape(tracks.shape)
    return few


def stated(design: Sequence[int], capacity: Array) -> list[int]:
    """What the head says for each layer in a direction: the commonest capacity but 0, or what it said before."""
    found = []
    for before, some in zip(design, capacity):
        values, counts = numpy.unique(some[some > 0], return_counts=True)
        found.append(int(values[counts.argmax()]) if before and len(values) else before)
    return found


def lines(design: Netlist, capacity: list[Array]) -> Iterator[str]:
    """The lines of the design with other capacities, by way by layer, row and column."""
    yield f"grid {design.columns} {design.rows} {design.layers}"
    head = [stated(design.capacity[way], inside(capacity[way], way)) for way in (EAST, NORTH)]
    for says, values in (("vertical capacity", head[NORTH]), ("horizontal capacity", head[EAST]),
                         ("minimum width", design.width), ("minimum spacing", design.spacing),
                         ("via spacing", design.via_spacing)):
        yield f"{says} {' '.join(map(str, values))}"
    yield f"{design.left} {design.low} {design.tile_width} {design.tile_height}"
    yield f"num net {len(design.ids)}"
    for id_ in design.ids:
        pins = design.pins(id_)
        width = design.widths[id_] if id_ not in design.unrouted else design.unrouted[id_]
        yield f"{design.names[id_]} {id_} {len(pins)} {width}"
        yield from (f"{x} {y} {layer}" for x, y, layer in pins)
    adjusted = [line for way in (EAST, NORTH) for line in adjustments(inside(capacity[way], way), way, head[way])]
    yield str(len(adjusted))
    yield from adjusted


def inside(capacity: Array, way: int) -> Array:
    """Without the places at the border, where there is no edge."""
    return capacity[:, :, :-1] if way == EAST else capacity[:, :-1]


def adjustments(capacity: Array, way: int, head: Sequence[int]) -> Iterator[str]:
    """Lines for the wire edges that hold another number than their layer's."""
    different = (capacity != numpy.array(head)[:, None, None]).nonzero()
    for layer, row, column, value in zip(*(some.tolist() for some in (*different, capacity[different]))):
        end = f"{column + 1} {row}" if way == EAST else f"{column} {row + 1}"
        yield f"{column} {row} {layer + 1} {end} {layer + 1} {value}"
