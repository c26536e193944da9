"""Overfull wire edges in the forms that other programs open."""
from dataclasses import dataclass
from typing import Iterable, Iterator, Sequence
from xml.sax.saxutils import escape

import numpy

from groute.loads.edges_numpy import Array, Edges, by_number
from groute.loads.regions import WAYS, Loads, Region
from groute.texts.designs import EAST, NORTH, Netlist
from groute.texts.names import Terms


@dataclass
class Overfull:
    """A wire edge that is over its capacity."""
    layer: int          # from 0
    layer_name: str
    direction: str
    box: tuple[str, str, str, str]  # of its two tiles, in microns
    capacity: int
    demand: int
    nets: list[str]


def overfull(loads: Loads, design: Netlist, terms: Terms) -> list[Overfull]:
    """All wire edges that are over their capacity, with their nets, layer by layer."""
    found: list[Overfull] = []
    for way in (EAST, NORTH):
        numbers = by_number(way, loads.excess[way]).nonzero()[0]
        nets = nets_of(loads.edges, way, numbers)
        for number, mine in zip(numbers.tolist(), nets):
            column, row, layer = design.place(way, number)
            high = (column + 1, row) if way == EAST else (column, row + 1)
            found.append(Overfull(layer, terms.layers[layer], WAYS[way], terms.box((column, row), high),
                                  int(loads.edges.capacity[way][number]), int(loads.edges.demand[way][number]),
                                  [design.names[loads.edges.ids[net]] for net in mine]))
    return sorted(found, key=lambda edge: edge.layer)


def nets_of(edges: Edges, way: int, numbers: Array) -> list[list[int]]:
    """Of each of these wire edges, which rise, the nets that have it, by their places in edges.ids."""
    mine = (edges.way == way).nonzero()[0]
    begin = numpy.searchsorted(numbers, edges.number[mine])
    count = numpy.searchsorted(numbers, edges.number[mine] + edges.length[mine]) - begin
    mine, begin, count = mine[count > 0], begin[count > 0], count[count > 0]
    # The run number i goes over the edges from begin[i] on, count[i] of them.
    edge = numpy.repeat(begin - count.cumsum() + count, count) + numpy.arange(count.sum())
    net = numpy.repeat(edges.net[mine], count)
    order = numpy.lexsort((net, edge))
    cuts = numpy.searchsorted(edge[order], numpy.arange(len(numbers) + 1))
    nets = net[order].tolist()
    return [nets[low:high] for low, high in zip(cuts, cuts[1:])]


def openroad(found: Iterable[Overfull]) -> Iterator[str]:
    """The lines of a congestion report as OpenROAD writes and reads it."""
    for edge in found:
        x1, y1, x2, y2 = edge.box
        yield f"violation type: {edge.direction.capitalize()} congestion"
        yield f"\tsrcs: {' '.join(f'net:{name}' for name in edge.nets)}"
        yield (f"\tcongestion information: capacity:{edge.capacity} usage:{edge.demand} "
               f"overflow:{edge.demand - edge.capacity}")
        yield f"\tbbox = ({x1}, {y1}) - ({x2}, {y2}) on Layer {edge.layer_name}"


KLAYOUT = """<?xml version="1.0" encoding="utf-8"?>
<report-database>
 <description>Congestion of {cell}</description>
 <original-file/>
 <generator>hotspots.py</generator>
 <top-cell>{cell}</top-cell>
 <tags/>
 <categories>
{categories} </categories>
 <cells>
  <cell><name>{cell}</name><variant/><layout-name/><references/></cell>
 </cells>
 <items>
{items} </items>
</report-database>
"""
REGIONS = "worst regions"   # two words, as a layer's name is one
CATEGORY = "  <category><name>{}</name><description>{}</description><categories/></category>\n"
ITEM = ("  <item><tags/><category>{}</category><cell>{}</cell><visited>false</visited><multiplicity>1</multiplicity>"
        "<comment/><image/><values><value>box: ({},{};{},{})</value><value>text: {}</value></values></item>\n")


def klayout(found: Sequence[Overfull], regions: Sequence[Region], design: Netlist, terms: Terms, cell: str) -> str:
    """The text of a report database: a category of regions, and one of each layer with its overfull edges."""
    cell = xml_text(cell)
    regions_text = (ITEM.format(quoted(REGIONS), cell, *terms.box(region.low, region.high), quoted(
        f"overflow {region.overflow} edges {region.over} at capacity 0 {region.closed} nets "
        + " ".join(design.names[id_] for id_, _ in region.nets))) for region in regions)
    edges_text = (ITEM.format(quoted(edge.layer_name), cell, *edge.box, quoted(
        f"capacity {edge.capacity} demand {edge.demand} overflow {edge.demand - edge.capacity} nets "
        + " ".join(edge.nets))) for edge in found)
    categories = CATEGORY.format(REGIONS, "windows of most overflow, the worst first")
    for name in terms.layers:
        categories += CATEGORY.format(xml_text(name), "wire edges over their capacity")
    return KLAYOUT.format(cell=cell, categories=categories, items="".join((*regions_text, *edges_text)))


def xml_text(text: str) -> str:
    """A text with only what XML may hold."""
    allowed = (mark if mark in "\t\n" or " " <= mark < "\ud800" or mark > "\udfff" else "\ufffd" for mark in text)
    return escape("".join(allowed))


def quoted(text: str) -> str:
    """A text as a value of a report database."""
    return "'" + xml_text(text.replace("\\", "\\\\").replace("'", "\\'")) + "'"
