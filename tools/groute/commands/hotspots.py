"""Tells where a solution is congested, and whose nets it is.

It prints the totals of `groute evaluate`; a table by layer and direction; ACE, the average use of the 0.5, 1, 2 and 5 %
fullest wire edges of capacity above 0, by which two placements compare; and the worst regions: windows of 8 by 8 tiles
of most overflow, without a common tile, each with the nets through its overfull edges, those that need most of them
first. Overflow on edges of capacity 0 is counted within the table's, once more in a column of its own, and not in the
regions' overflow. A region's four numbers are the words that `congestion.py --region` takes.

--openroad writes each overfull edge in the form of OpenROAD's `global_route -congestion_report_file`, --klayout the
regions and the overfull edges as a report database of KLayout (.lyrdb); both are in microns and want --names.
"""
import csv
import os
import sys
from typing import TYPE_CHECKING, Any, Iterator, Sequence

from groute import frame
from groute.loads.edges import totals, totals_object
from groute.show import tables
from groute.texts import objects
from groute.texts.designs import Netlist
from groute.texts.files import Outputs
from groute.texts.names import Terms, chosen, names_beside
from groute.texts.tokens import Tokens

if TYPE_CHECKING:
    from groute.loads.regions import Loads, Region

SHOWN = 8       # names of nets that are printed of a region


def parser() -> frame.Parser:
    """The reader of the words."""
    words = frame.parser(__doc__)
    words.add_argument("design", metavar="DESIGN", help="a design text")
    words.add_argument("solution", metavar="SOLUTION", help="a solution text of it")
    words.add_argument("--worst", type=frame.number(0), default=10, metavar="N",
                       help="as many regions at most; else 10")
    words.add_argument("--csv", metavar="FILE", help="the regions, each with all its nets, as a table")
    words.add_argument("--openroad", metavar="FILE", help="the overfull edges as OpenROAD's congestion report")
    words.add_argument("--klayout", metavar="FILE", help="regions and overfull edges as a report database")
    frame.add_json(words)
    frame.add_nets(words)
    frame.add_names(words)
    return words


def printed(loads: "Loads", regions: "Sequence[Region]", design: Netlist, terms: Terms) -> Iterator[str]:
    """The lines of the answer."""
    from groute.loads.regions import HEAD, SHARES
    yield from totals(loads.edges).splitlines()
    yield ""
    yield from tables.lines(HEAD, [line.cells() for line in loads.table(terms.layers)])
    yield ""
    found = (f"{use:.1f} of {share} %" for share, use in zip(SHARES, loads.fullest()))
    yield f"ACE, average use in % of the fullest edges: {', '.join(found)}"
    if not regions:
        return
    yield ""
    yield from tables.lines(["", "region", f"box, {terms.unit}", "overflow", "edges over", "at capacity 0", "nets"],
                            [[number, " ".join(map(str, (*region.low, *region.high))),
                              terms.words(region.low, region.high), region.overflow, region.over, region.closed,
                              len(region.nets)] for number, region in enumerate(regions, 1)])
    yield ""
    yield "nets, and how many of the region's overfull edges they need"
    width = len(str(len(regions)))
    for number, region in enumerate(regions, 1):
        names = [f"{design.names[id_]} {count}" for id_, count in region.nets[:SHOWN]]
        more = len(region.nets) - SHOWN
        yield f"{number:>{width}}  {', '.join(names)}" + (f", and {more:,} more" if more > 0 else "")


def answer(loads: "Loads", regions: "Sequence[Region]", design: Netlist, terms: Terms) -> dict[str, Any]:
    """The answer as an object."""
    from groute.loads.regions import SHARES
    lines = [{"layer": line.layer, "direction": line.direction or None, "resource_units": line.resource,
              "demand_units": line.demand, "use_percent": line.use(), "maximum_units": line.maximum,
              "overflow_units": line.overflow, "overfull_edges": line.over,
              "overflow_at_capacity_0_units": line.closed} for line in loads.table(terms.layers)]
    return {
        "totals": totals_object(loads.edges), "layers": lines[:-1], "all": lines[-1],
        "ace_percent": dict(zip(map(str, SHARES), loads.fullest())),
        "regions": [{"low_tile": region.low, "high_tile": region.high,
                     f"box_{terms.unit}": [float(word) for word in terms.box(region.low, region.high)],
                     "overflow_units": region.overflow, "overfull_edges": region.over,
                     "overflow_at_capacity_0_units": region.closed,
                     "nets": [{**objects.net_of(design, id_), "overfull_edges": count} for id_, count in region.nets]}
                    for region in regions]}


def write_table(regions: "Sequence[Region]", design: Netlist, terms: Terms, path: str, outputs: Outputs) -> None:
    """A line for each region."""
    table = csv.writer(outputs.text(path), lineterminator="\n")
    table.writerow(["region", "column", "row", "to_column", "to_row",
                    *(f"{name} ({terms.unit})" for name in ("x1", "y1", "x2", "y2")),
                    "overflow", "edges_over", "overflow_at_capacity_0", "nets"])
    for number, region in enumerate(regions, 1):
        table.writerow([number, *region.low, *region.high, *terms.box(region.low, region.high), region.overflow,
                        region.over, region.closed, " ".join(design.names[id_] for id_, _ in region.nets)])


def main(words: Sequence[str]) -> int:
    """Prints the answer and writes the files."""
    asked = parser().parse_args(words)
    design = Netlist(Tokens(asked.design))
    terms = Terms(design, names_beside(asked.design, asked.names))
    for word in ("openroad", "klayout"):
        if getattr(asked, word):
            terms.want_microns(f"--{word}")
    from groute.loads.edges_numpy import Edges
    from groute.loads.regions import Loads
    loads = Loads(Edges(design, asked.solution))
    regions = loads.regions(asked.worst)
    for region in regions:
        kept = set(chosen([id_ for id_, _ in region.nets], terms, asked.nets))
        region.nets = [(id_, count) for id_, count in region.nets if id_ in kept]
    with Outputs([asked.design, asked.solution, asked.names]) as outputs:
        outputs.check(asked.csv, asked.openroad, asked.klayout)
        if asked.csv:
            write_table(regions, design, terms, asked.csv, outputs)
        if asked.openroad or asked.klayout:
            from groute.show import viewers
            found = viewers.overfull(loads, design, terms)
            if asked.openroad:
                outputs.lines(asked.openroad, viewers.openroad(found))
            if asked.klayout:
                cell = os.path.basename(asked.design)
                outputs.text(asked.klayout).write(viewers.klayout(found, regions, design, terms, cell))
    if asked.json:
        sys.stdout.write(objects.text_of("hotspots", answer(loads, regions, design, terms)))
    else:
        sys.stdout.writelines(f"{line}\n" for line in printed(loads, regions, design, terms))
    return frame.tell_unjoined("hotspots", design, loads.edges.unjoined)
