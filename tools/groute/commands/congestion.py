"""Shows where the routes of a design are congested, as a picture or as a table; prints the totals of `groute evaluate`.

A picture has all layers together and layer by layer. Each tile has the colour of the fullest of its wire edges, by
demand over capacity; where one is over its capacity, a colour by the greatest overflow; overflow on edges of capacity 0
is hatched and doesn't count for the colour. Of large designs a dot is the mean of several tiles. With --edges each wire
edge has its own place, between its two tiles, and a dot of large designs is the fullest of several. A table (.csv) has
a line for each wire edge that is used; columns and rows count from 0, layers from 1.

--tracks reads what `groute panels` wrote of the solution and prints of each row and column, fullest first, the tile
where most of its tracks are used: how many are, and how many it holds, the capacity of its fuller border over the
layer's minimum width and spacing. One of more tracks than it holds can't be routed in detail as it is.

--bound draws the fullest walls of what `grbound` wrote of the design: those that need more than they hold in orange.

Pictures want Debian's python3-numpy and python3-matplotlib. Tables and totals do without, but are slower then.
"""
import csv
import os
import sys
from argparse import Namespace
from typing import Sequence

from groute import frame
from groute.loads.edges import Counted, counted, totals, totals_object
from groute.texts import objects
from groute.texts.bounds import bounds_in
from groute.texts.designs import EAST, Cell, Netlist
from groute.texts.files import Fault, Outputs
from groute.texts.names import Terms, names_beside
from groute.texts.reports import buffer_of, buffered, check_report, first_fault
from groute.texts.tokens import Tokens


def write_table(edges: Counted, path: str, outputs: Outputs, layer: int | None, terms: Terms) -> None:
    """A line for each wire edge that is used, of one layer or of all."""
    table = csv.writer(outputs.text(path), lineterminator="\n")
    table.writerow(["layer", "column", "row", "to_column", "to_row", "capacity", "demand", "overflow"])
    for way, number, capacity, demand in edges.used():
        column, row, at = edges.design.place(way, number)
        if layer in (None, at + 1):
            to = (column + 1, row) if way == EAST else (column, row + 1)
            table.writerow([terms.layers[at], column, row, *to, capacity, demand, max(0, demand - capacity)])


def parser() -> frame.Parser:
    """The reader of the words."""
    words = frame.parser(__doc__)
    words.add_argument("design", metavar="DESIGN", help="a design text")
    words.add_argument("solution", metavar="SOLUTION", help="a solution text of it")
    words.add_argument("-o", "--output", metavar="FILE", help="a file .png, .svg or .csv; without it, only the totals")
    words.add_argument("--layer", metavar="N", help="show this layer alone, from 1 or by its name")
    words.add_argument("--edges", action="store_true", help="a picture of wire edges and not of tiles")
    words.add_argument("--direction", choices=("h", "v"), help="show horizontal or vertical wire edges alone")
    words.add_argument("--region", nargs=4, type=int, metavar=("X0", "Y0", "X1", "Y1"),
                       help="show the tiles from one to another alone")
    words.add_argument("--worst", type=frame.number(0), default=0, metavar="N",
                       help="frame the N worst regions of hotspots.py")
    words.add_argument("--net", metavar="NAME", help="draw this net")
    words.add_argument("--buffers", metavar="REPORT", help="draw the buffers that a report tells of")
    words.add_argument("--bound", metavar="BOUNDS", help="draw the fullest walls that grbound tells of")
    words.add_argument("--tracks", metavar="PANELS", help="print the tracks of rows and columns beside what they hold")
    frame.add_json(words)
    frame.add_names(words)
    return words


def asked_of(words: Sequence[str]) -> Namespace:
    """What is asked for."""
    reader = parser()
    asked = reader.parse_args(words)
    if asked.output and os.path.splitext(asked.output)[1] not in (".png", ".svg", ".csv"):
        reader.error("the output ends in .png, .svg or .csv")
    of_tiles = [asked.direction, asked.region, asked.worst, asked.net, asked.buffers, asked.bound]
    if any(of_tiles) and (asked.edges or not asked.output or asked.output.endswith(".csv")):
        reader.error("--direction, --region, --worst, --net, --buffers and --bound are of pictures of tiles")
    if asked.json and asked.tracks:
        reader.error("--json has the totals alone, and no --tracks")
    return asked


def checked(asked: Namespace, design: Netlist, terms: Terms) -> None:
    """Refuses what the design doesn't have; the layer becomes its number, and the net its id."""
    if asked.layer is not None:
        asked.layer = terms.layer(asked.layer)
    if asked.region:
        x0, y0, x1, y1 = asked.region
        if not (0 <= x0 <= x1 < design.columns and 0 <= y0 <= y1 < design.rows):
            raise Fault(f"the design has the tiles 0 0 to {design.columns - 1} {design.rows - 1}")
    if asked.net is not None:
        asked.net = design.named(asked.net)


def buffers(asked: Namespace, design: Netlist) -> list[Cell]:
    """The cells of the buffers that are asked for."""
    tokens = (some for id_, _, some in buffered(design, asked.buffers) if asked.net in (None, id_))
    try:
        return [buffer_of(design, *pair)[0] for some in tokens for pair in zip(some[::2], some[1::2])]
    except Fault as fault:
        raise first_fault(design, asked.buffers) or fault from None


def draw(asked: Namespace, edges: Counted, outputs: Outputs, terms: Terms) -> None:
    """Writes the picture."""
    from groute.loads import edges_numpy
    from groute.show import edge_map, tile_map
    assert isinstance(edges, edges_numpy.Edges)     # as numpy is there
    name = os.path.basename(asked.design)
    if asked.edges:
        edge_map.write_picture(edges, asked.output, outputs, asked.layer, name, terms)
        return
    asked.bound = bounds_in(asked.bound).walls if asked.bound else ()
    found = buffers(asked, edges.design) if asked.buffers else None
    tile_map.write_picture(edges, asked.output, outputs, asked, name, terms, found)


def main(words: Sequence[str]) -> int:
    """Prints the totals and writes the file."""
    asked = asked_of(words)
    design = Netlist(Tokens(asked.design))
    terms = Terms(design, names_beside(asked.design, asked.names))
    checked(asked, design, terms)
    edges = counted(design, asked.solution)
    if asked.buffers:
        check_report(asked.buffers, design.routed, edges.overflow(), edges.vias)
    if asked.output:
        inputs = [asked.design, asked.solution, asked.buffers, asked.bound, asked.tracks, asked.names]
        with Outputs(inputs) as outputs:
            if asked.output.endswith(".csv"):
                write_table(edges, asked.output, outputs, asked.layer, terms)
            else:
                draw(asked, edges, outputs, terms)
    sys.stdout.write(objects.text_of("congestion", totals_object(edges)) if asked.json else totals(edges))
    if asked.tracks:
        from groute.loads import tracks
        from groute.show import tables
        table = tracks.rows(design, asked.tracks, terms)
        sys.stdout.writelines(f"{line}\n" for line in ["", *tables.lines(tracks.HEAD, table)])
    return frame.tell_unjoined("congestion", design, edges.unjoined)
