"""Writes a design with less capacity: whether there is margin for it, a route of it tells.

Each cut leaves the share SHARE of what some wire edges hold, in whole tracks (a track is a layer's minimum width plus
its minimum spacing). What rounding would lose is spread over neighbours: on each layer and in each direction the edges
of a cut hold together SHARE of their tracks, to within one. --layer cuts a layer, or `all`; --region cuts the edges
between the tiles from one to another, on all layers; each may stand several times, and cuts come in the order of the
words. --direction leaves the edges of the other direction as they are. What holds 0 then stays open to routes, as
overflow.
"""
import argparse
import sys
from typing import Any, Sequence

from groute import frame
from groute.texts.designs import EAST, NORTH, Netlist
from groute.texts.files import Outputs
from groute.texts.names import Terms, names_beside
from groute.texts.tokens import Tokens


class Cut(argparse.Action):
    """Takes the cuts of both options in their order."""

    def __call__(self, parser: argparse.ArgumentParser, asked: argparse.Namespace, values: Any,
                 option: str | None = None) -> None:
        asked.cuts = [*asked.cuts, (option, values)]


def parser() -> frame.Parser:
    """The reader of the words."""
    words = frame.parser(__doc__)
    words.set_defaults(cuts=[])
    words.add_argument("design", metavar="DESIGN", help="a design text")
    words.add_argument("--layer", nargs=2, action=Cut, metavar=("N", "SHARE"),
                       help="a layer from 1 or by its name, or all")
    words.add_argument("--region", nargs=5, action=Cut, metavar=("X0", "Y0", "X1", "Y1", "SHARE"),
                       help="columns and rows from 0")
    words.add_argument("--direction", choices=("h", "v"), help="cut horizontal or vertical wire edges alone")
    words.add_argument("-o", "--output", metavar="FILE", help="the design that is written; else standard output")
    frame.add_names(words)
    return words


def main(words: Sequence[str]) -> None:
    """Writes the design."""
    asked = parser().parse_args(words)
    design = Netlist(Tokens(asked.design))
    terms = Terms(design, names_beside(asked.design, asked.names))
    from groute.loads.cuts import cut_edges, lines
    from groute.loads.edges_numpy import by_layer, capacities
    capacity = [by_layer(design, way, capacities(design, way)) for way in (EAST, NORTH)]
    ways = [way for way, letter in ((EAST, "h"), (NORTH, "v")) if asked.direction in (None, letter)]
    for cut in asked.cuts:
        cut_edges(terms, capacity, cut, ways)
    if asked.output is None:
        sys.stdout.writelines(f"{line}\n" for line in lines(design, capacity))
        return
    with Outputs([asked.design, asked.names]) as outputs:
        outputs.lines(asked.output, lines(design, capacity))
