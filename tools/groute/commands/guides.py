"""Writes the routes of a design as route guides, the text from which detailed routers such as OpenROAD's start.

For each routed net: its name, `(`, a line `x1 y1 x2 y2 LAYER` for each rectangle of tiles on a layer, and `)`. A run of
tiles is one rectangle; where a net changes layers its tile is one on each of them, and so is each tile of a pin, unless
a run covers it. Coordinates are the design's, where the chip is known up to its edge; the layers' names are those of
DESIGN.names, or of --names, or the LEF's routing layers in their order.
"""
from itertools import repeat
from typing import Iterator, Sequence

from groute import frame
from groute.placed.lef_text import Lef
from groute.placed.statements import Notes
from groute.texts.designs import Cell
from groute.texts.files import Fault, Outputs
from groute.texts.names import names_beside
from groute.texts.solutions import Ends, first_fault, has_joined, records, runs_of, unjoined_without
from groute.texts.tiled import Tiled

Line = tuple[int, int]      # the layer, and the row or column
Run = tuple[int, int]       # the first and the last tile
Box = tuple[Cell, Cell]     # the lower and the upper cell


def boxes(design: Tiled, id_: int, ends: list[tuple[int, ...]]) -> list[Box]:
    """The rectangles of a net in their order, each its lower and its upper cell."""
    rows: dict[Line, list[Run]] = {}
    columns: dict[Line, list[Run]] = {}
    spots = {design.cell(*pin) for pin in design.pins(id_)}
    for column, row, layer, column2, row2, layer2 in ends:
        if (column != column2) + (row != row2) + (layer != layer2) > 1:
            raise Fault(f"a segment of the net {design.names[id_]} is not straight")
        if column != column2:
            rows.setdefault((layer, row), []).append((column, column2) if column < column2 else (column2, column))
        elif row != row2:
            columns.setdefault((layer, column), []).append((row, row2) if row < row2 else (row2, row))
        else:
            spots.update((column, row, at) for at in range(min(layer, layer2), max(layer, layer2) + 1))
    found: list[Box] = []
    covered: set[Cell] = set()
    for (layer, row), runs in rows.items():
        for first, last in joined(runs):
            found.append(((first, row, layer), (last, row, layer)))
            covered.update(zip(range(first, last + 1), repeat(row), repeat(layer)))
    for (layer, column), runs in columns.items():
        for first, last in joined(runs):
            found.append(((column, first, layer), (column, last, layer)))
            covered.update(zip(repeat(column), range(first, last + 1), repeat(layer)))
    found += [(spot, spot) for spot in spots - covered]
    found.sort()
    return found


def joined(runs: list[Run]) -> list[Run]:
    """Runs of a line, of which those that share a tile are one."""
    if len(runs) == 1:
        return runs
    found: list[Run] = []
    for first, last in sorted(runs):
        if found and first <= found[-1][1]:
            found[-1] = found[-1][0], max(last, found[-1][1])
        else:
            found.append((first, last))
    return found


def guides(design: Tiled, solution: str, layers: Sequence[str], unjoined: list[int]) -> Iterator[str]:
    """The lines of the guides, net by net; nets that aren't joined are added to a list."""
    xs, ys = design.xs, design.ys
    ids, ends_of = [], Ends(design).of
    for id_, segments in records(design, solution):
        ids.append(id_)
        try:
            ends = ends_of(segments)
            found = boxes(design, id_, ends)
        except Fault as fault:
            raise first_fault(design, solution) or fault from None
        if not has_joined(design.pin_cells(id_), runs_of(design, ends)):
            unjoined.append(id_)
        yield design.names[id_]
        yield "("
        for (column, row, layer), (last_column, last_row, _) in found:
            yield f"{xs[column]} {ys[row]} {xs[last_column + 1]} {ys[last_row + 1]} {layers[layer]}"
        yield ")"
    unjoined += unjoined_without(design, ids)
    unjoined.sort(key=design.places.__getitem__)


def parser() -> frame.Parser:
    """The reader of the words."""
    words = frame.parser(__doc__)
    words.add_argument("design", metavar="DESIGN", help="a design text, as def_to_ispd.py makes it")
    words.add_argument("solution", metavar="SOLUTION", help="its routes")
    words.add_argument("lef", metavar="LEF", nargs="?", help="the LEF that names the layers, where nothing else does")
    words.add_argument("guides", metavar="GUIDES", help="the text that is written")
    words.add_argument("--names", metavar="FILE", help="the text beside the design; else DESIGN.names")
    return words


def main(words: Sequence[str]) -> int:
    """Reads the texts and writes the guides."""
    asked = parser().parse_args(words)
    names = names_beside(asked.design, asked.names)
    if names is None and asked.lef is None:
        raise Fault(f"{asked.design}.names isn't there, so that a LEF is wanted")
    design = Tiled(asked.design, names)
    layers = names.layers if names else \
        [layer.name for layer in Lef([asked.lef], 1000, Notes("guides", False)).routing]
    if len(layers) != design.layers:
        raise Fault(f"the LEF has {len(layers)} routing layers, and the design {design.layers}")
    unjoined: list[int] = []
    with Outputs([asked.design, asked.solution, asked.lef, asked.names]) as outputs:
        outputs.lines(asked.guides, guides(design, asked.solution, layers, unjoined))
    return frame.tell_unjoined("guides", design, unjoined)
