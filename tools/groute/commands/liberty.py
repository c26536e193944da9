"""Reads liberty files, and tells the linear model of their cells: load in femtofarads, resistance in ohms, delay in
femtoseconds, as a library text has them, and how far the model is from the tables.

A cell's delay for a load is its own delay plus its resistance times the load. Both are those of the straight line
through the table's delays for the least and the greatest load, at the middle one of the slews; of several tables, of
rising and falling edges and of several inputs, the greatest delay counts at each of the two loads. An input's load is
its capacitance, or the greater one of its two edges. Errors are those of the line against the greatest delay of the
tables, in % of it: at the middle slew, and over all slews.
"""
from typing import Iterator, Sequence

from groute import frame
from groute.placed.liberty import Cell, Liberty
from groute.texts.files import Fault


def report(cells: Sequence[Cell]) -> Iterator[str]:
    """A line for each output, and the errors of all."""
    yield "cell pin load ohms delay error_% most_%"
    at_middle: list[float] = []
    at_all: list[float] = []
    for cell in cells:
        load = round(max(cell.loads.values(), default=0))
        for pin, line in cell.lines.items():
            here, everywhere = line.errors()
            at_middle += here
            at_all += everywhere
            yield (f"{cell.name} {pin} {load} {round(line.resistance)} {round(line.delay)} "
                   f"{100 * sum(here) / len(here):.1f} {100 * max(here):.1f}")
    if at_middle:
        for says, errors in (("at the middle slew", at_middle), ("over all slews", at_all)):
            yield f"{says}: mean {100 * sum(errors) / len(errors):.1f} %, most {100 * max(errors):.1f} %"


def parser() -> frame.Parser:
    """The reader of the words."""
    words = frame.parser(__doc__)
    words.add_argument("liberty", metavar="LIBERTY", help="a liberty file")
    words.add_argument("cells", metavar="CELL", nargs="*", help="cells; else all")
    return words


def main(words: Sequence[str]) -> None:
    """Prints the models."""
    asked = parser().parse_args(words)
    liberty = Liberty([asked.liberty])
    cells = [liberty.cell(name) for name in asked.cells] or list(liberty.cells.values())
    print("\n".join(report(cells)))
    if liberty.faults and not asked.cells:
        raise Fault(*liberty.faults.values())
