"""Writes the netlist of a placed DEF as structural Verilog, which timers and synthesis read.

It has an instance for each component with its pins as NETS connects them, without supplies and fillers (cells that have
no pins but those of supplies); what a supply ties off is a constant. A port without a DIRECTION, as qflow writes it, is
an output where a cell drives its net, else an input. Ports NAME[N] are bits of a bus; all other names stay, escaped
where Verilog wants that, and without the backslashes that a DEF escapes by.

--liberty says the directions of pins of which the LEF says none, and cells that it lacks are told.
"""
from typing import Sequence

from groute import frame
from groute.placed.connected import Connected
from groute.placed.def_text import Def
from groute.placed.lef_text import Lef
from groute.placed.liberty import Liberty
from groute.placed.statements import Notes
from groute.texts.files import Outputs
from groute.timing.netlists import Circuit


def parser() -> frame.Parser:
    """The reader of the words."""
    words = frame.parser(__doc__)
    words.add_argument("placed", metavar="PLACED.def", help="a placed design")
    words.add_argument("--lef", action="append", required=True, metavar="FILE", help="the technology, then the cells")
    words.add_argument("--liberty", action="append", default=[], metavar="FILE", help="a liberty file of the cells")
    words.add_argument("-o", "--output", metavar="FILE", required=True, help="the netlist, .v")
    return words


def main(words: Sequence[str]) -> None:
    """Reads the placement and writes the netlist."""
    asked, notes = parser().parse_args(words), Notes("netlist")
    with Outputs([asked.placed, *asked.lef, *asked.liberty]) as outputs:
        outputs.check(asked.output)     # before what takes long
        placed = Def(asked.placed, notes)
        chip = Connected(placed, Lef(asked.lef, placed.units, notes))
        if asked.liberty:
            chip.complete(Liberty(asked.liberty))
        outputs.lines(asked.output, Circuit(chip).lines())
