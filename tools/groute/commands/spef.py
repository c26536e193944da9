"""Writes the parasitics of routes as SPEF (IEEE 1481), which timers read.

Each routed net gets a tree: from tile to tile the resistance and the capacitance that the library has for a step on the
layer, half of the capacitance at each end, and likewise for vias; pins in one tile are one node. Loads of pins are left
to liberty. --scale N takes back what def_to_ispd.py --scale N multiplied by.

Which pins they are DESIGN.pins says. Nets, ports and instances have the names that netlist.py writes, or, with
--verilog, those of a flat netlist of the same placement: there each net is found by its pins, whatever it is called.

Nets without routes are left out and told. The status is 1 where routes leave a pin unjoined.
"""
from typing import Sequence

from groute import frame
from groute.texts.designs import Netlist
from groute.texts.files import Outputs
from groute.texts.libraries import Library
from groute.texts.pins import pins_beside
from groute.texts.tokens import Tokens
from groute.timing.spef import Names, Parasitics
from groute.timing.verilog import Verilog


def parser() -> frame.Parser:
    """The reader of the words."""
    words = frame.parser(__doc__)
    words.add_argument("design", metavar="DESIGN", help="a design text, as def_to_ispd.py makes it")
    words.add_argument("library", metavar="LIBRARY", help="its library")
    words.add_argument("solution", metavar="SOLUTION", help="its routes")
    words.add_argument("-o", "--output", metavar="FILE", required=True, help="the parasitics, .spef")
    words.add_argument("--verilog", metavar="NETLIST", help="a flat netlist of the placement, whose names are taken")
    words.add_argument("--pins", metavar="FILE", help="the text beside the design; else DESIGN.pins")
    frame.add_scale(words)
    return words


def main(words: Sequence[str]) -> int:
    """Reads the texts and writes the parasitics."""
    asked = parser().parse_args(words)
    inputs = [asked.design, asked.library, asked.solution, asked.verilog, asked.pins]
    with Outputs(inputs) as outputs:
        outputs.check(asked.output)     # before what takes long
        design = Netlist(Tokens(asked.design))
        pins = pins_beside(asked.design, asked.pins)
        pins.check(design)
        names = Names(design, pins, Verilog(asked.verilog) if asked.verilog else None)
        found = Parasitics(design, pins, Library(asked.library, design.layers), asked.scale, names)
        outputs.lines(asked.output, found.lines(asked.solution))
    without = [id_ for id_ in found.unrouted if design.widths[id_] is None]
    for id_ in without[:frame.SHOWN]:
        frame.say("spef", f"the net {design.names[id_]} has no routes and is left out")
    if len(without) > frame.SHOWN:
        frame.say("spef", f"{len(without) - frame.SHOWN:,} more nets have no routes and are left out")
    unjoined = found.unjoined + [id_ for id_ in found.unrouted if design.widths[id_] is not None]
    return frame.tell_unjoined("spef", design, sorted(unjoined, key=design.places.__getitem__))
