"""Makes a design text, and a library text, of a placed DEF and its LEF.

LEF and DEF are read as the public language 5.8 has them. What says nothing to a global router is skipped, each kind
told once on standard error; what matters and isn't understood is refused with its file and line.

Tiles are as --tile says; else those of GCELLGRID, where it is regular; else squares of 15 pitches of the third routing
layer, or, of a DEF without ROW, as qflow writes it, as high as a row of cells. The last tile of a row or of a column
runs to the edge of the die. Layers are the LEF's routing layers, each in its one direction, or those of --layers: pins
on lower ones are lifted to the first. A wire has width 1 and spacing 1, so that each track has capacity 2. A track
counts for the border of two tiles where no metal of cells, of pins or of special wires and no blockage lies nearer to
it than a wire may, anywhere between the middles of the two. A net with a rule for wide nets has, of width W and spacing
S, the width 2 * (W + S) / pitch, rounded up, less 1, of the layer where that is most.

A pin lies in the middle of its first rectangle; a net's first pin, its driver, is the output of a component, else a pin
of the chip, else the first that is named. Nets without pins are left out, and so are supplies: nets of USE POWER or
GROUND in NETS, SPECIALNETS or PINS, and those that SPECIALNETS holds without a USE, as qflow writes them; each is told,
and --keep-supply keeps them. DESIGN.names has the names of the layers, the units, and which nets are clocks: those of
USE CLOCK, and those with a sink that LEF or liberty calls a clock's. DESIGN.pins has which pins of the chip those of
the design are. Other tools read both. Texts of chips may be compressed by gzip or xz.

The library has the wires' resistance and capacitance for a step from tile to tile, and of all vias the greatest
resistance, by the LEF. The LEF says nothing of drivers, sinks and buffers: they are given here, in ohms, femtofarads
and femtoseconds, or read from --liberty, by the linear model of tools/liberty.py. Then the library has a line for each
net's driver and for each sink whose cell is known, --kinds are cells that buffer or invert (else all that buffer, but
no pads), and --driver is the cell for all others: its resistance for drivers, its input's load for sinks. A library's
numbers are whole, and those of short wires round badly: --scale N makes resistances and capacitances N times as great,
and delays, with the required times that groute tells, N * N times.
"""
import os
from argparse import ArgumentTypeError, Namespace
from fractions import Fraction
from typing import Sequence

from groute import frame
from groute.placed.chip import Chip
from groute.placed.def_text import Def
from groute.placed.design_text import design_text, names_of, pins_text
from groute.placed.lef_text import Lef
from groute.placed.liberty import Liberty
from groute.placed.library_text import library_text
from groute.placed.statements import Notes, number
from groute.texts.files import BESIDE, Outputs


def adjustment(word: str) -> tuple[str, Fraction]:
    """Layer and share of `LAYER=SHARE`."""
    layer, _, text = word.rpartition("=")
    try:
        share = Fraction(number(text))
    except ValueError:
        share = Fraction(-1)
    if not layer or not 0 <= share <= 1:
        raise ArgumentTypeError(f"{word} is no LAYER=SHARE with a share from 0 to 1")
    return layer, share


def parser() -> frame.Parser:
    """The reader of the words."""
    words = frame.parser(__doc__)
    words.add_argument("placed", metavar="DEF", help="a placed design")
    words.add_argument("lef", metavar="LEF", help="its layers, and cells")
    words.add_argument("design", metavar="DESIGN", help="the design text that is written")
    words.add_argument("library", metavar="LIBRARY", nargs="?", help="the library text that is written")
    words.add_argument("--lef", dest="lefs", action="append", default=[], metavar="FILE",
                       help="a further LEF, as of cells; as often as there are")
    words.add_argument("--tile", nargs=2, type=frame.number(1), metavar=("WIDTH", "HEIGHT"), help="in units of the DEF")
    words.add_argument("--layers", metavar="FIRST-LAST", help="the grid's routing layers, as met1-met5; else all")
    words.add_argument("--adjust", action="append", type=adjustment, default=[], metavar="LAYER=SHARE",
                       help="takes this share of a layer's capacity away, as met1=0.8")
    words.add_argument("--via", nargs=2, type=frame.number(0), metavar=("R", "C"),
                       help="of a via; else the LEF's greatest R, and 0")
    words.add_argument("--driver", default="1000", metavar="R",
                       help="of each net's driver, or a cell of --liberty; else 1000")
    words.add_argument("--sink", type=frame.number(0), metavar="C",
                       help="of each sink; else 20, or the load of --driver's cell")
    words.add_argument("--liberty", action="append", default=[], metavar="FILE",
                       help="a liberty file of the cells; as often as there are")
    words.add_argument("--kinds", metavar="A,B,..", help="the cells of --liberty that may be placed as buffers")
    words.add_argument("--kind", nargs=4, action="append", default=[], metavar=("NAME", "C", "R", "D"),
                       help="a kind of buffer; as often as there are kinds")
    frame.add_scale(words)
    words.add_argument("--keep-supply", action="store_true", help="routes power and ground too, as other nets")
    return words


def asked_of(words: Sequence[str], teller: frame.Parser | None = None) -> Namespace:
    """What is asked for; another parser, where it hands the words on, tells what is wrong."""
    reader = parser()
    reader.teller = teller
    asked = reader.parse_args(words)
    if not asked.liberty and (asked.kinds or not asked.driver.isdecimal()):
        reader.error("--kinds, and a cell for --driver, want --liberty")
    return asked


def main(words: Sequence[str]) -> None:
    """Reads the DEF and writes the texts."""
    asked, notes = asked_of(words), Notes("def_to_ispd")
    with Outputs([asked.placed, asked.lef, *asked.lefs, *asked.liberty]) as outputs:
        beside = [f"{asked.design}{end}" for end in BESIDE]
        outputs.check(asked.design, asked.library, *beside)     # before what takes long
        placed = Def(asked.placed, notes)
        lef = Lef([asked.lef, *asked.lefs], placed.units, notes)
        chip = Chip(placed, lef, asked.tile, asked.layers, asked.adjust, asked.keep_supply)
        liberty = Liberty(asked.liberty) if asked.liberty else None
        outputs.lines(asked.design, design_text(chip))
        if not os.path.exists(asked.design) or os.path.isfile(asked.design):    # and no pipe or terminal
            outputs.lines(beside[0], names_of(chip, liberty).lines())
            outputs.lines(beside[1], pins_text(chip))
        if asked.library:
            outputs.lines(asked.library, library_text(chip, liberty, asked))
