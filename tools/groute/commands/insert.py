"""Puts the buffers of a report into the placed DEF, as cells, and parts the nets at them.

REPORT is what `groute route` or `groute buffer` told of SOLUTION. Each buffer becomes a cell of its kind, which liberty
has to know, with its middle in the tile of the report: on a site of a row (of ROW, else of the cells' rows), where it
is free, else nearest to the tile's middle. Fillers give way; what lies on other cells is told, for a detailed placer.
A net is parted along its routes. A port keeps the net's name on its side; new cells and nets are called NAME_buf1 and
NAME_buf1_net, with another number where that is taken, and NAME_net. Wires of changed nets are left out.

groute buffers each net that gets faster by it. With --slack, nets are taken whose slack is below --below (in
picoseconds, else 0); never those of clocks, and those that --keep names, one a line. Nets where a sink would be
inverted, or whose ports would come apart, stay as they are and are told.

--verilog changes a flat netlist of the placement likewise; hierarchy is refused. --eco writes a script that does so in
sta or OpenROAD, by the names of that netlist, or of netlist.py. What was written is read again: without the new cells
it has to be what was given.
"""
from argparse import ArgumentTypeError, Namespace
from fractions import Fraction
from typing import Sequence

from groute import frame
from groute.placed import def_edits
from groute.placed.connected import Connected
from groute.placed.def_text import Def
from groute.placed.lef_text import Lef
from groute.placed.liberty import Liberty
from groute.placed.statements import Notes, number
from groute.texts.files import OWN, Fault, Outputs, open_text, text_of
from groute.texts.names import names_beside
from groute.texts.pins import pins_beside
from groute.texts.slacks import read_slacks
from groute.texts.tiled import Tiled
from groute.timing import taken_out
from groute.timing.edits import Named, script, verilog
from groute.timing.insertion import Insertion, Kind, Kinds, connections, left_words
from groute.timing.naming import plain
from groute.timing.sites import Sites
from groute.timing.slacks import clocks_before
from groute.timing.spef import Names
from groute.timing.verilog import Verilog

PICOSECOND = 1000   # femtoseconds


def picoseconds(word: str) -> int:
    """A time in femtoseconds."""
    try:
        return round(Fraction(number(word)) * PICOSECOND)
    except ValueError:
        raise ArgumentTypeError(f"{word} is no number of picoseconds") from None


def parser() -> frame.Parser:
    """The reader of the words."""
    words = frame.parser(__doc__)
    words.add_argument("placed", metavar="PLACED.def", help="a placed design")
    words.add_argument("design", metavar="DESIGN", help="the design that def_to_ispd.py made of it")
    words.add_argument("solution", metavar="SOLUTION", help="its routes")
    words.add_argument("report", metavar="REPORT", help="what `route` wrote on standard error, or `buffer` on output")
    words.add_argument("-o", "--output", metavar="OUT.def", required=True, help="the placed design with buffers")
    words.add_argument("--lef", action="append", required=True, metavar="FILE", help="the technology, then the cells")
    words.add_argument("--liberty", action="append", required=True, metavar="FILE", help="a liberty file of the cells")
    words.add_argument("--slack", metavar="TABLE", help="slacks of nets, as required.py writes them")
    words.add_argument("--below", type=picoseconds, metavar="T", help="take nets of less slack, in ps; else 0")
    words.add_argument("--keep", metavar="FILE", help="names of nets that stay as they are")
    words.add_argument("--verilog", nargs=2, metavar=("IN.v", "OUT.v"), help="a flat netlist, and where it is written")
    words.add_argument("--eco", metavar="FILE.tcl", help="a script of what changes")
    words.add_argument("--pins", metavar="FILE", help="the text beside the design; else DESIGN.pins")
    words.add_argument("--names", metavar="FILE", help="the other text beside it; else DESIGN.names")
    return words


class Work:
    """All that is read, and what comes of it."""

    def __init__(self, asked: Namespace) -> None:
        self.asked, self.notes = asked, Notes("insert")
        self.placed = Def(asked.placed, self.notes)
        self.chip = Connected(self.placed, Lef(asked.lef, self.placed.units, self.notes))
        self.liberty = Liberty(asked.liberty)
        names = names_beside(asked.design, asked.names)
        self.design = Tiled(asked.design, names)
        self.pins = pins_beside(asked.design, asked.pins)
        self.pins.check(self.design)
        self.netlist = Verilog(asked.verilog[0]) if asked.verilog else None
        self.names = Names(self.design, self.pins, self.netlist)
        self.clocks = names.clocks() if names else set()
        self.insertion = Insertion(self.design, self.pins.nets, Kinds(self.liberty))
        self.insertion.read(asked.solution, asked.report, self.without())
        self.cells = {part.instance: part.kind for part in self.insertion.name(self.taken()) if part.kind}
        self.sites = Sites(self.chip)

    def without(self) -> set[int]:
        """The nets that stay as they are."""
        asked, ids = self.asked, {name: id_ for id_, name in self.design.names.items()}
        found = clocks_before(self.clocks, self.pins.nets, self.liberty,
                              lambda component: self.placed.components[component].macro)
        if asked.slack:
            slacks, below = read_slacks(asked.slack), asked.below or 0
            found |= slacks.clocks | {id_ for id_ in self.design.ids if slacks.times.get(id_, below) >= below}
        if asked.keep:
            with open_text(asked.keep) as file:
                kept = file.read().split()
            if lacking := [name for name in kept if name not in ids]:
                raise Fault(f"{asked.keep}: the design has no net {lacking[0]}")
            found |= {ids[name] for name in kept}
        return found

    def taken(self) -> set[str]:
        """The names that are taken."""
        placed = self.placed
        found = {plain(name) for name in (*placed.components, *placed.nets, *placed.pins, *placed.special_uses)}
        found |= {name.base for name in self.names.nets.values()}
        return found | (self.netlist.taken() if self.netlist is not None else set())

    def edited(self) -> str:
        """The DEF with its new cells."""
        text = def_edits.Edited(self.asked.placed, text_of(self.asked.placed))
        nets = {net.name: net for net in self.chip.nets}
        for change in self.insertion.changes:
            name = self.design.names[change.id]
            pins = self.chip.ordered(nets[name]) if name in nets else []
            wanted = [pin[:2] for pin in self.pins.nets[change.id]]
            if [(one, pin if one == "PIN" else self.chip.cell_pin(pin)) for one, pin in pins] != wanted:
                raise Fault(f"{self.asked.design}: it isn't of {self.asked.placed}: the net {name} has other pins")
            says = def_edits.attributes(text.sections["NETS"].items[name])
            for part, found in connections(change, pins):
                if part.name is None:
                    text.replace("NETS", name, def_edits.net_lines(name, found, says))
                else:
                    text.add("NETS", def_edits.net_lines(part.name, found, says))
                if part.kind is not None:
                    text.add("COMPONENTS", self.component(part.instance, part.kind, part.cell))
        for filler in self.sites.removed:
            text.remove("COMPONENTS", filler)
        whole = text.whole()
        return whole if whole.startswith(OWN.decode()) else f"{OWN.decode()}-insert\n{whole}"

    def component(self, name: str, kind: Kind, cell: tuple[int, int, int]) -> str:
        """An item of COMPONENTS, in its place."""
        column, row, _ = cell
        if kind.name not in self.chip.lef.macros:
            raise Fault(f"the LEF has no cell {kind.name}")
        xs, ys = self.design.xs, self.design.ys
        box = xs[column], ys[row], xs[column + 1], ys[row + 1]
        x, y, orientation = self.sites.place(name, self.chip.lef.macros[kind.name], box)
        return f"- {name} {kind.name} + SOURCE TIMING + PLACED ( {x} {y} ) {orientation} ;"

    def check(self, text: str) -> None:
        """That the text, without the new cells, is the given one."""
        found = def_edits.sections(text, self.asked.output)
        given = {net.name: net.connections for net in self.placed.nets.values()}
        nets = {name: def_edits.connections_of(item) for name, item in found["NETS"].items.items()}
        taken_out.check(given, nets, self.cells)
        cells = {name: item.words[1] for name, item in found["COMPONENTS"].items.items() if name not in self.cells}
        removed = set(self.sites.removed)
        if cells != {name: one.macro for name, one in self.placed.components.items() if name not in removed}:
            raise taken_out.differs("its components")


def main(words: Sequence[str]) -> int:
    """Reads all and writes what is asked for."""
    reader = parser()
    asked = reader.parse_args(words)
    if asked.below is not None and not asked.slack:
        reader.error("--below wants --slack")
    inputs = [asked.placed, asked.design, asked.solution, asked.report, *asked.lef, *asked.liberty, asked.slack,
              asked.keep, asked.verilog and asked.verilog[0], asked.pins, asked.names]
    with Outputs(inputs) as outputs:
        outputs.check(asked.output, *(asked.verilog or ())[1:], asked.eco)      # before what takes long
        work = Work(asked)
        text = work.edited()
        work.check(text)
        outputs.text(asked.output).write(text)
        named = Named(work.insertion.changes, work.pins.nets, work.names)
        if work.netlist is not None:
            written = outputs.text(asked.verilog[1])
            written.write(verilog(work.netlist, named))
            written.flush()
            taken_out.check(taken_out.nets_of(work.netlist), taken_out.nets_of(Verilog(written.name)), work.cells)
        if asked.eco:
            outputs.lines(asked.eco, script(named, work.liberty))
    tell(work)
    return frame.tell_unjoined("insert", work.design, work.insertion.unjoined)


def tell(work: Work) -> None:
    """Prints what was done."""
    for line in left_words(work.design.names, work.insertion.left[:frame.SHOWN]):
        frame.say("insert", line)
    if len(work.insertion.left) > frame.SHOWN:
        frame.say("insert", f"{len(work.insertion.left) - frame.SHOWN:,} more nets stay without their buffers")
    for name, other in work.sites.overlaps[:frame.SHOWN]:
        frame.say("insert", f"{name} lies on {other}: its tile has no room")
    if len(work.sites.overlaps) > frame.SHOWN:
        frame.say("insert", f"{len(work.sites.overlaps) - frame.SHOWN:,} more cells lie on others")
    area = sum(work.chip.lef.macros[kind.name].width * work.chip.lef.macros[kind.name].height
               for kind in work.cells.values()) / work.placed.units ** 2
    if work.insertion.unjoined:
        print(f"unjoined {len(work.insertion.unjoined)}")
    print(f"buffers {len(work.cells)}\nnets {len(work.insertion.changes)}\narea {area:.10g}\n"
          f"fillers removed {len(work.sites.removed)}\noverlaps {len(work.sites.overlaps)}")
