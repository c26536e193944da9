"""Takes slacks from OpenSTA: a table of nets, and a library whose required times are slacks.

It runs `sta` over the netlist, the cells, the parasitics that spef.py wrote of SOLUTION, and either a clock of --period
nanoseconds or the constraints of --sdc. By --period all ports have delays of 0; the clock begins at --clock, else at
the ports that drive clocks through buffers and inverters, by the names text, and without any it is virtual.

It prints the worst slack, the total negative slack and the worst hold slack, and how many nets are over liberty's
max_transition and max_capacitance (which sta doesn't check). TABLE has each net's least slack over its sinks, the nets
that nothing constrains, and those of clocks. In the library of --library each sink has the time at which groute's
required time, on these routes without buffers, is the slack: the sink's slack plus groute's own delay to it. What
nothing constrains gets the greatest time that a library takes.

An error or a warning of sta is a fault here, but for what it warns of liberty files.
"""
import argparse
import os
import sys
from typing import Callable, Iterator, Sequence

from groute import frame
from groute.placed.liberty import Liberty
from groute.placed.statements import number
from groute.texts.designs import Netlist
from groute.texts.figures import Figures
from groute.texts.files import Fault, Outputs
from groute.texts.libraries import MOST_TIME
from groute.texts.names import names_beside
from groute.texts.pins import Pins, pins_beside
from groute.texts.slacks import Slacks
from groute.texts.tokens import Tokens
from groute.timing import sta
from groute.timing.delays import Model
from groute.timing.naming import Name, own
from groute.timing.slacks import (CHIP, NANOSECOND, PINS, Timed, by_period, clock_port, clocks_before, figures,
                                  limits_of, pins_of, sinks_of, table)
from groute.timing.spef import Names
from groute.timing.trees import Tree, trees_of
from groute.timing.verilog import Verilog


def nanoseconds(word: str) -> str:
    """A time above 0."""
    try:
        value = number(word)
    except ValueError:
        value = number("0")
    if value <= 0:
        raise argparse.ArgumentTypeError(f"{word} is no number of nanoseconds above 0")
    return str(value)


def parser() -> frame.Parser:
    """The reader of the words."""
    words = frame.parser(__doc__)
    words.add_argument("design", metavar="DESIGN", help="a design text, as def_to_ispd.py makes it")
    words.add_argument("library", metavar="LIBRARY", help="its library")
    words.add_argument("solution", metavar="SOLUTION", help="its routes")
    words.add_argument("netlist", metavar="NETLIST", help="the netlist that spef.py took the names of, or netlist.py's")
    words.add_argument("spef", metavar="SPEF", help="the parasitics of the routes")
    words.add_argument("--liberty", action="append", required=True, metavar="FILE", help="a liberty file of the cells")
    words.add_argument("--period", type=nanoseconds, metavar="NS", help="of a clock, in nanoseconds")
    words.add_argument("--clock", metavar="PORT", help="where it begins")
    words.add_argument("--sdc", metavar="FILE", help="constraints, in the place of a clock")
    words.add_argument("-o", "--output", metavar="TABLE", required=True, help="the table of slacks that is written")
    words.add_argument("--library", dest="written", metavar="FILE", help="the library that is written")
    words.add_argument("--figures", metavar="FILE", help="figures of the chip, and its worst paths, are written")
    words.add_argument("--pins", metavar="FILE", help="the text beside the design; else DESIGN.pins")
    words.add_argument("--names", metavar="FILE", help="the other text beside it; else DESIGN.names")
    frame.add_scale(words)
    return words


def cells_of(netlist: Verilog) -> Callable[[str], str]:
    """The function from components to their cells."""
    cells = {name: instance.cell for name, instance in netlist.instances.items()}
    return lambda component: cells.get(own(component), "")


def told(asked: argparse.Namespace, design: Netlist, pins: Pins, names: Names, netlist: Verilog) -> list[str]:
    """What sta answers."""
    with sta.folder_for_texts() as folder:
        given = [asked.netlist, asked.spef, *([asked.sdc] if asked.sdc else []), *asked.liberty]
        read = [sta.plain(path, folder) for path in given]
        liberty = read[-len(asked.liberty):]
        lines = sta.reading(liberty, read[0], netlist.name, read[1])
        lines += [f"read_sdc {sta.word(os.path.abspath(read[2]))}"] if asked.sdc else \
            constraints(asked, design, pins, names, netlist)
        copies = {copy: path for copy, path in zip(read, given) if copy != path}
        return sta.answer([*lines, *PINS.splitlines(), *CHIP.splitlines()], liberty, copies)


def constraints(asked: argparse.Namespace, design: Netlist, pins: Pins, names: Names, netlist: Verilog) -> list[str]:
    """The lines that constrain by a clock."""
    ports: list[Name] = []
    if asked.clock:
        ports = [clock_port(names, asked.clock)]
    elif (beside := names_beside(asked.design, asked.names)) is not None:
        clocks = clocks_before(beside.clocks(), pins.nets, Liberty(asked.liberty), cells_of(netlist))
        ports = [names.ports[pins.nets[id_][0].name] for id_ in design.ids
                 if id_ in clocks and pins.nets[id_][0].is_port()]
    return list(by_period(asked.period, ports))


def times(model: Model, trees: dict[int, Tree], sinks: dict[int, list[Timed]], scale: int
          ) -> dict[tuple[int, int], int]:
    """The times of all sinks, by net's id and pin."""
    found = {(id_, pin): MOST_TIME for id_, some in sinks.items() for pin in range(1, len(some))}
    for id_, tree in trees.items():
        for pin, (half, timed) in enumerate(zip(model.halves(id_, tree), sinks[id_][1:]), 1):
            if half is not None and timed.slack is not None:
                found[id_, pin] = (2 * timed.slack * scale ** 2 + half) // 2
    return found


def main(words: Sequence[str]) -> int:
    """Asks OpenSTA and writes the table, and the library."""
    reader = parser()
    asked = reader.parse_args(words)
    if (asked.period is None) == (asked.sdc is None) or asked.sdc and asked.clock:
        reader.error("either --period, with or without --clock, or --sdc is due")
    inputs = [asked.design, asked.library, asked.solution, asked.netlist, asked.spef, *asked.liberty, asked.sdc,
              asked.pins, asked.names]
    with Outputs(inputs) as outputs:
        outputs.check(asked.output, asked.written, asked.figures)       # before what takes long
        design = Netlist(Tokens(asked.design))
        pins = pins_beside(asked.design, asked.pins)
        pins.check(design)
        netlist = Verilog(asked.netlist)
        names = Names(design, pins, netlist)
        model = Model(asked.library, design.layers)
        trees, unjoined = trees_of(design, asked.solution)
        answer = told(asked, design, pins, names, netlist)
        nets = {id_: pins.nets[id_] for id_ in design.ids}
        sinks = dict(sinks_of(nets, names, pins_of(answer)))
        found = table(sinks)
        limits = limits_of(nets, Liberty(asked.liberty), cells_of(netlist))
        chip = figures(answer, nets, names, limits)
        if not found.times:
            raise Fault("no path is constrained")
        outputs.lines(asked.output, found.lines())
        if asked.figures:
            outputs.lines(asked.figures, chip.lines())
        if asked.written:
            outputs.lines(asked.written, model.lines(times(model, trees, sinks, asked.scale)))
    sys.stdout.writelines(f"{line}\n" for line in printed(found, chip, len(unjoined)))
    return frame.tell_unjoined("required", design, unjoined)


def printed(found: Slacks, chip: Figures, unjoined: int) -> Iterator[str]:
    """The lines of the answer."""
    if unjoined:
        yield f"unjoined {unjoined}"
    late = sum(time < 0 and id_ not in found.clocks for id_, time in found.times.items())
    for says, time in (("worst", chip.worst), ("total negative", chip.total), ("worst hold", chip.hold)):
        yield f"{says} slack, ns {time / NANOSECOND:.4f}"
    for says, count in (("over max_transition", chip.transition), ("over max_capacitance", chip.capacitance),
                        ("late", late), ("free", len(found.free)), ("of clocks", len(found.clocks))):
        yield f"nets {says} {count}"
