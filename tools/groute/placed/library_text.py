"""The library text of a placed design: wires and vias by the LEF, cells by liberty files, and what is given."""
from argparse import Namespace
from decimal import Decimal
from fractions import Fraction
from typing import Iterator

from groute.placed.chip import Chip, wide
from groute.placed.liberty import Liberty
from groute.placed.statements import number
from groute.texts.files import Fault

MOST = 1000000          # ohms and femtofarads of a library
MOST_TIME = 1 << 50     # femtoseconds
MOST_KINDS = 32


def library_text(chip: Chip, liberty: Liberty | None, asked: Namespace) -> Iterator[str]:
    """The lines of the library. It has version 1, or 2 where cells are known, or 3 where some invert."""
    kinds = [*given_kinds(asked), *(cell_kinds(liberty, asked) if liberty else ())]
    names = [line.split()[1] for line in kinds]
    twice = next((name for at, name in enumerate(names) if name in names[:at]), None)
    if twice is not None:
        raise Fault(f"two kinds are called {twice}")
    if len(kinds) > MOST_KINDS:
        raise Fault(f"{len(kinds)} kinds are more than the {MOST_KINDS} that a library takes: give --kinds")
    inverts = any(line.startswith("inverter") for line in kinds)
    yield f"library {3 if inverts else 2 if liberty else 1}"
    yield from wires(chip, asked.scale)
    via = asked.via or (chip.via_resistance(), 0)
    yield f"via {' '.join(str(whole_up_to(MOST, asked.scale * value, 'of a via a number')) for value in via)}"
    driver, sink = ends(liberty, asked)
    yield f"driver {whole_up_to(MOST, asked.scale * driver, 'the resistance of the driver')}"
    yield f"sink {whole_up_to(MOST, asked.scale * sink, 'the load of a sink')} 0"
    yield from kinds
    if liberty:
        yield from of_nets(chip, liberty, asked.scale)
    yield "end"


def wires(chip: Chip, scale: int) -> Iterator[str]:
    """The lines of the wires, by the LEF."""
    for at, layer in enumerate(chip.layers, 1):
        if layer.resistance is None:
            raise Fault(f"the LEF says no RESISTANCE of LAYER {layer.name}")
        step = Fraction(chip.grid.tile[not layer.is_horizontal()], chip.placed.units)
        ohms = Fraction(layer.resistance) * step / Fraction(wide(layer))
        farads = Fraction(layer.capacitance * wide(layer) + 2 * layer.edge_capacitance) * step * 1000
        says = f"of a step on LAYER {layer.name}, by --scale {scale}, the"
        yield (f"wire {at} {whole_up_to(MOST, scale * ohms, f'{says} resistance')} "
               f"{whole_up_to(MOST, scale * farads, f'{says} capacitance')}")


def ends(liberty: Liberty | None, asked: Namespace) -> tuple[float, float]:
    """The resistance of drivers and the load of sinks of which nothing else is known."""
    if asked.driver.isdecimal():
        return int(asked.driver), 20 if asked.sink is None else asked.sink
    if liberty is None:
        raise Fault(f"the driver is the cell {asked.driver}: give --liberty")
    cell = liberty.cell(asked.driver)
    if not cell.lines or not cell.loads:
        raise Fault(f"the cell {cell.name} has no input with a load, or no output with a table")
    resistance = max(line.resistance for line in cell.lines.values())
    return resistance, max(cell.loads.values()) if asked.sink is None else asked.sink


def given_kinds(asked: Namespace) -> Iterator[str]:
    """The lines of the kinds that are given in numbers."""
    scale = asked.scale
    for name, *words in asked.kind:
        says = [f"the {what} of --kind {name}" for what in ("load", "resistance", "delay")]
        capacitance, resistance, delay = (given(word, what) for word, what in zip(words, says))
        numbers = (whole_up_to(MOST, scale * capacitance, says[0]), whole_up_to(MOST, scale * resistance, says[1]),
                   whole_up_to(MOST_TIME, scale ** 2 * delay, says[2]))
        yield f"kind {name} {' '.join(map(str, numbers))}"


def given(word: str, says: str) -> Decimal:
    """A number that is given in words."""
    try:
        value = number(word)
    except ValueError:
        value = Decimal(-1)
    if value < 0:
        raise Fault(f"{says} is {word}, and a number from 0 on is due")
    return value


def cell_kinds(liberty: Liberty, asked: Namespace) -> Iterator[str]:
    """The lines of the kinds that are cells."""
    scale = asked.scale
    for name in asked.kinds.split(",") if asked.kinds else liberty.buffers():
        cell = liberty.cell(name)
        word = cell.sense()
        if word is None:
            raise Fault(f"the cell {name} is no buffer and no inverter")
        numbers = (whole_up_to(MOST, scale * cell.input(), f"the load of {name}"),
                   whole_up_to(MOST, scale * cell.line().resistance, f"the resistance of {name}"),
                   whole_up_to(MOST_TIME, scale ** 2 * cell.line().delay, f"the delay of {name}"))
        yield f"{word} {name} {' '.join(map(str, numbers))}"


def of_nets(chip: Chip, liberty: Liberty, scale: int) -> Iterator[str]:
    """Lines for the drivers and sinks whose cells are known."""
    for id_, net in enumerate(chip.nets):
        for at, (component, pin) in enumerate(chip.ordered(net)):
            if component == "PIN":
                continue
            placed = chip.placed.components[component]
            cell = liberty.cells.get(placed.macro)
            if cell is None:
                says = liberty.faults.get(placed.macro, f"no liberty file has the cell {placed.macro}")
                chip.lef.notes.once(("cell", placed.macro), placed.place, f"{says}: its pins are as --driver and "
                                    "--sink say")
                continue
            says = f"of the cell {cell.name}, by --scale {scale}, the"
            line, load = cell.of_pin(cell.lines, pin), cell.of_pin(cell.loads, pin)
            if at == 0 and line is not None:
                yield f"drive {id_} {whole_up_to(MOST, scale * line.resistance, f'{says} resistance')}"
            elif at > 0 and load is not None:
                yield f"pin {id_} {at} {whole_up_to(MOST, scale * load, f'{says} load')} 0"


def whole_up_to(most: int, value: float | Decimal | Fraction, says: str) -> int:
    """The nearest whole number, which a library takes."""
    if not 0 <= round(value) <= most:
        raise Fault(f"{says} is {round(value)}, and a library takes 0 to {most}")
    return round(value)
