"""The design text of a placed design, and what its numbers are called outside."""
from typing import Iterator, Sequence

from groute.placed.chip import Chip
from groute.placed.lef_text import Layer
from groute.placed.liberty import Liberty
from groute.texts.files import Fault
from groute.texts import pins
from groute.texts.names import CLOCK, USE, Names


def design_text(chip: Chip) -> Iterator[str]:
    """The lines of the design."""
    grid, layers = chip.grid, chip.layers
    found = [chip.capacities(at) for at in range(len(layers))]
    most = [max((value for line in lines for value in line), default=0) for lines in found]
    ones = " 1" * len(layers)
    yield f"grid {grid.columns} {grid.rows} {len(layers)}"
    for word, direction, tiles in (("vertical", "VERTICAL", grid.rows), ("horizontal", "HORIZONTAL", grid.columns)):
        values = [value if layer.direction == direction else 0 for layer, value in zip(layers, most)]
        if tiles > 1 and not any(values):
            raise Fault(f"{chip.placed.path}: no {direction} layer has a free track between two tiles")
        yield f"{word} capacity {' '.join(map(str, values))}"
    yield from (f"minimum width{ones}", f"minimum spacing{ones}", f"via spacing{ones}")
    yield f"{grid.left} {grid.low} {grid.tile[0]} {grid.tile[1]}"
    nets = chip.nets
    yield f"num net {len(nets)}"
    for at, net in enumerate(nets):
        yield f"{net.name} {at} {len(net.connections)} {chip.width(net)}"
        yield from (f"{x} {y} {layer}" for x, y, layer in chip.points(net))
    adjusted = list(adjustments(layers, found, most))
    yield str(len(adjusted))
    yield from adjusted


def adjustments(layers: Sequence[Layer], found: list[list[list[int]]], most: list[int]) -> Iterator[str]:
    """Lines for the borders that hold less than the most of their layer."""
    for at_layer, (layer, lines) in enumerate(zip(layers, found), 1):
        for line, borders in enumerate(lines):
            for at, capacity in enumerate(borders):
                if capacity != most[at_layer - 1]:
                    ends = (at, line, at + 1, line) if layer.is_horizontal() else (line, at, line, at + 1)
                    yield f"{ends[0]} {ends[1]} {at_layer} {ends[2]} {ends[3]} {at_layer} {capacity}"


def names_of(chip: Chip, liberty: Liberty | None) -> Names:
    """What the design's numbers are called outside, and which nets are clocks': the text beside the design."""
    grid = chip.grid
    clocks = {id_: {USE: [CLOCK]} for id_, net in enumerate(chip.nets)
              if chip.is_clock(net) or liberty is not None and has_clocked_sink(chip, id_, liberty)}
    return Names(chip.placed.units, (grid.left, grid.low), grid.tile, [layer.name for layer in chip.layers],
                 chip.placed.area, chip.lower, clocks)


def pins_text(chip: Chip) -> Iterator[str]:
    """The lines of the text that says which pins of the chip those of the design are."""
    nets = ((id_, [(component, name if component == pins.CHIP else chip.cell_pin(name),
                    chip.direction(net, component, name)) for component, name in chip.ordered(net)])
            for id_, net in enumerate(chip.nets))
    return pins.lines(chip.placed.name, nets)


def has_clocked_sink(chip: Chip, id_: int, liberty: Liberty) -> bool:
    """Whether a sink of a net is a cell's clock, by liberty."""
    sinks = chip.ordered(chip.nets[id_])[1:]
    cells = [(liberty.cells.get(chip.placed.components[component].macro), pin) for component, pin in sinks
             if component != "PIN"]
    return any(cell is not None and cell.is_clock(pin) for cell, pin in cells)
