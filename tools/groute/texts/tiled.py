"""Designs with the borders of their tiles on the chip."""
from groute.texts.designs import Netlist
from groute.texts.files import Fault
from groute.texts.names import Names
from groute.texts.tokens import Tokens


class Tiled(Netlist):
    """A design with the borders of its tiles on the chip, xs and ys."""

    def __init__(self, path: str, names: Names | None) -> None:
        Netlist.__init__(self, Tokens(path))
        if names and len(names.layers) != self.layers:
            raise Fault(f"{len(names.layers)} layers have names, and the design has {self.layers}")
        die = names.die if names else None
        self.xs = borders(self.left, self.tile_width, self.columns, die and (die[0], die[2]))
        self.ys = borders(self.low, self.tile_height, self.rows, die and (die[1], die[3]))


def borders(start: int, side: int, count: int, die: tuple[int, int] | None) -> list[int]:
    """The borders of tiles along a way: the first and the last are those of the die, where it is known."""
    found = [start + side * at for at in range(count + 1)]
    if die:
        found[0], found[-1] = die
    return found
