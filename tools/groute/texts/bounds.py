"""What grbound writes of a design: what no routes are below, and the fullest walls."""
from dataclasses import dataclass

from groute.texts.files import Fault, open_text

FIGURES = ("overflow at least", "wirelength at least", "usable wirelength at least")
BY_PRICES = ("overflow by prices at least", "usable wirelength without overflow at least",
             "usable wirelength and overflow at least")
TAKEN = ("column cuts", "row cuts", "boxes")


@dataclass(frozen=True)
class Wall:
    """A wall: `column`, `row` or `box`, its numbers, what is needed of it, and what it holds."""
    kind: str
    numbers: tuple[int, ...]
    needs: int
    holds: int


@dataclass(frozen=True)
class Prices:
    """What steps of prices prove: the least overflow of any routes; along usable edges the least wirelength of those
    without overflow, and the least sum of wirelength and overflow."""
    overflow: int
    wirelength: int
    both: int


@dataclass(frozen=True)
class Bounds:
    """What no routes are below: overflow and wirelength of any, and wirelength of those along usable edges; what prices
    prove, None without steps; and the fullest walls."""
    overflow: int
    wirelength: int
    usable_wirelength: int
    prices: Prices | None
    walls: tuple[Wall, ...]

    def least(self) -> Prices:
        """The figures by prices; without steps what the other lines say of the same."""
        return self.prices or Prices(self.overflow, self.usable_wirelength, self.overflow + self.usable_wirelength)


def bounds_of(text: str) -> Bounds:
    """The bounds of a text of grbound; of another one a ValueError."""
    lines = text.splitlines()
    with_prices = BY_PRICES if len(lines) > len(FIGURES) and lines[len(FIGURES)].startswith(BY_PRICES[0]) else ()
    words = [*FIGURES, *with_prices, *TAKEN]
    if len(lines) < len(words):
        raise ValueError("lines are missing")
    figures = [figure(*pair) for pair in zip(lines, words)]
    prices = Prices(*figures[len(FIGURES):len(FIGURES + BY_PRICES)]) if with_prices else None
    overflow, wirelength, usable_wirelength = figures[:len(FIGURES)]
    return Bounds(overflow, wirelength, usable_wirelength, prices, tuple(map(wall, lines[len(words):])))


def figure(line: str, words: str) -> int:
    """The number of a line of these words."""
    said, _, number = line.rpartition(" ")
    if said != words:
        raise ValueError(f"{words} is due: {said}")
    return int(number)


def wall(line: str) -> Wall:
    """The wall of a line."""
    kind, *numbers, _, needs, _, holds = line.split()
    return Wall(kind, tuple(map(int, numbers)), int(needs), int(holds))


def bounds_in(path: str) -> Bounds:
    """The bounds of a file that grbound wrote."""
    with open_text(path) as file:
        text = file.read()
    try:
        return bounds_of(text)
    except ValueError:
        raise Fault(f"{path}: it isn't what grbound writes") from None
