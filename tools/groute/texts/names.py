"""Names of layers and microns, and which nets are clocks: what a design text doesn't say of the chip.

A names text has these statements, one a line, in any order; all but `layer`, `lower` and `net` stand once:

    units N              database units a micron
    origin X Y           the lower left corner of the grid, in database units
    tile W H             a tile's width and height, in database units
    layer K NAME         for each layer, from 1
    die X1 Y1 X2 Y2      the chip's area, in database units; may be left out
    lower 0 NAME         a layer below the first, which holds pins alone; may be left out
    net ID WORD N ..     in version 2, of the net of this id a word with so many values, as `use 1 clock`

`names 1` or `names 2` may stand before these lines, and `end` behind them. Words of nets that aren't known here are
passed over. Without such a text the tools speak of layers by number and of the design's own units.
"""
import os
from dataclasses import dataclass, field
from fractions import Fraction
from typing import Iterable, Iterator, Sequence

from groute.texts.designs import Design
from groute.texts.files import Fault
from groute.texts.tokens import Tokens

# How many tokens stand behind each word.
COUNTS = {"names": 1, "units": 1, "origin": 2, "tile": 2, "layer": 2, "die": 4, "lower": 2, "net": 3, "end": 0}
USE, CLOCK = "use", "clock"


@dataclass
class Names:
    """What a names text says. `nets` has, by id and word, the values that it says of a net."""
    units: int
    origin: tuple[int, int]
    tile: tuple[int, int]
    layers: list[str]
    die: tuple[int, int, int, int] | None = None
    lower: list[str] = field(default_factory=list)
    nets: dict[int, dict[str, list[str]]] = field(default_factory=dict)

    def lines(self) -> Iterator[str]:
        """The lines of the text."""
        if self.nets:
            yield "names 2"
        yield f"units {self.units}"
        yield f"origin {self.origin[0]} {self.origin[1]}"
        yield f"tile {self.tile[0]} {self.tile[1]}"
        if self.die:
            yield "die " + " ".join(map(str, self.die))
        yield from (f"lower 0 {name}" for name in self.lower)
        yield from (f"layer {number} {name}" for number, name in enumerate(self.layers, 1))
        for id_, said in self.nets.items():
            yield from (" ".join(["net", str(id_), word, str(len(values)), *values]) for word, values in said.items())

    def clocks(self) -> set[int]:
        """The ids of the nets that are clocks'."""
        return {id_ for id_, said in self.nets.items() if said.get(USE) == [CLOCK]}


def read_names(path: str) -> Names:
    """The names of a text."""
    tokens = Tokens(path)
    with tokens.file:
        said = Said(tokens)
    numbers, layers = said.numbers, said.layers
    if not {"units", "origin", "tile"} <= set(numbers) or numbers.get("names", [1]) not in ([1], [2]):
        raise Fault(f"{path}: units, origin and tile are due")
    if said.nets and numbers.get("names") != [2]:
        raise Fault(f"{path}: of nets a text of version 2 tells, which begins with `names 2`")
    if not layers or sorted(layers) != list(range(1, len(layers) + 1)):
        raise Fault(f"{path}: the layers are due, from 1")
    if numbers["units"][0] < 1 or min(numbers["tile"]) < 1:
        raise Fault(f"{path}: units and tile are at least 1")
    (x, y), (wide, high), die = numbers["origin"], numbers["tile"], numbers.get("die")
    return Names(numbers["units"][0], (x, y), (wide, high), [layers[number] for number in sorted(layers)],
                 (die[0], die[1], die[2], die[3]) if die else None, said.lower, said.nets)


class Said:
    """The statements of a text: the numbers behind words, layers by their numbers, those below, and nets."""

    def __init__(self, tokens: Tokens) -> None:
        self.numbers: dict[str, list[int]] = {}
        self.layers: dict[int, str] = {}
        self.lower: list[str] = []
        self.nets: dict[int, dict[str, list[str]]] = {}
        while not tokens.is_ended():
            self.read(tokens, text(tokens))

    def read(self, tokens: Tokens, word: str) -> None:
        """One statement, from behind its word on."""
        if word not in COUNTS or word in self.numbers:
            raise tokens.fault(f"{word} begins no statement of a names text, or stands twice")
        if word not in ("layer", "lower", "net"):
            self.numbers[word] = tokens.numbers(COUNTS[word])
            return
        number = tokens.number()
        if word == "net":
            self.read_net(tokens, number)
            return
        if word == "layer" and number in self.layers:
            raise tokens.fault(f"layer {number} has a name already")
        if word == "layer":
            self.layers[number] = text(tokens)
        else:
            self.lower.append(text(tokens))

    def read_net(self, tokens: Tokens, id_: int) -> None:
        """What is said of a net."""
        word, count = text(tokens), tokens.number()
        said = self.nets.setdefault(id_, {})
        if word in said or count < 0:
            raise tokens.fault(f"{word} of the net {id_} stands twice, or has no number of values")
        said[word] = [value.decode(errors="surrogateescape") for value in tokens.take(count)]


def text(tokens: Tokens) -> str:
    """The next token as a text."""
    return tokens.take(1)[0].decode(errors="surrogateescape")


def names_beside(design: str, path: str | None = None) -> Names | None:
    """The names of a design: of the text at this path, or of DESIGN.names; None where there is none."""
    if path is None and not os.path.exists(f"{design}.names"):
        return None
    return read_names(path or f"{design}.names")


class Terms:
    """How the tools speak of a design's layers and lengths: by a names text, or without."""

    def __init__(self, design: Design, names: Names | None = None) -> None:
        self.design, self.names = design, names
        if names is None:
            self.unit = "units"
            self.layers = [str(number) for number in range(1, design.layers + 1)]
            self.corner: Sequence[Fraction] = (Fraction(design.left), Fraction(design.low))
            self.step: Sequence[Fraction] = (Fraction(design.tile_width), Fraction(design.tile_height))
            return
        if len(names.layers) != design.layers:
            raise Fault(f"{len(names.layers)} layers have names, and the design has {design.layers}")
        self.unit, self.layers = "microns", names.layers
        self.corner = [Fraction(value, names.units) for value in names.origin]
        self.step = [Fraction(value, names.units) for value in names.tile]

    def clocks(self) -> set[int]:
        """The ids of the nets that are known to be clocks'."""
        return self.names.clocks() if self.names else set()

    def layer(self, word: str) -> int:
        """The number of a layer, from 1, that is given by its number or by its name."""
        if word in self.layers:
            return self.layers.index(word) + 1
        if not (word.isdecimal() and len(word) < 4 and 1 <= int(word) <= self.design.layers):
            raise Fault(f"{word} is no layer: the design has layers 1 to {self.design.layers}"
                        + ("" if self.names is None else f", {', '.join(self.layers)}"))
        return int(word)

    def point(self, column: int, row: int) -> tuple[str, str]:
        """x and y of the lower left corner of a tile, as texts."""
        return shortest(self.corner[0] + column * self.step[0]), shortest(self.corner[1] + row * self.step[1])

    def box(self, low: Sequence[int], high: Sequence[int]) -> tuple[str, str, str, str]:
        """x1, y1, x2 and y2 of the tiles from one to another, as texts."""
        return *self.point(low[0], low[1]), *self.point(high[0] + 1, high[1] + 1)

    def words(self, low: Sequence[int], high: Sequence[int]) -> str:
        """The same as one text."""
        x1, y1, x2, y2 = self.box(low, high)
        return f"({x1}, {y1}) - ({x2}, {y2})"

    def want_microns(self, what: str) -> None:
        """That microns are known, as this wants them."""
        if self.names is None:
            raise Fault(f"{what} is in microns: give --names")


def shortest(value: Fraction) -> str:
    """A number with at most four digits behind the point."""
    if value == int(value):
        return str(int(value))
    return f"{float(value):.4f}".rstrip("0")


def chosen(ids: Iterable[int], terms: Terms, nets: str | None, more: Iterable[int] = ()) -> list[int]:
    """Of nets those that are asked for: `clocks`, `signals`, or all; more nets may be known to be clocks'."""
    clocks = terms.clocks() | set(more) if nets else set()
    return [id_ for id_ in ids if nets is None or (id_ in clocks) == (nets == "clocks")]
