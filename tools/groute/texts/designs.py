"""Designs: a grid of tiles with its capacities, and nets.

A wire edge is (way, number): EAST is along a row, NORTH along a column. The number of its lower end goes along that
way first: (layer * rows + row) * columns + column for EAST, (layer * columns + column) * rows + row for NORTH. Layers,
columns and rows count from 0.
"""
import array
import re
from typing import Iterator

from groute.texts.files import Fault
from groute.texts.tokens import Tokens, counted

EAST, NORTH, UP = range(3)
MOST_ROUTED = 1000      # a net of more pins is not routed
MOST_CELLS, MOST_LAYERS = 8_388_608, 16     # of a grid that groute takes
POINT = rb"\((-?[0-9]+),(-?[0-9]+),(-?[0-9]+)\)"
SEGMENT = re.compile(POINT + b"-" + POINT)
MOST_DIGITS = 18        # of a coordinate

Cell = tuple[int, int, int]     # column, row and layer, from 0
Edge = tuple[int, int]          # way and number


def ends(segment: bytes) -> tuple[list[int], list[int]]:
    """The two ends of a segment's token, each x, y and layer."""
    form = SEGMENT.fullmatch(segment)
    if form is None or max(map(len, form.groups())) > MOST_DIGITS:
        raise Fault(f"{segment.decode(errors='replace')} has not the form of a segment")
    numbers = list(map(int, form.groups()))
    return numbers[:3], numbers[3:]


class Design:
    """A grid of tiles, its capacities, and what is known of its nets.

    capacity[way][layer], width[layer] and spacing[layer] are those of the header; `widths` has for each net's id its
    width, or None where the net is not routed and `unrouted` has it; `adjusted` has capacities of single wire edges.
    """

    def __init__(self, tokens: Tokens) -> None:
        tokens.words(b"grid")
        self.columns, self.rows, self.layers = tokens.numbers(3)
        if min(self.columns, self.rows, self.layers) < 1:
            raise tokens.fault("the grid is at least 1 wide and high")
        if self.columns * self.rows * self.layers > MOST_CELLS or self.layers > MOST_LAYERS:
            raise tokens.fault(f"the grid has more than groute's {MOST_LAYERS} layers or {MOST_CELLS:,} cells")
        vertical = self.by_layer(tokens, b"vertical", b"capacity")
        horizontal = self.by_layer(tokens, b"horizontal", b"capacity")
        self.capacity = horizontal, vertical
        self.width = self.by_layer(tokens, b"minimum", b"width")
        self.spacing = self.by_layer(tokens, b"minimum", b"spacing")
        self.via_spacing = self.by_layer(tokens, b"via", b"spacing")
        self.left, self.low, self.tile_width, self.tile_height = tokens.numbers(4)
        if min(self.tile_width, self.tile_height) < 1:
            raise tokens.fault("a tile is at least 1 wide and high")
        self.widths: dict[int, int | None] = {}
        self.unrouted: dict[int, int] = {}
        tokens.words(b"num", b"net")
        for _ in range(tokens.number()):
            self.read_net(tokens)
        self.routed = sum(width is not None for width in self.widths.values())
        self.adjusted: dict[Edge, int] = {} if tokens.is_ended() else dict(self.adjustments(tokens))
        tokens.file.close()

    def by_layer(self, tokens: Tokens, *words: bytes) -> list[int]:
        """A line of the header: two words and a number for each layer."""
        tokens.words(*words)
        return tokens.numbers(self.layers)

    def read_net(self, tokens: Tokens) -> tuple[bytes, int, list[bytes]]:
        """A net; the answer is its name, its id and the tokens of its pins."""
        name, *numbers = tokens.take(4)
        digits = b"".join(numbers)
        if not digits.isdigit() or len(digits) > MOST_DIGITS and None in map(counted, numbers):
            raise tokens.fault("a net's id, number of pins and width are due")
        id_, count, width = map(int, numbers)
        self.widths[id_] = width if count <= MOST_ROUTED else None
        if count > MOST_ROUTED:
            self.unrouted[id_] = width
        return name, id_, tokens.take(3 * count)

    def adjustments(self, tokens: Tokens) -> Iterator[tuple[Edge, int]]:
        """Wire edges with capacities of their own."""
        for _ in range(tokens.number()):
            column, row, layer, column2, row2, layer2, capacity = tokens.numbers(7)
            if layer != layer2 or abs(column - column2) + abs(row - row2) != 1:
                raise tokens.fault("the adjustment is of no border between two tiles")
            if not (0 <= min(column, column2) and max(column, column2) < self.columns and 0 <= min(row, row2)
                    and max(row, row2) < self.rows and 1 <= layer <= self.layers):
                raise tokens.fault("the adjustment lies outside the grid")
            way = EAST if row == row2 else NORTH
            yield (way, self.number(way, min(column, column2), min(row, row2), layer - 1)), capacity

    def number(self, way: int, column: int, row: int, layer: int) -> int:
        """The number of an edge with this lower end; those of vias go from layer to layer first."""
        if way == EAST:
            return (layer * self.rows + row) * self.columns + column
        if way == NORTH:
            return (layer * self.columns + column) * self.rows + row
        return (row * self.columns + column) * self.layers + layer

    def place(self, way: int, number: int) -> Cell:
        """Column, row and layer of the lower end of a wire edge."""
        if way == EAST:
            return number % self.columns, number // self.columns % self.rows, number // (self.columns * self.rows)
        return number // self.rows % self.columns, number % self.rows, number // (self.columns * self.rows)

    def cell(self, x: int, y: int, layer: int) -> Cell:
        """Column, row and layer of a point of the text."""
        right, top = self.left + self.columns * self.tile_width, self.low + self.rows * self.tile_height
        if not (self.left <= x <= right and self.low <= y <= top and 1 <= layer <= self.layers):
            raise Fault(f"({x},{y},{layer}) lies outside the chip")
        column = min((x - self.left) // self.tile_width, self.columns - 1)
        return column, min((y - self.low) // self.tile_height, self.rows - 1), layer - 1

    def run(self, segment: bytes) -> tuple[Cell, Cell]:
        """The cells of a segment's ends, the lower one first."""
        low, high = sorted(self.cell(*end) for end in ends(segment))
        if sum(one != other for one, other in zip(low, high)) > 1:
            raise Fault(f"{segment.decode()} is not straight")
        return low, high

    def need(self, layer: int, width: int) -> int:
        """What a net of this width takes of a wire edge."""
        return max(width, self.width[layer]) + self.spacing[layer]


class Netlist(Design):
    """A design with its nets, in the order of the text: ids, and by id the name and the place among them. `points` has
    x, y and layer of all pins, net by net, the driver first; those of the net at a place begin with pin first[place].
    """

    def __init__(self, tokens: Tokens) -> None:
        self.ids: list[int] = []
        self.names: dict[int, str] = {}
        self.places: dict[int, int] = {}
        self.first, self.points = array.array("q", [0]), array.array("q")
        self.path = tokens.path
        Design.__init__(self, tokens)

    def read_net(self, tokens: Tokens) -> tuple[bytes, int, list[bytes]]:
        """A net."""
        name, id_, pins = Design.read_net(self, tokens)
        self.places[id_] = len(self.ids)
        self.ids.append(id_)
        self.names[id_] = name.decode("utf-8", "surrogateescape")
        try:
            self.points.extend(map(int, pins))
        except (ValueError, OverflowError):
            raise tokens.wrong(len(pins)) from None
        self.first.append(len(self.points) // 3)
        return name, id_, pins

    def pins(self, id_: int) -> list[Cell]:
        """x, y and layer of each pin of a net."""
        place = self.places[id_]
        return [(self.points[3 * at], self.points[3 * at + 1], self.points[3 * at + 2])
                for at in range(self.first[place], self.first[place + 1])]

    def pin_cells(self, id_: int) -> set[int]:
        """The cells of the pins of a net, by column, then row, then layer."""
        place = self.places[id_]
        values = self.points[3 * self.first[place]:3 * self.first[place + 1]]
        columns, rows, layers = self.columns, self.rows, self.layers
        found = set()
        for x, y, layer in zip(values[::3], values[1::3], values[2::3]):
            column, row = (x - self.left) // self.tile_width, (y - self.low) // self.tile_height
            if not (0 <= column < columns and 0 <= row < rows and 1 <= layer <= layers):
                column, row, _ = self.cell(x, y, layer)     # on the last border, or outside
            found.add(((layer - 1) * rows + row) * columns + column)
        return found

    def check_pins(self) -> None:
        """Tells of the first pin that lies outside the chip, and where it stands."""
        Checked(Tokens(self.path))

    def by_name(self) -> dict[str, int]:
        """The ids of the nets by their names, which are all different."""
        found = {name: id_ for id_, name in self.names.items()}
        if len(found) < len(self.names):
            raise Fault(f"{self.path}: two nets have one name, and nets are told apart by their names")
        return found

    def named(self, name: str) -> int:
        """The id of the first net of this name."""
        for id_, own in self.names.items():
            if own == name:
                return id_
        raise Fault(f"the design has no net {name}")


class Checked(Netlist):
    """A design of which each pin is looked at as it is read."""

    def read_net(self, tokens: Tokens) -> tuple[bytes, int, list[bytes]]:
        """A net."""
        name, id_, pins = Netlist.read_net(self, tokens)
        for at, pin in enumerate(self.pins(id_)):
            try:
                self.cell(*pin)
            except Fault as fault:
                tokens.at -= len(pins) - 3 * at - 1
                raise tokens.fault(str(fault)) from None
        return name, id_, pins
