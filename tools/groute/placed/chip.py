"""A placed design over a grid of tiles: the grid, the room for wires, and the pins of nets."""
from bisect import bisect_left, bisect_right
from decimal import Decimal
from fractions import Fraction
from math import ceil
from typing import Iterator, Sequence

from groute.placed.connected import Connected
from groute.placed.def_text import Def, Net, Run
from groute.placed.lef_text import Layer, Lef
from groute.placed.statements import Shape, moved, nearest, turned
from groute.texts.files import Fault

UNITS = 2               # what a wire with its spacing takes
PITCHES = 15            # of a tile, where the DEF says nothing
MOST_CELLS = 8388608    # these are groute's limits
MOST_LAYERS = 16
MOST_WIDTH = 1000
MOST_PLACES = 1 << 29   # where tracks cross tiles, each a byte
MOST_TILE = MOST_CAPACITY = 1000000


class Grid:
    """Where tiles lie: (left, low) of the first, their size, and how many there are. The last ones of a row and of a
    column run to the edge of the die, where it lies nearer or farther than a whole tile."""

    def __init__(self, placed: Def, lef: Lef, tile: Sequence[int] | None) -> None:
        self.left, self.low, self.right, self.top = placed.area
        columns = regular(placed.gcells["X"], self.left, self.right)
        rows = regular(placed.gcells["Y"], self.low, self.top)
        if tile is None and columns and rows:
            (self.left, across, self.columns), (self.low, up, self.rows) = columns, rows
            self.tile = across, up
        else:
            side = 0 if tile else side_of_tile(placed, lef)
            self.tile = (tile[0], tile[1]) if tile else (side, side)
            if min(self.tile) < 1:
                raise Fault("a tile is at least 1 wide and high")
            self.columns = -(-(self.right - self.left) // self.tile[0])
            self.rows = -(-(self.top - self.low) // self.tile[1])
        if max(self.tile) > MOST_TILE:
            raise Fault(f"{placed.path}: a tile may have at most {MOST_TILE} units on a side: give --tile")

    def end(self, along: int) -> int:
        """The far edge of the last tile, of a row or of a column."""
        start, count, edge = (self.left, self.columns, self.right) if along == 0 else (self.low, self.rows, self.top)
        return max(edge, start + self.tile[along] * count)


def regular(runs: Sequence[Run], low: int, high: int) -> tuple[int, int, int] | None:
    """Start, side and number of tiles of GCELLGRID along one way of the die; None where they have not one side."""
    if sum(count for _, count, _ in runs) > 1 << 20:
        return None
    lines = sorted({first + step * at for first, count, step in runs for at in range(count)})
    lines = [line for line in lines if line < high]
    if not lines:
        return None
    side = lines[1] - lines[0] if len(lines) > 1 else high - lines[0]
    is_even = all(line == lines[0] + side * at for at, line in enumerate(lines))
    if not is_even or not lines[0] <= low < lines[0] + side or high - lines[-1] >= 2 * side:
        return None
    return lines[0], side, len(lines)


def side_of_tile(placed: Def, lef: Lef) -> int:
    """Of a DEF that says nothing of tiles: a row of cells where it has no rows either, as qflow writes it; else 15
    pitches of the third routing layer."""
    heights = [height for kind, _, height in lef.sites.values() if kind == "CORE"]
    if heights and not placed.rows:
        return nearest(min(heights) * placed.units)
    if not lef.routing:
        raise Fault("the LEF has no routing layer")
    layer = lef.routing[min(2, len(lef.routing) - 1)]
    pitch = layer.track_pitch()
    if pitch is None:
        raise Fault(f"the LEF says no PITCH of LAYER {layer.name}: give --tile")
    return nearest(PITCHES * pitch * placed.units)


class Chip(Connected):
    """A placed design, the routing layers of its grid, and what takes room on them."""

    def __init__(self, placed: Def, lef: Lef, tile: Sequence[int] | None = None, layers: str | None = None,
                 adjust: Sequence[tuple[str, Fraction]] = (), keeps_supplies: bool = False) -> None:
        Connected.__init__(self, placed, lef, keeps_supplies)
        self.grid = Grid(placed, lef, tile)
        self.layers = layers_of(lef, layers)
        self.level = {layer.name: at for at, layer in enumerate(self.layers)}
        first = lef.routing.index(self.layers[0])
        self.lower = [layer.name for layer in lef.routing[:first]]  # hold pins alone, which are lifted
        if self.grid.columns * self.grid.rows * len(self.layers) > MOST_CELLS or len(self.layers) > MOST_LAYERS:
            raise Fault(f"{placed.path}: a grid of {self.grid.columns} by {self.grid.rows} tiles and "
                        f"{len(self.layers)} layers is more than groute takes: give --tile or --layers")
        self.shares = shares_of(adjust, self.level)
        self.shapes: list[list[Shape]] = [[] for _ in self.layers]
        for shape in self.metal():
            if shape[0] in self.level:
                self.shapes[self.level[shape[0]]].append(shape)
            elif shape[0] not in lef.layers:
                lef.notes.once(("layer", shape[0]), placed.path, f"the LEF has no LAYER {shape[0]}: shapes on it are "
                               "skipped")

    def metal(self) -> Iterator[Shape]:
        """All shapes on the chip that take room for wires."""
        yield from self.placed.special
        yield from self.placed.blockages
        for via, x, y, orientation, place in self.placed.special_vias:
            for shape in self.via(via, place):
                yield moved(turned(shape, orientation), x, y)
        for pin in self.placed.pins.values():
            yield from pin.shapes
        for component in self.placed.components.values():
            if component.orientation is not None:
                for shape in self.macro(component).metal(component.orientation):
                    yield moved(shape, component.x, component.y)

    def via(self, name: str, place: str) -> list[Shape]:
        """The shapes of a via of the DEF or of the LEF."""
        if name in self.placed.vias:
            return self.placed.vias[name]
        if name not in self.lef.vias:
            raise Fault(f"{place}: neither VIAS nor the LEF has the via {name}")
        return self.lef.vias[name].shapes

    def points(self, net: Net) -> Iterator[tuple[int, int, int]]:
        """x, y and layer of a net's pins, the driver first; pins below the grid's layers are lifted to the first."""
        grid = self.grid
        for component, name in self.ordered(net):
            pin, cell = self.pin(net, component, name)
            shape = self.first_shape(pin.shapes)
            says = f"{net.place}: the pin {name} of {component}"
            if shape is None:
                raise Fault(f"{says} has no metal in a place")
            if shape[0] not in self.level and shape[0] not in self.lower:
                raise Fault(f"{says} lies on {shape[0]}, which is no routing layer of the grid")
            if cell is not None and cell.orientation is not None:
                shape = moved(self.macro(cell).in_place(shape, cell.orientation), cell.x, cell.y)
            layer, x1, y1, x2, y2, _ = shape
            x, y = (x1 + x2) // 2, (y1 + y2) // 2
            if not (grid.left <= x <= grid.end(0) and grid.low <= y <= grid.end(1)):
                raise Fault(f"{says} at ( {x} {y} ) lies outside the chip")
            yield (min(x, grid.left + grid.columns * grid.tile[0]), min(y, grid.low + grid.rows * grid.tile[1]),
                   self.level.get(layer, 0) + 1)

    def first_shape(self, shapes: Sequence[Shape]) -> Shape | None:
        """The first of a pin's shapes on a layer of the grid; else on a lower one; else the first; else None."""
        for shape in shapes:
            if shape.layer in self.level:
                return shape
        for shape in shapes:
            if shape.layer in self.lower:
                return shape
        return shapes[0] if shapes else None

    def width(self, net: Net) -> int:
        """The net's width in the design: 1, or by its rule as much as on the layer where that takes most."""
        if net.rule is None:
            return 1
        rules = self.placed.rules if net.rule in self.placed.rules else self.lef.rules
        if net.rule not in rules:
            raise Fault(f"{net.place}: neither NONDEFAULTRULES nor the LEF has the rule {net.rule}")
        width = 1
        for layer in self.layers:
            if layer.name in rules[net.rule]:
                wide, apart = rules[net.rule][layer.name]
                takes = wide + (self.spacing(layer) if apart is None else apart)
                width = max(width, ceil(UNITS * Fraction(takes) / Fraction(self.pitch(layer))) - 1)
        if width > MOST_WIDTH:
            raise Fault(f"{net.place}: by the rule {net.rule} the net {net.name} is wider than groute takes")
        return width

    def pitch(self, layer: Layer) -> Decimal:
        """From track to track, in micrometres."""
        pitch = layer.track_pitch()
        if pitch is not None:
            return pitch
        runs = self.placed.tracks.get((layer.name, "XY"[layer.is_horizontal()]))
        if not runs:
            raise Fault(f"neither the LEF nor TRACKS says a pitch of LAYER {layer.name}")
        return Decimal(runs[0][2]) / self.placed.units

    def spacing(self, layer: Layer) -> Decimal:
        """Between wires of a layer, in micrometres."""
        apart = layer.apart()
        if apart is None:
            raise Fault(f"the LEF says no SPACING of LAYER {layer.name}")
        return apart

    def tracks(self, layer: Layer, along: int) -> list[int]:
        """Where the wires of a layer may go, of all its TRACKS: none nearer to the one before than wires may be."""
        runs = self.placed.tracks.get((layer.name, "YX"[along]), [])
        if not runs:
            self.lef.notes.once(("tracks", layer.name), self.placed.path, f"LAYER {layer.name} has no TRACKS "
                                f"{'YX'[along]}, and so no room for wires")
        across, size = self.bounds(1 - along)
        places: set[int] = set()
        for first, count, step in runs:
            skipped = max(0, -(-(across - first) // step))
            kept = range(first + step * skipped, min(first + step * count, across + size), step)
            places.update(kept)
        apart = nearest((wide(layer) + self.spacing(layer)) * self.placed.units) if len(runs) > 1 else 0
        tracks: list[int] = []
        for place in sorted(places):
            if not tracks or place - tracks[-1] >= apart:
                tracks.append(place)
        return tracks

    def bounds(self, way: int) -> tuple[int, int]:
        """Where the grid begins along a way, and how far it goes."""
        start = (self.grid.left, self.grid.low)[way]
        return start, self.grid.end(way) - start

    def via_resistance(self) -> Decimal:
        """The greatest of a via, or of a cut, between two layers of the grid; 0 where none is said."""
        named = list(self.lef.layers)
        between = named[named.index(self.layers[0].name):named.index(self.layers[-1].name)]
        cuts = [self.lef.layers[name].resistance for name in between if self.lef.layers[name].kind == "CUT"]
        vias = [via.resistance for via in self.lef.vias.values()
                if len({shape[0] for shape in via.shapes} & set(self.level)) > 1]
        return max((value for value in cuts + vias if value is not None), default=Decimal(0))

    def capacities(self, number: int) -> list[list[int]]:
        """Of the borders of tiles that a layer's tracks cross: by the number of the tiles' line (a row, or of a
        vertical layer a column), and by the lower tile's number in it."""
        layer = self.layers[number]
        along = 0 if layer.is_horizontal() else 1
        size = self.grid.columns, self.grid.rows
        (start, _), (across, _) = self.bounds(along), self.bounds(1 - along)
        tracks = self.tracks(layer, along)
        if len(tracks) * size[along] > MOST_PLACES:
            raise Fault(f"{self.placed.path}: {len(tracks)} tracks of {size[along]} tiles on LAYER {layer.name} are "
                        "more than is read here")
        middles = [start + self.grid.tile[along] * at + self.grid.tile[along] // 2 for at in range(size[along])]
        free = [bytearray(b"\1") * (size[along] - 1) for _ in tracks]
        half = wide(layer) / 2
        usual = nearest((half + self.spacing(layer)) * self.placed.units)
        for shape in self.shapes[number]:
            room = usual if shape.spacing is None else nearest(half * self.placed.units) + shape.spacing
            ends = shape.x1, shape.y1, shape.x2, shape.y2
            low, high = ends[along] - room, ends[2 + along] + room
            borders = slice(max(0, bisect_right(middles, low) - 1), bisect_left(middles, high))
            taken = bytes(len(range(*borders.indices(size[along] - 1))))
            first, last = ends[1 - along] - room, ends[3 - along] + room
            for at in range(bisect_right(tracks, first), bisect_left(tracks, last)):
                free[at][borders] = taken
        found = [[0] * (size[along] - 1) for _ in range(size[1 - along])]
        for track, mine in zip(tracks, free):
            line = found[min((track - across) // self.grid.tile[1 - along], size[1 - along] - 1)]
            for at, is_free in enumerate(mine):
                line[at] += UNITS * is_free
        return self.adjusted(found, layer)

    def adjusted(self, lines: list[list[int]], layer: Layer) -> list[list[int]]:
        """Capacities without the share that --adjust takes away."""
        share = self.shares.get(layer.name, Fraction(0))
        lines = [[int(value * (1 - share)) for value in line] for line in lines] if share else lines
        if any(value > MOST_CAPACITY for line in lines for value in line):
            raise Fault(f"{self.placed.path}: LAYER {layer.name} has more tracks in a tile than groute takes")
        return lines


def wide(layer: Layer) -> Decimal:
    """The width of a layer's wires, in micrometres."""
    if layer.width is None:
        raise Fault(f"the LEF says no WIDTH of LAYER {layer.name}")
    return layer.width


def layers_of(lef: Lef, asked: str | None) -> list[Layer]:
    """The routing layers of the grid: all, or from one name to another."""
    routing = lef.routing
    if asked is not None:
        names = [layer.name for layer in routing]
        pairs = [(asked[:at], asked[at + 1:]) for at, mark in enumerate(asked) if mark == "-"]
        ends = [(names.index(one), names.index(other)) for one, other in pairs if one in names and other in names]
        if not ends or ends[0][0] > ends[0][1]:
            raise Fault(f"--layers {asked}: routing layers are {' '.join(names)}")
        routing = routing[ends[0][0]:ends[0][1] + 1]
    if not routing:
        raise Fault("the LEF has no routing layer")
    for layer in routing:
        if layer.direction is None or layer.width is None:
            raise Fault(f"the LEF says no {'DIRECTION' if layer.direction is None else 'WIDTH'} of LAYER {layer.name}")
    return routing


def shares_of(adjust: Sequence[tuple[str, Fraction]], levels: dict[str, int]) -> dict[str, Fraction]:
    """By layer, the share of its capacity that is taken away."""
    shares: dict[str, Fraction] = {}
    for name, share in adjust:
        if name not in levels:
            raise Fault(f"--adjust {name}: layers are {' '.join(levels)}")
        shares[name] = share
    return shares
