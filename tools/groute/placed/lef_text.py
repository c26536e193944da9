"""LEF texts: layers, vias, sites, cells and rules for wide nets, by the public LEF 5.8 language.

Lengths of layers and rules are in micrometres, exactly; shapes and sizes of cells and vias are in the DEF's units.
"""
from dataclasses import dataclass, field
from decimal import Decimal
from typing import Any, Callable, Iterator, Sequence

from groute.placed.statements import (MOST_REPEATS, Notes, Shape, Words, generated_via, moved, nearest, number,
                                      pairs, polygon, positive, rectangle, split_at, turned, whole, without_brackets)
from groute.texts.files import Fault

Rule = dict[str, tuple[Decimal, Decimal | None]]    # by layer width and spacing, in micrometres
Site = tuple[str, Decimal, Decimal]                 # class, width and height, in micrometres

# Statements of the library that say nothing to a router.
SILENT = {"VERSION", "NAMESCASESENSITIVE", "DIVIDERCHAR", "USEMINSPACING", "CLEARANCEMEASURE",
          "MANUFACTURINGGRID", "NOWIREEXTENSIONATPIN", "MINFEATURE", "DIELECTRIC", "FIXEDMASK", "MAXVIASTACK",
          "SYMMETRIC", "UNIVERSALNOISEMARGIN", "EDGERATETHRESHOLD1", "EDGERATETHRESHOLD2", "EDGERATESCALEFACTOR"}
# Of these blocks the form is skipped to END with their own word, or with the name that follows it.
BLOCKS = {"UNITS", "PROPERTYDEFINITIONS", "SPACING", "NOISETABLE", "CORRECTIONTABLE", "IRDROP"}
NAMED_BLOCKS = {"VIARULE", "ARRAY"}
# Of a routing layer: rules of the detailed router.
LAYER_RULES = {"OFFSET", "MASK", "DIAGPITCH", "DIAGWIDTH", "DIAGSPACING", "DIAGMINEDGELENGTH", "AREA", "MINSIZE",
               "WIREEXTENSION", "MINIMUMCUT", "MAXWIDTH", "MINWIDTH", "MINSTEP", "MINENCLOSEDAREA", "PROTRUSIONWIDTH",
               "HEIGHT", "THICKNESS", "SHRINKAGE", "CAPMULTIPLIER", "SLOTWIREWIDTH", "SLOTWIRELENGTH", "SLOTWIDTH",
               "SLOTLENGTH", "MAXADJACENTSLOTSPACING", "MAXCOAXIALSLOTSPACING", "MAXEDGESLOTSPACING", "SPLITWIREWIDTH",
               "MINIMUMDENSITY", "MAXIMUMDENSITY", "DENSITYCHECKWINDOW", "DENSITYCHECKSTEP", "FILLACTIVESPACING"}
CURRENT = {"ACCURRENTDENSITY", "DCCURRENTDENSITY"}
MACRO_SILENT = {"CLASS", "FOREIGN", "SYMMETRY", "EEQ", "LEQ", "SOURCE", "CLOCKTYPE", "POWER", "FIXEDMASK", "GENERATOR",
                "GENERATE"}
SUPPLIES = ("POWER", "GROUND")      # what pins and nets are used for that have no routes
PIN_SILENT = {"SHAPE", "TAPERRULE", "NETEXPR", "SUPPLYSENSITIVITY", "GROUNDSENSITIVITY", "MUSTJOIN", "LEQ",
              "CAPACITANCE", "RESISTANCE"}


@dataclass
class Layer:
    """A layer; of a routing layer resistance is in ohms a square, capacitance in picofarads a square micrometre, and
    along each edge in picofarads a micrometre. Resistance of a cut layer is that of one cut, in ohms."""
    name: str
    kind: str | None = None
    direction: str | None = None
    pitch: tuple[Decimal, Decimal] | None = None    # (of tracks side by side, of tracks one above the other)
    width: Decimal | None = None
    spacing: Decimal | None = None  # of the plain rule
    least: Decimal | None = None    # of the tables
    resistance: Decimal | None = None
    capacitance: Decimal = Decimal(0)
    edge_capacitance: Decimal = Decimal(0)

    def is_horizontal(self) -> bool:
        """Whether its wires go along rows."""
        return self.direction == "HORIZONTAL"

    def apart(self) -> Decimal | None:
        """The least spacing of wires of this layer, or None."""
        return self.least if self.spacing is None else self.spacing

    def track_pitch(self) -> Decimal | None:
        """From track to track, or None."""
        return self.pitch[self.is_horizontal()] if self.pitch else None


@dataclass
class Via:
    """Shapes of a via, and its resistance in ohms."""
    shapes: list[Shape] = field(default_factory=list)
    resistance: Decimal | None = None


@dataclass
class Pin:
    """Direction, use and shapes of a cell's pin."""
    direction: str | None = None
    use: str | None = None
    shapes: list[Shape] = field(default_factory=list)


@dataclass
class Macro:
    """A cell: its size, its pins by name and what else it has of metal."""
    width: int = 0
    height: int = 0
    pins: dict[str, Pin] = field(default_factory=dict)
    obstructions: list[Shape] = field(default_factory=list)
    turned: dict[str, list[Shape]] = field(default_factory=dict, compare=False)

    def is_filler(self) -> bool:
        """Whether it has no pins but those of supplies."""
        return all(pin.use in SUPPLIES for pin in self.pins.values())

    def in_place(self, shape: Shape, orientation: str) -> Shape:
        """A shape, where the turned cell's lower left corner is (0, 0)."""
        return turned(shape, orientation, self.width, self.height)

    def metal(self, orientation: str) -> list[Shape]:
        """All its shapes in place."""
        if orientation not in self.turned:
            shapes = [shape for pin in self.pins.values() for shape in pin.shapes] + self.obstructions
            self.turned[orientation] = [self.in_place(shape, orientation) for shape in shapes]
        return self.turned[orientation]

    def moved(self, x: int, y: int) -> None:
        """Shapes from the cell's origin to its lower left corner."""
        for pin in self.pins.values():
            pin.shapes = [moved(shape, x, y) for shape in pin.shapes]
        self.obstructions = [moved(shape, x, y) for shape in self.obstructions]


class Lef:
    """What LEF texts say together, the technology first. `routing` has the routing layers in their order."""

    def __init__(self, paths: Sequence[str], units: int, notes: Notes) -> None:
        self.units, self.notes = units, notes
        self.layers: dict[str, Layer] = {}
        self.macros: dict[str, Macro] = {}
        self.vias: dict[str, Via] = {}
        self.rules: dict[str, Rule] = {}
        self.sites: dict[str, Site] = {}
        self.bus_bits = "[]"    # the letters around the number of a bus's bit
        for path in paths:
            self.read_text(Words(path, notes))
        self.routing = [layer for layer in self.layers.values() if layer.kind == "ROUTING"]

    def read_text(self, words: Words) -> None:
        """One text."""
        while not words.ended():
            word = words.begin()
            if word == "END":
                break           # of the library
            words.read_by(self.read, word, words)

    def read(self, word: str, words: Words) -> None:
        """One statement of the library."""
        readers: dict[str, tuple[dict[str, Any], Callable[[Words, str], Any]]] = {
            "LAYER": (self.layers, read_layer), "MACRO": (self.macros, self.read_macro),
            "VIA": (self.vias, self.read_via), "NONDEFAULTRULE": (self.rules, read_rule),
            "SITE": (self.sites, read_site)}
        if word in SILENT or word[:7] == "ANTENNA" or word[-7:] == "ANTENNASIZE":
            words.until(";")
        elif word == "BUSBITCHARS":
            self.bus_bits = words.until(";")[0].strip('"')
        elif word in BLOCKS:
            words.until("END", word)
        elif word in NAMED_BLOCKS:
            words.skip(f"{word} GENERATE" if word == "VIARULE" else word)
            words.until("END", words.take())
        elif word == "BEGINEXT":
            words.skip(word)
            words.until("ENDEXT")
        elif word in readers:
            found, read = readers[word]
            name, place = words.take(), words.place()
            value = read(words, name)
            if found.setdefault(name, value) != value:
                raise Fault(f"{place}: {word} {name} stands here again, and says something else")
        else:
            raise words.refuse(word)

    def lengths(self, values: Sequence[str]) -> list[int]:
        """Micrometres in the DEF's units."""
        return [nearest(number(value) * self.units) for value in values]

    def read_via(self, words: Words, name: str) -> Via:
        """A via, from behind its name on."""
        via = Via()
        parts: dict[str, list[str]] = {}
        while words.words[words.at] in ("DEFAULT", "TOPOFSTACKONLY", "GENERATED"):
            words.take()
        layer = ""
        for word, values in statements(words, name):
            if word == "LAYER":
                layer = values[0]
            elif word in ("RECT", "POLYGON"):
                values = without_brackets(values)
                values = values[2:] if values[0] == "MASK" else values
                lengths = self.lengths(values)
                via.shapes += polygon(layer, lengths) if word == "POLYGON" else [rectangle(layer, lengths)]
            elif word == "RESISTANCE":
                via.resistance = positive(values[0]) if number(values[0]) else Decimal(0)
            elif word == "PROPERTY":
                words.skip(word)
            elif word in ("VIARULE", "CUTSIZE", "LAYERS", "CUTSPACING", "ENCLOSURE", "ROWCOL", "ORIGIN", "OFFSET",
                          "PATTERN", "FOREIGN"):
                parts[word] = values
            else:
                raise words.refuse(f"{word} of VIA {name}")
        if "CUTSIZE" in parts:
            via.shapes = generated_via(parts, lambda value: self.lengths([value])[0])
        return via

    def read_macro(self, words: Words, name: str) -> Macro:
        """A cell, from behind its name on."""
        macro, origin = Macro(), [0, 0]
        while (word := words.begin()) != "END":
            if word == "PIN":
                pin = words.take()
                macro.pins.setdefault(pin, Pin())
                self.read_pin(words, pin, macro.pins[pin])
            elif word == "OBS":
                macro.obstructions += self.read_shapes(words)
            elif word == "DENSITY":
                words.until("END")
            elif word == "TIMING":
                words.until("END", "TIMING")
            elif word == "SIZE":
                width, by, height = words.until(";")
                if by != "BY":
                    raise words.refuse(by)
                macro.width, macro.height = (nearest(positive(value) * self.units) for value in (width, height))
            elif word == "ORIGIN":
                origin = self.lengths(without_brackets(words.until(";")))
            elif word == "SITE" or word in MACRO_SILENT:
                words.until(";")
            elif word == "PROPERTY":
                words.skip(word)
                words.until(";")
            else:
                raise words.refuse(f"{word} of MACRO {name}")
        due(words, name)
        if not macro.width:
            raise words.fault(f"MACRO {name} has no SIZE before")
        x, y = origin
        macro.moved(x, y)
        return macro

    def read_pin(self, words: Words, name: str, pin: Pin) -> None:
        """Direction and shapes of a pin, from behind its name on."""
        while (word := words.begin()) != "END":
            if word == "DIRECTION":
                pin.direction = words.until(";")[0]
            elif word == "USE":
                pin.use = words.until(";")[0]
            elif word == "PORT":
                pin.shapes += self.read_shapes(words)
            elif word in PIN_SILENT:
                words.until(";")
            elif word == "PROPERTY" or word[:7] == "ANTENNA":
                words.skip(word if word == "PROPERTY" else "ANTENNA..")
                words.until(";")
            else:
                raise words.refuse(f"{word} of PIN {name}")
        due(words, name)

    def read_shapes(self, words: Words) -> list[Shape]:
        """Rectangles by layer, to the word END."""
        layer: str | None = None
        spacing: int | None = None
        width: Decimal | None = None
        shapes: list[Shape] = []
        while (word := words.begin()) != "END":
            values = without_brackets(words.until(";"))
            if word == "LAYER":
                layer, width = values[0], None
                spacing = self.lengths([values[values.index("SPACING") + 1]])[0] if "SPACING" in values else None
            elif word == "WIDTH":
                width = positive(values[0])
            elif word in ("RECT", "POLYGON", "PATH", "VIA"):
                shapes += self.repeated(word, values, (layer, spacing, width), words)
            elif word != "CLASS":
                raise words.refuse(f"{word} among shapes")
        return shapes

    def repeated(self, word: str, values: list[str], of: tuple[str | None, int | None, Decimal | None],
                 words: Words) -> list[Shape]:
        """The rectangles of one statement of shapes, which may be repeated in rows and columns."""
        values = values[2:] if values[0] == "MASK" else values
        steps = [(0, 0)]
        if values[0] == "ITERATE":
            do = values.index("DO")
            columns, rows = whole(values[do + 1]), whole(values[do + 3])
            x, y = self.lengths(values[do + 5:])
            if min(columns, rows) < 1 or columns * rows > MOST_REPEATS:
                raise words.refuse("so many shapes")
            steps = [(column * x, row * y) for column in range(columns) for row in range(rows)]
            values = values[1:do]
        shapes = self.shapes_of(word, values, of, words)
        return [moved(shape, *step) for shape in shapes for step in steps]

    def shapes_of(self, word: str, values: list[str], of: tuple[str | None, int | None, Decimal | None],
                  words: Words) -> list[Shape]:
        """The rectangles of one statement of shapes."""
        layer, spacing, width = of
        if word == "VIA":
            if values[2] not in self.vias:
                raise words.refuse(f"the via {values[2]}")
            x, y = self.lengths(values[:2])
            return [moved(shape, x, y) for shape in self.vias[values[2]].shapes]
        if layer is None:
            raise words.fault("LAYER is due before")
        lengths = self.lengths(values)
        if word == "RECT":
            return [rectangle(layer, lengths, spacing)]
        if word == "POLYGON":
            return polygon(layer, lengths, spacing)
        wide = width or self.layers[layer].width
        if wide is None:
            raise words.fault(f"WIDTH of LAYER {layer} is due before")
        return path(layer, lengths, nearest(wide * self.units))


def path(layer: str, values: Sequence[int], width: int) -> list[Shape]:
    """The rectangles of a path, which ends half its width behind its ends."""
    points, low = pairs(values), width // 2
    high = width - low
    ends = list(zip(points, points[1:])) or [(points[0], points[0])]
    if any(x1 != x2 and y1 != y2 for (x1, y1), (x2, y2) in ends):
        raise ValueError(values)
    return [rectangle(layer, (min(x1, x2) - low, min(y1, y2) - low, max(x1, x2) + high, max(y1, y2) + high))
            for (x1, y1), (x2, y2) in ends]


def due(words: Words, name: str) -> None:
    """The name behind END."""
    if words.take() != name:
        raise words.fault(f"END {name} is due")


def statements(words: Words, name: str) -> Iterator[tuple[str, list[str]]]:
    """The statements to END and the name, each its first word and its values."""
    while (word := words.begin()) != "END":
        yield word, words.until(";")
    due(words, name)


def read_site(words: Words, name: str) -> Site:
    """Class, width and height of a site, in micrometres."""
    says = dict((word, values) for word, values in site_statements(words, name))
    return says["CLASS"][0], positive(says["SIZE"][0]), positive(says["SIZE"][2])


def site_statements(words: Words, name: str) -> Iterator[tuple[str, list[str]]]:
    """The statements of a site that count."""
    for word, values in statements(words, name):
        if word not in ("CLASS", "SIZE", "SYMMETRY", "ROWPATTERN"):
            raise words.refuse(f"{word} of SITE {name}")
        yield word, values


def read_layer(words: Words, name: str) -> Layer:
    """A layer, from behind its name on."""
    layer = Layer(name)
    while (word := words.begin()) != "END":
        if word in CURRENT:
            words.skip(word)
            skip_current(words)
            continue
        values = words.until(";")
        if word == "TYPE":
            layer.kind = values[0]
            if layer.kind != "ROUTING":
                words.skip(f"LAYER of TYPE {layer.kind}")
        elif word == "PROPERTY":
            words.skip("PROPERTY" if values[0][:6] != "LEF58_" else "PROPERTY LEF58_..")
        elif word[:7] == "ANTENNA":
            words.skip("ANTENNA..")
        elif layer.kind == "ROUTING":
            read_routing(layer, word, values, words)
        elif layer.kind == "CUT" and word == "RESISTANCE":
            layer.resistance = number(values[0])
    due(words, name)
    return layer


def read_routing(layer: Layer, word: str, values: list[str], words: Words) -> None:
    """A statement of a routing layer."""
    said: dict[str, tuple[str, Callable[[], object]]] = {
        "DIRECTION": ("direction", lambda: one_of(values[0], "HORIZONTAL", "VERTICAL")),
        "PITCH": ("pitch", lambda: tuple(positive(value) for value in (values * 2)[:2])),
        "WIDTH": ("width", lambda: positive(values[0])),
        "EDGECAPACITANCE": ("edge_capacitance", lambda: number(values[0]))}
    if word in said:
        name, value = said[word]
        once(layer, name, value(), words)
    elif word == "SPACING":
        if len(values) == 1:
            once(layer, "spacing", number(values[0]), words)
    elif word == "SPACINGTABLE":
        found = [value for value in (layer.least, least_of_table(values)) if value is not None]
        layer.least = min(found, default=None)
    elif word == "RESISTANCE" and values[0] == "RPERSQ":
        once(layer, "resistance", number(values[1]), words)
    elif word == "CAPACITANCE" and values[0] == "CPERSQDIST":
        once(layer, "capacitance", number(values[1]), words)
    elif word not in LAYER_RULES:
        raise words.refuse(f"{word} of LAYER {layer.name}")


def one_of(value: str, *values: str) -> str:
    """The value, which is one of these."""
    if value not in values:
        raise ValueError(value)
    return value


def once(thing: Layer, name: str, value: object, words: Words) -> None:
    """Keeps what is said of a thing, which isn't said otherwise before."""
    if getattr(thing, name) not in (None, Decimal(0), value):
        raise words.fault(f"{name} of {thing.name} is said again, and otherwise")
    setattr(thing, name, value)


def least_of_table(values: list[str]) -> Decimal | None:
    """The least spacing of a SPACINGTABLE, or None where it is of another kind."""
    if values[0] == "PARALLELRUNLENGTH":
        rows = split_at(values, "WIDTH")[1:]
        return min(number(value) for row in rows for value in row[1:])
    if values[0] == "TWOWIDTHS":
        rows = split_at(values, "WIDTH")[1:]
        return min(number(value) for row in rows for value in (row[3:] if row[1] == "PRL" else row[1:]))
    return None


def skip_current(words: Words) -> None:
    """A table of current densities, from behind its first word on: a number, or statements to that of TABLEENTRIES."""
    values = words.until(";")
    if len(values) == 2 and values[1][0] in "0123456789.+-":
        return
    while words.take() != "TABLEENTRIES":
        words.until(";")
    words.until(";")


def read_rule(words: Words, name: str) -> Rule:
    """Of a rule for wide nets: width and spacing by layer, in micrometres."""
    rule: Rule = {}
    while (word := words.begin()) != "END":
        if word == "LAYER":
            layer = words.take()
            said = dict((word, values) for word, values in statements(words, layer))
            spacing = number(said["SPACING"][0]) if "SPACING" in said else None
            rule[layer] = positive(said["WIDTH"][0]), spacing
        elif word == "VIA":
            words.until("END", words.take())
        elif word == "SPACING":
            words.until("END", "SPACING")
        elif word in ("HARDSPACING", "USEVIA", "USEVIARULE", "MINCUTS", "PROPERTY"):
            words.until(";")
        else:
            raise words.refuse(f"{word} of NONDEFAULTRULE {name}")
    if words.words[words.at:words.at + 1] == [name]:
        words.take()
    return rule
