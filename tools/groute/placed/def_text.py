"""Placed designs in DEF, by the public DEF 5.8 language. All lengths are in the DEF's units."""
from dataclasses import dataclass, field
from decimal import Decimal
from typing import Any, Callable, Sequence

from groute.placed.statements import (MOST_REPEATS, ORIENTATIONS, Notes, Shape, Words, generated_via, moved,
                                      pairs, polygon, positive, rectangle, split_at, turned, whole, without_brackets)
from groute.texts.files import Fault

Run = tuple[int, int, int]                  # first, count and step
Placement = tuple[int, int, str]            # x, y and orientation
WirePoint = tuple[int, int, int | None]     # x, y, and how far the wire goes on behind

SILENT = {"VERSION", "NAMESCASESENSITIVE", "DIVIDERCHAR", "TECHNOLOGY", "HISTORY",
          "COMPONENTMASKSHIFT", "ARRAY", "FLOORPLAN"}
# These sections say nothing to a global router.
SECTIONS = {"PROPERTYDEFINITIONS", "STYLES", "REGIONS", "GROUPS", "SCANCHAINS", "PINPROPERTIES", "SLOTS", "FILLS"}
METAL = {"SLOTS", "FILLS"}      # but these are of metal
PLACED = {"PLACED", "FIXED", "COVER"}
# What items may say behind a `+`, beside what is read.
OF_COMPONENT = {"EEQMASTER", "SOURCE", "MASKSHIFT", "HALO", "WEIGHT", "REGION", "PROPERTY", "GENERATE", "FOREIGN",
                "UNPLACED"}
OF_PIN = {"SPECIAL", "NETEXPR", "SUPPLYSENSITIVITY", "GROUNDSENSITIVITY"}
OF_NET = {"SOURCE", "WEIGHT", "XTALK", "FIXEDBUMP", "FREQUENCY", "ORIGINAL", "PATTERN", "ESTCAP", "PROPERTY",
          "SHIELDNET", "STYLE"}
OF_SPECIAL = {"SOURCE", "VOLTAGE", "FIXEDBUMP", "ORIGINAL", "PATTERN", "ESTCAP", "WEIGHT", "PROPERTY"}
WIRED = {"ROUTED", "FIXED", "COVER", "NOSHIELD", "SHIELD"}
OF_VIA = {"VIARULE", "CUTSIZE", "LAYERS", "CUTSPACING", "ENCLOSURE", "ROWCOL", "ORIGIN", "OFFSET", "PATTERN",
          "PATTERNNAME"}


@dataclass
class Pin:
    """A pin of the chip, with its shapes in place, its net, and what that is used for."""
    direction: str | None = None
    shapes: list[Shape] = field(default_factory=list)
    net: str | None = None
    use: str | None = None


@dataclass
class Net:
    """A net: its connections as (component or PIN, pin), the name of its rule for wide nets, where it stands, and
    what it is used for."""
    name: str
    connections: list[tuple[str, str]]
    rule: str | None
    place: str
    use: str | None = None


@dataclass
class Component:
    """A cell on the chip; orientation is None where it isn't placed."""
    macro: str
    place: str
    x: int = 0
    y: int = 0
    orientation: str | None = None


@dataclass
class Row:
    """A row of sites: where its first lies, how cells lie in it, and how many sites there are how far apart."""
    site: str
    x: int
    y: int
    orientation: str
    count: int
    step: int


class Def:
    """A placed design: its area, tracks, components, pins, nets, and what else takes room for wires."""

    def __init__(self, path: str, notes: Notes) -> None:
        self.path, self.notes = path, notes
        self.name = "design"
        self.area = (0, 0, 0, 0)    # x1, y1, x2, y2
        self.units = 0              # to the micrometre
        self.tracks: dict[tuple[str, str], list[Run]] = {}  # by layer, and X (the places of vertical tracks) or Y
        self.gcells: dict[str, list[Run]] = {"X": [], "Y": []}  # lines
        self.rows: list[Row] = []
        self.bus_bits = "[]"        # the letters around the number of a bus's bit
        self.components: dict[str, Component] = {}
        self.pins: dict[str, Pin] = {}
        self.vias: dict[str, list[Shape]] = {}
        self.rules: dict[str, dict[str, tuple[Decimal, Decimal | None]]] = {}
        self.nets: dict[str, Net] = {}
        self.special: list[Shape] = []
        self.special_uses: dict[str, str | None] = {}   # what each net of SPECIALNETS is used for, if that is said
        self.blockages: list[Shape] = []
        self.special_vias: list[tuple[str, int, int, str, str]] = []    # via, x, y, orientation, place
        words = Words(path, notes)
        while (word := words.begin()) != "END":
            words.read_by(self.read, word, words)
        if not any(self.area) or not self.units:
            raise Fault(f"{path}: UNITS and DIEAREA are due")

    def read(self, word: str, words: Words) -> None:
        """One statement or section."""
        sections: dict[str, Callable[[list[str], Words], None]] = {
            "VIAS": self.read_via, "COMPONENTS": self.read_component, "PINS": self.read_pin,
            "SPECIALNETS": self.read_special, "NETS": self.read_net, "BLOCKAGES": self.read_blockage,
            "NONDEFAULTRULES": self.read_rule}
        if word in sections:
            for item in words.items(word):
                words.read_by(sections[word], item, words)
        elif word in SECTIONS:
            if word in METAL:
                words.skip(word)
            words.until("END", word)
        elif word == "BEGINEXT":
            words.skip(word)
            words.until("ENDEXT")
        elif word in SILENT:
            words.until(";")
        else:
            self.read_statement(word, words)

    def read_statement(self, word: str, words: Words) -> None:
        """One statement that isn't a section."""
        values = words.until(";")
        if word == "ROW":
            self.rows.append(row_of(values))
        elif word == "DESIGN":
            self.name = values[0]
        elif word == "BUSBITCHARS":
            self.bus_bits = values[0].strip('"')
        elif word == "UNITS":
            self.once("units", whole(values[2]), words)
            if values[:2] != ["DISTANCE", "MICRONS"] or not 0 < self.units <= 100000:
                raise ValueError(values)
        elif word == "DIEAREA":
            corners = pairs([whole(value) for value in without_brackets(values)])
            xs, ys = zip(*corners)
            self.once("area", (min(xs), min(ys), max(xs), max(ys)), words)
            if len(corners) < 2 or min(xs) == max(xs) or min(ys) == max(ys):
                raise words.refuse("an area without room")
        elif word == "TRACKS":
            layers = values[values.index("LAYER") + 1:]
            for layer in layers:
                self.tracks.setdefault((layer, one_way(values[0])), []).append(run_of(values))
        elif word == "GCELLGRID":
            self.gcells[one_way(values[0])].append(run_of(values))
        else:
            raise words.refuse(word)

    def once(self, name: str, value: object, words: Words) -> None:
        """Keeps what isn't said otherwise before."""
        if getattr(self, name) not in (0, (0, 0, 0, 0), value):
            raise words.fault("this is said again, and otherwise")
        setattr(self, name, value)

    def add(self, found: dict[str, Any], name: str, value: object, words: Words) -> None:
        """Keeps an item under its name, which no item before it has."""
        if name in found:
            raise words.fault(f"{name} stands here a second time")
        found[name] = value

    def read_via(self, item: list[str], words: Words) -> None:
        """`NAME + RECT LAYER ( x y ) ( x y ) ..`, or with the words of a via that is generated."""
        name, *rest = item
        shapes: list[Shape] = []
        parts: dict[str, list[str]] = {}
        for word, *values in split_at(rest, "+")[1:]:
            if word in ("RECT", "POLYGON"):
                shapes += shapes_of(word, values)
            elif word in OF_VIA:
                parts[word] = values
            elif word != "MASK":
                raise words.refuse(f"{word} of the via {name}")
        self.add(self.vias, name, generated_via(parts, whole) if "CUTSIZE" in parts else shapes, words)

    def read_rule(self, item: list[str], words: Words) -> None:
        """`NAME + LAYER LAYER WIDTH w SPACING s ..`: width and spacing by layer, in micrometres."""
        name, *rest = item
        rule: dict[str, tuple[Decimal, Decimal | None]] = {}
        for word, *values in split_at(rest, "+")[1:]:
            if word == "LAYER":
                said = dict(zip(values[1::2], values[2::2]))
                spacing = positive(said["SPACING"]) / self.units if "SPACING" in said else None
                rule[values[0]] = positive(said["WIDTH"]) / self.units, spacing
            elif word not in ("HARDSPACING", "VIA", "VIARULE", "MINCUTS", "PROPERTY"):
                raise words.refuse(f"{word} of the rule {name}")
        self.add(self.rules, name, rule, words)

    def read_component(self, item: list[str], words: Words) -> None:
        """`NAME MACRO .. + PLACED ( x y ) ORIENTATION ..`."""
        name, macro, *rest = item
        component = Component(macro, words.place())
        for word, *values in split_at(rest, "+")[1:]:
            if word in PLACED:
                component.x, component.y, component.orientation = placement(values)
            elif word == "ROUTEHALO":
                words.skip("ROUTEHALO of COMPONENTS")
            elif word not in OF_COMPONENT:
                raise words.refuse(f"{word} of the component {name}")
        if component.orientation is None:
            words.notes.once("UNPLACED", component.place, f"the component {name} isn't placed")
        self.add(self.components, name, component, words)

    def read_pin(self, item: list[str], words: Words) -> None:
        """`NAME + NET NET .. + PORT + LAYER LAYER ( x y ) ( x y ) .. + PLACED ( x y ) ORIENTATION ..`."""
        name, *rest = item
        pin = Pin()
        port: list[Shape] = []
        place: Placement | None = None
        for word, *values in [*split_at(rest, "+")[1:], ["PORT"]]:
            if word == "LAYER":
                port += shapes_of("RECT", values)
            elif word == "POLYGON":
                port += shapes_of(word, values)
            elif word in PLACED:
                place = placement(values)
            elif word == "PORT":
                pin.shapes += in_place(port, place)
                port, place = [], None
            elif word == "DIRECTION":
                pin.direction = values[0]
            elif word == "NET":
                pin.net = values[0]
            elif word == "USE":
                pin.use = values[0]
            elif word not in OF_PIN and word[:7] != "ANTENNA":
                raise words.refuse(f"{word} of the pin {name}")
        if not pin.shapes:
            words.notes.once("pin without place", words.place(), f"the pin {name} has no shape in a place")
        self.add(self.pins, name, pin, words)

    def read_blockage(self, item: list[str], words: Words) -> None:
        """`LAYER LAYER .. RECT ( x y ) ( x y ) ..`, or `PLACEMENT ..`, which says nothing to a router."""
        if item[0] == "PLACEMENT":
            return
        layer, at, takes = item[1], 2, True
        spacing: int | None = None
        if item[0] != "LAYER":
            raise words.refuse(item[0])
        while at < len(item):
            word = item[at + 1] if item[at] == "+" else item[at]
            at += 1 + (item[at] == "+")
            end = next((end for end in range(at, len(item)) if item[end] in ("+", "RECT", "POLYGON")), len(item))
            if word in ("RECT", "POLYGON") and takes:
                self.blockages += shapes_of(word, [layer, *item[at:end]], spacing)
            elif word == "SPACING":
                spacing = whole(item[at])
            elif word in ("SLOTS", "FILLS"):
                takes = False
            elif word not in ("RECT", "POLYGON", "PUSHDOWN", "EXCEPTPGNET", "COMPONENT", "DESIGNRULEWIDTH", "MASK"):
                raise words.refuse(f"{word} of a blockage")
            at = end

    def read_special(self, item: list[str], words: Words) -> None:
        """`NAME ( COMPONENT PIN ) .. + ROUTED LAYER WIDTH ( x y ) .. NEW ..`; a `*` stands for the number before."""
        name, *rest = item
        _, rest = connections(rest)
        wires: list[str] = []
        self.special_uses.setdefault(name, None)
        for word, *values in split_at(rest, "+")[1:]:
            if word in WIRED:
                wires += ["NEW", *values[word == "SHIELD":]]
            elif word in ("SHAPE", "STYLE", "MASK"):
                wires += values[1:]
            elif word in ("RECT", "POLYGON"):
                self.special += shapes_of(word, values)
            elif word == "VIA":
                self.read_wire(["", "0", *turns_first(values)], words)
            elif word == "USE":
                self.special_uses[name] = values[0]
            elif word not in OF_SPECIAL:
                raise words.refuse(f"{word} of the special net {name}")
        for wire in split_at(wires, "NEW"):
            if wire:
                self.read_wire(wire, words)

    def read_wire(self, wire: list[str], words: Words) -> None:
        """A special wire along points, with vias."""
        layer, width, *rest = wire
        at, was_via = 0, False
        points: list[WirePoint] = []
        while at < len(rest):
            word = rest[at]
            if word == "(":
                end = rest.index(")", at)
                points.append(point(rest[at + 1:end], points))
                at, was_via = end + 1, False
            elif word == "MASK":
                at += 2
            elif word == "DO" and was_via:
                self.repeat_via(rest[at:at + 7], words)
                at += 7
            elif word in ORIENTATIONS and was_via:
                self.special_vias[-1] = (*self.special_vias[-1][:3], word, words.place())
                at += 1
            else:
                self.special_vias.append((word, *points[-1][:2], "N", words.place()))
                at, was_via = at + 1, True
        self.special += wire_shapes(layer, whole(width), points, words)

    def repeat_via(self, values: list[str], words: Words) -> None:
        """`DO columns BY rows STEP x y` behind a via."""
        _, across, _, up, _, *step = values
        columns, rows, (x, y) = whole(across), whole(up), map(whole, step)
        if min(columns, rows) < 1 or columns * rows > MOST_REPEATS:
            raise words.refuse("so many vias")
        via, left, low, turn, place = self.special_vias.pop()
        self.special_vias += [(via, left + column * x, low + row * y, turn, place)
                              for column in range(columns) for row in range(rows)]

    def read_net(self, item: list[str], words: Words) -> None:
        """`NAME ( COMPONENT PIN ) ( PIN NAME ) .. + NONDEFAULTRULE RULE .. + ROUTED ..`."""
        name, *rest = item
        found, rest = connections(rest)
        rule = use = None
        if name == "MUSTJOIN" or rest[:1] not in ([], ["+"]):
            raise words.refuse(f"the net {name}")
        for word, *values in split_at(rest, "+")[1:]:
            if word == "NONDEFAULTRULE":
                rule = values[0]
            elif word == "USE":
                use = values[0]
            elif word in WIRED:
                words.skip(f"{word} of NETS")
            elif word not in OF_NET:
                raise words.refuse(f"+ {word} of the net {name}")
        self.add(self.nets, name, Net(name, found, rule, words.place(), use), words)


def one_way(way: str) -> str:
    """X or Y."""
    if way not in ("X", "Y"):
        raise ValueError(way)
    return way


def run_of(values: list[str]) -> Run:
    """First, count and step of `X first DO count STEP step ..`."""
    _, first, do, count, word, step = values[:6]
    if (do, word) != ("DO", "STEP") or not 0 < whole(count) <= 1 << 20 or whole(step) < 1:
        raise ValueError(values)
    return whole(first), whole(count), whole(step)


def row_of(values: list[str]) -> Row:
    """`NAME SITE x y ORIENTATION [DO count BY rows STEP x y]`; of a column of sites, or one of several rows, none."""
    _, site, x, y, orientation, *steps = values
    if orientation not in ORIENTATIONS:
        raise ValueError(values)
    count = whole(steps[1]) if steps[:1] == ["DO"] and whole(steps[3]) == 1 else 1
    step = whole(steps[5]) if steps[4:5] == ["STEP"] else 0
    return Row(site, whole(x), whole(y), orientation, count, step)


def placement(values: list[str]) -> Placement:
    """x, y and orientation of `( x y ) ORIENTATION`."""
    left, x, y, right, orientation = values
    if (left, right) != ("(", ")") or orientation not in ORIENTATIONS:
        raise ValueError(values)
    return whole(x), whole(y), orientation


def in_place(port: list[Shape], place: Placement | None) -> list[Shape]:
    """The shapes of a port of a pin, where it is placed."""
    return [moved(turned(shape, place[2]), place[0], place[1]) for shape in port] if place else []


def shapes_of(word: str, values: Sequence[str], spacing: int | None = None) -> list[Shape]:
    """The rectangles of `LAYER [MASK m] [SPACING s] points`."""
    layer, *values = values
    while values[0] in ("MASK", "SPACING", "DESIGNRULEWIDTH", "+"):
        values = values[1 if values[0] == "+" else 2:]
    lengths = [whole(value) for value in without_brackets(values)]
    return [rectangle(layer, lengths, spacing)] if word == "RECT" else polygon(layer, lengths, spacing)


def connections(words: list[str]) -> tuple[list[tuple[str, str]], list[str]]:
    """The connections at the front, and the words behind them."""
    found: list[tuple[str, str]] = []
    at = 0
    while words[at:at + 1] == ["("]:
        end = words.index(")", at)
        if end < at + 3 or words[at + 3:end] not in ([], ["+", "SYNTHESIZED"]):
            raise ValueError(words[at:end])
        found.append((words[at + 1], words[at + 2]))
        at = end + 1
    return found, words[at:]


def point(values: list[str], before: list[WirePoint]) -> WirePoint:
    """x, y and what the wire goes on behind the point, or None; a `*` stands for the number of the point before."""
    if not 2 <= len(values) <= 3:
        raise ValueError(values)
    x = before[-1][0] if values[0] == "*" else whole(values[0])
    y = before[-1][1] if values[1] == "*" else whole(values[1])
    return x, y, whole(values[2]) if len(values) == 3 else None


def turns_first(values: list[str]) -> list[str]:
    """`VIA [ORIENTATION] ( x y ) ..` in the order of wires: each point with the via behind it."""
    via, *rest = values
    turn = [rest.pop(0)] if rest[0] in ORIENTATIONS else []
    placed: list[str] = []
    for word in rest:
        placed += [word, via, *turn] if word == ")" else [word]
    return placed


def wire_shapes(layer: str, width: int, points: list[WirePoint], words: Words) -> list[Shape]:
    """The rectangles of a special wire. It ends at its ends, or so far behind them as its points say; where it turns,
    it fills the corner."""
    shapes: list[Shape] = []
    for at, ((x1, y1, before), (x2, y2, behind)) in enumerate(zip(points, points[1:])):
        if (x1, y1) == (x2, y2) or width == 0:
            continue        # no metal but that of vias
        if width < 0 or (x1 != x2 and y1 != y2):
            raise words.refuse(f"a special wire of width {width} from ( {x1} {y1} ) to ( {x2} {y2} )")
        half = width // 2
        first = before if before is not None else half * (at > 0)
        last = behind if behind is not None else half * (at + 2 < len(points))
        if (x1, y1) > (x2, y2):
            x1, y1, x2, y2, first, last = x2, y2, x1, y1, last, first
        if x1 == x2:
            shapes.append(Shape(layer, x1 - half, y1 - first, x1 - half + width, y2 + last))
        else:
            shapes.append(Shape(layer, x1 - first, y1 - half, x2 + last, y1 - half + width))
    return shapes
