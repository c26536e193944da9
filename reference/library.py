"""Library texts."""
from design import MOST
from text import WORD, Text

LAYER, REPEATED_KIND, MISSING, TRAILING = range(4, 8)
TOO_MANY, TILE, UNKNOWN_ID, PIN = range(9, 13)
KINDS = 32
WEIGHT = 1000000        # the most ohms and femtofarads
TIME = 2**50            # the most femtoseconds


class Library:
    """Wires by layer from 0; a wire, a via: (R, C); a sink: (C, time)."""

    def __init__(self, version):
        self.version = version
        self.wires = {}
        self.via = self.driver = self.sink = None
        self.kinds = {}         # name -> (C, R, delay)
        self.inverters = set()  # names
        self.blocks = set()     # tiles
        self.drivers = {}       # id -> R
        self.sinks = {}         # (id, pin) -> sink
        self.flipped = set()    # (id, pin)

    def driver_of(self, net):
        return self.drivers.get(net.id, self.driver)

    def sink_of(self, net, pin):
        return self.sinks.get((net.id, pin), self.sink)


def read_library(data, d):
    text = Text(data)
    text.word(b"library")
    library = Library(int(text.word(b"1", b"2", b"3")))
    while (item := text.take()) != b"end":
        since, read = ITEMS.get(item, (4, None))
        text.check(since <= library.version, WORD)
        read(text, d, library)
    text.check(len(library.wires) == d.L, MISSING)
    text.check(None not in (library.via, library.driver, library.sink), MISSING)
    text.end(TRAILING)
    return library


def weight(text):
    return text.number(0, WEIGHT)


def read_wire(text, d, library):
    layer = text.number(0, MOST)
    text.check(1 <= layer <= d.L and layer - 1 not in library.wires, LAYER)
    library.wires[layer - 1] = weight(text), weight(text)


def read_via(text, _, library):
    text.check(library.via is None, WORD)
    library.via = weight(text), weight(text)


def read_driver(text, _, library):
    text.check(library.driver is None, WORD)
    library.driver = weight(text)


def read_sink(text, _, library):
    text.check(library.sink is None, WORD)
    library.sink = sink_in(text)


def sink_in(text):
    return weight(text), text.number(-TIME, TIME)


def read_kind(text, _, library):
    text.check(len(library.kinds) < KINDS, TOO_MANY)
    name = text.take()
    text.check(name not in library.kinds, REPEATED_KIND)
    library.kinds[name] = weight(text), weight(text), text.number(0, TIME)
    return name


def read_inverter(text, d, library):
    library.inverters.add(read_kind(text, d, library))


def read_block(text, d, library):
    column = text.number(0, MOST)
    text.check(column < d.X, TILE)
    row = text.number(0, MOST)
    text.check(row < d.Y, TILE)
    library.blocks.add((column, row))


def read_drive(text, d, library):
    net = net_in(text, d)
    library.drivers[net.id] = weight(text)


def read_pin(text, d, library):
    at = pin_in(text, d)
    library.sinks[at] = sink_in(text)


def read_flip(text, d, library):
    library.flipped.add(pin_in(text, d))


def net_in(text, d):
    net = d.net_of_id(text.number(0, MOST))
    text.check(net is not None, UNKNOWN_ID)
    return net


def pin_in(text, d):
    net = net_in(text, d)
    pin = text.number(0, 16777216)
    text.check(1 <= pin <= len(net.pins) - 1, PIN)
    return net.id, pin


# Each item's word, the first version that has it, and what reads the rest of it.
ITEMS = {
    b"wire": (1, read_wire),
    b"via": (1, read_via),
    b"driver": (1, read_driver),
    b"sink": (1, read_sink),
    b"kind": (1, read_kind),
    b"block": (2, read_block),
    b"drive": (2, read_drive),
    b"pin": (2, read_pin),
    b"inverter": (3, read_inverter),
    b"flip": (3, read_flip),
}
