"""Design texts, and the cells and edges of a design.

A cell is its number (layer * rows + y) * columns + x. An edge is a pair of cells, the lower first. A
tile is (column, row).
"""
from text import Text

GRID, TILE, NO_LAYER, PINS, PIN_OUTSIDE, PIN_LAYER, REPEATED_ID, ADJUST, TRAILING = range(4, 13)
MOST = 2**31 - 1


class Net:
    def __init__(self, name, id_, width, pins):
        self.name, self.id, self.width, self.pins = name, id_, width, pins   # pins: (x, y, layer from 0)


class Design:
    """Columns X, rows Y, layers L; lower left (lx, ly), tile width tw and height th."""

    def routed(self):
        """The numbers of the nets that are routed."""
        return [n for n, net in enumerate(self.nets) if 1 <= len(net.pins) <= 1000]

    def net_of_id(self, id_):
        """The net of an id, or None."""
        return next((net for net in self.nets if net.id == id_), None)


def read_design(data):
    text = Text(data)
    d = Design()
    text.word(b"grid")
    d.X = text.number(1, 8388608)
    d.Y = text.number(1, 8388608)
    d.L = text.number(1, 16)
    text.check(d.X * d.Y * d.L <= 8388608, GRID)
    d.vertical = read_row(text, d, b"vertical", b"capacity", 1000000)
    text.check(d.Y == 1 or any(d.vertical), NO_LAYER)
    d.horizontal = read_row(text, d, b"horizontal", b"capacity", 1000000)
    text.check(d.X == 1 or any(d.horizontal), NO_LAYER)
    d.width = read_row(text, d, b"minimum", b"width", 1000)
    d.spacing = read_row(text, d, b"minimum", b"spacing", 1000)
    read_row(text, d, b"via", b"spacing", 1000)
    d.lx = text.number(-2**40, 2**40)
    d.ly = text.number(-2**40, 2**40)
    d.tw = text.number(0, 1000000)
    text.check(d.tw != 0, TILE)
    d.th = text.number(0, 1000000)
    text.check(d.th != 0, TILE)
    read_nets(text, d)
    d.adjusted = {}
    if not text.is_ended():
        for _ in range(text.number(0, 16777216)):
            read_adjustment(text, d)
    text.end(TRAILING)
    return d


def read_row(text, d, first, second, most):
    """Two words, and a number for each layer."""
    text.word(first)
    text.word(second)
    return [text.number(0, most) for _ in range(d.L)]


def read_nets(text, d):
    text.word(b"num")
    text.word(b"net")
    d.nets = []
    ids = set()
    pins_so_far = 0
    for _ in range(text.number(0, 4194304)):
        name = text.take()
        id_ = text.number(0, MOST)
        text.check(id_ not in ids, REPEATED_ID)
        ids.add(id_)
        pins = text.number(0, 16777216)
        pins_so_far += pins
        text.check(pins != 0 and pins_so_far <= 16777216, PINS)
        width = text.number(0, 1000)
        d.nets.append(Net(name, id_, width, [read_pin(text, d) for _ in range(pins)]))


def read_pin(text, d):
    x = text.number(-2**44, 2**44)
    text.check(tile_x(d, x) is not None, PIN_OUTSIDE)
    y = text.number(-2**44, 2**44)
    text.check(tile_y(d, y) is not None, PIN_OUTSIDE)
    layer = text.number(0, MOST)
    text.check(1 <= layer <= d.L, PIN_LAYER)
    return tile_x(d, x), tile_y(d, y), layer - 1


def read_adjustment(text, d):
    ends = []
    for _ in range(2):
        column = text.number(0, MOST)
        text.check(column < d.X, ADJUST)
        row = text.number(0, MOST)
        text.check(row < d.Y, ADJUST)
        layer = text.number(0, MOST)
        text.check(1 <= layer <= d.L, ADJUST)
        ends.append((column, row, layer - 1))
    (c1, r1, l1), (c2, r2, l2) = ends
    text.check(l1 == l2 and abs(c1 - c2) + abs(r1 - r2) == 1, ADJUST)
    # The last one of an edge counts.
    d.adjusted[edge(cell(d, *ends[0]), cell(d, *ends[1]))] = text.number(0, 1000000)


def tile_x(d, x):
    """The column of a coordinate, the last one on the chip's border; None outside the chip."""
    return min((x - d.lx) // d.tw, d.X - 1) if d.lx <= x <= d.lx + d.X * d.tw else None


def tile_y(d, y):
    """The row of a coordinate, likewise."""
    return min((y - d.ly) // d.th, d.Y - 1) if d.ly <= y <= d.ly + d.Y * d.th else None


def cell(d, x, y, layer):
    return (layer * d.Y + y) * d.X + x


def place(d, c):
    return c % d.X, c // d.X % d.Y, c // (d.X * d.Y)


def edge(a, b):
    return (a, b) if a < b else (b, a)


def way(d, e):
    (x1, y1, l1), (x2, y2, l2) = place(d, e[0]), place(d, e[1])
    diff = (x2 - x1, y2 - y1, l2 - l1)
    return {(1, 0, 0): "East", (0, 1, 0): "North", (0, 0, 1): "Up"}[diff]


def stated(d, layer, w):
    return d.horizontal[layer] if w == "East" else d.vertical[layer]


def usable(d, e):
    w = way(d, e)
    return w == "Up" or stated(d, place(d, e[0])[2], w) != 0


def capacity(d, e):
    if e in d.adjusted:
        return d.adjusted[e]
    return stated(d, place(d, e[0])[2], way(d, e))


def need(d, net, e):
    if way(d, e) == "Up":
        return 0
    layer = place(d, e[0])[2]
    return max(d.nets[net].width, d.width[layer]) + d.spacing[layer]
