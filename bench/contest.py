#!/usr/bin/env python3
"""Writes a design of the shape of the ISPD 2007 and 2008 contests': bench/contest.py COLUMNS ROWS LAYERS NETS SEED TRACKS

Macros cover a third of the chip and block the layers from 2 on, straps take a quarter of every twelfth row and column of
layers 5 and 6, pins crowd in hot spots, layer 1 is closed, layer 2 has 40 of 100 tracks, and nets get rarer with their
length. Lengths, pins and capacities are after the contests' published statistics. One seed gives one design.
"""
import math
import sys
from bisect import bisect_right

TILE = 35
RARER = 1.9
COVERED = 0.35
HOT = 1.5
MASK = 2**64 - 1


class Draws:
    """Xorshift128+: numbers from 0 to below 1, and normal ones."""

    def __init__(self, seed):
        self.a, self.b = (seed * 0x9E3779B97F4A7C15 + 1) & MASK, (seed ^ 0xD1B54A32D192ED03) & MASK
        for _ in range(50):
            self.next()

    def next(self):
        a, b = self.a, self.b
        a ^= a << 23 & MASK
        self.a, self.b = b, a ^ b ^ (a >> 17) ^ (b >> 26)
        return (self.b + b) & MASK

    def part(self):
        return (self.next() >> 11) / 9007199254740992.0

    def normal(self):
        u, v = self.part() + 1e-300, self.part()
        return math.sqrt(-2 * math.log(u)) * math.cos(6.283185307 * v)


def macros(draw, columns, rows):
    """The boxes of macros, from their lower corner to behind the upper one, no two of which touch."""
    boxes, area = [], 0
    for _ in range(20000):
        if area >= COVERED * columns * rows:
            break
        scale = math.exp(math.log(0.02) + (math.log(0.16) - math.log(0.02)) * draw.part())
        wide = max(3, int(columns * scale * (0.6 + 0.8 * draw.part())))
        high = max(3, int(rows * scale * (0.6 + 0.8 * draw.part())))
        x = int(draw.part() * (columns - wide - 2) + 1)
        y = int(draw.part() * (rows - high - 2) + 1)
        gap = 1 + int(draw.part() * 4)
        if any(x < b[2] + gap and b[0] < x + wide + gap and y < b[3] + gap and b[1] < y + high + gap for b in boxes):
            continue
        boxes.append((x, y, x + wide, y + high))
        area += wide * high
    return boxes


def covered(boxes, columns, rows):
    """By tile, whether a macro covers it."""
    tiles = bytearray(columns * rows)
    for x, y, x2, y2 in boxes:
        for row in range(y, y2):
            tiles[row * columns + x : row * columns + x2] = b"\1" * (x2 - x)
    return tiles


def heat(draw, columns, rows, weights):
    """Adds hot spots to the weights of tiles."""
    for _ in range(max(8, columns * rows // 2500)):
        cx, cy = draw.part() * columns, draw.part() * rows
        r = 3 + draw.part() * draw.part() * 25 * columns / 324.0
        most = HOT * (0.3 + draw.part())
        for y in range(max(0, int(cy - 3 * r)), min(rows - 1, int(cy + 3 * r)) + 1):
            for x in range(max(0, int(cx - 3 * r)), min(columns - 1, int(cx + 3 * r)) + 1):
                far = ((x - cx) * (x - cx) + (y - cy) * (y - cy)) / (2 * r * r)
                weights[y * columns + x] += most * math.exp(-far)


def crowding(draw, columns, rows, tiles):
    """By tile, how many pins lie there: few over a macro's border, none inside, more in hot spots."""
    weights = [0.25] * (columns * rows)
    heat(draw, columns, rows, weights)
    for y in range(rows):
        for x in range(columns):
            if tiles[y * columns + x]:
                near = (tiles[b * columns + a] for b in range(max(0, y - 1), min(rows, y + 2))
                        for a in range(max(0, x - 1), min(columns, x + 2)))
                weights[y * columns + x] = 0 if all(near) else 0.12
    return [min(weight, 2.2) for weight in weights]


def pins_of(draw, net, nets):
    """How many pins a net has."""
    u = draw.part()
    if u < 0.59:
        pins = 2
    elif u < 0.73:
        pins = 3
    elif u < 0.81:
        pins = 4
    elif u < 0.925:
        pins = 5 + int(draw.part() * 5)
    elif u < 0.972:
        pins = 10 + int(draw.part() * 10)
    elif u < 0.9965:
        pins = 20 + int(draw.part() * draw.part() * 30)
    else:
        pins = 50 + int(150 * draw.part() * draw.part())
    if net < nets // 10000:
        pins = 200 + int(700 * draw.part() * draw.part())
    if net < max(3, nets // 50000):
        pins = 1001 + int(1200 * draw.part())
    return pins


def scale_of(draw, pins, span):
    """How far apart a net's pins lie, in tiles, from 0.7 to the chip, by a power law."""
    scale = span + 1
    while scale > span:
        scale = 0.7 * math.pow(1 - draw.part(), -1.0 / (RARER - 1))
    if pins > 50:
        scale = max(scale, 2 + draw.part() * draw.part() * span * 0.5)
    return scale * math.pow(pins / 2.0, 0.35)


class Places:
    """Places of pins, by the weights of tiles."""

    def __init__(self, draw, columns, rows, weights):
        self.draw, self.columns, self.rows, self.weights = draw, columns, rows, weights
        self.sums = [0.0]
        for weight in weights:
            self.sums.append(self.sums[-1] + weight)
        self.most = max(weights)

    def first(self):
        tile = min(bisect_right(self.sums, self.draw.part() * self.sums[-1]) - 1, len(self.weights) - 1)
        x = tile % self.columns + self.draw.part()
        return x, tile // self.columns + self.draw.part()

    def near(self, cx, cy, scale, aspect):
        """A place about so far from another, or that one after sixty tries."""
        draw = self.draw
        for _ in range(61):
            x = cx + draw.normal() * scale * 0.7 * aspect
            y = cy + draw.normal() * scale * 0.7 / aspect
            if 0 <= x < self.columns and 0 <= y < self.rows:
                if self.weights[int(y) * self.columns + int(x)] >= self.most * draw.part() * 0.6:
                    return x, y
        return cx, cy

    def of_net(self, pins, span):
        scale = scale_of(self.draw, pins, span)
        cx, cy = self.first()
        aspect = math.exp(0.5 * self.draw.normal())
        yield cx, cy
        for _ in range(pins - 1):
            yield self.near(cx, cy, scale, aspect)


def capacities(layers, tracks):
    """By layer, its capacity; layers go east and north in turn."""
    return [2 * round(0 if layer == 0 else tracks * 0.4 if layer == 1 else tracks) for layer in range(layers)]


def head(columns, rows, layers, rooms, nets):
    turn = [[room if layer % 2 == way else 0 for layer, room in enumerate(rooms)] for way in (1, 0)]
    yield f"grid {columns} {rows} {layers}\n"
    yield "vertical capacity " + " ".join(map(str, turn[0])) + "\nhorizontal capacity " + " ".join(map(str, turn[1]))
    for name in ("minimum width", "minimum spacing", "via spacing"):
        yield "\n" + name + " 1" * layers
    yield f"\n0 0 {TILE} {TILE}\n\nnum net {nets}\n"


def net_lines(draw, columns, rows, nets, weights):
    places = Places(draw, columns, rows, weights)
    span = max(columns, rows) * 0.8
    for net in range(nets):
        pins = pins_of(draw, net, nets)
        yield f"n{net} {net} {pins} 1\n"
        for x, y in places.of_net(pins, span):
            yield f"{min(columns * TILE - 1, int(x * TILE))} {min(rows * TILE - 1, int(y * TILE))} 1\n"


def blocked(boxes, layers, rooms):
    """Lines of the edges below macros: half of these leave nothing of layers 2 to 4, the others a fifth."""
    for number, (x1, y1, x2, y2) in enumerate(boxes, 1):
        for y in range(y1, y2):
            for x in range(x1, x2):
                for layer in range(1, layers):
                    left = (0 if number % 2 else 0.2) if layer <= 3 else 0.7 if layer == 4 and number % 3 == 0 else 1
                    east = layer % 2 == 0
                    if left != 1 and rooms[layer] and (x + 1 < x2 if east else y + 1 < y2):
                        yield x, y, layer + 1, x + east, y + (not east), int(left * rooms[layer])


def strapped(columns, rows, tiles, rooms):
    """Lines of the edges along power straps."""
    for y in range(0, rows, 12):
        for x in range(columns - 1):
            if not tiles[y * columns + x]:
                yield x, y, 5, x + 1, y, int(0.75 * rooms[4])
    for x in range(0, columns, 12):
        for y in range(rows - 1):
            if not tiles[y * columns + x]:
                yield x, y, 6, x, y + 1, int(0.75 * rooms[5])


def main():
    if len(sys.argv) != 7:
        sys.exit(__doc__.split("\n", 1)[0])
    columns, rows, layers, nets, seed, tracks = map(int, sys.argv[1:])
    draw = Draws(seed)
    boxes = macros(draw, columns, rows)
    tiles = covered(boxes, columns, rows)
    rooms = capacities(layers, tracks)
    weights = crowding(draw, columns, rows, tiles)
    write = sys.stdout.write
    for part in head(columns, rows, layers, rooms, nets):
        write(part)
    for line in net_lines(draw, columns, rows, nets, weights):
        write(line)
    edges = [*blocked(boxes, layers, rooms), *strapped(columns, rows, tiles, rooms)]
    write(f"\n{len(edges)}\n")
    for x, y, layer, x2, y2, room in edges:
        write(f"{x} {y} {layer} {x2} {y2} {layer} {room}\n")


if __name__ == "__main__":
    main()
