#!/usr/bin/env python3
"""Compares `grbound` with a slow count: reference/bounds.py PROGRAM [--chips | SEED [COUNT]]

For each seed the walls of a random design are counted tile by tile and edge by edge, and the bounds are added up from
them. More steps of prices may never give less, and more workers write the same. On grids of a few edges with two nets
at most, all sets of edges for each net are tried besides: none that join the nets' pins may have less overflow or
wirelength than the bounds, those by prices too. Designs on which something differs are kept under the names of their
seed.

--chips tells what 10 and 100 steps prove of the chips of examples/, and what 100 have to reach.
"""
import itertools
import lzma
import os
import random
import subprocess
import sys
import tempfile

import compare
from design import capacity, cell, edge, place, read_design, usable, way

EXAMPLES = os.path.join(os.path.dirname(os.path.abspath(__file__)), "..", "examples")
STEPS = ("1", "2", "6", "25")
# The wirelength without overflow that steps have to prove of chips.
CHIPS = {"c7552_osu035": 22_300, "grom_osu035": 16_600, "grom_osu018": 16_600}


def wire_edges(d):
    """All wire edges of the grid."""
    for layer in range(d.L):
        for y in range(d.Y):
            for x in range(d.X):
                if x + 1 < d.X:
                    yield edge(cell(d, x, y, layer), cell(d, x + 1, y, layer))
                if y + 1 < d.Y:
                    yield edge(cell(d, x, y, layer), cell(d, x, y + 1, layer))


def via_edges(d):
    return [edge(cell(d, x, y, layer), cell(d, x, y, layer + 1))
            for layer in range(d.L - 1) for y in range(d.Y) for x in range(d.X)]


def least_need(d, net):
    return min(max(net.width, width) + spacing for width, spacing in zip(d.width, d.spacing))


class Wall:
    """A set of tiles with what is needed of its edges and what they hold."""

    def __init__(self, d, name, inside):
        self.name, self.inside = name, inside
        ends = {e: [place(d, end)[:2] in inside for end in e] for e in wire_edges(d)}
        self.edges = {e for e, (low, high) in ends.items() if low != high}
        self.holds = sum(capacity(d, e) for e in self.edges)
        nets = [d.nets[number] for number in d.routed()]
        self.needs = sum(least_need(d, net) for net in nets if len({pin[:2] in inside for pin in net.pins}) == 2)


def straight(d):
    tiles = set(itertools.product(range(d.X), range(d.Y)))
    for x in range(d.X - 1):
        yield Wall(d, f"column {x}", {tile for tile in tiles if tile[0] <= x})
    for y in range(d.Y - 1):
        yield Wall(d, f"row {y}", {tile for tile in tiles if tile[1] <= y})


def boxes(d):
    """The boxes that span neither all columns nor all rows, each once, by side, row and column."""
    side, seen = 1, set()
    while side < max(d.X, d.Y):
        for y in range(0, d.Y, side):
            for x in range(0, d.X, side):
                ends = x, y, min(x + side, d.X) - 1, min(y + side, d.Y) - 1
                spans = (x == 0 and ends[2] == d.X - 1) or (y == 0 and ends[3] == d.Y - 1)
                if spans or ends in seen:
                    continue
                seen.add(ends)
                inside = set(itertools.product(range(x, ends[2] + 1), range(y, ends[3] + 1)))
                yield Wall(d, "box %d %d %d %d" % ends, inside)
        side *= 2


def taken_of(cuts, all_boxes):
    """The walls that are taken: overfull cuts, then overfull boxes, those most over first, that share no edge."""
    taken = [wall for wall in cuts if wall.needs > wall.holds]
    for wall in sorted(all_boxes, key=lambda wall: wall.holds - wall.needs):
        if wall.needs > wall.holds and all(not wall.edges & other.edges for other in taken):
            taken.append(wall)
    return taken


def fuller(wall):
    """The key of the order of walls by their share: those that hold nothing first, by what they need."""
    kinds = ["column", "row", "box"]
    words = wall.name.split()
    share = (0, -wall.needs) if wall.holds == 0 else (1, -wall.needs / wall.holds)
    return share, kinds.index(words[0]), [int(word) for word in words[1:]]


def apart(values):
    return max(values) - min(values)


def wires(net):
    tiles = {pin[:2] for pin in net.pins}
    half = apart([x for x, _ in tiles]) + apart([y for _, y in tiles])
    return max(half, len(tiles) - 1)


def forced(d, net, layer, axis):
    """The vias above a layer that pins at it and below force, where no layer up to it goes along this axis."""
    if any((d.vertical if axis == 1 else d.horizontal)[:layer + 1]):
        return 0
    low = [pin for pin in net.pins if pin[2] <= layer]
    lines = len({pin[axis] for pin in low})
    return 0 if lines == 1 and len(low) == len(net.pins) else lines


def usable_vias(d, net):
    """The vias that a net needs at least along usable edges."""
    total = 0
    for layer in range(d.L - 1):
        crossed = len({pin[2] <= layer for pin in net.pins}) == 2
        total += max(int(crossed), forced(d, net, layer, 1), forced(d, net, layer, 0))
    return total


def bounds(d, via_cost):
    """The three figures and the text."""
    cuts, all_boxes = list(straight(d)), list(boxes(d))
    taken = taken_of(cuts, all_boxes)
    nets = [d.nets[number] for number in d.routed()]
    figures = [
        sum(wall.needs - wall.holds for wall in taken),
        sum(wires(net) + via_cost * apart([pin[2] for pin in net.pins]) for net in nets),
        sum(wires(net) + via_cost * usable_vias(d, net) for net in nets),
    ]
    kinds = [sum(wall.name.startswith(kind) for wall in taken) for kind in ("column", "row", "box")]
    words = ["overflow at least", "wirelength at least", "usable wirelength at least", "column cuts", "row cuts", "boxes"]
    lines = [f"{word} {number}" for word, number in zip(words, figures + kinds)]
    shown = [wall for wall in cuts + [wall for wall in taken if wall.name.startswith("box")] if wall.needs]
    lines += [f"{wall.name} needs {wall.needs} holds {wall.holds}" for wall in sorted(shown, key=fuller)[:10]]
    return figures, "".join(line + "\n" for line in lines)


def joins(d, edges, pins):
    """Whether edges join the cells of pins."""
    reached, new = set(), [pins[0]]
    while new:
        at = new.pop()
        if at not in reached:
            reached.add(at)
            new += [b if a == at else a for a, b in edges if at in (a, b)]
    return set(pins) <= reached


def ways(d, net, grid):
    """All sets of edges that join a net's pins."""
    pins = [cell(d, *pin) for pin in net.pins]
    for count in range(len(grid) + 1):
        for edges in itertools.combinations(grid, count):
            if joins(d, edges, pins):
                yield edges


def length(d, edges, via_cost):
    return sum(via_cost if way(d, e) == "Up" else 1 for e in edges)


def overflow(d, nets, chosen):
    """The total overflow of a set of edges for each net."""
    demand = {}
    for net, edges in zip(nets, chosen):
        for e in edges:
            if way(d, e) != "Up":
                layer = place(d, e[0])[2]
                demand[e] = demand.get(e, 0) + max(net.width, d.width[layer]) + d.spacing[layer]
    return sum(max(0, taken - capacity(d, e)) for e, taken in demand.items())


def beaten(d, figures, via_cost):
    """Whether some sets of edges of a tiny design have less than a bound."""
    nets = [d.nets[number] for number in d.routed()]
    grid = list(wire_edges(d)) + via_edges(d)
    choices = [list(ways(d, net, grid)) for net in nets]
    shortest = sum(min(length(d, edges, via_cost) for edges in some) for some in choices)
    along = [[edges for edges in some if all(usable(d, e) for e in edges)] for some in choices]
    least = min((overflow(d, nets, chosen) for chosen in itertools.product(*choices)), default=0)
    if least < figures[0] or shortest < figures[1]:
        return True
    return all(along) and sum(min(length(d, e, via_cost) for e in some) for some in along) < figures[2]


def priced(lines):
    """The numbers of the lines of bounds by prices, which stand behind the first three, and the others."""
    words = ["overflow by prices at least ", "usable wirelength without overflow at least ",
             "usable wirelength and overflow at least "]
    if not all(line.startswith(word) for line, word in zip(lines[3:6], words)):
        return None, lines
    return [int(line.split()[-1]) for line in lines[3:6]], lines[:3] + lines[6:]


def beaten_by_prices(d, prices, via_cost):
    """Whether some sets of edges of a tiny design have less than a bound by prices."""
    over, without, both = prices
    nets = [d.nets[number] for number in d.routed()]
    grid = list(wire_edges(d)) + via_edges(d)
    choices = [list(ways(d, net, grid)) for net in nets]
    for chosen in itertools.product(*choices):
        above = overflow(d, nets, chosen)
        if above < over:
            return True
        if all(usable(d, e) for edges in chosen for e in edges):
            total = sum(length(d, edges, via_cost) for edges in chosen)
            if total + above < both or (above == 0 and total < without):
                return True
    return False


def is_tiny(d):
    wide = len(list(wire_edges(d))) + len(via_edges(d))
    return len(d.routed()) <= 2 and wide <= 8


def tiny(rng):
    """The text of a design of a few edges with two nets at most."""
    columns, rows, layers = rng.choice([(3, 2, 1), (2, 2, 1), (2, 1, 2), (3, 1, 1), (2, 1, 3)])
    numbers = [[rng.choice([0, 0, 1, 2, 4]) for _ in range(layers)] for _ in range(2)]
    for way_ in numbers:
        way_[rng.randrange(layers)] = rng.choice([1, 2, 3])
    rows_of = [" ".join(map(str, row)) for row in
               numbers + [[rng.choice([1, 2]) for _ in range(layers)] for _ in range(3)]]
    heads = ["vertical capacity", "horizontal capacity", "minimum width", "minimum spacing", "via spacing"]
    text = [f"grid {columns} {rows} {layers}"] + [f"{head} {row}" for head, row in zip(heads, rows_of)] + ["0 0 10 10"]
    count = rng.choice([1, 2, 2])
    text.append(f"num net {count}")
    for net in range(count):
        ends = rng.choice([2, 2, 3])
        pins = [(rng.randrange(columns), rng.randrange(rows), rng.randrange(layers)) for _ in range(ends)]
        text.append(f"n{net} {net} {len(pins)} {rng.choice([1, 1, 3])}")
        text += [f"{10 * x + 5} {10 * y + 5} {layer + 1}" for x, y, layer in pins]
    if columns > 1 and rng.random() < 0.5:
        text += ["1", f"0 0 1 1 0 1 {rng.choice([0, 1, 5])}"]
    return "\n".join(text).encode() + b"\n"


def tried(program, seed):
    """Whether the program's text is that of the slow count, and no routes of a tiny design are below it."""
    rng = random.Random(seed)
    text = tiny(rng) if seed % 2 else compare.design(rng)
    via_cost = rng.choice([1, 1, 0, 3])
    d = read_design(text)
    figures, wanted = bounds(d, via_cost)
    path = f"{seed}.ispd"
    with open(path, "wb") as file:
        file.write(text)
    if is_tiny(d) and beaten(d, figures, via_cost):
        print("routes are below the bounds:", path)
        return False
    words = [program, path, "--via-cost", str(via_cost)]
    done = subprocess.run(words, capture_output=True, check=False)
    if (done.returncode, done.stdout, done.stderr) != (0, wanted.encode(), b""):
        print("differs:", *words[1:])
        return False
    workers = rng.randrange(2, 17)
    return priced_right(words, workers, d, figures, via_cost, wanted) and not os.remove(path)


def priced_right(words, workers, d, figures, via_cost, wanted):
    """Whether the bounds by prices are at least the others, so many workers find the same, and no routes of a tiny
    design are below them."""
    before = [figures[0], figures[2], figures[0] + figures[2]]
    for steps in STEPS:
        done = subprocess.run([*words, "--steps", steps], capture_output=True, check=False)
        prices, others = priced(done.stdout.decode().splitlines())
        if prices is None or others != wanted.splitlines():
            print("differs:", *words[1:], "--steps", steps)
            return False
        if any(price < floor for price, floor in zip(prices, before)):
            print("prices fall:", *words[1:], "--steps", steps)
            return False
        before = prices
    beside = [*words, "--steps", steps, "--workers", str(workers)]
    if subprocess.run(beside, capture_output=True, check=False).stdout != done.stdout:
        print("differs:", *beside[1:])
        return False
    if is_tiny(d) and beaten_by_prices(d, before, via_cost):
        print("routes are below the prices:", *words[1:], "--steps", STEPS[-1])
        return False
    return True


def proved_of(program, path, steps):
    """The wirelength that routes of a design have at least along usable edges, without overflow."""
    done = subprocess.run([program, path, "--steps", str(steps)], capture_output=True, check=True, text=True)
    return priced(done.stdout.splitlines())[0][1]


def has_reached(program, chip, floor):
    """Whether 100 steps prove of a chip what they have to, and 10 no more than these."""
    with tempfile.NamedTemporaryFile() as file, lzma.open(os.path.join(EXAMPLES, f"{chip}.ispd.xz")) as packed:
        file.write(packed.read())
        file.flush()
        few, many = (proved_of(program, file.name, steps) for steps in (10, 100))
    print(f"{chip}: {few} by 10 steps, {many} by 100, of {floor}", flush=True)
    return few <= many >= floor


def main():
    if not 2 <= len(sys.argv) <= 4:
        sys.exit(__doc__)
    program = os.path.abspath(sys.argv[1])
    if sys.argv[2:] == ["--chips"]:
        agree = sum(has_reached(program, *chip) for chip in CHIPS.items())
        print(f"{agree} of {len(CHIPS)}")
        return 0 if agree == len(CHIPS) else 1
    first = int(sys.argv[2]) if len(sys.argv) > 2 else 1
    count = int(sys.argv[3]) if len(sys.argv) > 3 else 300
    agree = sum(tried(program, seed) for seed in range(first, first + count))
    print(f"{agree} of {count}")
    return 0 if agree == count else 1


if __name__ == "__main__":
    sys.exit(main())
