"""Solution texts: as they are written and read, and the texts of what they cost."""
import re

from design import MOST, capacity, cell, edge, need, place, tile_x, tile_y, way
from text import NUMBER, Text, whole

FORM, _, UNKNOWN_ID, NAME, REPEATED_NET, OUTSIDE, SLANTED = range(2, 9)
END = b"!"
POINT = rb"\((-?[0-9]+),(-?[0-9]+),(-?[0-9]+)\)"
SEGMENT = re.compile(POINT + b"-" + POINT)
STEPS = {"East": (1, 0, 0), "North": (0, 1, 0), "Up": (0, 0, 1)}


# Writing.

def centre(d, c):
    x, y, l = place(d, c)
    return b"(%d,%d,%d)" % (d.lx + x * d.tw + d.tw // 2, d.ly + y * d.th + d.th // 2, l + 1)


def runs(d, edges):
    """The maximal straight runs of a net's edges: their ends, in the order in which they are written."""
    out = []
    for w, (dx, dy, dl) in STEPS.items():
        mine = {e for e in edges if way(d, e) == w}

        def next_cell(c, sign):
            x, y, l = place(d, c)
            x, y, l = x + sign * dx, y + sign * dy, l + sign * dl
            return cell(d, x, y, l) if 0 <= x < d.X and 0 <= y < d.Y and 0 <= l < d.L else None

        for low, high in sorted(mine):
            before = next_cell(low, -1)
            if before is not None and (before, low) in mine:
                continue
            while next_cell(high, 1) is not None and (high, next_cell(high, 1)) in mine:
                high = next_cell(high, 1)
            out.append((low, high))
    return out


def solution_text(d, trees):
    lines = []
    for n in sorted(trees):
        lines.append(d.nets[n].name + b" %d" % d.nets[n].id)
        for low, high in runs(d, trees[n]):
            lines.append(centre(d, low) + b"-" + centre(d, high))
        lines.append(END)
    return b"".join(l + b"\n" for l in lines)


# Reading.

def read_solution(data, d):
    """The edges of each routed net, none for a net without a record."""
    text = Text(data)
    found = {}
    while not text.is_ended():
        name = text.take()
        id_ = text.number(0, MOST)
        net = d.net_of_id(id_)
        text.check(net is not None, UNKNOWN_ID)
        text.check(net.name == name, NAME)
        text.check(id_ not in found, REPEATED_NET)
        found[id_] = read_record(text, d)
    return {n: found.get(d.nets[n].id, set()) for n in d.routed()}


def read_record(text, d):
    """The edges of a record's segments."""
    edges = set()
    token = text.take()
    if not (token == END or token.startswith(b"(")):
        count = whole(token)
        text.check(count is not None and 0 <= count <= MOST, FORM)
        token = text.take()
    while token != END:
        text.check(token.startswith(b"("), FORM)
        edges |= segment(text, d, token)
        token = text.take()
    return edges


def segment(text, d, token):
    """The unit edges between the cells of a segment's ends."""
    form = SEGMENT.fullmatch(token)
    text.check(form is not None, FORM)
    numbers = [int(number) for number in form.groups()]
    ends = [numbers[:3], numbers[3:]]
    text.check(all(abs(x) <= 2**44 and abs(y) <= 2**44 and 0 <= l <= MOST for x, y, l in ends), NUMBER)
    text.check(all(tile_x(d, x) is not None and tile_y(d, y) is not None and 1 <= l <= d.L for x, y, l in ends),
               OUTSIDE)
    one, other = ((tile_x(d, x), tile_y(d, y), l - 1) for x, y, l in ends)
    text.check(sum(a != b for a, b in zip(one, other)) <= 1, SLANTED)
    low, high = sorted([one, other])
    line = [tuple(at + step * (a != b) for at, a, b in zip(low, low, high)) for step in range(1 + sum(high) - sum(low))]
    return {edge(cell(d, *a), cell(d, *b)) for a, b in zip(line, line[1:])}


# What routes cost.

def report_text(d, trees, via_cost):
    demand = {}
    wires = vias = 0
    for n, edges in trees.items():
        for e in edges:
            if way(d, e) == "Up":
                vias += 1
            else:
                wires += 1
                demand[e] = demand.get(e, 0) + need(d, n, e)
    over = [max(0, v - capacity(d, e)) for e, v in demand.items()]
    return b"routed %d\noverflow %d\nmaximum %d\nwirelength %d\nvias %d\n" % (
        len(trees), sum(over), max(over, default=0), wires + via_cost * vias, vias)


def is_joined(d, pins, edges):
    """Whether the edges lead from the first pin to each other one."""
    wanted = {cell(d, *pin) for pin in pins}
    found = {cell(d, *pins[0])}
    while True:
        more = {c for e in edges if e[0] in found or e[1] in found for c in e} - found
        if not more:
            return wanted <= found
        found |= more


def unjoined_text(d, trees):
    open_ = [d.nets[n] for n in sorted(trees) if not is_joined(d, d.nets[n].pins, trees[n])]
    return b"".join([b"unjoined %d\n" % len(open_), *(b"%s %d\n" % (net.name, net.id) for net in open_)])
