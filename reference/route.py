#!/usr/bin/env python3
"""A slow router for small designs, to compare the proved one with:

    reference/route.py route DESIGN LIBRARY ROUNDS [--via-cost V] [--rule first|steep|flat|near] [--stop still|N | --batch B]
                             [--from SOLUTION] [--trace]
    reference/route.py evaluate DESIGN SOLUTION [--via-cost V]
    reference/route.py buffer DESIGN LIBRARY SOLUTION

It was written without a look at the proved code, and follows the definitions as they are worded where
that can be done in time: layers are found by trying all assignments while there are few, required times
are sums along paths. It writes and ends as the proved router does, which has more words.
"""
import argparse
import heapq
import sys
from collections import namedtuple
from itertools import product, repeat

from buffers import buffers_text, first_without_tree, is_tree
from design import capacity, cell, edge, need, place, read_design, usable, way
from library import read_library
from solution import read_solution, report_text, solution_text, unjoined_text
from text import Fault

VIA = 3
TOP = 1048576
# What a round did: the overflow at its mark, and how many claims were booked and how many found no room.
Round = namedtuple("Round", "overflow nets full")


# Costs, watches and the book.

def first_cost(over, free, marks):
    return 1 + marks + 8 * over


def steep_cost(over, free, marks):
    return 1 + marks + (8 + marks) * over


def flat_cost(over, free, marks):
    return 1 + over


def near_cost(over, free, marks):
    return 1 + 4 * (marks + 1) // 2 ** free + 8 * over


FORMULAS = {"first": first_cost, "steep": steep_cost, "flat": flat_cost, "near": near_cost}


def stops(stop, overflows):
    """Whether rounds with these overflows at their marks end at the last of them by what was asked for: None, `still`
    or a number that is enough."""
    if stop == "still":
        return len(overflows) > 1 and overflows[-1] >= overflows[-2]
    return stop is not None and overflows[-1] <= stop


class Book:
    """Demand, marks and bookings, with costs by a rule."""

    def __init__(self, d, rule):
        self.d = d
        self.formula = FORMULAS[rule]
        self.demand = {}
        self.marks = {}
        self.booked = {}            # net -> set of edges

    def cost(self, net, e):
        """Cost of an edge for a net; None where it isn't usable."""
        d = self.d
        if way(d, e) == "Up":
            return VIA
        if not usable(d, e):
            return None
        taken = self.demand.get(e, 0) + need(d, net, e)
        over = max(0, taken - capacity(d, e))
        free = max(0, capacity(d, e) - taken) // max(1, need(d, net, e))        # further nets of this need
        return min(TOP, self.formula(over, free, self.marks.get(e, 0)))

    def wires(self, edges):
        return [e for e in edges if way(self.d, e) != "Up"]

    def claim(self, net, edges, slack):
        d = self.d
        assert net not in self.booked
        if slack is not None and any(
                self.demand.get(e, 0) + need(d, net, e) > capacity(d, e) + slack for e in self.wires(edges)):
            return False
        self.booked[net] = edges
        for e in self.wires(edges):
            self.demand[e] = self.demand.get(e, 0) + need(d, net, e)
        return True

    def release(self, net):
        for e in self.wires(self.booked.pop(net)):
            self.demand[e] -= need(self.d, net, e)

    def overs(self):
        return [max(0, v - capacity(self.d, e)) for e, v in self.demand.items()]

    def mark(self):
        total = sum(self.overs())
        for e, v in self.demand.items():
            if v > capacity(self.d, e):
                self.marks[e] = min(TOP, self.marks.get(e, 0) + 1)
        return total

    def victims(self):
        over = {e for e, v in self.demand.items() if v > capacity(self.d, e)}
        return [n for n in sorted(self.booked) if any(e in over for e in self.wires(self.booked[n]))]


# Topology.

def distance(a, b):
    return abs(a[0] - b[0]) + abs(a[1] - b[1])


def median(a, b, c):
    return sorted((a, b, c))[1]


def topology(points):
    """Distinct tiles -> (tiles, parents); parent of point 0 is 0."""
    tile = list(points)
    k = len(tile)
    parent = {0: 0}
    joined = [0]
    while len(joined) < k:
        _, j, i = min((distance(tile[j], tile[i]), j, i)
                      for j in range(k) if j not in joined for i in joined)
        parent[j] = i
        joined.append(j)
    for j in joined[1:]:
        i = parent[j]
        neighbours = [q for q in parent if q != 0 and parent[q] == i]
        if i != 0:
            neighbours.append(parent[i])
        best = None
        for q in neighbours:
            if q == j:
                continue
            m = (median(tile[j][0], tile[i][0], tile[q][0]), median(tile[j][1], tile[i][1], tile[q][1]))
            key = (-distance(tile[i], m), q)
            if best is None or key < best[0]:
                best = (key, q, m)
        if best is None or best[0][0] == 0:
            continue
        _, q, m = best
        new = len(tile)
        tile.append(m)
        if i != 0 and q == parent[i]:
            parent[new] = q
            parent[i] = new
            parent[j] = new
        else:
            assert parent[q] == i
            parent[new] = i
            parent[q] = new
            parent[j] = new
    return tile, [parent[p] for p in range(len(tile))]


# Flat walks, flat tree.

def straight(path, to):
    """Extend a path of tiles in a straight line to the tile `to`."""
    x, y = path[-1]
    assert x == to[0] or y == to[1]
    while (x, y) != to:
        x += (to[0] > x) - (to[0] < x)
        y += (to[1] > y) - (to[1] < y)
        path.append((x, y))


def step_by_step(a, b):
    return list(range(a, b + 1)) if a <= b else list(range(a, b - 1, -1))


def flat_walk(step_cost, a, b):
    """step_cost(t, u) for neighbouring tiles; the first least walk of the list."""
    walks = []
    for x in step_by_step(a[0], b[0]):
        w = [a]
        for corner in ((x, a[1]), (x, b[1]), b):
            straight(w, corner)
        walks.append(w)
    for y in step_by_step(a[1], b[1]):
        w = [a]
        for corner in ((a[0], y), (b[0], y), b):
            straight(w, corner)
        walks.append(w)
    costs = [sum(step_cost(w[i], w[i + 1]) for i in range(len(w) - 1)) for w in walks]
    return walks[costs.index(min(costs))]


def flat_tree(step_cost, points):
    """-> (tiles, parents) by node number."""
    tile, up = topology(points)
    nodes = [tile[0]]
    parent = [0]
    handled = {0}
    while len(handled) < len(tile):
        p = min(p for p in range(len(tile)) if p not in handled and up[p] in handled)
        walk = flat_walk(step_cost, tile[p], tile[up[p]])
        cut = next(i for i, t in enumerate(walk) if t in nodes)
        attach(nodes, parent, walk[:cut + 1])
        handled.add(p)
    return nodes, parent


def attach(nodes, parent, walk):
    """The walk's last place alone is in the tree; the others are appended from the tree outwards."""
    at = nodes.index(walk[-1])
    for c in reversed(walk[:-1]):
        assert c not in nodes
        nodes.append(c)
        parent.append(at)
        at = len(nodes) - 1


# Layers.

def assignment_cost(nodes, parent, options, pin_layers, layers):
    """layers[v] for node v from 1 on; options[v]: layer -> cost; pin_layers: tile -> list."""
    meet = [list(pin_layers.get(t, ())) for t in nodes]
    total = 0
    for v in range(1, len(nodes)):
        total += options[v][layers[v]]
        meet[v].append(layers[v])
        meet[parent[v]].append(layers[v])
    return total + sum(VIA * (max(m) - min(m)) for m in meet if m)


def assign_by_all(nodes, parent, options, pin_layers):
    """By the definition: all assignments, in the order of their lists."""
    best = None
    for choice in product(*[sorted(options[v]) for v in range(1, len(nodes))]):
        layers = (None,) + choice
        cost = assignment_cost(nodes, parent, options, pin_layers, layers)
        if best is None or cost < best[0]:
            best = (cost, layers)
    return best


def least_completion(nodes, parent, options, pin_layers):
    """Least cost of all assignments that use only the given options.

    below[v][l]: least cost of v's edge on layer l, of all edges below v and of the vias in the tiles of v
    and below. The tile of v sees only its own edge, its children's edges and its pins, and the parts
    below different children have no tile and no edge in common; so the least over the children's layers
    of a sum of their least parts is exact.
    """
    n = len(nodes)
    children = [[] for _ in nodes]
    for v in range(1, n):
        children[parent[v]].append(v)
    below = [None] * n

    def least(v, own):
        kids = children[v]
        pins = pin_layers.get(nodes[v], [])
        best = None
        for choice in product(*[list(below[u]) for u in kids]):
            meet = own + list(choice) + pins
            c = sum(below[u][l] for u, l in zip(kids, choice))
            if meet:
                c += VIA * (max(meet) - min(meet))
            if best is None or c < best:
                best = c
        return best

    for v in range(n - 1, 0, -1):                # parents are earlier nodes
        below[v] = {l: c + least(v, [l]) for l, c in options[v].items()}
    return least(0, [])


def assign_by_table(nodes, parent, options, pin_layers):
    """Node by node in order: the least layer with which a least assignment is still possible."""
    options = [None if o is None else dict(o) for o in options]
    goal = least_completion(nodes, parent, options, pin_layers)
    for v in range(1, len(nodes)):
        whole = options[v]
        for l in sorted(whole):
            options[v] = {l: whole[l]}
            if len(whole) == 1 or least_completion(nodes, parent, options, pin_layers) == goal:
                break
        else:
            raise AssertionError("no layer keeps the least cost")
    layers = (None,) + tuple(next(iter(options[v])) for v in range(1, len(nodes)))
    assert assignment_cost(nodes, parent, options, pin_layers, layers) == goal
    return goal, layers


ALL = 2000        # so many assignments are tried one by one


def assign(nodes, parent, options, pin_layers):
    count = 1
    for o in options[1:]:
        count *= len(o)
    if count <= ALL:
        return assign_by_all(nodes, parent, options, pin_layers)
    return assign_by_table(nodes, parent, options, pin_layers)


def raised(nodes, parent, layers, pin_layers, cell_at):
    """Edges of the raised tree; cell_at(tile, layer)."""
    edges = set()
    meet = {t: list(pin_layers.get(t, ())) for t in nodes}
    for v in range(1, len(nodes)):
        l = layers[v]
        t, u = nodes[v], nodes[parent[v]]
        edges.add(edge(cell_at(t, l), cell_at(u, l)))
        meet[t].append(l)
        meet[u].append(l)
    for t, m in meet.items():
        if m:
            for l in range(min(m), max(m)):
                edges.add(edge(cell_at(t, l), cell_at(t, l + 1)))
    return edges


def check_tree(edges, cells):
    """The edges and the net's cells are one tree."""
    ends = set(cells)
    near = {}
    for a, b in edges:
        ends |= {a, b}
        near.setdefault(a, []).append(b)
        near.setdefault(b, []).append(a)
    seen = {cells[0]}
    todo = [cells[0]]
    while todo:
        for u in near.get(todo.pop(), ()):
            if u not in seen:
                seen.add(u)
                todo.append(u)
    assert seen == ends and len(edges) == len(ends) - 1, "not a tree"


def pattern_plan(book, net):
    d = book.d
    pins = d.nets[net].pins
    points = []
    pin_layers = {}
    for x, y, l in pins:
        if (x, y) not in points:
            points.append((x, y))
        pin_layers.setdefault((x, y), []).append(l)
    pin_layers = {t: sorted(set(ls)) for t, ls in pin_layers.items()}

    def layer_costs(t, u):
        got = {}
        for l in range(d.L):
            c = book.cost(net, edge(cell(d, t[0], t[1], l), cell(d, u[0], u[1], l)))
            if c is not None:
                got[l] = c
        return got

    nodes, parent = flat_tree(lambda t, u: min(layer_costs(t, u).values()), points)
    options = [None] + [layer_costs(nodes[v], nodes[parent[v]]) for v in range(1, len(nodes))]
    _, layers = assign(nodes, parent, options, pin_layers)
    edges = raised(nodes, parent, layers, pin_layers, lambda t, l: cell(d, t[0], t[1], l))
    check_tree(edges, [cell(d, *p) for p in pins])
    return edges


# Maze plans.

def least_walk(steps, tree, goals):
    """steps(v) gives (u, cost) for the usable edges of v inside the window."""
    dist = {c: 0 for c in tree}
    heap = [(0, c) for c in tree]
    while heap:
        dv, v = heapq.heappop(heap)
        if dv > dist[v]:
            continue
        for u, c in steps(v):
            if u not in dist or dv + c < dist[u]:
                dist[u] = dv + c
                heapq.heappush(heap, (dv + c, u))
    v = min(goals, key=lambda g: (dist[g], g))
    walk = [v]
    while v not in tree:
        v = min(u for u, c in steps(v) if u in dist and dist[u] + c == dist[v])
        walk.append(v)
    return walk


def maze_plan(book, net, margin):
    d = book.d
    pins = d.nets[net].pins
    x0 = max(0, min(p[0] for p in pins) - margin)
    x1 = min(d.X - 1, max(p[0] for p in pins) + margin)
    y0 = max(0, min(p[1] for p in pins) - margin)
    y1 = min(d.Y - 1, max(p[1] for p in pins) + margin)
    known = {}

    def steps(v):
        if v not in known:
            x, y, l = place(d, v)
            got = []
            for x2, y2, l2 in ((x - 1, y, l), (x + 1, y, l), (x, y - 1, l), (x, y + 1, l), (x, y, l - 1), (x, y, l + 1)):
                if x0 <= x2 <= x1 and y0 <= y2 <= y1 and 0 <= l2 < d.L:
                    u = cell(d, x2, y2, l2)
                    c = book.cost(net, edge(v, u))
                    if c is not None:
                        got.append((u, c))
            known[v] = got
        return known[v]

    pin_cells = [cell(d, *p) for p in pins]
    nodes = [pin_cells[0]]
    parent = [0]
    while True:
        goals = sorted({c for c in pin_cells if c not in nodes})
        if not goals:
            break
        attach(nodes, parent, least_walk(steps, set(nodes), goals))
    edges = {edge(nodes[v], nodes[parent[v]]) for v in range(1, len(nodes))}
    check_tree(edges, pin_cells)
    return edges


# Given routes.

def way_between(edges, root, cells):
    """Of a tree's edges those on the way from a cell to some others."""
    near = {}
    for a, b in edges:
        near.setdefault(a, []).append(b)
        near.setdefault(b, []).append(a)
    above, todo = {root: None}, [root]
    for v in todo:
        for u in near.get(v, ()):
            if u not in above:
                above[u] = v
                todo.append(u)
    found = set()
    for v in cells:
        while above[v] is not None:
            found.add(edge(v, above[v]))
            v = above[v]
    return found


def kept_routes(d, trees):
    """Of a solution's edges by net, the part that is kept of each net that can be."""
    kept = {}
    for n in d.routed():
        pins = d.nets[n].pins
        if is_tree(d, pins, trees[n]):
            driver, *sinks = [cell(d, *pin) for pin in pins]
            given = way_between(trees[n], driver, sinks)
            if all(way(d, e) == "Up" or usable(d, e) for e in given):
                kept[n] = given
    return kept


# The rounds.

def freedom(d, net):
    """Columns less 1 and rows less 1 of the least box of the pins' tiles, less 2 for each tile."""
    tiles = {(x, y) for x, y, _ in d.nets[net].pins}
    columns, rows = zip(*tiles)
    return max(columns) - min(columns) + max(rows) - min(rows) - 2 * len(tiles)


def begun(d, rule, given):
    """A book with the nets that are kept, and the nets that are open, in design order."""
    book = Book(d, rule)
    for n in sorted(given):
        book.claim(n, given[n], None)
    return book, [n for n in d.routed() if n not in given]


def claimed(book, n, trees):
    """Claims a net's plan until it is booked, twice with room within capacity; how often it finds none."""
    for full, slack in enumerate((0, 0, None)):
        if book.claim(n, next(trees), slack):
            return full


def route(d, rounds, rule, stop, given):
    """What each round did, and the edges of each routed net at the first mark of least overflow."""
    book, left = begun(d, rule, given)
    free = {n: freedom(d, n) for n in d.routed()}
    for n in sorted(left, key=lambda n: (free[n], n)):
        book.claim(n, pattern_plan(book, n), None)
    overflows = [book.mark()]
    done = [Round(overflows[0], len(free), 0)]
    best = dict(book.booked)
    while len(overflows) <= rounds and not stops(stop, overflows):
        due = book.victims()
        if not due:
            break
        margin, full = 4 * len(overflows), 0
        for n in sorted(due, key=lambda n: (-free[n], n)):
            book.release(n)
            # A refused claim changes neither demand nor marks, so the second plan is the first plan again,
            # and the third too: the tree is planned once.
            full += claimed(book, n, repeat(maze_plan(book, n, margin)))
        overflows.append(book.mark())
        done.append(Round(overflows[-1], len(due), full))
        if overflows[-1] < min(overflows[:-1]):
            best = dict(book.booked)
    return done, best


def cut(nets, batch):
    return [nets[i:i + batch] for i in range(0, len(nets), batch)]


def again_and_again(book, n, tree, margin):
    """The plans of a net in a batch: this one, then two times that over what is booked when it is asked for."""
    yield tree
    tree = maze_plan(book, n, margin)
    yield tree
    yield tree


def route_batches(d, rounds, rule, batch, given):
    """The same, where the nets of a batch are planned over one state and then claimed in design order."""
    book, left = begun(d, rule, given)
    for nets in cut(left, batch):
        plans = [pattern_plan(book, n) for n in nets]
        for n, tree in zip(nets, plans):
            book.claim(n, tree, None)
    best = (book.mark(), dict(book.booked))
    done = [Round(best[0], len(book.booked), 0)]
    for r in range(1, rounds + 1):
        due, full = book.victims(), 0
        if not due:
            break
        for nets in cut(due, batch):
            for n in nets:
                book.release(n)
            plans = [maze_plan(book, n, 4 * r) for n in nets]
            full += sum(claimed(book, n, again_and_again(book, n, tree, 4 * r)) for n, tree in zip(nets, plans))
        total = book.mark()
        done.append(Round(total, len(due), full))
        if total < best[0]:
            best = (total, dict(book.booked))
    return done, best[1]


# The commands: status, standard output and standard error.

def trace_text(done):
    lines = [b"rounds %d" % (len(done) - 1)]
    lines += [b"round %d overflow %d nets %d full %d" % (at, *some) for at, some in enumerate(done)]
    return b"".join(line + b"\n" for line in lines)


def routed(d, library, solution, rounds, via_cost, rule, stop, batch, is_traced):
    given = {} if solution is None else kept_routes(d, solution)
    done, trees = (route(d, rounds, rule, stop, given) if batch is None
                   else route_batches(d, rounds, rule, batch, given))
    report = report_text(d, trees, via_cost)
    if solution is not None:
        report += b"kept %d\n" % len(given)
    if is_traced:
        report += trace_text(done)
    return 0, solution_text(d, trees), report + buffers_text(d, library, trees)


def judged(d, trees, via_cost):
    unjoined = unjoined_text(d, trees)
    status = 0 if unjoined == b"unjoined 0\n" else 1
    return status, report_text(d, trees, via_cost) + unjoined, b""


def faulty(status, text, fault):
    return status, b"", b"groute: %s fault %d at token %d\n" % (text, fault.fault, fault.token)


def buffered(d, library, trees):
    net = first_without_tree(d, trees)
    if net is not None:
        return 5, b"", b"groute: solution net %d is not a tree\n" % net
    return 0, buffers_text(d, library, trees), b""


def read(files):
    """Of the bytes of a design and of others that go with it, in the order in which they are read: what they say,
    or the status and texts of the first fault."""
    said = []
    for status, name, reader, data in files:
        try:
            said.append(reader(data, *said[:1]))
        except Fault as fault:
            return None, faulty(status, name, fault)
    return said, None


def route_command(design, library, rounds, via_cost, rule="first", stop=None, batch=None, given=None, is_traced=False):
    """Of texts' bytes; `given` is those of the solution from which routes begin, if there is one."""
    files = [(3, b"design", read_design, design), (4, b"library", read_library, library)]
    if given is not None:
        files.append((5, b"solution", read_solution, given))
    said, fault = read(files)
    return fault or routed(*[*said, None][:3], rounds, via_cost, rule, stop, batch, is_traced)


def evaluate_command(design, solution, via_cost):
    """Of texts' bytes."""
    said, fault = read([(3, b"design", read_design, design), (5, b"solution", read_solution, solution)])
    return fault or judged(*said, via_cost)


def buffer_command(design, library, solution):
    """Of texts' bytes."""
    said, fault = read([(3, b"design", read_design, design), (4, b"library", read_library, library),
                        (5, b"solution", read_solution, solution)])
    return fault or buffered(*said)


FILES = {"route": ["design", "library"], "evaluate": ["design", "solution"], "buffer": ["design", "library", "solution"]}


def stop_of(word):
    return word if word == "still" else int(word)


def arguments():
    parser = argparse.ArgumentParser(description="A slow router for small designs.")
    commands = parser.add_subparsers(dest="command", required=True)
    for command, files in FILES.items():
        words = commands.add_parser(command)
        for name in files:
            words.add_argument(name, type=argparse.FileType("rb"))
        if command == "route":
            words.add_argument("rounds", type=int)
            words.add_argument("--rule", choices=FORMULAS, default="first")
            ends = words.add_mutually_exclusive_group()
            ends.add_argument("--stop", metavar="still|N", type=stop_of)
            ends.add_argument("--batch", metavar="B", type=int)
            words.add_argument("--from", metavar="SOLUTION", dest="given", type=argparse.FileType("rb"))
            words.add_argument("--trace", action="store_true")
        if command != "buffer":
            words.add_argument("--via-cost", type=int, default=1)
    return parser.parse_args()


def main():
    words = arguments()
    texts = [getattr(words, name).read() for name in FILES[words.command]]
    if words.command == "route":
        given = words.given.read() if words.given else None
        status, out, err = route_command(*texts, words.rounds, words.via_cost, words.rule, words.stop, words.batch,
                                         given, words.trace)
    elif words.command == "evaluate":
        status, out, err = evaluate_command(*texts, words.via_cost)
    else:
        status, out, err = buffer_command(*texts)
    sys.stdout.buffer.write(out)
    sys.stderr.buffer.write(err)
    return status


if __name__ == "__main__":
    sys.exit(main())
