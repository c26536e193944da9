"""Required times of trees with buffers, and the placements that give the greatest ones.

Required times are sums along paths. Placements come from lists of candidates by van Ginneken's method, made as
the definitions word them: all combinations are listed, and those that another one is as good as are dropped.
Candidates for the plain and for the inverted signal stand in two lists. Small nets are also tried with every
placement.
"""
from itertools import product
from math import inf

from design import cell, edge, place
from solution import centre

SMALL = 3000            # placements that are tried one by one


class RcTree:
    """A net's tree with a library: for each cell the one above it and those below it."""

    def __init__(self, d, library, net, edges):
        self.d, self.library, self.net = d, library, net
        self.driver, *self.sinks = [cell(d, *pin) for pin in net.pins]
        near = {}
        for a, b in edges:
            near.setdefault(a, []).append(b)
            near.setdefault(b, []).append(a)
        self.above, self.below = {}, {}
        self.order = [self.driver]              # each cell behind the one above it
        for v in self.order:
            self.below[v] = [u for u in near.get(v, ()) if u != self.above.get(v)]
            for u in self.below[v]:
                self.above[u] = v
            self.order += self.below[v]

    def sinks_at(self, v):
        """(C, time) of each sink at a cell."""
        return [self.library.sink_of(self.net, pin) for pin, at in enumerate(self.sinks, 1) if at == v]

    def wire(self, u):
        """R and C of the edge from a cell towards the driver."""
        low, high = (place(self.d, c) for c in edge(u, self.above[u]))
        return self.library.wires[low[2]] if low[2] == high[2] else self.library.via

    def flips_at(self, v):
        """Whether each sink at a cell wants the inverted signal."""
        return [(self.net.id, pin) in self.library.flipped for pin, at in enumerate(self.sinks, 1) if at == v]

    def is_free(self, v):
        return v != self.driver and place(self.d, v)[:2] not in self.library.blocks

    def loads(self, placed):
        """The capacitance of each cell's stage, with these kinds of buffers by cell."""
        load = {}
        for v in reversed(self.order):
            load[v] = sum(c for c, _ in self.sinks_at(v))
            load[v] += sum(self.wire(u)[1] + self.up(placed, load, u) for u in self.below[v])
        return load

    def up(self, placed, load, u):
        return self.library.kinds[placed[u]][0] if u in placed else load[u]

    def required(self, placed):
        """The least over the sinks of twice their time less the delay along their path, in half femtoseconds."""
        load = self.loads(placed)

        def delay(v):
            total = 2 * self.library.driver_of(self.net) * load[self.driver]
            while True:
                if v in placed:
                    _, r, own = self.library.kinds[placed[v]]
                    total += 2 * own + 2 * r * load[v]
                if v == self.driver:
                    return total
                r, c = self.wire(v)
                total += r * (c + 2 * self.up(placed, load, v))
                v = self.above[v]

        times = [2 * self.library.sink_of(self.net, pin)[1] - delay(at) for pin, at in enumerate(self.sinks, 1)]
        return min(times, default=0)

    def is_legal(self, placed):
        """Whether the number of inverters on the path to each sink is odd where it is flipped, and else even."""
        return all(sum(placed.get(u) in self.library.inverters for u in self.path_to(v)) % 2 == flipped
                   for v in self.order for flipped in self.flips_at(v))

    def path_to(self, v):
        path = [v]
        while v in self.above:
            v = self.above[v]
            path.append(v)
        return path

    def picked(self):
        """The kinds by cell of the legal placement that the lists give; None where no placement is legal."""
        if not self.sinks:
            return {}
        lists = {}
        for v in reversed(self.order):
            below = [lists.pop(u) for u in self.below[v]]
            lists[v] = [self.candidates_below(v, inverted, [both[inverted] for both in below]) for inverted in (0, 1)]
            if v != self.driver:
                lists[v] = [self.candidates_along(v, all_) for all_ in self.candidates_above(v, lists[v])]
        plain = lists[self.driver][0]
        return best(plain, self.library.driver_of(self.net))[2] if plain else None

    def candidates_below(self, v, inverted, branches):
        """A candidate is (load, time, kinds by cell); a time without a sink is the greatest."""
        if any(flipped != inverted for flipped in self.flips_at(v)):
            return []
        sinks = self.sinks_at(v)
        load, time = sum(c for c, _ in sinks), min((2 * at for _, at in sinks), default=inf)
        return thinned([
            (load + sum(c[0] for c in choice), min([time, *(c[1] for c in choice)]),
             {u: kind for c in choice for u, kind in c[2].items()})
            for choice in product(*branches)
        ])

    def candidates_above(self, v, below):
        """Both lists with what each kind makes, an inverter of the other signal's list, as they are before."""
        if not self.is_free(v):
            return below
        above = []
        for inverted in (0, 1):
            offers = []
            for name, (c, r, own) in self.library.kinds.items():
                driven = below[inverted ^ (name in self.library.inverters)]
                if driven:
                    load, time, placed = best(driven, r)
                    offers.append((c, time - 2 * r * load - 2 * own, {**placed, v: name}))
            above.append(thinned(below[inverted] + offers))
        return above

    def candidates_along(self, u, above):
        r, c = self.wire(u)
        return thinned([(load + c, time - r * (c + 2 * load), placed) for load, time, placed in above])

    def all_placements(self):
        """Each legal placement of a net with sinks; None where there are too many placements."""
        free = [v for v in self.order if self.is_free(v)]
        if not self.sinks or (1 + len(self.library.kinds)) ** len(free) > SMALL:
            return None
        choices = product([None, *self.library.kinds], repeat=len(free))
        all_ = ({v: kind for v, kind in zip(free, choice) if kind is not None} for choice in choices)
        return [placed for placed in all_ if self.is_legal(placed)]


def thinned(all_):
    """Without those than which another one has no greater load and no smaller time; of equal ones the first."""
    kept = []
    for at, (load, time, placed) in enumerate(all_):
        others = all_[:at] + all_[at + 1:]
        beaten = any(l <= load and t >= time and (l, t) != (load, time) for l, t, _ in others)
        if not beaten and all((l, t) != (load, time) for l, t, _ in all_[:at]):
            kept.append((load, time, placed))
    return kept


def best(all_, r):
    """The candidate that a driver of a resistance drives best, and of these the one of least load."""
    return max(all_, key=lambda c: (c[1] - 2 * r * c[0], -c[0]))


def plan(d, library, net, edges):
    """The required time of a net's tree, and the kinds by cell that give it; None where no placement is legal."""
    tree = RcTree(d, library, net, edges)
    placed = tree.picked()
    all_ = tree.all_placements()
    if placed is None:
        assert not all_, "a placement is legal"
        return None
    required = tree.required(placed)
    assert tree.is_legal(placed), "the placement isn't legal"
    assert all_ is None or max(map(tree.required, all_)) == required, "another placement is better"
    return required, placed


def buffers_text(d, library, trees):
    lines, count = [], 0
    for n in sorted(trees):
        net = d.nets[n]
        planned = plan(d, library, net, trees[n])
        if planned is None:
            lines.append(b"net %s %d has no legal placement" % (net.name, net.id))
            continue
        required, placed = planned
        count += len(placed)
        lines.append(b"net %s %d required %d buffers %d" % (net.name, net.id, required, len(placed)))
        lines += [b"%s %s" % (centre(d, v), placed[v]) for v in sorted(placed)]
    return b"".join(line + b"\n" for line in [b"buffers %d" % count, *lines])


def is_tree(d, pins, edges):
    """Whether the edges and the pins' cells are one tree."""
    ends = {cell(d, *pin) for pin in pins}.union(*edges)
    found = {cell(d, *pins[0])}
    while True:
        more = {c for e in edges if e[0] in found or e[1] in found for c in e} - found
        if not more:
            return found == ends and len(edges) == len(ends) - 1
        found |= more


def first_without_tree(d, trees):
    """The id of the first routed net whose edges aren't a tree, or None."""
    return next((d.nets[n].id for n in sorted(trees) if not is_tree(d, d.nets[n].pins, trees[n])), None)
