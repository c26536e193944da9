#!/usr/bin/env python3
"""Compares a router with the slow one on random small texts: reference/compare.py [--program PATH] [SEED [COUNT]]

For each seed a design is routed with a library, by a rule and with an end of the rounds or in batches that are drawn
too, at times from other routes, some of them with stubs, loops, gaps or wires against a layer's way, and then its routes
are judged and buffered; in some cases a place of one of the texts was changed. Status,
standard output and standard error are compared byte for byte. Texts on which the two differ are kept in the working
folder under the names of their seed.
"""
import argparse
import os
import random
import subprocess
import sys

import route
from design import cell, edge, place, read_design
from solution import solution_text

HERE = os.path.dirname(os.path.abspath(__file__))
ROUTER = os.path.join(HERE, "..", "crates", "groute", "out", "groute")
NUMBERS = "-1 -0 0 1 2 3 01 +1 1x 1001 1000001 2147483647 2147483648 99999999999999999999"
WORDS = "x end via sink wire driver kind pin block library 1125899906842625 -1125899906842625"
POINTS = (
    "! ( (5,5,1)-(5,5,1) (5,5,1)-(15,15,1) (5,5,1)-(5,5,9) (5,5,01)-(9,-0,1) (5,5,1)(5,5,1) (-1,5,1)-(5,5,1) "
    "(5,5,1)-(5,5,2147483648) (20000000000000,5,1)-(5,5,1)"
)


def capacities(rng, layers, most):
    """Vertical and horizontal capacities in which each way has a layer."""
    ways = rng.choice(["one way each", "both ways", "any"])
    rows = [[0] * layers, [0] * layers]
    for layer in range(layers):
        for way in range(2):
            if ways == "both ways" or (ways == "one way each" and layer % 2 != way) or rng.random() < 0.3:
                rows[way][layer] = rng.randint(1, most)
    for row in rows:
        if not any(row):
            row[rng.randrange(layers)] = rng.randint(1, most)
    return rows


def nets(rng, columns, rows, layers):
    """Records of nets of one to six pins, most of them among a few tiles, so that they meet."""
    spots = [(rng.randrange(columns), rng.randrange(rows)) for _ in range(rng.randint(2, 5))]
    lines = []
    ids = rng.sample(range(100), rng.randint(1, 12))
    for net, ident in enumerate(ids):
        pins = rng.choice([1, 2, 2, 2, 3, 3, 4, 5, 6])
        lines.append(f"n{net} {ident} {pins} {rng.choice([0, 1, 1, 1, 2, 3])}")
        for _ in range(pins):
            x, y = rng.choice(spots) if rng.random() < 0.7 else (rng.randrange(columns), rng.randrange(rows))
            lines.append(f"{10 * x + 5} {10 * y + 5} {rng.choice([1, rng.randint(1, layers)])}")
    return [f"num net {len(ids)}", *lines]


def adjustments(rng, columns, rows, layers):
    """Records of edges between neighbouring tiles and their capacities."""
    lines = []
    for _ in range(rng.randint(0, 8)):
        x, y, layer = rng.randrange(columns), rng.randrange(rows), rng.randint(1, layers)
        across, along = rng.choice([(x + 1, y), (x, y + 1), (x - 1, y), (x, y - 1)])
        if 0 <= across < columns and 0 <= along < rows:
            lines.append(f"{x} {y} {layer} {across} {along} {layer} {rng.choice([0, 0, 1, 2, 4, 6])}")
    return [str(len(lines)), *lines]


def design(rng):
    columns, rows, layers = rng.randint(1, 7), rng.randint(1, 6), rng.randint(1, 4)
    vertical, horizontal = capacities(rng, layers, rng.choice([2, 4, 4, 6, 10]))
    lines = [f"grid {columns} {rows} {layers}"]
    for words, numbers in [
        ("vertical capacity", vertical),
        ("horizontal capacity", horizontal),
        ("minimum width", [rng.randint(0, 2) for _ in range(layers)]),
        ("minimum spacing", [rng.randint(0, 2) for _ in range(layers)]),
        ("via spacing", [1] * layers),
    ]:
        lines.append(" ".join([words, *map(str, numbers)]))
    lines += ["0 0 10 10", *nets(rng, columns, rows, layers), *adjustments(rng, columns, rows, layers)]
    return "".join(line + "\n" for line in lines).encode()


def weight(rng):
    """Ohms or femtofarads."""
    return rng.choice([0, 1, 10, 100, rng.randint(0, 1000), rng.randint(0, 1000000)])


def time(rng, sign):
    """Femtoseconds; of one sign or of either."""
    return rng.choice(sign) * rng.choice([0, 20000, rng.randint(0, 2**20), rng.randint(0, 2**50)])


def kinds(rng, words):
    """Items of kinds of buffers."""
    return [f"{rng.choice(words)} k{kind} {weight(rng)} {weight(rng)} {time(rng, [1])}"
            for kind in range(rng.randint(0, 3))]


def sink_of(rng, d):
    """The id of a net and the number of a sink of it, if there is one."""
    net = rng.choice([net for net in d.nets if len(net.pins) > 1] or d.nets)
    return f"{net.id} {rng.randint(1, max(1, len(net.pins) - 1))}"


def of_places(rng, d):
    """Items of blocked tiles, and of nets and sinks with weights of their own."""
    return [
        *(f"block {rng.randrange(d.X)} {rng.randrange(d.Y)}" for _ in range(rng.randint(0, 3))),
        *(f"drive {rng.choice(d.nets).id} {weight(rng)}" for _ in range(rng.randint(0, 3))),
        *(f"pin {sink_of(rng, d)} {weight(rng)} {time(rng, [1, -1])}" for _ in range(rng.randint(0, 6))),
    ]


def flips(rng, d):
    """Items of sinks that want the inverted signal."""
    return [f"flip {sink_of(rng, d)}" for _ in range(rng.randint(0, 2))]


def library(rng, d):
    """A library for a design, of one of the three versions, its items in any order; at times one of them is wanting
    or comes twice."""
    version = rng.randint(1, 3)
    items = [f"wire {layer} {weight(rng)} {weight(rng)}" for layer in range(1, d.L + 1)]
    items += [f"via {weight(rng)} {weight(rng)}", f"driver {weight(rng)}", f"sink {weight(rng)} {time(rng, [1, -1])}"]
    items += kinds(rng, ["kind", "inverter"] if version == 3 else ["kind"])
    if version >= 2:
        items += of_places(rng, d)
    if version == 3:
        items += flips(rng, d)
    rng.shuffle(items)
    if rng.random() < 0.1:
        items = rng.choice([items[1:], items + items[:1]])
    return "".join(line + "\n" for line in [f"library {version}", *items, "end"]).encode()


def changed(rng, text, odd):
    """A text of which one token was left out, doubled or replaced, also by an odd one, or which is cut off there."""
    tokens = text.split() or [b"x"]
    at = rng.randrange(len(tokens))
    here = rng.choice([[], 2 * [tokens[at]], [rng.choice(odd.split()).encode()], [rng.choice(tokens)]])
    rest = [] if rng.random() < 0.2 else tokens[at + 1:]
    return rng.choice([b" ", b"\n", b"\r\n", b"\t"]).join(tokens[:at] + here + rest)


def at_times(rng, share, text, odd):
    """A text, changed in this share of cases."""
    return changed(rng, text, odd) if rng.random() < share else text


def ends(rng, d, rule):
    """How many rounds, and what ends them. A number that ends them is the overflow at a mark, or 1 less."""
    stop = rng.choice([None, "still", "still", "goal", "goal"])
    # What `still` gives up shows where a round after it would leave less.
    rounds = 8 if stop == "still" else rng.randint(0, 4)
    if stop == "goal":
        done, _ = route.route(d, rounds, rule, None, {})
        stop = max(0, rng.choice(done).overflow - rng.randint(0, 1))
    return rounds, stop


def beside(rng, d, at):
    """A cell beside another one, or that one where none is there."""
    x, y, l = place(d, at)
    x, y, l = rng.choice([(x + 1, y, l), (x - 1, y, l), (x, y + 1, l), (x, y - 1, l), (x, y, l + 1), (x, y, l - 1)])
    return cell(d, x, y, l) if 0 <= x < d.X and 0 <= y < d.Y and 0 <= l < d.L else at


def damaged(rng, d, net, edges):
    """A net's edges with a walk from one of their cells, or without one of them."""
    if edges and rng.random() < 0.4:
        return edges - {rng.choice(sorted(edges))}
    at = rng.choice(sorted({c for e in edges for c in e} | {cell(d, *pin) for pin in d.nets[net].pins}))
    more = set()
    for _ in range(rng.randint(1, 5)):
        to = beside(rng, d, at)
        if to != at:
            more.add(edge(at, to))
        at = to
    return edges | more


def given(rng, d):
    """The text of routes to begin from: those of some round by some rule, of which nets are left out or damaged."""
    rule, rounds = rng.choice(list(route.FORMULAS)), rng.randint(0, 2)
    trees = route.route(d, rounds, rule, None, {})[1]
    share = rng.choice([0, 0.2, 0.5, 1])
    found = {}
    for net, edges in trees.items():
        if rng.random() >= share:
            found[net] = edges
        elif rng.random() < 0.7:
            found[net] = damaged(rng, d, net, edges)
    return at_times(rng, 0.1, solution_text(d, found), f"{NUMBERS} {POINTS}")


def option(rng, name, value):
    """The words of an option, in one of their two forms."""
    return rng.choice([[name, f"{value}"], [f"{name}={value}"]])


def rules(rng, d):
    """How many rounds, by which rule, what ends them or how many nets a batch has, and the words for the last three.
    Batches are routed by 1, 2 or 4 workers."""
    rule = rng.choice(list(route.FORMULAS))
    rounds, stop = ends(rng, d, rule)
    batch = rng.randint(1, 9) if rng.random() < 0.4 else None
    words = [] if rule == "first" and rng.random() < 0.5 else option(rng, "--rule", rule)
    if batch is not None:
        words += option(rng, "--batch", batch) + option(rng, "--workers", rng.choice([1, 2, 4]))
        return rounds, rule, None, batch, words
    if stop is not None:
        words += option(rng, "--stop", stop)
    return rounds, rule, stop, None, words


class Case:
    """A seed's texts, and whether a program did the same with them as the slow router."""

    def __init__(self, program, seed):
        self.program, self.seed, self.kept, self.agrees = program, seed, [], True

    def put(self, name, text):
        """The path of a file with this text."""
        path = f"{self.seed}.{name}"
        with open(path, "wb") as file:
            file.write(text)
        self.kept.append(path)
        return path

    def compare(self, wanted, *words):
        """With what the slow router leaves of the same command."""
        done = subprocess.run([self.program, *words], capture_output=True, check=False)
        if (done.returncode, done.stdout, done.stderr) != wanted:
            self.agrees = False
            print("differs:", *words)

    def close(self):
        if self.agrees:
            for path in self.kept:
                os.remove(path)


def tried(program, seed):
    """Whether a program and the slow router agree on a seed's texts."""
    rng = random.Random(seed)
    case = Case(program, seed)
    text = design(rng)
    d = read_design(text)
    rc = at_times(rng, 0.3, library(rng, d), f"{NUMBERS} {WORDS}")
    text = at_times(rng, 0.1, text, NUMBERS)
    via_cost = rng.choice([0, 1, 1, 3, 1000])
    options = ["--via-cost", str(via_cost)]
    rounds, rule, stop, batch, words = rules(rng, d)
    path = case.put("ispd", text)
    begun = given(rng, d) if rng.random() < 0.5 else None
    if begun is not None:
        words += option(rng, "--from", case.put("from", begun))
    is_traced = rng.random() < 0.5
    words += ["--trace"] * is_traced
    wanted = route.route_command(text, rc, rounds, via_cost, rule, stop, batch, begun, is_traced)
    rc_path = case.put("library", rc)
    case.compare(wanted, "route", path, rc_path, str(rounds), *options, *words)
    twice = rng.random() < 0.05
    solution = at_times(rng, 0.5, wanted[1] * (1 + twice), f"{NUMBERS} {POINTS}")
    solution_path = case.put("solution", solution)
    wanted = route.evaluate_command(text, solution, via_cost)
    case.compare(wanted, "evaluate", path, solution_path, *options)
    wanted = route.buffer_command(text, rc, solution)
    case.compare(wanted, "buffer", path, rc_path, solution_path)
    case.close()
    return case.agrees


def main():
    parser = argparse.ArgumentParser(description=__doc__, formatter_class=argparse.RawDescriptionHelpFormatter)
    parser.add_argument("--program", default=ROUTER, type=os.path.abspath)
    parser.add_argument("first", metavar="SEED", type=int, nargs="?", default=1)
    parser.add_argument("count", metavar="COUNT", type=int, nargs="?", default=300)
    asked = parser.parse_args()
    seeds = range(asked.first, asked.first + asked.count)
    agree = sum(tried(asked.program, seed) for seed in seeds)
    print(f"{asked.count} cases: {agree} agree, {asked.count - agree} differ")
    return 0 if agree == asked.count else 1


if __name__ == "__main__":
    sys.exit(main())
