#!/usr/bin/env python3
"""Sets bounds by prices beside those of linear programs: reference/linear.py PROGRAM [COUNT]

PROGRAM is grbound. Of 50 random designs of 4 by 4 by 2, or of COUNT, Debian's glpsol finds the least overflow, and the
least wirelength without overflow, of fractional routes: for each pin a flow of 1 from the driver, and of each arc as
much as the greatest of a net's flows there. In sum each bound has to reach 85 % of that, and none passes it by more
than rounding. Without glpsol it is left out.
"""
import os
import random
import shutil
import subprocess
import sys
import tempfile

from bounds import priced, via_edges, wire_edges
from design import capacity, cell, need, read_design, usable

STEPS = 200
SHARE = 85      # per cent


def crowded(rng):
    """The text of a design whose nets meet."""
    way_of = rng.choice([(0, 1), (1, 0), (2, 2)])       # of each layer: north, east or both
    lines = ["grid 4 4 2"]
    for way_, words in ((0, "vertical"), (1, "horizontal")):
        row = (rng.choice([2, 4, 6]) if one in (way_, 2) else 0 for one in way_of)
        lines.append(f"{words} capacity {' '.join(map(str, row))}")
    lines += ["minimum width 1 1", "minimum spacing 1 1", "via spacing 1 1", "0 0 10 10"]
    nets = rng.randint(6, 16)
    lines.append(f"num net {nets}")
    for net in range(nets):
        pins = rng.choice([2, 2, 3])
        lines.append(f"n{net} {net} {pins} {rng.choice([1, 1, 2])}")
        tiles = [(rng.randrange(4), rng.randrange(4)) for _ in range(pins)]
        lines += [f"{10 * x + 5} {10 * y + 5} {rng.choice([1, 1, 2])}" for x, y in tiles]
    return "\n".join([*lines, "0", ""]).encode()


class Program:
    """Of fractional routes that join each net, along all edges of the grid the overflow, or along usable ones without
    overflow the wirelength."""

    def __init__(self, d, with_overflow):
        self.d, self.rows, self.costs = d, [], []
        wires = [e for e in wire_edges(d) if with_overflow or usable(d, e)]
        self.edges = wires + via_edges(d)
        for number in d.routed():
            self.join(number)
        for at, e in enumerate(wires):
            terms = [f"{need(d, number, e):+} {name}" for number in d.routed() for name in self.arcs(number, at)]
            over = f" - o{at}" if with_overflow else ""
            self.rows.append(f"{' '.join(terms)}{over} <= {capacity(d, e)}")
        if with_overflow:
            self.costs = [f"+ o{at}" for at in range(len(wires))]
        else:
            self.costs = [f"+ {name}" for number in d.routed() for at in range(len(self.edges))
                          for name in self.arcs(number, at)]

    @staticmethod
    def arcs(number, at):
        """What a net takes of the two arcs of an edge."""
        return f"u{number}_{at}", f"d{number}_{at}"

    def join(self, number):
        """From the driver flows to each other cell with a pin of the net, within what it takes of arcs."""
        first, *others = dict.fromkeys(cell(self.d, *pin) for pin in self.d.nets[number].pins)
        for sink in others:
            sums = {}
            for at, ends in enumerate(self.edges):
                for name, (tail, head) in zip(self.arcs(number, at), (ends, ends[::-1])):
                    flow = f"{name}_{sink}"
                    self.rows.append(f"{name} - {flow} >= 0")
                    sums.setdefault(tail, []).append(f"- {flow}")
                    sums.setdefault(head, []).append(f"+ {flow}")
            due = {first: -1, sink: 1}
            self.rows += [f"{' '.join(terms)} = {due.get(at, 0)}" for at, terms in sums.items()]

    def least(self, folder):
        """The least cost, or None where no flows keep the capacities."""
        paths = [os.path.join(folder, name) for name in ("program", "solution")]
        with open(paths[0], "w", encoding="ascii") as file:
            file.write("Minimize\n" + "\n".join(self.costs) + "\nSubject To\n" + "\n".join(self.rows) + "\nEnd\n")
        subprocess.run(["glpsol", "--lp", paths[0], "--write", paths[1]], check=True, stdout=subprocess.DEVNULL)
        with open(paths[1], encoding="ascii") as file:
            found = next(line.split() for line in file if line.startswith("s "))
        return float(found[6]) if found[4:6] == ["f", "f"] else None


def reached(program, path):
    """The bounds on overflow and on wirelength without it."""
    done = subprocess.run([program, path, "--steps", str(STEPS)], capture_output=True, check=True, text=True)
    return priced(done.stdout.splitlines())[0][:2]


def main():
    if not 2 <= len(sys.argv) <= 3:
        sys.exit(__doc__)
    if not shutil.which("glpsol"):
        print("left out: linear: glpsol is not there")
        return 0
    program, count = os.path.abspath(sys.argv[1]), int(sys.argv[2]) if len(sys.argv) > 2 else 50
    proved, least, designs, passed = [0, 0], [0, 0], [0, 0], 0
    with tempfile.TemporaryDirectory() as folder:
        path = os.path.join(folder, "design")
        for seed in range(1, count + 1):
            text = crowded(random.Random(seed))
            with open(path, "wb") as file:
                file.write(text)
            d = read_design(text)
            for at, bound in enumerate(reached(program, path)):
                found = Program(d, at == 0).least(folder)
                if found is not None:
                    proved[at], least[at], designs[at] = proved[at] + bound, least[at] + found, designs[at] + 1
                    passed += bound > found + 1
    for words, mine, other, some in zip(("overflow", "wirelength without overflow"), proved, least, designs):
        print(f"{words} of {some} designs: {mine} proved, {other:.1f} by linear programs, {100 * mine / other:.1f} %")
    print(f"{passed} bounds pass a linear program's")
    return 0 if not passed and all(100 * mine >= SHARE * other > 0 for mine, other in zip(proved, least)) else 1


if __name__ == "__main__":
    sys.exit(main())
