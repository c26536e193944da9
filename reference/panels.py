#!/usr/bin/env python3
"""Compares `panels` of a program with a slow count: reference/panels.py PROGRAM [SEED [COUNT]]

For each seed random segments are written for the nets of a random design: most lie near one another, some overlap or
close loops, some nets have none. Tiles are marked one by one: the edges that a net covers, the pieces that they make,
and for each piece the first track, tried from the lowest on, on which none of its tiles is taken. The number of tracks
has to be the greatest number of pieces at a tile. The last seed's design is a large one, with more than 10,000 runs, of
which more than 1,000 lie in one row. Texts on which the two differ are kept under the names of their seed.
"""
import os
import random
import subprocess
import sys

import compare
from design import cell, place, read_design
from solution import centre, read_solution, runs

LETTERS = {"East": "h", "North": "v"}


def line(rng, d):
    """The cells of the ends of a straight line of the grid, in either order."""
    at = [rng.randrange(d.X), rng.randrange(d.Y), rng.randrange(d.L)]
    to = list(at)
    axis = rng.choice([0, 0, 0, 1, 1, 1, 2])
    to[axis] = rng.randrange([d.X, d.Y, d.L][axis])
    return cell(d, *at), cell(d, *to)


def loop(rng, d):
    """The lines around a box of tiles on two layers, or on one."""
    x, y = sorted(rng.choices(range(d.X), k=2)), sorted(rng.choices(range(d.Y), k=2))
    flat, high = rng.choices(range(d.L), k=2)
    for end in y:
        yield cell(d, x[0], end, flat), cell(d, x[1], end, flat)
    for end in x:
        yield cell(d, end, y[0], high), cell(d, end, y[1], high)


def record(rng, d, net):
    """A record of a net with random lines, some of them twice."""
    lines = [line(rng, d) for _ in range(rng.randint(0, 6))]
    if rng.random() < 0.3:
        lines += loop(rng, d)
    lines += rng.choices(lines, k=rng.randint(0, 2)) if lines else []
    rng.shuffle(lines)
    segments = [b"%s-%s" % (centre(d, a), centre(d, b)) for a, b in lines]
    return b"\n".join([b"%s %d" % (net.name, net.id), *segments, b"!\n"])


def panel_of(d, low, high):
    """Where a run lies: way, layer and row or column, and the tiles of its ends."""
    (x, y, layer), (x2, y2, _) = place(d, low), place(d, high)
    return (("East", layer, y), x, x2) if x != x2 else (("North", layer, x), y, y2)


def tracks(pieces):
    """The track of each piece: the first on which its tiles are free."""
    taken = []
    for _, low, high in pieces:
        tiles = set(range(low, high + 1))
        free = [track for track, others in enumerate(taken) if not others & tiles]
        if not free:
            taken.append(set())
            free = [len(taken) - 1]
        taken[free[0]] |= tiles
        yield free[0]


def panels_text(d, sets):
    """The text of the panels of each net's edges."""
    panels = {}
    for net in sorted(sets):
        for low, high in runs(d, sets[net]):
            if place(d, low)[2] == place(d, high)[2]:
                key, first, last = panel_of(d, low, high)
                panels.setdefault(key, []).append((net, first, last))
    lines, total = [], 0
    for key in sorted(panels):      # East comes before North
        pieces = sorted(panels[key], key=lambda piece: (piece[1], piece[0]))
        numbers = list(tracks(pieces))
        most = max(numbers) + 1
        counts = {}
        for _, low, high in pieces:
            for tile in range(low, high + 1):
                counts[tile] = counts.get(tile, 0) + 1
        assert max(counts.values()) == most, "some numbering uses fewer tracks"
        point = min(tile for tile, count in counts.items() if count == most)
        total += most
        lines.append(f"panel {LETTERS[key[0]]} {key[1] + 1} {key[2]} tracks {most} at {point}")
        lines += [f"{d.nets[net].id} {low} {high} {track + 1}" for (net, low, high), track in zip(pieces, numbers)]
    return "".join(f"{text}\n" for text in [f"panels {len(panels)}", f"tracks {total}", *lines]).encode()


def small(rng):
    """A random design and a solution of it."""
    text = compare.design(rng)
    d = read_design(text)
    return text, b"".join(record(rng, d, net) for net in d.nets if rng.random() < 0.9)


def large(rng):
    """A design of 4,000 nets, each with a short line in the first row and two elsewhere."""
    columns, rows, nets = 500, 20, 4000
    text = (f"grid {columns} {rows} 2 vertical capacity 0 9 horizontal capacity 9 0 minimum width 1 1 minimum spacing 1 1 "
            f"via spacing 1 1 0 0 10 10 num net {nets}\n" + "".join(f"n {net} 1 1 5 5 1\n" for net in range(nets)))
    records = []
    for net in range(nets):
        records.append(f"n {net}")
        for y in (0, rng.randrange(1, rows)):
            x = rng.randrange(columns - 9)
            records.append(f"({10 * x + 5},{10 * y + 5},1)-({10 * x + 10 * rng.randint(1, 9) + 5},{10 * y + 5},1)")
        x, y = rng.randrange(columns), rng.randrange(rows - 1)
        records += [f"({10 * x + 5},{10 * y + 5},2)-({10 * x + 5},{10 * rng.randrange(y + 1, rows) + 5},2)", "!"]
    return text.encode(), "\n".join(records).encode()


def tried(program, seed, made):
    """Whether the program agrees on a seed's texts."""
    text, solution = made(random.Random(seed))
    d = read_design(text)
    paths = [f"{seed}.ispd", f"{seed}.solution"]
    for path, bytes_ in zip(paths, [text, solution]):
        with open(path, "wb") as file:
            file.write(bytes_)
    done = subprocess.run([program, "panels", *paths], capture_output=True, check=False)
    if (done.returncode, done.stdout, done.stderr) != (0, panels_text(d, read_solution(solution, d)), b""):
        print("differs:", *paths)
        return False
    for path in paths:
        os.remove(path)
    return True


def main():
    if not 2 <= len(sys.argv) <= 4:
        sys.exit(__doc__)
    program = os.path.abspath(sys.argv[1])
    first = int(sys.argv[2]) if len(sys.argv) > 2 else 1
    count = int(sys.argv[3]) if len(sys.argv) > 3 else 200
    last = first + count - 1
    agree = sum(tried(program, seed, large if seed == last else small) for seed in range(first, last + 1))
    print(f"{count} cases: {agree} agree, {count - agree} differ")
    return 0 if agree == count else 1


if __name__ == "__main__":
    sys.exit(main())
