#!/usr/bin/env python3
"""Times the built programs and writes the tables of bench/RESULTS.md: bench/run.py [--beside PROGRAM] [DESIGN ..]

Each command is run five times, and the median counts. Beside the files named, designs are made: nets of 2, 3 or
12 pins near one another, on layers that go one way each. They are routed without rounds, and their routes are judged;
some are routed and buffered with kinds of buffers; crowded ones are routed with rounds, also by several workers, by
the clock; two begin from routes that were made before. A library or a solution with a wrong last token is read whole, and nothing is done with it: that tells what
reading it costs.

What stands in RESULTS.md from its heading "Rounds by workers" on is written by hand, and kept. README's rows of the
same names become those of the tables.

A program beside is another router with the same commands, and has to write the same bytes. Its runs alternate with
ours. Least walks are compared with those of a plain program in Rust, which cargo builds: both have to find walks of
one sum.
"""
import argparse
import datetime
import os
import resource
import statistics
import subprocess
import sys
import tempfile
import time

HERE = os.path.dirname(os.path.abspath(__file__))
RESULTS = os.path.join(HERE, "RESULTS.md")
README = os.path.join(HERE, "..", "README.md")
BY_HAND = "## Rounds by workers"
CRATES = os.path.join(HERE, "..", "crates")
ROUTER = os.path.join(CRATES, "groute", "out", "groute")
PLANNERS = os.path.join(CRATES, "plan_rows", "out", "plan_rows")
BOOK = os.path.join(CRATES, "book_rows", "out", "book_rows")
TURNS = 200_000
THREADS = [1, 2, 4]
SHARED = (300, 300, 6, 300_000)
SHARED_ROUNDS = [0, 5]
PLANS = [
    ("topologies of 100,000 nets of 2 to 20 pins", ["topologies", "100000"], 100_000),
    ("flat walks across 10 by 10 tiles", ["walks", "10", "100000"], 100_000),
    ("flat walks across 300 by 300 tiles", ["walks", "300", "200"], 200),
]
PLAIN = os.path.join(HERE, "plain_maze")
MAZES = [("20 by 20", 20, 1_000), ("300 by 300", 300, 100)]
SIZES = [(100, 100, 6, 10_000), (300, 300, 6, 100_000)]
CROWDED = [(50, 50, 4, 8_000), (100, 100, 6, 40_000)]
LARGE = (1_024, 1_024, 8, 1_000_000)
WORKED = (400, 400, 8, 500_000)
LONG_LIBRARY = (300, 300, 6, 100_000)
BLOCKS = 50_000
ROUNDS = [0, 3, 10]
MANY_ROUNDS = 32
BUFFERED = (300, 300, 6, 100_000)
WIDE = (300, 300, 6, 1_000)
KINDS = [4, 32]


def draws(seed):
    """A linear congruential generator; each value sent in bounds the next draw."""
    state, bound = seed % 2**31, 1
    while True:
        state = (state * 1103515245 + 12345) % 2**31
        bound = yield (state // 65536) % bound


def head(columns, rows, layers, nets):
    ones = " 1" * layers
    vertical = " ".join("0" if layer % 2 == 0 else "20" for layer in range(layers))
    horizontal = " ".join("20" if layer % 2 == 0 else "0" for layer in range(layers))
    return (
        f"grid {columns} {rows} {layers}\nvertical capacity {vertical}\nhorizontal capacity {horizontal}\n"
        f"minimum width{ones}\nminimum spacing{ones}\nvia spacing{ones}\n0 0 10 10\nnum net {nets}\n"
    )


def made(columns, rows, layers, nets):
    draw = draws(1)
    next(draw)
    lines = [head(columns, rows, layers, nets)]
    for net in range(nets):
        pins = 12 if net % 10 == 9 else 2 + draw.send(2)
        column, row = draw.send(columns), draw.send(rows)
        lines.append(f"n{net} {net} {pins} 1\n")
        for _ in range(pins):
            x = min(columns - 1, column + draw.send(8))
            y = min(rows - 1, row + draw.send(8))
            lines.append(f"{10 * x + 5} {10 * y + 5} 1\n")
    return "".join(lines)


def library(layers, items=""):
    """A library for so many layers, with further items."""
    wires = "".join(f"wire {layer} 100 100\n" for layer in range(1, layers + 1))
    return f"library 2\n{wires}via 10 5\ndriver 100\nsink 10 0\n{items}end\n"


def long_library(columns, rows, layers, nets):
    """A library with a sink of its own for each net, and with many blocked tiles."""
    pins = "".join(f"pin {net} 1 {net % 50} {net}\n" for net in range(nets))
    blocks = "".join(f"block {at % columns} {at // columns % rows}\n" for at in range(BLOCKS))
    return library(layers, pins + blocks)


def kinds(count):
    """Items of so many kinds of buffers, of which most are of use somewhere."""
    draw = draws(5)
    next(draw)
    return "".join(f"kind b{kind} {5 + draw.send(56)} {20 + draw.send(581)} {500 + draw.send(29501)}\n"
                   for kind in range(count))


def wide(columns, rows, layers, pins):
    """A design of one net with pins all over it."""
    draw = draws(7)
    next(draw)
    lines = [head(columns, rows, layers, 1), f"wide 0 {pins} 1\n"]
    lines += [f"{10 * draw.send(columns) + 5} {10 * draw.send(rows) + 5} 1\n" for _ in range(pins)]
    return "".join(lines)


def once(command, status):
    """The processor time of a run, in seconds, and its most memory, in KiB."""
    # The wrapper is small, so that the memory is the program's and not this script's.
    before = sum(resource.getrusage(resource.RUSAGE_CHILDREN)[:2])
    done = subprocess.run(["/usr/bin/time", "-f", "%M", *command],
                          stdout=subprocess.DEVNULL, stderr=subprocess.PIPE, text=True)
    after = resource.getrusage(resource.RUSAGE_CHILDREN)
    if done.returncode != status:
        sys.exit(f"{command} ended with {done.returncode}: {done.stderr[-1000:]}")
    return after.ru_utime + after.ru_stime - before, int(done.stderr.split()[-1])


def timed(*commands, status=0):
    """For each command the run of median time of five; the commands alternate."""
    runs = [[once(command, status) for command in commands] for _ in range(5)]
    return [sorted(of_one)[2] for of_one in zip(*runs)]


class Bench:
    """The routers that are timed, ours first, and a folder for the texts."""

    def __init__(self, routers, folder):
        self.routers, self.folder = routers, folder

    def put(self, name, text):
        """The path of a file with this text."""
        path = os.path.join(self.folder, name)
        with open(path, "w") as file:
            file.write(text)
        return path

    def library_of(self, path):
        """The path of a library for the design at this path."""
        with open(path) as text:
            return self.put("library", library(int(text.read(200).split()[3])))

    def table(self, name, *columns):
        """The first two lines of a table, in which a program beside has two columns more."""
        return head_of([name, "seconds", *(["plain router, s", "ratio"] if len(self.routers) > 1 else []), *columns])

    def row(self, name, seconds, *cells):
        """A row of such a table, by the seconds of each router."""
        ours, *others = seconds
        beside = [cell for other in others for cell in (f"{other:.3f}", f"{ours / other:.2f}")]
        return f"| {' | '.join([name, f'{ours:.3f}', *beside, *cells])} |\n"

    def timed(self, name, *words, status=0):
        """The row of a run, and what the routers took."""
        times = timed(*([router, *words] for router in self.routers), status=status)
        return self.row(name, [seconds for seconds, _ in times], *(f"{memory:,}" for _, memory in times)), times

    def outputs(self, *words):
        """Standard output and standard error, which are the same of all routers."""
        first, *others = [subprocess.run([router, *words], capture_output=True, check=True) for router in self.routers]
        for router, done in zip(self.routers[1:], others):
            if (done.stdout, done.stderr) != (first.stdout, first.stderr):
                sys.exit(f"{router} writes other bytes for {' '.join(words)}")
        return first.stdout, first.stderr


def head_of(columns):
    """The first two lines of a table."""
    return [f"| {' | '.join(columns)} |\n", f"|{len(columns) * '---|'}\n"]


def named(columns, rows, layers, nets):
    """What a made design is called."""
    return f"{nets:,} nets on {columns:,} by {rows:,} by {layers}"


def judged(bench, name, path):
    """A design, routed without rounds and judged, and the reading of both texts."""
    rc = bench.library_of(path)
    routed, _ = bench.timed(f"`route`, {name}, 0 rounds", "route", path, rc, "0")
    solution, _ = bench.outputs("route", path, rc, "0")
    right = bench.put("solution", solution.decode())
    faulty = bench.put("faulty", solution.decode() + "none -1\n")
    evaluated, _ = bench.timed(f"`evaluate`, {name}", "evaluate", path, right)
    read, _ = bench.timed(f"reading both, {name}", "evaluate", path, faulty, status=5)
    return [routed, evaluated, read]


def buffered(bench, name, path, layers, count):
    """A design, routed and buffered with so many kinds of buffers, and its routes buffered alone."""
    rc = bench.put("kinds", library(layers, kinds(count)))
    routed, _ = bench.timed(f"`route`, {name}, 0 rounds, {count} kinds of buffers", "route", path, rc, "0")
    solution, _ = bench.outputs("route", path, rc, "0")
    right = bench.put("solution", solution.decode())
    bench.outputs("buffer", path, rc, right)
    alone, _ = bench.timed(f"`buffer`, {name}, {count} kinds of buffers", "buffer", path, rc, right)
    return [routed, alone]


def buffers(bench):
    """Designs, routed and buffered."""
    path = bench.put("design", made(*BUFFERED))
    rows = [row for count in KINDS for row in buffered(bench, named(*BUFFERED), path, BUFFERED[2], count)]
    x, y, l, n = WIDE
    path = bench.put("design", wide(x, y, l, n))
    return rows + buffered(bench, f"one net of {n:,} pins on {x} by {y} by {l}", path, l, KINDS[-1])


def rerouted(bench, name, path, counts):
    """A design, routed with some numbers of rounds."""
    rc = bench.library_of(path)
    return [bench.timed(f"`route`, {name}, {count} round{'s' * (count != 1)}", "route", path, rc, str(count))[0]
            for count in counts]


def crowded(size):
    """What a crowded design is called."""
    return f"{named(*size)} (crowded)"


def moved(text):
    """A design in which the last pin of each hundredth net lies a tile farther to one side."""
    lines = text.splitlines()
    for at, words in enumerate(line.split() for line in text.splitlines()):
        if len(words) == 4 and words[0].startswith("n") and int(words[1]) % 100 == 0:
            last = at + int(words[2])
            x, rest = lines[last].split(" ", 1)
            lines[last] = f"{int(x) - 10 if int(x) > 10 else int(x) + 10} {rest}"
    return "".join(f"{line}\n" for line in lines)


def begun(bench):
    """Designs, routed from routes that were made before: of the same design, and of one that was changed a little."""
    rows = []
    for name, size, rounds, changed in ((named(*SIZES[-1]), SIZES[-1], 0, lambda text: text),
                                        (crowded(CROWDED[-1]), CROWDED[-1], ROUNDS[-1], moved)):
        text = made(*size)
        path = bench.put("before", text)
        rc = bench.library_of(path)
        solution = bench.put("routes", bench.outputs("route", path, rc, str(rounds))[0].decode())
        words = ["route", bench.put("after", changed(text)), rc, str(rounds), "--from", solution]
        bench.outputs(*words)
        label = f"{name}, {rounds} rounds, from routes of {'it' if rounds == 0 else 'all but 1 net of 100'}"
        rows.append(bench.timed(f"`route`, {label}", *words)[0])
    return rows


def long_read(bench):
    """A long library and its design, read and not routed."""
    design, text = made(*LONG_LIBRARY), long_library(*LONG_LIBRARY)
    path = bench.put("design", design)
    alone, before = bench.timed(f"reading a design of {len(design.split()):,} tokens", "route", path,
                                bench.put("wrong", "none\n"), "0", status=4)
    _, both = bench.timed("", "route", path, bench.put("faulty", text + "none\n"), "0", status=4)
    parts = [max(b - a, 1e-9) for (a, _), (b, _) in zip(before, both)]
    behind = bench.row(f"reading a library of {len(text.split()):,} tokens behind it", parts,
                       *(f"{memory:,}" for _, memory in both))
    return [alone, behind]


def runs(bench, designs):
    """All runs whose processor time counts."""
    table = bench.table("run", "KiB", *(["plain router, KiB"] if len(bench.routers) > 1 else []))
    texts = [(os.path.basename(path), path) for path in designs]
    for name, path in texts:
        table += [*judged(bench, name, path), *rerouted(bench, name, path, ROUNDS[1:])]
    for size in SIZES:
        table += judged(bench, named(*size), bench.put("design", made(*size)))
    table += buffers(bench)
    for size in CROWDED:
        table += rerouted(bench, crowded(size), bench.put("design", made(*size)), [*ROUNDS, MANY_ROUNDS])
    table += begun(bench)
    table += rerouted(bench, named(*LARGE), bench.put("design", made(*LARGE)), [1])
    return table + long_read(bench)


def overflows(bench, designs):
    """The least overflow of crowded designs after each round."""
    table = head_of(["design, one worker", f"least overflow after 0 to {ROUNDS[-1]} rounds"])
    texts = [(os.path.basename(path), path) for path in designs]
    for name, path in texts + [(crowded(size), bench.put(f"crowded{size[3]}", made(*size))) for size in CROWDED]:
        rc = bench.library_of(path)
        reports = [bench.outputs("route", path, rc, str(rounds))[1] for rounds in range(ROUNDS[-1] + 1)]
        table.append(f"| {name} | {', '.join(report.split()[3].decode() for report in reports)} |\n")
    return table


def clock_rows(bench, name, path, rounds, counts):
    """By the clock, a design that is routed by some numbers of workers."""
    rc, alone, rows = bench.library_of(path), None, []
    for workers in counts:
        seconds = [by_clock([router, "route", path, rc, str(rounds), "--workers", str(workers)])
                   for router in bench.routers]
        alone = alone or seconds[0]
        fast = f"{alone / seconds[0]:.2f}" if counts[0] == 1 else ""
        label = f"{name}, {rounds} round{'s' * (rounds != 1)}, {workers} worker{'s' * (workers != 1)}"
        rows.append(bench.row(label, seconds, fast))
    return rows


def clock(bench):
    """Designs, routed by several numbers of workers, by the clock."""
    table = bench.table("`route` by the clock", "times as fast as one worker")
    path = bench.put("design", made(*SHARED))
    for rounds in SHARED_ROUNDS:
        table += clock_rows(bench, crowded(SHARED), path, rounds, THREADS)
    return table + clock_rows(bench, named(*WORKED), bench.put("design", made(*WORKED)), 1, THREADS[-1:])


def plans():
    """The parts of pattern plans."""
    rows = []
    for name, words, count in PLANS:
        (seconds, _), = timed([PLANNERS, *words])
        rows.append(f"| {name} | {seconds:.3f} | {seconds / count * 1e6:.1f} microseconds | | |\n")
    return rows


def mazes():
    """Least walks: by the proved planner, and by the plain program."""
    subprocess.run(["cargo", "build", "--release", "--quiet"], cwd=PLAIN, check=True)
    plain = os.path.join(PLAIN, "target", "release", "plain_maze")
    rows = []
    for name, side, count in MAZES:
        ours, theirs = [PLANNERS, "mazes", str(side), str(count)], [plain, str(side), str(count)]
        found = subprocess.run(ours, capture_output=True, check=True, text=True).stdout.split()
        sums = subprocess.run(theirs, capture_output=True, check=True, text=True).stdout.split()
        if found[0] != sums[0]:
            sys.exit(f"the walks in windows of {name} differ: {found[0]} and {sums[0]}")
        settled = int(sums[1])
        (seconds, _), (other, _) = timed(ours, theirs)
        rows.append(f"| {count:,} least walks in windows of {name} by 6, {settled:,} cells settled | {seconds:.3f} "
                    f"| {seconds / settled * 1e9:.0f} ns a cell | {other:.3f} | {seconds / other:.2f} |\n")
    return rows


def book():
    """Claims and releases of the shared book, with trees of 20 nodes."""
    rows = []
    for name, words in [("claims and releases of the shared book", "claims"), ("the same, with replicas", "syncs")]:
        for threads in THREADS:
            seconds = by_clock([BOOK, words, str(threads), str(TURNS // threads)])
            rows.append(f"| {name}, {threads} thread{'s' * (threads != 1)}, by the clock | {seconds:.3f} "
                        f"| {2 * TURNS / seconds:,.0f} a second | | |\n")
    return rows


def parts():
    """The parts of the router, called alone."""
    return head_of(["part", "seconds", "each", "plain Rust, s", "ratio"]) + plans() + mazes() + book()


def machine():
    """What the times were taken on, and when."""
    with open("/proc/cpuinfo") as info:
        names = [line.split(":", 1)[1].strip() for line in info if line.startswith("model name")]
    today = datetime.date.today()
    return f"{len(names)} processors ({names[0]}), {today.day} {today:%B %Y}"


def by_hand():
    """What stands in RESULTS.md and isn't made here."""
    if not os.path.exists(RESULTS):
        return ""
    with open(RESULTS) as file:
        text = file.read()
    return text[text.index(BY_HAND):] if BY_HAND in text else ""


def fill_in_readme(tables):
    """README's rows become those of the same names and numbers of columns."""
    rows = {(line.split(" | ")[0], line.count("|")): line for line in tables.splitlines() if line.startswith("| ")}
    with open(README) as file:
        lines = file.read().splitlines()
    with open(README, "w") as file:
        file.writelines(rows.get((line.split(" | ")[0], line.count("|")), line) + "\n" for line in lines)


def by_clock(command):
    """The median seconds of five runs, by the clock."""
    def run():
        start = time.monotonic()
        subprocess.run(command, stdout=subprocess.DEVNULL, stderr=subprocess.DEVNULL, check=True)
        return time.monotonic() - start
    return statistics.median(run() for _ in range(5))


def main():
    parser = argparse.ArgumentParser(description="Times the built programs and writes bench/RESULTS.md.")
    parser.add_argument("--beside", metavar="PROGRAM", type=os.path.abspath,
                        help="another router with the same commands")
    parser.add_argument("designs", metavar="DESIGN", nargs="*")
    given = parser.parse_args()
    with tempfile.TemporaryDirectory() as folder:
        bench = Bench([ROUTER, *([given.beside] if given.beside else [])], folder)
        tables = [runs(bench, given.designs), clock(bench), overflows(bench, given.designs), parts()]
    note = (f"On {machine()}. Seconds of processor time where nothing else is said, median of five runs, with what is "
            "written going to a null device. Designs are made, columns by rows by layers. `reading both` reads a "
            "design and its routes and judges nothing.")
    if given.beside:
        note += " The plain router follows the same rules in Rust, writes the same bytes, and its runs alternate."
    text = "\n".join("".join(table) for table in tables)
    kept = by_hand()
    with open(RESULTS, "w") as file:
        file.write(f"# Times of the built programs\n\n{note}\n\n{text}" + (f"\n{kept}" if kept else ""))
    fill_in_readme(text)
    print(text, end="")


if __name__ == "__main__":
    main()
