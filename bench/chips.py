#!/usr/bin/env python3
"""Times rounds on chips beside another router, or sets routes beside what is proved:
bench/chips.py [--beside PROGRAM] [--runs N] [--steps K] DESIGN ROUNDS [DESIGN ROUNDS ..]

Each design is routed by each rule of --rules and each number of workers of --workers, N times (5 where nothing is
said); the runs of both routers alternate. Seconds are medians: by processor time with one worker, by the clock with
more. With one worker both have to write the same bytes. Overflow stands for round 0 and each later one, as --trace
tells it.

With --steps each design is routed once, by the first rule and one worker, until there is no overflow or the rounds are
done; the table says how near its routes are to what `grbound` proves by K steps and so many workers.
"""
import argparse
import hashlib
import os
import statistics
import subprocess
import sys
import tempfile
import time

from run import CRATES, ROUTER, head_of, library

sys.path.insert(0, os.path.join(os.path.dirname(os.path.abspath(__file__)), "..", "tools"))
from groute.loads.edges import counted  # noqa: E402
from groute.loads.proofs import proofs  # noqa: E402
from groute.texts.bounds import bounds_of  # noqa: E402
from groute.texts.designs import Netlist  # noqa: E402
from groute.texts.tokens import Tokens  # noqa: E402

BOUNDS = os.path.join(CRATES, "grbound", "out", "grbound")


def library_for(folder, path):
    """The path of a library without kinds for a design's layers."""
    with open(path, encoding="ascii") as text:
        layers = int(text.read(200).split()[3])
    name = os.path.join(folder, f"{layers}.library")
    with open(name, "w", encoding="ascii") as file:
        file.write(library(layers))
    return name


def once(command, workers):
    """Seconds, KiB, the sum of what was written on standard output, and the report of a run."""
    began = time.monotonic()
    done = subprocess.run(["/usr/bin/time", "-f", "%M %U %S", *command], capture_output=True, check=True)
    clock = time.monotonic() - began
    *report, figures = done.stderr.decode().splitlines()
    most, user, system = figures.split()
    seconds = clock if workers > 1 else float(user) + float(system)
    return seconds, int(most), hashlib.sha256(done.stdout).digest(), report


def by_round(report):
    """The overflow after each round."""
    return [line.split()[3] for line in report if line.startswith("round ")]


def row(routers, words, runs, workers, label):
    """The row of a design by a rule and a number of workers."""
    done = [[once([router, *words], workers) for router in routers] for _ in range(runs)]
    of_each = list(zip(*done))
    if workers == 1 and len({run[2] for run in of_each[0] + of_each[-1]}) != 1:
        sys.exit(f"{' '.join(words)}: the routers write other bytes")
    seconds = [statistics.median(run[0] for run in of_one) for of_one in of_each]
    memory = [statistics.median(run[1] for run in of_one) for of_one in of_each]
    cells = [label, str(workers), f"{seconds[0]:.2f}", f"{memory[0] / 1024:.0f}"]
    if len(routers) > 1:
        cells[3:3] = [f"{seconds[1]:.2f}", f"{seconds[0] / seconds[1]:.2f}"]
        cells += [f"{memory[1] / 1024:.0f}", f"{memory[0] / memory[1]:.2f}"]
    return f"| {' | '.join([*cells, ', '.join(by_round(of_each[0][0][3]))])} |\n"


def timed(given, folder, path, rounds):
    """The rows of a design by each rule and each number of workers."""
    routers = [given.program, *([given.beside] if given.beside else [])]
    name, rc = os.path.basename(path).split(".")[0], library_for(folder, path)
    for rule in given.rules.split(","):
        for workers in map(int, given.workers.split(",")):
            words = ["route", path, rc, rounds, "--rule", rule, "--workers", str(workers), "--trace"]
            yield row(routers, words, given.runs, workers, f"{name}, {rounds}, `{rule}`")


def proved(given, folder, path, rounds):
    """A row for each figure of a design's routes of which something is proved."""
    solution = os.path.join(folder, "solution")
    words = [path, library_for(folder, path), rounds, "--rule", given.rules.split(",")[0], "--stop", "0"]
    with open(solution, "wb") as file:
        subprocess.run([given.program, "route", *words], stdout=file, stderr=subprocess.DEVNULL, check=True)
    edges = counted(Netlist(Tokens(path)), solution)
    command = [given.bounds, path, "--steps", given.steps, "--workers", given.workers]
    began = time.monotonic()
    done = subprocess.run(["/usr/bin/time", "-f", "%M %U %S", *command], capture_output=True, check=True)
    clock = time.monotonic() - began
    most, user, system = map(float, done.stderr.split())
    seconds = user + system if given.workers == "1" else clock
    for proof in proofs(bounds_of(done.stdout.decode()), edges, edges.wires + edges.vias):
        yield (f"| {os.path.basename(path).split('.')[0]} | {proof.figure} | {proof.reached:,} | {proof.least:,} | "
               f"{proof.within()} | {given.steps} | {given.workers} | {seconds:.0f} | {most / 1024:.0f} |\n")


def main():
    parser = argparse.ArgumentParser(description=__doc__, formatter_class=argparse.RawDescriptionHelpFormatter)
    parser.add_argument("--beside", metavar="PROGRAM", help="another router with the same commands")
    parser.add_argument("--steps", metavar="K", help="of prices, by which grbound proves")
    parser.add_argument("--program", default=ROUTER)
    parser.add_argument("--bounds", default=BOUNDS)
    parser.add_argument("--runs", type=int, default=5)
    parser.add_argument("--rules", default="first,near")
    parser.add_argument("--workers", default="1")
    parser.add_argument("names", metavar="DESIGN ROUNDS", nargs="+")
    given = parser.parse_args()
    if len(given.names) % 2:
        parser.error("DESIGN and ROUNDS stand together")
    beside = [["plain router, s", "ratio"], ["plain router, MiB", "ratio"]] if given.beside else [[], []]
    columns = ["chip, rounds, rule", "workers", "seconds", *beside[0], "MiB", *beside[1], "overflow by round"]
    if given.steps:
        columns = ["chip", "figure", "reached", "proved", "within", "steps", "workers", "seconds", "MiB"]
    sys.stdout.writelines(head_of(columns))
    with tempfile.TemporaryDirectory() as folder:
        for path, rounds in zip(given.names[::2], given.names[1::2]):
            for line in (proved if given.steps else timed)(given, folder, path, rounds):
                print(line, end="", flush=True)


if __name__ == "__main__":
    main()
