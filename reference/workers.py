#!/usr/bin/env python3
"""Routes designs by several workers, again and again:
reference/workers.py [--program PATH] [--times N] [--batch B] [DESIGN LIBRARY ROUNDS ...]

Each design (made ones where none is named) is routed by 1, 2, 4, 8 and 16 workers, each N times (20 where nothing is
said). What each run wrote is judged by `evaluate`: no net may be left unjoined, and the five numbers of its report must
be those that the run told. The runs by one worker must give the same bytes each time, and in batches of B nets the runs
by any number of workers. The least and the greatest overflow of each number of workers are printed.

A longer run is watched besides: it may have no more threads at once than workers.
"""
import argparse
import os
import subprocess
import sys
import tempfile
import time

HERE = os.path.dirname(os.path.abspath(__file__))
ROUTER = os.path.join(HERE, "..", "crates", "groute", "out", "groute")
WORKERS = (1, 2, 4, 8, 16)
# The words of made designs, and the rounds of each: the first has room, the second is crowded.
MADE = (("7 32 32 6 2000", 3), ("11 24 24 4 6000", 8))
NUMBERS = 5
# The words of the made design whose run is watched, and its rounds.
LONGER = "1 128 128 6 100000", 1
PAUSE = 0.0005      # seconds between two looks
ENDS = 0x4          # the system's flag of a thread that ends


def run(program, *words):
    """Status, standard output and standard error of a router."""
    done = subprocess.run([program, *words], capture_output=True, check=False)
    return done.returncode, done.stdout, done.stderr


def library(layers):
    """A library of plain wires, with one kind of buffers."""
    wires = "".join(f"wire {layer} 100 100\n" for layer in range(1, layers + 1))
    return f"library 1\n{wires}via 10 10\ndriver 100\nsink 10 0\nkind mid 10 100 20000\nend\n"


def made(program, folder):
    """The made designs with their libraries and rounds."""
    for words, rounds in MADE:
        _, text, _ = run(program, "make", *words.split())
        design = os.path.join(folder, words.replace(" ", "_"))
        with open(design, "wb") as file:
            file.write(text)
        with open(design + ".library", "w", encoding="ascii") as file:
            file.write(library(int(words.split()[3])))
        yield design, design + ".library", str(rounds)


def fault(program, design, solution, route):
    """What is wrong with a run's routes, or None; and its overflow."""
    status, out, err = route
    if status != 0:
        return f"status {status}", None
    with open(solution, "wb") as file:
        file.write(out)
    told = err.split(b"\n")[:NUMBERS]
    status, judged, _ = run(program, "evaluate", design, solution)
    lines = judged.split(b"\n")
    if status != 0 or lines[NUMBERS] != b"unjoined 0":
        return "a net is left unjoined", None
    if lines[:NUMBERS] != told:
        return "the report isn't that of the routes", None
    return None, int(told[1].split()[1])


def threads(process):
    """How many threads a process has, but for those that end: they are listed a little longer."""
    count = 0
    for task in os.listdir(f"/proc/{process}/task"):
        try:
            with open(f"/proc/{process}/task/{task}/stat", encoding="utf-8", errors="replace") as file:
                flags = file.read().rpartition(")")[2].split()[6]
        except OSError:     # it has ended
            continue
        count += not int(flags) & ENDS
    return count


def most_threads(words):
    """The most threads that a program had at a look."""
    most = 0
    with subprocess.Popen(words, stdout=subprocess.DEVNULL, stderr=subprocess.DEVNULL) as process:
        while process.poll() is None:
            most = max(most, threads(process.pid))
            time.sleep(PAUSE)
    return most


def watched(asked, folder):
    """Counts the threads of a run by each number of workers. The answer is the count of faults."""
    words, rounds = LONGER
    design = os.path.join(folder, "longer")
    with open(design, "wb") as file:
        file.write(run(asked.program, "make", *words.split())[1])
    with open(design + ".library", "w", encoding="ascii") as file:
        file.write(library(int(words.split()[3])))
    batches = [] if asked.batch is None else ["--batch", asked.batch]
    faults = 0
    for workers in WORKERS:
        most = most_threads([asked.program, "route", design, design + ".library", str(rounds), "--workers",
                             str(workers), *batches])
        faults += most > workers
        print(f"a longer run, {workers} workers: 1 runs, {most} threads")
    return faults


def tried(asked, folder, design, paths, rounds):
    """Routes a design by each number of workers, and prints what came of it. The answer is the count of faults."""
    faults, first = 0, None
    batches = [] if asked.batch is None else ["--batch", asked.batch]
    for workers in WORKERS:
        overflows = []
        for _ in range(asked.times):
            route = run(asked.program, "route", design, paths, rounds, "--workers", str(workers), *batches)
            first = first or route
            wrong, overflow = fault(asked.program, design, os.path.join(folder, "solution"), route)
            if wrong is None and (workers == 1 or batches) and route != first:
                wrong = "other bytes than before"
            if wrong is None:
                overflows.append(overflow)
            else:
                faults += 1
                print(f"{design}, {workers} workers: {wrong}")
        spread = f"overflow {min(overflows)} to {max(overflows)}" if overflows else "no routes"
        print(f"{os.path.basename(design)}, {rounds} rounds, {workers} workers: {len(overflows)} runs, {spread}")
    return faults


def main():
    parser = argparse.ArgumentParser(description=__doc__, formatter_class=argparse.RawDescriptionHelpFormatter)
    parser.add_argument("--program", default=ROUTER, type=os.path.abspath)
    parser.add_argument("--times", type=int, default=20)
    parser.add_argument("--batch", metavar="B", help="route in batches of so many nets")
    parser.add_argument("names", nargs="*", help="DESIGN LIBRARY ROUNDS, again and again")
    asked = parser.parse_args()
    if len(asked.names) % 3:
        parser.error("DESIGN LIBRARY ROUNDS stand together")
    faults = 0
    with tempfile.TemporaryDirectory() as folder:
        named = [tuple(asked.names[at : at + 3]) for at in range(0, len(asked.names), 3)]
        for design, paths, rounds in named or made(asked.program, folder):
            faults += tried(asked, folder, design, paths, rounds)
        faults += watched(asked, folder)
    print(f"{faults} faults")
    return 1 if faults else 0


if __name__ == "__main__":
    sys.exit(main())
