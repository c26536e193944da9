#!/usr/bin/env python3
"""Times the rounds alone of built programs, by the clock: bench/rounds.py [--runs N] [PROGRAM ..]

A crowded design is routed with five rounds by one worker, by one worker beside three more such runs,
and by four workers, in turn. Probes of the kernel at the begin and the end of each round tell what
rounds 1 to 5 took. Four processors that are busy may each give less than one that is busy alone, where
two of them share a core or others use the machine: beside three more runs one worker has what each of
four workers has. This needs root, `nm` and `readelf`.
"""
import argparse
import os
import re
import statistics
import subprocess
import sys
import tempfile

from run import ROUTER, SHARED, library, made

TRACES = "/sys/kernel/tracing"
GROUP = "groute_rounds"
ROUND = "ripup_workers::run::run_round"
ROUNDS = 5
WORKERS = 4
EVENT = re.compile(r"-(\d+)\s.*?\s(\d+\.\d+): (begin|end)\d+:")


def write(name, text, flags=os.O_TRUNC):
    """Writes a text to one of the kernel's files."""
    file = os.open(os.path.join(TRACES, name), os.O_WRONLY | flags)
    os.write(file, text.encode())
    os.close(file)


def place_of_round(program):
    """Where in the file of a program the function of a round begins."""
    symbols = subprocess.run(["nm", "-C", program], capture_output=True, check=True, text=True).stdout
    address, = [int(line.split()[0], 16) for line in symbols.splitlines() if ROUND in line]
    headers = subprocess.run(["readelf", "-lW", program], capture_output=True, check=True, text=True).stdout
    for line in headers.splitlines():
        words = line.split()
        if words[:1] == ["LOAD"]:
            offset, start, _, size = (int(word, 16) for word in words[1:5])
            if start <= address < start + size:
                return address - start + offset
    sys.exit(f"{program} has no round")


def probe(programs):
    """Sets probes at the rounds of the programs, in place of those set before."""
    if not os.path.exists(os.path.join(TRACES, "uprobe_events")):
        subprocess.run(["mount", "-t", "tracefs", "nodev", TRACES], check=True)
    unprobe()
    for at, program in enumerate(programs):
        place = f"{program}:{place_of_round(program):#x}"
        write("uprobe_events", f"p:{GROUP}/begin{at} {place}\n", os.O_APPEND)
        write("uprobe_events", f"r:{GROUP}/end{at} {place}\n", os.O_APPEND)
    write("trace_clock", "mono")
    write(f"events/{GROUP}/enable", "1")


def unprobe():
    """Takes the probes away."""
    if os.path.exists(os.path.join(TRACES, "events", GROUP)):
        write(f"events/{GROUP}/enable", "0")
        write("uprobe_events", f"-:{GROUP}/\n", os.O_APPEND)


def rounds_of(program, files, workers, runs):
    """For each of so many runs side by side, the milliseconds of all rounds but the first."""
    write("trace", "")
    command = [program, "route", *files, str(ROUNDS), "--workers", str(workers)]
    started = [subprocess.Popen(command, stdout=subprocess.DEVNULL, stderr=subprocess.DEVNULL) for _ in range(runs)]
    if any(run.wait() != 0 for run in started):
        sys.exit(f"{command} failed")
    with open(os.path.join(TRACES, "trace")) as trace:
        events = [found.groups() for found in map(EVENT.search, trace) if found]
    return [sum(times[1:]) for times in rounds_by_thread(events).values()]


def rounds_by_thread(events):
    """The milliseconds of each round, by the thread that made it."""
    begun, times = {}, {}
    for thread, seconds, name in events:
        if name == "begin":
            begun[thread] = float(seconds)
        else:
            times.setdefault(thread, []).append((float(seconds) - begun[thread]) * 1e3)
    return times


def line(name, times, four):
    """Median, mean and least of some times, and their ratios to those of four workers."""
    kinds = (statistics.median, statistics.mean, min)
    cells = " ".join(f"{kind(times):7.0f} ({kind(times) / kind(four):.2f})" for kind in kinds)
    return f"  {name:<24} {cells}"


def main():
    parser = argparse.ArgumentParser(description="Times the rounds alone of built programs.")
    parser.add_argument("--runs", type=int, default=10, help="how often each is run")
    parser.add_argument("programs", metavar="PROGRAM", nargs="*", type=os.path.abspath)
    given = parser.parse_args()
    programs = given.programs or [os.path.abspath(ROUTER)]
    ways = [("one worker alone", 1, 1), ("one beside three runs", 1, WORKERS), ("four workers", WORKERS, 1)]
    times = {(program, name): [] for program in programs for name, _, _ in ways}
    with tempfile.TemporaryDirectory() as folder:
        files = [os.path.join(folder, name) for name in ("design", "library")]
        for path, text in zip(files, (made(*SHARED), library(SHARED[2]))):
            with open(path, "w") as file:
                file.write(text)
        probe(programs)
        for _ in range(given.runs):
            for name, workers, runs in ways:
                for program in programs:
                    times[program, name].append(statistics.mean(rounds_of(program, files, workers, runs)))
        unprobe()
    print("milliseconds of rounds 1 to 5 (times those of four workers): median, mean, least")
    for program in programs:
        print(program)
        for name, _, _ in ways:
            print(line(name, times[program, name], times[program, ways[-1][0]]))


if __name__ == "__main__":
    main()
