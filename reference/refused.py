#!/usr/bin/env python3
"""Runs a built router with ever less memory: reference/refused.py PROGRAM [--steps N]

The address space of the process is limited, in N steps (64 where nothing is said) from the least limit with which the
program begins to the least with which it does all, and in as many from there to 256 MiB, where threads get stacks. Each
run has to end with 0 and the right texts, or with 8 and a first part of the right text on standard output. What comes
below the least limit is printed, and comes from the system, which then can't start the program. The last line is
`N passed, M failed`.
"""
import argparse
import os
import resource
import sys
import tempfile

from hostile import A, B, E, E_REPORT, E_ROUTES, LOOSE, MID, JUDGED, ROUTED
from running import Folder, lines, run

MOST = 1 << 32
AMPLE = 1 << 28
PAGE = 4096
CROWDED = lines("grid 2 2 1 / vertical capacity 4 / horizontal capacity 2 / minimum width 1 / minimum spacing 1 / "
                "via spacing 1 / 0 0 10 10 / num net 2 / a 0 2 1 / 5 5 1 / 15 5 1 / b 1 2 1 / 5 5 1 / 15 5 1")
D = lines("library 1 wire 1 100 100 via 0 0 driver 100 sink 10 0 end")
DETOUR = "(5,15,1)-(15,15,1) / (5,5,1)-(5,15,1) / (15,5,1)-(15,15,1)"
ALONG = "(5,5,1)-(15,5,1)"
# Which of the two nets makes way depends on the threads.
CROWDED_ROUTES = [lines(f"a 0 / {one} / ! / b 1 / {other} / !") for one, other in ((DETOUR, ALONG), (ALONG, DETOUR))]
CROWDED_NUMBERS = lines("routed 2 / overflow 0 / maximum 0 / wirelength 4 / vias 0")
MADE = ["make", "7", "32", "32", "6", "2000"]
NO_MEMORY = b"groute: out of memory\n"


class Trial:
    """A command with its words, the texts that are right on standard output, and what begins the right one on error."""

    def __init__(self, name, words, outs, err):
        self.name, self.words, self.outs, self.err = name, words, outs, err

    def is_done(self, got):
        return got[0] == 0 and (got[1] in self.outs or not self.outs) and got[2].startswith(self.err)

    def is_right(self, got):
        """All was done, or memory was wanting and what was written is a first part."""
        status, out, err = got
        if status != 8:
            return self.is_done(got)
        first_part = any(text.startswith(out) for text in self.outs) or not self.outs
        return first_part and err.endswith(NO_MEMORY)


def great(program, texts):
    """A made design, whose routes by one worker are those of a run with ample memory; by four they may be any."""
    wires = b"".join(b"wire %d 100 100\n" % layer for layer in range(1, 7))
    made = texts.put(run(program, MADE)[1])
    words = ["route", made, texts.put(b"library 1\n" + wires + b"via 10 10 driver 100 sink 10 0 end\n"), "2"]
    _, out, err = run(program, words)
    return [
        Trial("a made design", words, [out], err),
        Trial("a made design by four workers", [*words, "--workers", "4"], [], b"routed"),
    ]


def trials(texts):
    a, b, e, mid, c, d = (texts.put(text) for text in (A, B, E, MID, CROWDED, D))
    routes, loose = texts.put(E_ROUTES), texts.put(LOOSE)
    buffers = E_REPORT[E_REPORT.index(b"buffers") :]
    return [
        Trial("route", ["route", a, b, "0"], [ROUTED[1]], ROUTED[2]),
        Trial("route by two workers", ["route", c, d, "5", "--workers", "2"], CROWDED_ROUTES, CROWDED_NUMBERS),
        Trial("buffer", ["buffer", e, mid, routes], [buffers], b""),
        Trial("evaluate", ["evaluate", a, loose], [JUDGED[1]], b""),
    ]


def limited(program, words, limit):
    return run(program, words, limit=(resource.RLIMIT_AS, limit))


def least(holds):
    """The least number of pages for which this holds, if it holds from some number on."""
    low, high = 0, MOST // PAGE
    while low < high:
        middle = (low + high) // 2
        low, high = (low, middle) if holds(middle * PAGE) else (middle + 1, high)
    return low


def between(low, high, steps):
    """So many numbers from the low one to the high one."""
    return [low + (high - low) * at // (steps - 1) for at in range(steps)]


def tried(program, trial, steps):
    """How many steps passed and failed."""
    begins = least(lambda limit: limited(program, trial.words, limit)[0] in (0, 8))
    enough = least(lambda limit: trial.is_done(limited(program, trial.words, limit)))
    below = limited(program, trial.words, (begins - 1) * PAGE)
    statuses, failed = {}, 0
    limits = between(begins, enough, steps) + between(enough, AMPLE // PAGE, steps)
    for limit in limits:
        got = limited(program, trial.words, limit * PAGE)
        statuses[got[0]] = statuses.get(got[0], 0) + 1
        if not trial.is_right(got):
            failed += 1
            print(f"{trial.name}, {limit * PAGE} bytes: {str(got)[:300]}")
    print(f"{trial.name}: begins with {begins * PAGE // 1024} KiB, does all with {enough * PAGE // 1024} KiB, "
          f"statuses {statuses}; below that {below[0]} {below[2][:120]!r}")
    return len(limits) - failed, failed


def main():
    parser = argparse.ArgumentParser(description=__doc__, formatter_class=argparse.RawDescriptionHelpFormatter)
    parser.add_argument("program")
    parser.add_argument("--steps", type=int, default=64)
    words = parser.parse_args()
    passed, failed = 0, 0
    with tempfile.TemporaryDirectory() as folder:
        texts, program = Folder(folder), os.path.abspath(words.program)
        for trial in trials(texts) + great(program, texts):
            right, wrong = tried(program, trial, words.steps)
            passed, failed = passed + right, failed + wrong
    print(f"{passed} passed, {failed} failed")
    return 1 if failed else 0


if __name__ == "__main__":
    sys.exit(main())
