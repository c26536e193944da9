#!/usr/bin/env python3
"""Measures what a built router takes for texts that name more than they hold: reference/memory.py PROGRAM

Each text names the greatest count or size that there may be at one place, and then ends or is at fault. Printed are the
bytes of the texts, the status, the least address space with which it comes, beyond that of a run without words, and the
time, least of five runs; then the same for texts that hold what they name, and for a blocked tile of a great grid.
Address space also counts memory that was asked for and never touched. The last line is `N passed, M failed`: a row of
the first kind passes where its address space is at most ten times its bytes and 512 KiB more.
"""
import argparse
import os
import sys
import tempfile
import time

from hostile import A, B
from refused import PAGE, least, limited
from running import Folder, run

RUNS = 5
ROOM_KIB = 512
TIMES = 10
GREAT = (b"grid 8388608 1 1 vertical capacity 0 horizontal capacity 1 minimum width 1 minimum spacing 1 via spacing 1 "
         b"0 0 10 10 num net 0 ")
ONE_LAYER = b"library 2 wire 1 1 1 via 1 1 driver 1 sink 1 1 "


def seconds(program, words):
    """The time of a run whose streams go nowhere."""
    with open("/dev/null", "wb") as nowhere:
        streams = [(os.POSIX_SPAWN_DUP2, nowhere.fileno(), number) for number in (1, 2)]
        begun = time.monotonic()
        os.waitpid(os.posix_spawn(program, [program, *words], os.environ, file_actions=streams), 0)
        return time.monotonic() - begun


def measured(program, words):
    """Status, the least address space in KiB with which all comes as it does with more, and the time."""
    whole = run(program, words)
    space = least(lambda limit: limited(program, words, limit) == whole) * PAGE // 1024
    return whole[0], space, min(seconds(program, words) for _ in range(RUNS))


def named(head, *rest):
    """Texts of a route that ends in the design: a first part of a small design's tokens, and what follows it."""
    return [b" ".join(A.split()[:head] + [word.encode() for word in rest]), B]


def refused():
    """The name of a row, its command, and its texts."""
    return [
        ("columns", "route", named(1, "8388608")),
        ("rows", "route", named(1, "1", "8388608")),
        ("layers", "route", named(1, "1", "1", "16")),
        ("cells", "route", [b"grid 2048 256 16 vertical capacity", B]),
        ("nets", "route", named(30, "4194304")),
        ("pins of a net", "route", named(33, "16777216", "1")),
        ("pins, and one of them", "route", named(33, "16777216", "1", "5", "5", "1")),
        ("adjustments", "route", named(41, "16777216")),
        ("an id", "route", named(32, "2147483647")),
        ("a number of 100,000 digits", "route", named(1, "9" * 100000)),
        ("blanks, and no token", "route", [b" " * 1000000, B]),
        ("cells, and a fault in the library", "route", [GREAT, b"library 2 x"]),
        ("a layer of a library", "route", [A, b"library 1 wire 2147483647 1 1"]),
        ("a sink of a library", "route", [A, b"library 2 pin 0 16777216 1 1"]),
        ("an id of a solution", "evaluate", [A, b"a 2147483647"]),
        ("the number behind an id", "evaluate", [A, b"a 0 2147483647"]),
        ("a segment's ends", "evaluate", [A, b"a 0 (17592186044416,5,1)-(5,17592186044416,2147483647)"]),
        ("cells, and a fault in the solution", "evaluate", [GREAT, b"a 0"]),
    ]


def others():
    """Texts that hold what they name, and a blocked tile, which takes a byte for each tile of the design's grid."""
    nets = 100000
    lines = b"".join(b"n%d %d 2 1\n5 5 1\n25 15 1\n" % (net, net) for net in range(nets))
    head = A[: A.index(b"num net")]
    many = head + b"num net %d\n" % nets + lines
    return [("100,000 nets", "evaluate", [many, b""]), ("100,000 nets, and a fault", "route", [many + b"0 x", B]),
            ("cells, and a blocked tile of them", "route", [GREAT, ONE_LAYER + b"block 8388607 0 x"]),
            ("cells", "evaluate", [GREAT, b""])]


def row(program, texts, base, name, command, held):
    """Prints a row; the answer is whether its address space is bounded by its bytes."""
    words = [command, *(texts.put(text) for text in held), *(["0"] if command == "route" else [])]
    status, space, time_taken = measured(program, words)
    size = sum(len(text) for text in held)
    print(f"| {name} | {command} | {size} | {status} | {space - base} | {time_taken * 1000:.1f} |", flush=True)
    return (space - base) * 1024 <= TIMES * size + ROOM_KIB * 1024


def main():
    parser = argparse.ArgumentParser(description=__doc__, formatter_class=argparse.RawDescriptionHelpFormatter)
    parser.add_argument("program")
    program = os.path.abspath(parser.parse_args().program)
    with tempfile.TemporaryDirectory() as folder:
        texts = Folder(folder)
        status, base, time_taken = measured(program, [])
        print("| what is named | command | bytes | status | KiB more | milliseconds |\n|---|---|---|---|---|---|")
        print(f"| no words | | 0 | {status} | {base} in all | {time_taken * 1000:.1f} |")
        bounded = [row(program, texts, base, *case) for case in refused()]
        for case in others():
            row(program, texts, base, *case)
    print(f"{sum(bounded)} passed, {len(bounded) - sum(bounded)} failed")
    return 0 if all(bounded) else 1


if __name__ == "__main__":
    sys.exit(main())
