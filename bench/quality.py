#!/usr/bin/env python3
"""How good routes are: bench/quality.py PROGRAM BOUNDS DESIGN LIBRARY [DESIGN LIBRARY ..]

Routes each design by the rules `first`, `steep` and `near`, by one worker and with `--batch 64` by four, and prints a
table: the overflow after eight rounds, or after how many there is none, wire edges over the sum of the nets' half
perimeters, vias a pin; and what `grbound` proves: the least overflow, and of one worker's wirelength how many per cent
no routes along usable edges can do without. Designs that end in .xz are unpacked.
"""
import argparse
import lzma
import os
import subprocess
import sys
import tempfile

MOST_ROUNDS = 8
MOST_PINS = 1000
RULES = ["first", "steep", "near"]
HEAD = """| design | proved | rule | one worker: overflow, wire, vias | batches of 64, four workers |
|---|---|---|---|---|
"""


class Design:
    """A design's text as a file, the sum of its routed nets' half perimeters in tiles, and their pins."""

    def __init__(self, path: str, folder: str) -> None:
        self.name = os.path.basename(path).split(".")[0]
        with (lzma.open if path.endswith(".xz") else open)(path, "rb") as file:
            text = file.read()
        self.path = os.path.join(folder, f"{self.name}.ispd")
        with open(self.path, "wb") as file:
            file.write(text)
        self.half, self.pins = measured(text.split())


def measured(tokens: list[bytes]) -> tuple[int, int]:
    """The sum of half perimeters of a design's routed nets, and their pins."""
    at = tokens.index(b"num")
    left, low, width, height = map(int, tokens[at - 4:at])
    nets, at = int(tokens[at + 2]), at + 3
    half = pins = 0
    for _ in range(nets):
        count, at = int(tokens[at + 2]), at + 4
        points = tokens[at:at + 3 * count]
        at += 3 * count
        if 1 <= count <= MOST_PINS:
            columns = [(int(x) - left) // width for x in points[::3]]
            rows = [(int(y) - low) // height for y in points[1::3]]
            half += max(columns) - min(columns) + max(rows) - min(rows)
            pins += count
    return half, pins


def totals(words: list[str]) -> dict[str, int]:
    """The totals that a run reports."""
    done = subprocess.run(words, check=True, stdout=subprocess.DEVNULL, stderr=subprocess.PIPE, text=True)
    return {name: int(number) for name, number in map(str.split, done.stderr.splitlines()[:5])}


def told(program: str, design: Design, library: str, options: list[str]) -> tuple[str, int]:
    """The overflow that is left, after how many rounds, and the wires and vias then; the wirelength."""
    def after(rounds: int) -> dict[str, int]:
        return totals([program, "route", design.path, library, str(rounds), *options])

    found, rounds = after(MOST_ROUNDS), MOST_ROUNDS
    while found["overflow"] == 0 and rounds and (less := after(rounds - 1))["overflow"] == 0:
        found, rounds = less, rounds - 1
    wires = found["wirelength"] - found["vias"]
    says = f"{found['overflow']:,} after {rounds}; {wires / design.half:.3f}; {found['vias'] / design.pins:.2f}"
    return says, found["wirelength"]


def main() -> int:
    """Prints the table."""
    parser = argparse.ArgumentParser(description=__doc__, formatter_class=argparse.RawDescriptionHelpFormatter)
    parser.add_argument("program")
    parser.add_argument("bounds")
    parser.add_argument("files", nargs="+", metavar="DESIGN LIBRARY")
    asked = parser.parse_args()
    sys.stdout.write(HEAD)
    with tempfile.TemporaryDirectory() as folder:
        for path, library in zip(asked.files[::2], asked.files[1::2]):
            design = Design(path, folder)
            done = subprocess.run([asked.bounds, design.path], check=True, capture_output=True, text=True)
            overflow, _, along = (int(line.split()[-1]) for line in done.stdout.splitlines()[:3])
            for rule in RULES:
                alone, length = told(asked.program, design, library, ["--rule", rule])
                batched, _ = told(asked.program, design, library, ["--rule", rule, "--batch", "64", "--workers", "4"])
                proved = f"{overflow:,}; {100 * along / length:.0f} %"
                print(f"| {design.name} | {proved} | `{rule}` | {alone} | {batched} |", flush=True)
    return 0


if __name__ == "__main__":
    sys.exit(main())
