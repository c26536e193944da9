#!/usr/bin/env python3
"""Runs a built router on worked rows: reference/rows.py PROGRAM

These are the rows of router_rows that say `run` or `brief` and want no device and no gate: their texts become files of a
folder, in which the program is called with the row's words. What comes is compared with what router_rows has to write
of it: the status, standard output and standard error, of a brief row the status and the report's first five numbers.
The book isn't seen. The last line is `N passed, M failed`.
"""
import os
import sys
import tempfile

from running import run

HERE = os.path.dirname(os.path.abspath(__file__))
ROWS = os.path.join(HERE, "..", "crates", "router_rows")
MOST_PRINTED = 2000     # bytes of a text that is printed whole
NUMBERS = 5             # lines of a report that a brief row shows
TOLD = ("status ", "out ", "err ", "| ")


def lines_of(name):
    """The lines of one of router_rows' texts."""
    with open(os.path.join(ROWS, name), encoding="utf-8") as file:
        return file.read().splitlines()


class Bench:
    """The texts that stand under their names, as files of a folder, and the rows so far."""

    def __init__(self, program, folder):
        self.program, self.folder = program, folder
        self.name, self.is_ample, self.runs = "", True, {}

    def add(self, part):
        """Adds to the text that was begun last."""
        with open(os.path.join(self.folder, self.name), "ab") as file:
            file.write(part.encode())

    def carry_out(self, line):
        """Does what a line of standard input asks for."""
        command, _, rest = line.partition(" ")
        if command == "text":
            self.name = rest
            with open(os.path.join(self.folder, rest), "wb"):
                pass
        elif command in ("|", "crlf", "&"):
            self.add(rest + {"|": "\n", "crlf": "\r\n", "&": ""}[command])
        elif command == "times":
            times, _, part = rest.partition(" ")
            self.add(int(times) * part)
        elif command in ("set", "ample"):
            self.is_ample = command == "ample"
        elif command in ("run", "brief") and self.is_ample:
            self.runs.setdefault(line, []).append((command, run(self.program, rest.split())))
        elif command in ("run", "brief"):
            self.runs.setdefault(line, []).append(None)


def told_of(command, left):
    """What router_rows prints of a run, but the book."""
    status, out, err = left
    if command == "brief":
        numbers = [*err.decode().split("\n"), *[""] * NUMBERS][:NUMBERS] if err else [""]
        return [f"status {status}", *(f"| {line}" for line in numbers)]
    told = [f"status {status}"]
    for name, text in (("out", out), ("err", err)):
        told.append(f"{name} {len(text)}")
        if 0 < len(text) <= MOST_PRINTED:
            told += [f"| {line}" for line in text.decode().removesuffix("\n").split("\n")]
    return told


def wanted_rows():
    """Each row of standard output with what has to follow it, in order."""
    lines, at = lines_of("stdout"), 0
    while at < len(lines):
        line, told = lines[at], []
        at += 1
        if line.startswith(("run", "brief")):
            while at < len(lines) and lines[at].startswith(TOLD):
                told.append(lines[at])
                at += 1
            yield line, told


def main():
    if len(sys.argv) != 2:
        sys.exit(__doc__)
    passed = failed = 0
    rows = wanted_rows()
    program, here = os.path.abspath(sys.argv[1]), os.getcwd()
    with tempfile.TemporaryDirectory() as folder:
        bench = Bench(program, folder)
        os.chdir(folder)
        for line in lines_of("stdin"):
            bench.carry_out(line)
        os.chdir(here)
    for line, wanted in rows:
        done = bench.runs[line].pop(0)
        if done is None:
            continue
        if told_of(*done) == wanted:
            passed += 1
        else:
            failed += 1
            print("differs:", line)
    print(f"{passed} passed, {failed} failed")
    return 1 if failed else 0


if __name__ == "__main__":
    sys.exit(main())
