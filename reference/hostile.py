#!/usr/bin/env python3
"""Runs a built router on texts, files and streams that are made to break it: reference/hostile.py PROGRAM

What must come is worked out from the formats: written down here for worked rows, and by the slow router of this folder
for each first part of a text. Status, standard output and standard error are compared byte for byte. The last line is
`N passed, M failed`. Files without rights are tried as another user, which only root can do.
"""
import argparse
import os
import resource
import shutil
import sys
import tempfile

from route import buffer_command, evaluate_command, route_command
from running import Folder, lines, run

A = lines("grid 3 2 2 / vertical capacity 0 4 / horizontal capacity 4 0 / minimum width 1 1 / minimum spacing 1 1 / "
          "via spacing 1 1 / 0 0 10 10 / num net 1 / a 0 2 1 / 5 5 1 / 25 15 1")
B = lines("library 1 wire 1 100 100 wire 2 100 100 via 0 0 driver 100 sink 10 0 end")
E = lines("grid 5 1 1 / vertical capacity 0 / horizontal capacity 4 / minimum width 1 / minimum spacing 1 / "
          "via spacing 1 / 0 0 10 10 / num net 1 / a 0 2 1 / 5 5 1 / 45 5 1")
MID = lines("library 1 wire 1 100 100 via 0 0 driver 100 sink 10 0 kind mid 10 100 20000 end")
ROUTES = lines("a 0 / (5,5,1)-(25,5,1) / (25,5,2)-(25,15,2) / (25,5,1)-(25,5,2) / (25,15,1)-(25,15,2) / !")
LOOSE = lines("a 0 4 / (5,5,1)-(25,5,1) / (15,5,1)-(25,5,1) / (1,1,1)-(9,9,1) / (25,5,1)-(25,5,2) / "
              "(25,5,2)-(25,15,2) / (25,15,2)-(25,15,1) / !")
NUMBERS = lines("routed 1 / overflow 0 / maximum 0 / wirelength 5 / vias 2")
BUFFERS = lines("buffers 0 / net a 0 required -158000 buffers 0")
E_REPORT = lines("routed 1 / overflow 0 / maximum 0 / wirelength 4 / vias 0 / "
                 "buffers 1 / net a 0 required -212000 buffers 1 / (25,5,1) mid")
E_ROUTES = lines("a 0 / (5,5,1)-(45,5,1) / !")
MADE = lines("grid 10 10 2 / vertical capacity 0 20 / horizontal capacity 20 0 / minimum width 1 1 / "
             "minimum spacing 1 1 / via spacing 1 1 / 0 0 10 10 / num net 1 / n0 0 2 1 / 95 65 1 / 95 55 1 / 0")
USAGE = (2, b"", b"groute: usage\n")
READ_FAILED = (6, b"", b"groute: a read failed\n")
ROUTED = (0, ROUTES, NUMBERS + BUFFERS)
JUDGED = (0, NUMBERS + lines("unjoined 0"), b"")
BUFFERED = (0, BUFFERS, b"")
MAKE = ["make", "1", "10", "10", "2", "1"]
TRIAL = ["trial", "1", "10", "10", "2", "1", "0"]
TRIED = (0, lines("routed 1 / overflow 0 / maximum 0 / wirelength 3 / vias 2"), b"")
MADE_TOLD = (0, MADE, lines("nets 1 / pins 2"))
NOBODY = 65534


class Hostile:
    """The router under trial, its texts, and how many trials passed and failed."""

    def __init__(self, program, folder):
        self.program, self.texts = program, Folder(folder)
        self.passed, self.failed = 0, 0

    def expect(self, name, got, want):
        if got == want:
            self.passed += 1
            return
        self.failed += 1
        print(f"{name}: {str(got)[:300]}, wanted {str(want)[:300]}")

    def check(self, name, words, want, **how):
        self.expect(name, run(self.program, words, **how), want)

    def commands(self):
        """Each command on files of its own: its name, its words, where its files stand, and what must come."""
        a, b, s = (self.texts.put(text) for text in (A, B, ROUTES))
        return [("route", ["route", a, b, "0"], [1, 2], ROUTED), ("evaluate", ["evaluate", a, s], [1, 2], JUDGED),
                ("buffer", ["buffer", a, b, s], [1, 2, 3], BUFFERED), ("make", MAKE, [], MADE_TOLD),
                ("trial", TRIAL, [], TRIED)]


def fault(status, text, number, token):
    return status, b"", f"groute: {text} fault {number} at token {token}\n".encode()


def pieces(trial):
    """Texts that come in small pieces, through pipes."""
    for size in (1, 7, 64):
        feed = lambda text, size=size: trial.texts.feed(text, size)
        trial.check(f"route, pieces of {size}", ["route", feed(A), feed(B), "0"], ROUTED)
        trial.check(f"evaluate, pieces of {size}", ["evaluate", feed(A), feed(LOOSE)], JUDGED)
        trial.check(f"buffer, pieces of {size}", ["buffer", feed(A), feed(B), feed(ROUTES)], BUFFERED)
        trial.check(f"a buffer, pieces of {size}", ["route", feed(E), feed(MID), "0"], (0, E_ROUTES, E_REPORT))


def first_parts(trial):
    """Each first part of each text of each command, as a file and, where it is cut short, as a pipe that ends early."""
    b, s = trial.texts.put(B), trial.texts.put(ROUTES)
    a = trial.texts.put(A)
    for end in range(len(A) + 1):
        part = trial.texts.put(A[:end])
        trial.check(f"design to {end}", ["route", part, b, "0"], route_command(A[:end], B, 0, 1))
        trial.check(f"judged design to {end}", ["evaluate", part, s], evaluate_command(A[:end], ROUTES, 1))
        trial.check(f"buffered design to {end}", ["buffer", part, b, s], buffer_command(A[:end], B, ROUTES))
    for end in range(len(B) + 1):
        part = trial.texts.put(B[:end])
        trial.check(f"library to {end}", ["route", a, part, "0"], route_command(A, B[:end], 0, 1))
        trial.check(f"buffered library to {end}", ["buffer", a, part, s], buffer_command(A, B[:end], ROUTES))
    for end in range(len(ROUTES) + 1):
        part = trial.texts.put(ROUTES[:end])
        trial.check(f"judged to {end}", ["evaluate", a, part], evaluate_command(A, ROUTES[:end], 1))
        trial.check(f"buffered to {end}", ["buffer", a, b, part], buffer_command(A, B, ROUTES[:end]))


def shrinking(trial):
    """Texts that end while they are read: pipes whose writer goes away."""
    b = trial.texts.put(B)
    for end in range(0, len(A), 13):
        words = ["route", trial.texts.feed(A[:end], 5), b, "0"]
        trial.check(f"a text that ends at {end} while it is read", words, route_command(A[:end], B, 0, 1))


def counts(trial):
    """Texts that name more than they hold, or more than there may be."""
    b = trial.texts.put(B)
    tokens = A.split()
    route = lambda text: ["route", trial.texts.put(text), b, "0"]
    trial.check("a number of twenty digits", route(b"grid 99999999999999999999 1 1"), fault(3, "design", 3, 2))
    trial.check("too many cells", route(b"grid 3000 3000 1"), fault(3, "design", 4, 4))
    trial.check("four million nets", route(b" ".join(tokens[:30] + [b"4194304"])), fault(3, "design", 1, 32))
    pins = A.replace(b"a 0 2 1", b"a 0 16777216 1")
    trial.check("sixteen million pins", route(pins), fault(3, "design", 1, 42))
    trial.check("sixteen million adjustments", route(A + b"16777216"), fault(3, "design", 1, 43))
    name = b"a" * 1000000
    told = ROUTED[1].replace(b"a 0", name + b" 0"), ROUTED[2].replace(b"net a", b"net " + name)
    trial.check("a name of a million letters", route(A.replace(b"a 0 2", name + b" 0 2")), (0, *told))
    many = A.replace(b"a 0 2 1\n5 5 1\n25 15 1\n", b"a 0 1001 1\n" + 1001 * b"5 5 1\n")
    none = lines("routed 0 / overflow 0 / maximum 0 / wirelength 0 / vias 0 / buffers 0")
    trial.check("a net of 1,001 pins", route(many), (0, b"", none))
    kinds = b"".join(b"kind k%d 1 1 1\n" % kind for kind in range(33))
    library = trial.texts.put(B.replace(b"end", kinds + b"end"))
    trial.check("33 kinds", ["route", trial.texts.put(A), library, "0"], fault(4, "library", 9, 19 + 5 * 32))


def words(trial):
    """Words that give no order, and such as give one."""
    a, b = trial.texts.put(A), trial.texts.put(B)
    for bad in (["route", a, b, "65"], ["route", a, b], ["route", a, b, "0", "--workers", "17"],
                ["route", a, b, "0", "--workers", "1", "--workers", "1"], ["rout", a, b, "0"], ["--help"], [],
                ["route", a, b, "0", "0"], ["route", a, b, "-1"], ["route", a, b, "0" * 21],
                ["make", "1", "1", "10", "2", "1"],
                ["make", "1", "2049", "10", "2", "1"], ["evaluate", a, b, "--workers", "1"], ["buffer", a, b],
                ["evaluate", a, b, "--via-cost", "1001"], ["route", a, b, "0", "--workers"],
                ["trial", "1", "10", "10", "2", "1000001", "0"], ["route", b"\xff\xfe", b, "0"],
                ["route", a, b, b"\xff"], [b"\xff"]):
        trial.check(f"words {bad[0] if bad else ''} {bad[3:]}", bad, USAGE)
    trial.check("options anywhere", ["route", "--workers=4", a, "--", b, "00"], ROUTED)
    trial.check("a via cost", ["evaluate", a, trial.texts.put(LOOSE), "--via-cost", "3"],
                (0, JUDGED[1].replace(b"wirelength 5", b"wirelength 9"), b""))


def files(trial):
    """Folders, missing files, and a file whose reads fail, in place of each file of each command."""
    folder = trial.texts.name()
    os.mkdir(folder)
    for name, line, places, _ in trial.commands():
        for place in places:
            for kind, path in (("a folder", folder), ("a missing file", folder + "/none"), ("an empty name", ""),
                               ("a file that can't be read", "/proc/self/mem")):
                trial.check(f"{name}, file {place} is {kind}", line[:place] + [path] + line[place + 1 :], READ_FAILED)


def rights(trial, folder):
    """A file that another user may not read, in place of each file of each command."""
    if os.getuid() != 0:
        print("files without rights: left out, as only root can be another user")
        return
    os.chmod(folder, 0o755)
    program = shutil.copy(trial.program, os.path.join(folder, "program"))
    os.chmod(program, 0o755)
    secret = trial.texts.put(A)
    os.chmod(secret, 0o600)
    for name, line, places, want in trial.commands():
        trial.expect(f"{name} by another user", run(program, line, user=NOBODY), want)
        for place in places:
            got = run(program, line[:place] + [secret] + line[place + 1 :], user=NOBODY)
            trial.expect(f"{name}, no right to file {place}", got, READ_FAILED)


def full(trial):
    """Standard output and error that take nothing, of each command: a full device, a closed pipe, a closed stream."""
    for name, line, _, (status, out, err) in trial.commands():
        for kind, broken in (("full", open_full), ("a closed pipe", open_closed)):
            with broken() as stream:
                wanted = (7, None, b"") if out else (status, None, err)
                trial.check(f"{name}, out is {kind}", line, wanted, out=stream)
            with broken() as stream:
                wanted = (7, out, None) if err else (status, out, None)
                trial.check(f"{name}, err is {kind}", line, wanted, err=stream)
    with open_full() as stream:
        trial.check("usage, err is full", [], (2, b"", None), err=stream)
    far = trial.texts.put(A.replace(b"25 15 1", b"31 15 1"))
    with open_full() as stream:
        trial.check("a fault, err is full", ["route", far, trial.texts.put(B), "0"], (3, b"", None), err=stream)


def open_full():
    return open("/dev/full", "wb")


def open_closed():
    """A pipe that nobody reads."""
    reading, writing = os.pipe()
    os.close(reading)
    return os.fdopen(writing, "wb")


def short(trial):
    """Standard output and error that take so many bytes and no more, of each command and for each such number."""
    for name, line, _, (_, out, err) in trial.commands():
        for room in range(len(out)):
            got = into_file(trial, line, "out", room)
            trial.expect(f"{name}, out takes {room} bytes", got, (7, out[:room], b""))
        for room in range(len(err)):
            got = into_file(trial, line, "err", room)
            trial.expect(f"{name}, err takes {room} bytes", got, (7, out, err[:room]))


def into_file(trial, line, stream, room):
    """What comes where one of the streams is a file that may have so many bytes."""
    path = trial.texts.name()
    with open(path, "wb") as file:
        status, out, err = run(trial.program, line, limit=(resource.RLIMIT_FSIZE, room), **{stream: file})
    with open(path, "rb") as file:
        written = file.read()
    os.remove(path)
    return (status, written, err) if stream == "out" else (status, out, written)


def main():
    parser = argparse.ArgumentParser(description=__doc__, formatter_class=argparse.RawDescriptionHelpFormatter)
    parser.add_argument("program")
    program = os.path.abspath(parser.parse_args().program)
    with tempfile.TemporaryDirectory() as folder:
        trial = Hostile(program, folder)
        for part in (pieces, first_parts, shrinking, counts, words, files, full, short):
            part(trial)
        rights(trial, folder)
    print(f"{trial.passed} passed, {trial.failed} failed")
    return 1 if trial.failed else 0


if __name__ == "__main__":
    sys.exit(main())
