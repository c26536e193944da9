#!/usr/bin/env python3
"""Compares two routers on mutations of texts: reference/mutate.py PROGRAM --beside OTHER [--count N] [--seed S]

A random small design, a library for it and routes of it are written, one of the texts is changed in up to four places,
and a command is run on them by both programs. Ten cases share the texts that they change. Tokens are dropped, doubled,
exchanged, copied, replaced and grown to the limits, bytes are flipped, put in and taken out, texts are cut anywhere.
Status, standard output and standard error are compared byte for byte. Texts on which the two differ are kept in the
folder --keep. A case is made from its number, so that it can be run again alone: --seed NUMBER --count 1. The last line
is `N passed, M failed`. A run that takes over 60 seconds is stopped, and its case fails.
"""
import argparse
import json
import os
import random
import select
import signal
import sys
import tempfile
import time

from compare import design, library
from design import read_design
from route import FILES

LIMITS = (
    "0 1 -1 -0 01 16 17 32 33 1000 1001 999999 1000000 1000001 8388607 8388608 8388609 4194304 4194305 16777216 "
    "16777217 2147483646 2147483647 2147483648 4294967295 4294967296 1099511627776 1099511627777 -1099511627776 "
    "17592186044416 17592186044417 -17592186044416 1125899906842624 1125899906842625 -1125899906842624 "
    "9223372036854775807 9223372036854775808 -9223372036854775808 18446744073709551615 18446744073709551616 "
    "340282366920938463463374607431768211456 99999999999999999999999999999999999999999999999999 - + 1x 0x1 1.0 1e3"
).encode().split()
WORDS = (
    "grid vertical horizontal capacity minimum width spacing via num net library wire driver sink kind inverter block "
    "drive pin flip end ! ( ) (5,5,1)-(5,5,1) (5,5,1)-(15,5,1) (5,5,1)-(5,15,1) (5,5,1)-(5,5,2) (5,5,1)-(15,15,1) "
    "(-1,5,1)-(5,5,1) (5,5,0)-(5,5,1) (5,5,1)(5,5,1) (5,5,1)-(5,5,1)x (5,5,1)--(5,5,1) ((5,5,1)-(5,5,1) (,,)-(,,) "
    "(5,5,2147483648)-(5,5,1) (17592186044417,5,1)-(5,5,1) (05,-0,01)-(5,5,1) a\x00b \x7f \xff"
).encode().split()
BLANKS = (b" ", b"\n", b"\r\n", b"\t", b"  \n\n ", b"\x0b", b"\x0c", b"\xc2\xa0", b"")
SECONDS = 60
SHARED = 10


def pick(rng, tokens):
    return rng.randrange(len(tokens))


def drop(rng, tokens):
    """From one place on, one token or a few."""
    at = pick(rng, tokens)
    del tokens[at : at + rng.choice([1, 1, 1, 2, 3, 10])]


def double(rng, tokens):
    at = pick(rng, tokens)
    tokens[at:at] = tokens[at : at + rng.choice([1, 1, 3, 6, 20])]


def exchange(rng, tokens):
    one, two = pick(rng, tokens), pick(rng, tokens)
    tokens[one], tokens[two] = tokens[two], tokens[one]


def copy(rng, tokens):
    tokens[pick(rng, tokens)] = tokens[pick(rng, tokens)]


def grow(rng, tokens):
    tokens[pick(rng, tokens)] = rng.choice(LIMITS)


def put_word(rng, tokens):
    tokens[pick(rng, tokens)] = rng.choice(WORDS)


def insert(rng, tokens):
    tokens.insert(rng.randrange(len(tokens) + 1), rng.choice(LIMITS + WORDS))


def step(rng, tokens):
    """A number one greater or less."""
    at = pick(rng, tokens)
    if tokens[at].lstrip(b"-").isdigit():
        tokens[at] = str(int(tokens[at]) + rng.choice([-1, 1])).encode()


BY_TOKEN = (drop, double, exchange, copy, grow, grow, put_word, insert, step, step)


def flip(rng, text):
    at = rng.randrange(len(text))
    return text[:at] + bytes([text[at] ^ (1 << rng.randrange(8))]) + text[at + 1 :]


def cut(rng, text):
    return text[: rng.randrange(len(text))]


def put_byte(rng, text):
    at = rng.randrange(len(text) + 1)
    return text[:at] + rng.choice(BLANKS + (bytes([rng.randrange(256)]),)) + text[at:]


def take_byte(rng, text):
    at = rng.randrange(len(text))
    return text[:at] + text[at + 1 :]


BY_BYTE = (flip, cut, put_byte, take_byte)


def mutated(rng, text):
    """A text changed in one to four places."""
    for _ in range(rng.choice([1, 1, 1, 2, 4])):
        if rng.random() < 0.7:
            tokens = text.split()
            if tokens:
                rng.choice(BY_TOKEN)(rng, tokens)
            text = rng.choice([b" ", b"\n", b"\r\n", b"\t"]).join(tokens)
        elif text:
            text = rng.choice(BY_BYTE)(rng, text)
    return text


def plain(layers):
    """A library of plain wires."""
    wires = "".join(f"wire {layer} 100 100\n" for layer in range(1, layers + 1))
    return f"library 1\n{wires}via 10 10\ndriver 100\nsink 10 0\nkind mid 10 100 20000\nend\n".encode()


def case(number, texts):
    """The words of a case, with names in place of texts, and its texts: these ones, of which one is changed."""
    rng = random.Random(f"case {number}")
    command = rng.choice(list(FILES))
    held = {name: texts[name] for name in FILES[command]}
    changed = rng.choice(FILES[command])
    held[changed] = mutated(rng, held[changed])
    return [command, *held, *([str(rng.randint(0, 2))] if command == "route" else [])], held


class Program:
    """A program, and files for its streams."""

    def __init__(self, path, folder, name):
        self.path = path
        self.files = [os.path.join(folder, f"{name}.{stream}") for stream in ("out", "err")]
        self.streams = [os.open(path, os.O_RDWR | os.O_CREAT, 0o600) for path in self.files]

    def start(self, words):
        for stream in self.streams:
            os.ftruncate(stream, 0)
            os.lseek(stream, 0, os.SEEK_SET)
        copies = [(os.POSIX_SPAWN_DUP2, stream, number) for stream, number in zip(self.streams, (1, 2))]
        return os.posix_spawn(self.path, [self.path, *words], os.environ, file_actions=copies)

    def ended(self, process):
        """What the process left, or that it didn't end in time."""
        waiting = os.pidfd_open(process)
        in_time = select.select([waiting], [], [], SECONDS)[0]
        os.close(waiting)
        if not in_time:
            os.kill(process, signal.SIGKILL)
        status = os.waitstatus_to_exitcode(os.waitpid(process, 0)[1])
        streams = [os.pread(stream, os.fstat(stream).st_size, 0) for stream in self.streams]
        return (status if in_time else "no end"), *streams


class Trial:
    """The two programs, the folder of the texts of a case, and how many cases passed and failed."""

    def __init__(self, words, folder):
        self.folder, self.keep = folder, words.keep
        self.programs = [Program(words.program, folder, "one"), Program(words.beside, folder, "other")]
        self.passed, self.failed, self.statuses = 0, 0, {}
        self.group, self.texts = None, {}

    def put(self, words, texts):
        """The words with the paths of these texts in place of their names."""
        for name, text in texts.items():
            with open(os.path.join(self.folder, name), "wb") as file:
                file.write(text)
        return [os.path.join(self.folder, word) if word in texts else word for word in words]

    def whole_texts(self, group):
        """What the cases of a group change: a design, a library for it, and routes of it by the other program."""
        if group != self.group:
            rng = random.Random(group)
            text = design(rng)
            d = read_design(text)
            other = self.programs[1]
            line = self.put(["route", "design", "plain", "0"], {"design": text, "plain": plain(d.L)})
            routes = other.ended(other.start(line))[1]
            self.group, self.texts = group, {"design": text, "library": library(rng, d), "solution": routes}
        return self.texts

    def run(self, number):
        words, held = case(number, self.whole_texts(number // SHARED))
        line = self.put(words, held)
        processes = [program.start(line) for program in self.programs]
        one, other = (program.ended(process) for program, process in zip(self.programs, processes))
        self.statuses[one[0]] = self.statuses.get(one[0], 0) + 1
        if one == other:
            self.passed += 1
        else:
            self.failed += 1
            self.report(number, words, held, one, other)

    def report(self, number, words, held, one, other):
        print(f"case {number}: {' '.join(words)}: {str(one)[:200]} beside {str(other)[:200]}", flush=True)
        for name, text in held.items():
            with open(os.path.join(self.keep, f"{number}.{name}"), "wb") as file:
                file.write(text)


def share(words, first, count, answer):
    """Runs so many cases, and writes how many passed and failed, and how often each status came."""
    with tempfile.TemporaryDirectory(dir="/dev/shm") as folder:
        trial = Trial(words, folder)
        for number in range(first, first + count):
            trial.run(number)
    os.write(answer, f"{trial.passed} {trial.failed} {json.dumps(trial.statuses)}\n".encode())


def shared_out(words):
    """Each process's part of the cases, and what each answered."""
    reading, writing = os.pipe()
    most = -(-words.count // words.jobs)
    for first in range(words.seed, words.seed + words.count, most):
        if os.fork() == 0:
            share(words, first, min(most, words.seed + words.count - first), writing)
            os._exit(0)
    os.close(writing)
    with os.fdopen(reading) as answers:
        return answers.read().splitlines()


def arguments():
    parser = argparse.ArgumentParser(description=__doc__, formatter_class=argparse.RawDescriptionHelpFormatter)
    parser.add_argument("program")
    parser.add_argument("--beside", required=True, metavar="OTHER")
    parser.add_argument("--count", type=int, default=1000)
    parser.add_argument("--seed", type=int, default=1, help="the number of the first case")
    parser.add_argument("--jobs", type=int, default=1, help="how many processes share the cases")
    parser.add_argument("--keep", default=".", help="the folder for texts on which the two differ")
    words = parser.parse_args()
    words.program, words.beside = os.path.abspath(words.program), os.path.abspath(words.beside)
    return words


def main():
    words = arguments()
    begun = time.monotonic()
    passed, statuses = 0, {}
    for answer in shared_out(words):
        one, _, counts = answer.split(maxsplit=2)
        passed += int(one)
        for status, count in json.loads(counts).items():
            statuses[status] = statuses.get(status, 0) + count
    print(f"statuses {statuses}, {words.count / (time.monotonic() - begun):.0f} cases a second")
    print(f"{passed} passed, {words.count - passed} failed")
    return 0 if passed == words.count else 1


if __name__ == "__main__":
    sys.exit(main())
