#!/usr/bin/env python3
"""Replays the histories of rounds: reference/replay.py [--times N] [--share N] [--batch B] [DESIGN LIBRARY ROUNDS ..]

Each design (made ones where none is named) is routed by 1, 2, 4, 8 and 16 workers, each N times (20 where nothing is
said), by each rule and with each end of the rounds in turn: none, `still`, and as enough the overflow at the middle
mark of the run before; every other run begins from the routes of the run before, of which some are left out or damaged.
The program router_rows tells the history of its book. Each history is gone through entry
by entry with a book and plans that were written apart from the proved code:

- each reply is what a book of one caller answers at that point;
- marks are those of caller 0, claims and releases those of the workers;
- round 0 begins with a claim by worker 1 of each net that is kept, in the design's order, at any demand, for the part
  of the given tree that joins its pins, with its front at its own place; then each other routed net is claimed once,
  for a pattern plan at any demand, over all of these; in each later round each net on an
  edge over its capacity is released once and then claimed by the same worker, until it is booked, for plans of that
  round's margin, twice with room within capacity and then at any demand, and no other net is;
- each claim's tree is the plan over the demand and the marks of the first `front` entries, among which are all of
  its worker's own (of random designs each tree, of others one in `--share`);
- the rounds end at the first mark at which no net is due, as many were done as were asked for, or the overflow is what
  `--stop` waits for: at most the number that it names, or, for `still`, no less than at the mark before;
- the chosen part of the history ends with the first mark of least overflow, and the routes that were written are
  those that are booked there.

With --batch B the rounds go in batches of B nets, by each rule, and each entry is the one that is due: the nets of a
batch are released in the design's order and then claimed in it, for plans over what was there at the first claim; one
that finds no room is claimed for its plan then, and at last with any demand.
"""
import argparse
import itertools
import os
import random
import subprocess
import sys
import tempfile

import compare
from design import cell, edge, place, read_design, way
from route import FORMULAS, Book, cut, kept_routes, maze_plan, pattern_plan, stops
from solution import read_solution, solution_text
from workers import ROUTER, WORKERS, library, run

HERE = os.path.dirname(os.path.abspath(__file__))
PROGRAM = os.path.join(HERE, "..", "crates", "router_rows", "out", "router_rows")
# The words of made designs, and the rounds of each: the first has room, the second is crowded.
MADE = (("7 24 24 6 1200", 3), ("11 12 12 4 700", 4))
MARGIN = 4
LOST = 0.2      # the share of nets of given routes that are left out or damaged
SLACKS = (0, 0, None)
ENDS = (None, "still", "goal")
TIMEOUT = 600


class Wrong(Exception):
    """A rule that a history breaks."""


def check(holds, what):
    if not holds:
        raise Wrong(what)


class Asked:
    """How a design is to be routed: what ends the rounds is None, `still` or an overflow that is enough, and batches
    have so many nets, or None. `given` is the path of the routes to begin from, or None."""

    def __init__(self, rounds, workers, rule, stop, batch, given=None):
        self.rounds, self.workers, self.rule, self.stop, self.batch = rounds, workers, rule, stop, batch
        self.given = given

    def words(self):
        rule = [] if self.rule == "first" else ["--rule", self.rule]
        stop = [] if self.stop is None else ["--stop", str(self.stop)]
        batch = [] if self.batch is None else ["--batch", str(self.batch)]
        given = [] if self.given is None else ["--from=given"]
        return [str(self.rounds), "--workers", str(self.workers), *rule, *stop, *batch, *given]

    def kept(self, d):
        """By net the part that is kept of the given routes."""
        if self.given is None:
            return {}
        with open(self.given, "rb") as file:
            return kept_routes(d, read_solution(file.read(), d))


class Entry:
    """A line of a history: `NUMBER REPLY CALL`."""

    def __init__(self, d, line):
        words = iter(line.split())
        self.number = int(next(words))
        self.reply = next(words)
        self.told = None
        if self.reply == "full":
            low, name, demand = int(next(words)), next(words), int(next(words))
            self.told = (low, name), demand
        elif self.reply == "marked":
            self.told = int(next(words))
        self.call = next(words)
        if self.call != "mark":
            self.net = int(next(words))
        if self.call == "claim":
            self.read_claim(d, words)

    def read_claim(self, d, words):
        check(next(words) == "front", "form")
        self.front = int(next(words))
        self.kind = next(words)
        self.margin = int(next(words)) if self.kind == "maze" else None
        self.slack = None if next(words) == "any" else int(next(words))
        check(next(words) == "tree", "form")
        cells = [int(word) for word in words]
        self.nodes = list(zip(cells[::2], cells[1::2]))
        check(len({c for c, _ in self.nodes}) == len(self.nodes), "a tree has a cell twice")
        self.edges = {edge(*pair) for pair in self.nodes[1:]}


class Replay:
    """A book to which the entries of a history are added one after another, and taken back."""

    def __init__(self, d, rule):
        self.book = Book(d, rule)
        self.done = []

    def add(self, entry):
        """Adds an entry by the reply that it has; the answer is what is added, to be taken back."""
        book, gain = self.book, None
        if entry.reply == "claimed":
            book.claim(entry.net, entry.edges, None)
            gain = "booked", entry.net
        elif entry.reply == "released":
            gain = "freed", entry.net, book.booked[entry.net]
            book.release(entry.net)
        elif entry.reply == "marked":
            gain = "marked", dict(book.marks)
            book.mark()
        self.done.append((entry, gain))

    def back(self):
        """Takes the last entry back, and gives it."""
        entry, gain = self.done.pop()
        if gain is None:
            return entry
        if gain[0] == "booked":
            self.book.release(gain[1])
        elif gain[0] == "freed":
            self.book.claim(gain[1], gain[2], None)
        else:
            self.book.marks = gain[1]
        return entry

    def plan_at(self, entry):
        """The edges of a claim's plan over the first entries, as many as its front says."""
        later = []
        while len(self.done) > entry.front:
            later.append(self.back())
        if entry.margin is None:
            edges = pattern_plan(self.book, entry.net)
        else:
            edges = maze_plan(self.book, entry.net, entry.margin)
        for other in reversed(later):
            self.add(other)
        return edges


def first_full(d, book, entry):
    """The first edge of a claim's tree without room, and its demand; None where there is none."""
    for pair in entry.nodes[1:]:
        e = edge(*pair)
        if way(d, e) == "Up":
            continue
        demand = book.demand.get(e, 0)
        if demand + compare.route.need(d, entry.net, e) > compare.route.capacity(d, e) + entry.slack:
            return (e[0], way(d, e)), demand
    return None


def reply_of(d, book, entry):
    """What a book answers, and what it tells."""
    if entry.call == "mark":
        return "marked", sum(book.overs())
    if entry.call == "release":
        return ("released" if entry.net in book.booked else "not-booked"), None
    if entry.net in book.booked:
        return "taken", None
    full = None if entry.slack is None else first_full(d, book, entry)
    return ("claimed", None) if full is None else ("full", full)


def check_tree(d, entry):
    pins = [cell(d, *pin) for pin in d.nets[entry.net].pins]
    check(entry.nodes[0] == (pins[0], pins[0]), "a tree doesn't start at its driver")
    seen = set()
    for at, (c, parent) in enumerate(entry.nodes):
        check(at == 0 or parent in seen, "a node hangs on a later one")
        check(at == 0 or sum(abs(a - b) for a, b in zip(place(d, c), place(d, parent))) == 1, "cells are apart")
        seen.add(c)
    check(seen.issuperset(pins), "a pin is left out")


class Rounds:
    """The rules of the rounds, entry by entry."""

    def __init__(self, d, asked, share):
        self.d, self.asked, self.share = d, asked, share
        self.replay = Replay(d, asked.rule)
        self.kept = asked.kept(d)
        self.waiting = sorted(self.kept)        # kept nets that aren't claimed yet
        self.round, self.due, self.trying, self.own = 0, set(d.routed()) - set(self.kept), {}, {}
        self.overflows, self.lengths = [], []
        self.met, self.over, self.stopped = 0, False, False

    def go(self, at, entry):
        check(not self.over, "an entry behind the end")
        check(reply_of(self.d, self.replay.book, entry) == (entry.reply, entry.told), "a reply")
        if self.waiting:
            self.keep(at, entry)
        elif entry.call == "mark":
            self.mark(entry)
        else:
            check(1 <= entry.number <= self.asked.workers, "the number of a worker")
            self.release(entry) if entry.call == "release" else self.claim(at, entry)
        self.replay.add(entry)
        if entry.call == "mark":
            self.begin_round()
        self.own[entry.number] = at + 1

    def keep(self, at, entry):
        net = self.waiting.pop(0)
        check(entry.call == "claim" and (entry.number, entry.net) == (1, net), "a kept net out of turn")
        check(entry.kind == "given" and entry.slack is None and entry.reply == "claimed", "a claim of a kept net")
        check(entry.front == at, "the front of a kept net")
        check_tree(self.d, entry)
        check(entry.edges == self.kept[net], "the tree of a kept net")

    def mark(self, entry):
        check(entry.number == 0, "the number of a mark")
        check(self.is_done(), "a round ends before all its nets are done")
        self.overflows.append(entry.told)
        self.lengths.append(len(self.replay.done) + 1)

    def is_done(self):
        return not self.due and not self.trying

    def begin_round(self):
        self.due = set(self.replay.book.victims())
        may_go_on = bool(self.due) and self.round < self.asked.rounds
        self.stopped = may_go_on and stops(self.asked.stop, self.overflows)
        self.over = not may_go_on or self.stopped
        self.round += 1

    def release(self, entry):
        check(self.round > 0 and entry.number not in self.trying, "a release out of turn")
        check(entry.net in self.due, "a net that isn't due")
        self.due.remove(entry.net)
        self.trying[entry.number] = entry.net, 0

    def claim(self, at, entry):
        if self.round == 0:
            check(entry.net in self.due, "a net that isn't due")
            self.due.remove(entry.net)
            check(entry.kind == "pattern" and entry.slack is None and entry.reply == "claimed", "a first claim")
            check(entry.front >= len(self.kept), "a first claim that doesn't see all kept nets")
        else:
            net, tries = self.trying.pop(entry.number, (None, 0))
            check(net == entry.net, "a claim out of turn")
            check(entry.kind == "maze" and entry.margin == MARGIN * self.round, "a claim's kind")
            check(entry.slack == SLACKS[tries], "a claim's slack")
            check(entry.reply in ("claimed", "full"), "a claim's reply")
            if entry.reply == "full":
                self.trying[entry.number] = net, tries + 1
        check(self.own.get(entry.number, 0) <= entry.front <= at, "a front")
        self.plan(at, entry)

    def plan(self, at, entry):
        self.met += entry.front < at
        check_tree(self.d, entry)
        if at % self.share == 0:
            check(self.replay.plan_at(entry) == entry.edges, "a plan")

    def end(self, chosen, routes):
        check(self.over, "the rounds have no end")
        _, first = min(zip(self.overflows, self.lengths))
        check(chosen == first, "the chosen part")
        while len(self.replay.done) > chosen:
            self.replay.back()
        check(solution_text(self.d, self.replay.book.booked) == routes, "the routes")
        self.routes = dict(self.replay.book.booked)


class Batches(Rounds):
    """The rules of rounds in batches, by which it is known which entry comes next."""

    def __init__(self, d, asked, share):
        super().__init__(d, asked, share)
        self.calls, self.reply = self.round_calls(), None

    def round_calls(self):
        """The calls of a round, one after another: each its net and, of a claim, its margin, slack and front. The
        reply to each is sent in."""
        for nets in cut(sorted(self.due), self.asked.batch):
            for net in nets if self.round else ():
                yield "release", net
            front, margin = len(self.replay.done), MARGIN * self.round or None
            for net in nets:
                reply = yield "claim", net, margin, 0 if self.round else None, front
                if reply == "full":
                    again = len(self.replay.done)
                    reply = yield "claim", net, margin, 0, again
                if reply == "full":
                    yield "claim", net, margin, None, again + 1

    def next_call(self):
        """The call that is due, or None at the end of a round."""
        try:
            return self.calls.send(self.reply)
        except StopIteration:
            return None

    def is_done(self):
        return self.next_call() is None

    def begin_round(self):
        super().begin_round()
        self.calls, self.reply = self.round_calls(), None

    def release(self, entry):
        check(entry.number == 1 and self.next_call() == ("release", entry.net), "a release out of turn")
        self.reply = entry.reply

    def claim(self, at, entry):
        call = "claim", entry.net, entry.margin, entry.slack, entry.front
        check(entry.kind == ("maze" if self.round else "pattern"), "a claim's kind")
        check(entry.number == 1 and self.next_call() == call, "a claim out of turn")
        self.reply = entry.reply
        self.plan(at, entry)


# The most bytes that a run may write.
ROOM = 1 << 30


def held(name, path):
    """Lines that give the program the text of a file under a name."""
    with open(path, "rb") as file:
        return b"text %s\n" % name.encode() + b"".join(b"| " + line + b"\n" for line in file.read().splitlines())


def told(program, design, paths, asked):
    """The routes, the history's lines and the length of the chosen part of a run."""
    line = " ".join(["entries route design library", *asked.words()])
    given = b"" if asked.given is None else held("given", asked.given)
    texts = held("design", design) + held("library", paths) + given
    asked_for = texts + f"set room {ROOM}\n{line}\n".encode()
    done = subprocess.run([program], input=asked_for, capture_output=True, check=True, timeout=TIMEOUT)
    lines = done.stdout.split(b"\n")[1:]
    check(lines[-1] == b"" and lines[-2].startswith(b"chosen "), "a run has no history")
    first = max(at for at, text in enumerate(lines) if text.startswith(b"status "))
    check(lines[first] == b"status 0", "status")
    routes = b"".join(text + b"\n" for text in lines[:first])
    return routes, [text.decode() for text in lines[first + 1 : -2]], int(lines[-2].split()[1])


def replayed(program, design, paths, asked, share):
    """The rounds of a run, gone through."""
    with open(design, "rb") as file:
        d = read_design(file.read())
    routes, lines, chosen = told(program, design, paths, asked)
    rounds = (Rounds if asked.batch is None else Batches)(d, asked, share)
    for at, line in enumerate(lines):
        rounds.go(at, Entry(d, line))
    rounds.end(chosen, routes)
    return rounds


def made(router, folder):
    """The designs that a router makes, with their libraries and rounds."""
    for words, rounds in MADE:
        _, text, _ = run(router, "make", *words.split())
        yield *put(folder, words.replace(" ", "_"), text), str(rounds)


def put(folder, name, text):
    """The paths of a design with this text and of a library for it."""
    design = os.path.join(folder, name)
    with open(design, "wb") as file:
        file.write(text)
    with open(design + ".library", "w", encoding="ascii") as file:
        file.write(library(read_design(text).L))
    return design, design + ".library"


def random_designs(folder, count):
    """Small random designs, each of whose plans is compared."""
    for seed in range(count):
        yield *put(folder, f"random_{seed}", compare.design(random.Random(seed))), "4"


def less(design, routes, folder):
    """The path of these routes, of which some are left out or damaged."""
    rng = random.Random(len(routes))
    with open(design, "rb") as file:
        d = read_design(file.read())
    found = {net: edges if rng.random() >= LOST else compare.damaged(rng, d, net, edges)
             for net, edges in routes.items() if rng.random() >= LOST}
    path = os.path.join(folder, "given")
    with open(path, "wb") as file:
        file.write(solution_text(d, found))
    return path


def tried(program, design, paths, rounds, times, share, orders, batch, folder):
    """Replays runs by each number of workers; the count of those that break a rule."""
    faults, enough, routes = 0, 0, None
    for workers in WORKERS:
        entries, met, stopped, overflows = 0, 0, 0, []
        for rule, end in itertools.islice(orders, times):
            given = less(design, routes, folder) if routes is not None else None
            asked = Asked(int(rounds), workers, rule, enough if end == "goal" else end, batch, given)
            try:
                replay = replayed(program, design, paths, asked, share)
            except Wrong as wrong:
                faults += 1
                print(f"{design} {' '.join(asked.words())}: {wrong}")
                continue
            entries, met, stopped = entries + replay.lengths[-1], met + replay.met, stopped + replay.stopped
            overflows.append(min(replay.overflows))
            enough = replay.overflows[len(replay.overflows) // 2]
            routes = replay.routes if routes is None else None
        if overflows:
            print(f"{os.path.basename(design)}, {rounds} rounds, {workers} workers: {len(overflows)} runs, "
                  f"{stopped} stopped, {entries} entries, {met} claims behind others' entries, "
                  f"overflow {min(overflows)} to {max(overflows)}", flush=True)
    return faults


def main():
    parser = argparse.ArgumentParser(description=__doc__, formatter_class=argparse.RawDescriptionHelpFormatter)
    parser.add_argument("--program", default=PROGRAM)
    parser.add_argument("--router", default=ROUTER, help="the router that makes designs")
    parser.add_argument("--times", type=int, default=20)
    parser.add_argument("--share", type=int, default=50)
    parser.add_argument("--random", type=int, default=20, help="how many random designs")
    parser.add_argument("--batch", type=int, metavar="B", help="rounds in batches of B nets")
    parser.add_argument("names", nargs="*", help="DESIGN LIBRARY ROUNDS, again and again")
    words = parser.parse_args()
    if len(words.names) % 3:
        parser.error("DESIGN LIBRARY ROUNDS stand together")
    orders = itertools.cycle(itertools.product(FORMULAS, ENDS if words.batch is None else (None,)))
    faults = 0
    with tempfile.TemporaryDirectory() as folder:
        named = [tuple(words.names[at : at + 3]) for at in range(0, len(words.names), 3)]
        for design, paths, rounds in named or made(words.router, folder):
            faults += tried(words.program, design, paths, rounds, words.times, words.share, orders, words.batch, folder)
        for design, paths, rounds in () if named else random_designs(folder, words.random):
            faults += tried(words.program, design, paths, rounds, 1, 1, orders, words.batch, folder)
    print(f"{faults} faults")
    return 1 if faults else 0


if __name__ == "__main__":
    sys.exit(main())
