"""Tests of guides.py and to_solution.py: routes to guides and back."""
import importlib
import os
import random
import re
import sys
import time
import unittest
from typing import Any

from testing import ROOT, InFolder, program, run, tool
from groute.texts.designs import ends
from groute.texts.solutions import has_joined
from groute.texts.tokens import Tokens
from groute.texts.names import names_beside
from groute.texts.tiled import Tiled

SKY = [f"{ROOT}/examples/sky/{name}" for name in ("adder.def", "tech.lef", "cells.lef")]
GF = [f"{ROOT}/examples/gf/{name}" for name in ("ring.def", "all.lef")]
SQUARE = """grid 3 2 2
vertical capacity 0 4
horizontal capacity 4 0
minimum width 1 1
minimum spacing 1 1
via spacing 1 1
0 0 10 10
num net 1
a 0 2 1
5 5 1
25 15 1
"""
NAMES = "units 100\norigin 0 0\ntile 10 10\ndie 0 0 32 20\nlower 0 li\nlayer 1 m1\nlayer 2 m2\n"


def read_guides(path: str) -> dict[str, list[list[str]]]:
    """Rectangles by net."""
    with open(path, encoding="utf-8") as file:
        found = re.findall(r"(\S+)\n\(\n((?:\S+ \S+ \S+ \S+ \S+\n)*)\)\n", file.read())
    return {name: [line.split() for line in lines.splitlines()] for name, lines in found}


class Guides(InFolder):
    """guides.py on whole designs, by a reader of its text."""

    def assert_guides(self, design: str, solution: str, names: Any = None) -> Any:
        """Each rectangle is whole tiles, each pin is covered, and so are both ends of each segment."""
        guides = os.path.join(self.folder.name, "guides")
        self.assertEqual(tool("guides.py", design, solution, guides, *names or ())[1:], ("", ""))
        known = names_beside(design, names and names[1])
        chip, found = Tiled(design, known), read_guides(guides)
        self.assertEqual(set(found), {chip.names[id_] for id_, width in chip.widths.items() if width is not None})
        tokens = Tokens(solution)
        while not tokens.is_ended():
            name, id_ = tokens.take(2)
            points = chip.pins(int(id_))
            points += [(x, y, layer) for segment in tokens.until(b"!") for x, y, layer in ends(segment)]
            layers = known.layers if known else []
            boxes = [(*map(int, box[:4]), layers.index(box[4])) for box in found[name.decode()]]
            for x1, y1, x2, y2, _ in boxes:
                self.assertTrue({x1, x2} <= set(chip.xs) and {y1, y2} <= set(chip.ys) and x1 < x2 and y1 < y2)
            for x, y, layer in points:
                column, row, level = chip.cell(x, y, layer)
                self.assertTrue(any(x1 <= chip.xs[column] < x2 and y1 <= chip.ys[row] < y2 and level == at
                                    for x1, y1, x2, y2, at in boxes), (name, x, y, layer))
        return guides, found

    def routed_texts(self, texts: list[str], *words: str) -> Any:
        """A design of a placement, and its routes."""
        design, library, solution = (os.path.join(self.folder.name, name) for name in ("design", "library", "solution"))
        lefs = [word for text in texts[2:] for word in ("--lef", text)]
        self.assertEqual(tool("def_to_ispd.py", *texts[:2], design, library, *lefs, *words)[0], 0)
        status, out, _ = run(program(), "route", design, library, "3")
        self.assertEqual(status, 0)
        self.put("solution", out)
        return design, library, solution

    def test_placements(self) -> None:
        for texts, words in ((SKY, ("--layers", "met1-met5")), (GF, ())):
            design, library, solution = self.routed_texts(texts, *words)
            guides, found = self.assert_guides(design, solution)
            self.assertEqual(max(int(box[3]) for boxes in found.values() for box in boxes),
                             54400 if texts is SKY else 50400)
            back = os.path.join(self.folder.name, "back")
            status, _, err = tool("to_solution.py", design, guides, back)
            self.assertEqual((status, err[:5]), (0, "nets "))
            self.assertEqual(run(program(), "evaluate", design, back)[0], 0)
            self.assertEqual(run(program(), "buffer", design, library, back)[0], 0)

    def test_random_designs(self) -> None:
        sys.path.insert(0, f"{ROOT}/reference")
        compare = importlib.import_module("compare")
        for seed in range(1, 11):
            text = compare.design(random.Random(seed)).decode()
            design, layers = self.put("design", text), int(text.split()[3])
            chip = Tiled(design, None)
            named = "".join(f"layer {at} m{at}\n" for at in range(1, layers + 1))
            names = self.put("names", f"units 1\ndie {chip.xs[0]} {chip.ys[0]} {chip.xs[-1]} {chip.ys[-1]}\n"
                                      f"origin 0 0\ntile 1 1\n{named}")
            solution = self.routed(design, layers)
            self.assert_guides(design, solution, ("--names", names))

    def test_faults(self) -> None:
        design = self.put("design", SQUARE)
        for segment, says in (("(5,5,1)-(95,5,1)", "outside"), ("(5,5,1)-(25,15,1)", "not straight"),
                              ("(5,5,1)-(25,5,1", "form"), ("(5,5)-(25,5,1,1)", "form"),
                              ("(5,5,1)-(25,5,3)", "outside")):
            status, _, err = tool("guides.py", design, self.put("solution", f"a 0 {segment} !"), "none")
            self.assertEqual((status, "design.names isn't there" in err), (3, True))
            names = self.put("names", NAMES)
            status, _, err = tool("guides.py", design, self.put("solution", f"a 0 {segment} !"),
                                  os.path.join(self.folder.name, "out"), "--names", names)
            self.assertEqual(status, 3)
            self.assertIn(says, err)


class Back(InFolder):
    """to_solution.py: OpenROAD's routes as a solution text."""

    def made(self, routes: str) -> tuple[int, str, str]:
        """Status, the solution and what was told."""
        design, _ = self.put("design", SQUARE), self.put("design.names", NAMES)
        out = os.path.join(self.folder.name, "out")
        status, _, err = tool("to_solution.py", design, self.put("routes", routes), out)
        if status:
            return status, "", err
        with open(out, encoding="utf-8") as file:
            return status, file.read(), err

    def test_segments(self) -> None:
        # A via from the layer below the first is dropped, and what lies behind the last whole tile is moved into it.
        segments = "a\n(\n5 5 li 5 5 m1\n5 5 m1 25 5 m1\n25 5 m1 25 5 m2\n31 5 m2 31 15 m2\n25 15 m1 25 15 m2\n)\n"
        self.assertEqual(self.made(segments), (0, "a 0\n(5,5,1)-(25,5,1)\n(25,5,1)-(25,5,2)\n(30,5,2)-(30,15,2)\n"
                                                  "(25,15,1)-(25,15,2)\n!\n", "nets 1\ndropped edges 0\n"))
        self.assertEqual(run(program(), "evaluate", os.path.join(self.folder.name, "design"),
                             os.path.join(self.folder.name, "out"))[1].splitlines()[3:],
                         ["wirelength 5", "vias 2", "unjoined 0"])

    def test_guides_with_a_loop(self) -> None:
        # Both rows on m1 and the outer columns on m2: a ring of six wire edges and four vias, of which one is dropped.
        ring = "a\n(\n0 0 32 10 m1\n0 10 32 20 m1\n0 0 10 20 m2\n20 0 32 20 m2\n)\n"
        status, text, err = self.made(ring)
        self.assertEqual((status, err), (0, "nets 1\ndropped edges 1\n"))
        design, solution = (os.path.join(self.folder.name, name) for name in ("design", "out"))
        self.assertEqual(run(program(), "evaluate", design, solution)[0], 0)
        self.assertEqual(run(program(), "buffer", design, f"{ROOT}/examples/small.library", solution)[0], 0, text)
        # A wide rectangle has wires along its layer alone, and the rest by vias.
        self.assertEqual(self.made("a\n(\n0 0 32 20 m1\n0 0 10 20 m2\n)\n")[2], "nets 1\ndropped edges 0\n")

    def test_faults(self) -> None:
        for routes, says in (
            ("b\n(\n5 5 m1 25 5 m1\n)\n", ":2: of the net b: the design has no such net"),
            ("a\n(\n5 5 m9 25 5 m1\n)\n", "m9"), ("a\n(\n5 5 m1 45 5 m1\n)\n", "outside"),
            ("a\n(\n5 5 m1 25 5 m1\n", "ends"), ("a\n(\n5 5 m1\n)\n", "form"),
            ("a\n5 5 m1 25 5 m1\n", ":2: a net's name"), ("a\n(\n0 0 0 20 m1\n)\n", "form"),
            ("a\n(\n)\na\n(\n)\n", "a second time"), ("a\n(\n0 0 10 10 m1\n0 0 m1 25 5 m1\n)\n", "form"),
        ):
            status, _, err = self.made(routes)
            self.assertEqual(status, 3)
            self.assertIn(says, err)


class Joins(unittest.TestCase):
    """Which cells runs join, beside a search from cell to cell."""

    def test_random_runs(self) -> None:
        rng = random.Random(1)
        found = {True: 0, False: 0}
        for count in range(300):
            side = rng.randrange(1, 12)
            runs = []
            for _ in range(rng.randrange(12)):
                start, length = rng.randrange(side * side), rng.randrange(1, 5)
                runs.append(range(start, start + length) if rng.randrange(2) else
                            range(start, start + side * length, side))
            pins = {rng.choice([rng.randrange(side * side), *(cell for run in runs for cell in run)])
                    for _ in range(rng.randrange(1, 4))}
            joined = has_joined(pins, runs)
            self.assertEqual(joined, pins <= self.reached(min(pins), runs), (count, pins, runs))
            found[joined] += 1
        self.assertGreater(min(found.values()), 50)

    def reached(self, cell: int, runs: list[range]) -> set[int]:
        """The cells that runs join with one, itself too."""
        found, left = {cell}, [cell]
        while left:
            cell = left.pop()
            new = {other for run in runs if cell in run for other in run} - found
            found |= new
            left += new
        return found

    def test_any_order(self) -> None:
        """A long chain of runs costs the same in any order."""
        chain = [range(at, at + 2) for at in range(200_000)]
        random.Random(2).shuffle(chain)
        begun = time.process_time()
        self.assertTrue(has_joined({0, 200_000}, chain))
        self.assertFalse(has_joined({0, 200_000}, [run for run in chain if 1000 not in run]))
        self.assertLess(time.process_time() - begun, 20)
