"""Tests of congestion.py."""
import importlib
import os
import random
import sys
import unittest

from testing import PICTURES, ROOT, TOOLS, InFolder, program, run, tool


class Congestion(InFolder):
    """congestion.py: its totals are those of groute's judge."""

    def agrees(self, design: str, solution: str) -> None:
        """With `evaluate`, in arrays and in plain Python."""
        status, report, _ = run(program(), "evaluate", design, solution)
        self.assertIn(status, (0, 1))
        totals, unjoined = report.splitlines(keepends=True)[:5], report.splitlines()[6:]
        wanted = "".join([f"unjoined {len(unjoined)}\n"] * bool(unjoined) + totals)
        plain = ("import sys; sys.modules['numpy'] = None; "
                 f"sys.path.insert(0, {TOOLS!r}); from groute import start; start.run('congestion')")
        for found in (tool("congestion.py", design, solution), run(sys.executable, "-c", plain, design, solution)):
            self.assertEqual(found[:2], (status, wanted))
            names = [line.rsplit(" ", 1)[0] for line in unjoined[:5]]
            self.assertEqual([name for name in names if name not in found[2]], [])
            self.assertEqual(bool(found[2]), bool(unjoined))

    def test_random_designs(self) -> None:
        sys.path.insert(0, f"{ROOT}/reference")
        compare = importlib.import_module("compare")
        for seed in range(1, 21):
            rng = random.Random(seed)
            text = compare.design(rng).decode()
            design = self.put("design", text)
            solution = self.routed(design, int(text.split()[3]))
            self.agrees(design, solution)

    def test_edges_that_are_covered_twice(self) -> None:
        solution = self.put("twice", "a 0 7\n(5,5,1)-(45,5,1)\n(25,5,1)-(5,5,1) (15,5,1)-(35,5,1) (5,5,1)-(5,5,1) !\n")
        self.agrees(f"{ROOT}/examples/line.ispd", solution)

    def test_open_and_crowded(self) -> None:
        self.agrees(f"{ROOT}/examples/small.ispd", f"{ROOT}/examples/open.solution")
        for made in ("11 24 20 4 6000", "3 1500 2 4 3000"):
            design = self.put("design", run(program(), "make", *made.split())[1])
            self.agrees(design, self.routed(design, 4, 2))

    def test_coordinates_below_zero(self) -> None:
        with open(f"{ROOT}/examples/small.ispd", encoding="ascii") as file:
            text = file.read().replace("0 0 10 10", "-912345678 -50 10 10")
        design = self.put("design", text.replace("5 5 1", "-912345673 -45 1").replace("25 15 1", "-912345653 -35 1"))
        self.agrees(design, self.routed(design, 2))

    def test_a_net_of_too_many_pins(self) -> None:
        with open(f"{ROOT}/examples/line.ispd", encoding="ascii") as file:
            lines = file.read().replace("num net 1", "num net 2")
        design = self.put("design", lines + "b 1 1001 1\n" + "5 5 1\n" * 1001)
        self.agrees(design, self.put("solution", "a 0 (5,5,1)-(45,5,1) ! b 1 (5,5,1)-(25,5,1) !"))

    def test_table(self) -> None:
        crowd = f"{ROOT}/examples/crowd.ispd"
        table = os.path.join(self.folder.name, "out.csv")
        self.assertEqual(tool("congestion.py", crowd, self.routed(crowd, 1), "-o", table)[0], 0)
        with open(table, encoding="ascii") as file:
            self.assertEqual(file.read(), "layer,column,row,to_column,to_row,capacity,demand,overflow\n"
                                          "1,0,1,1,1,2,4,2\n1,1,1,2,1,2,4,2\n")

    def test_tracks(self) -> None:
        """Rows and columns by share; an adjustment may take tracks away, and width and spacing may be 0."""
        design = self.put("design", "grid 6 3 2\nvertical capacity 0 7\nhorizontal capacity 4 0\nminimum width 1 0\n"
                                    "minimum spacing 1 0\nvia spacing 1 1\n0 0 10 10\nnum net 1\na 0 1 1\n5 5 1\n"
                                    "2\n2 0 1 3 0 1 3\n0 2 1 1 2 1 9\n")
        solution = self.put("solution", "")
        text = ("panels 4\ntracks 6\npanel h 1 0 tracks 2 at 2\n0 0 2 1\n1 2 4 2\n2 3 5 1\n"
                "panel h 1 1 tracks 1 at 0\n0 0 1 1\npanel h 1 2 tracks 1 at 0\n0 0 1 1\n"
                "panel v 2 4 tracks 2 at 0\n0 0 1 1\n1 0 2 2\n")
        status, out, err = tool("congestion.py", design, solution, "--tracks", self.put("panels", text))
        self.assertEqual((status, err), (0, ""))
        self.assertEqual([line.split() for line in out.splitlines()[6:]], [
            ["layer", "number", "tracks", "holds", "%", "at", "tile"], ["row", "1", "0", "2", "2", "100", "2"],
            ["row", "1", "1", "1", "2", "50", "0"], ["row", "1", "2", "1", "4", "25", "0"],
            ["column", "2", "4", "2", "-", "-", "0"]])
        for text, says in (("panels 1\ntracks 1\n", "1 panels"), ("panels 1\ntracks 1\npanel x", "h or v"),
                           ("panels 1\ntracks 1\npanel h 1 3 tracks 1 at 0\n0 0 1 1\n", "no row 3"), ("0", "panels")):
            status, out, err = tool("congestion.py", design, solution, "--tracks", self.put("panels", text))
            self.assertEqual(status, 3)
            self.assertIn(says, err)

    @unittest.skipUnless(PICTURES, "numpy and matplotlib are not there")
    def test_pictures(self) -> None:
        small = f"{ROOT}/examples/small.ispd", f"{ROOT}/examples/small.solution"
        for name, begin in (("out.png", b"\x89PNG"), ("out.svg", b"<?xml")):
            path = os.path.join(self.folder.name, name)
            self.assertEqual(tool("congestion.py", *small, "-o", path, "--layer", "2")[0], 0)
            with open(path, "rb") as file:
                self.assertEqual(file.read(len(begin)), begin)

    def test_faults(self) -> None:
        line = f"{ROOT}/examples/line.ispd"
        for text, says in (
            ("a 0 (5,5,1)-(45,5,1)", "ends after token 3"),
            ("a 1 !", "id of a net"),
            ("a 0 (5,5,1)-(45,,1) !", "form"),
            ("a 0 (5,5,1)(45,5,1) !", "form"),
            ("a 0 (5,5,1)-(55,5,1) !", "outside"),
            ("a 0 (5,5,1)-(45,5,2) !", "outside"),
        ):
            status, out, err = tool("congestion.py", line, self.put("solution", text))
            self.assertEqual((status, out), (3, ""))
            self.assertIn(says, err)
        slanted = self.put("solution", "a 0 (5,5,1)-(25,15,1) !")
        self.assertIn("straight", tool("congestion.py", f"{ROOT}/examples/small.ispd", slanted)[2])
        self.assertIn("layers 1 to 1", tool("congestion.py", line, slanted, "--layer", "2")[2])
        self.assertEqual(tool("congestion.py", line, "missing")[0], 3)
