"""Tests of the tools that rank and show what a solution does."""
import csv
import importlib
import os
import random
import re
import shlex
import shutil
import sys
import unittest

import testing
from typing import Any, Iterator
from groute.loads import edges_plain
from groute.texts import names
from groute.texts.designs import EAST, NORTH, Design, Netlist
from groute.texts.solutions import records
from groute.texts.files import Fault, Outputs
from groute.texts.tokens import Tokens
from testing import PICTURES, ROOT, InFolder, run, tool

SMALL = f"{ROOT}/examples/small.ispd"
CROWD = f"{ROOT}/examples/crowd.ispd"
NAMES = "units 100\norigin -50 70\ntile 15 20\n\nlayer 2 m2\nlayer 1 metal1\n"


def random_designs(count: int) -> Iterator[tuple[int, str]]:
    """Seeds, and the texts of random designs."""
    sys.path.insert(0, f"{ROOT}/reference")
    compare = importlib.import_module("compare")
    for seed in range(1, count + 1):
        yield seed, compare.design(random.Random(seed)).decode()


class Names(InFolder):
    """Texts of names, read and written."""

    def test_both_ways(self) -> None:
        read = names.read_names(self.put("names", NAMES))
        self.assertEqual((read.units, read.origin, read.tile), (100, (-50, 70), (15, 20)))
        self.assertEqual(read.layers, ["metal1", "m2"])
        path = os.path.join(self.folder.name, "written")
        with Outputs() as outputs:
            outputs.lines(path, names.Names(read.units, read.origin, read.tile, read.layers).lines())
        with open(path, encoding="utf-8") as file:
            self.assertEqual(file.read(), "units 100\norigin -50 70\ntile 15 20\nlayer 1 metal1\nlayer 2 m2\n")
        more = self.put("more", f"names 1\ndie 1 2 3 4\n{NAMES}lower 0 li1\nlower 0 poly\nend\n")
        with Outputs() as outputs:
            outputs.lines(path, names.read_names(more).lines())
        with open(path, encoding="utf-8") as file:
            self.assertEqual(file.read(), "units 100\norigin -50 70\ntile 15 20\ndie 1 2 3 4\nlower 0 li1\n"
                                          "lower 0 poly\nlayer 1 metal1\nlayer 2 m2\n")

    def test_nets(self) -> None:
        """In version 2 something is said of nets, and what isn't known is passed over and kept."""
        said = "net 7 use 1 clock\nnet 7 pins 2 u1/A PIN/b\nnet 9 use 1 signal\nnet 3 note 0\n"
        read = names.read_names(self.put("names", f"names 2\n{said}{NAMES}end\n"))
        self.assertEqual(read.clocks(), {7})
        self.assertEqual(read.nets[7]["pins"], ["u1/A", "PIN/b"])
        text = "".join(f"{line}\n" for line in read.lines())
        self.assertEqual(text, f"names 2\nunits 100\norigin -50 70\ntile 15 20\nlayer 1 metal1\nlayer 2 m2\n{said}")

    def test_microns(self) -> None:
        design = Design(Tokens(SMALL))
        self.assertEqual(names.Terms(design).words((1, 0), (2, 1)), "(10, 0) - (30, 20)")
        self.assertEqual(names.Terms(design, names.read_names(self.put("names", NAMES))).words((1, 0), (2, 1)),
                         "(-0.35, 0.7) - (-0.05, 1.1)")

    def test_faults(self) -> None:
        for old, new, says in (
            ("units 100\n", "", "units, origin and tile are due"),
            ("units 100", "units 0", "at least 1"),
            ("units 100", "names 3\nunits 100", "are due"),
            ("units 100", "net 0 use 1 clock\nunits 100", "version 2"),
            ("units 100", "units 100\nunits 100", "token 3: units begins no .* or stands twice"),
            ("tile 15 20", "tile 15 wide", "token 8: a whole number"),
            ("tile 15 20", "tile 15", "token 8: a whole number"),
            ("tile 15 20", "tile 15 20\npitch 3", "token 9: pitch begins no statement"),
            ("layer 1 metal1", "layer 1", "ends after token 13"),
            ("layer 1", "layer 3", "layers are due, from 1"),
            ("layer 1", "layer 2", "token 13: layer 2 has a name already"),
        ):
            self.assertIn(old, NAMES)
            with self.assertRaisesRegex(Fault, says):
                names.read_names(self.put("names", NAMES.replace(old, new, 1)))
        status, out, err = tool("hotspots.py", CROWD, self.put("none", ""), "--names", self.put("names", NAMES))
        self.assertEqual((status, out), (3, ""))
        self.assertIn("2 layers have names, and the design has 1", err)


CROWDED = """routed 2
overflow 4
maximum 2
wirelength 4
vias 0

layer  direction   resource  demand  use, %  greatest  overflow  edges over  at capacity 0
    1  horizontal        12       8    66.7         2         4           2              0
    1  vertical          12       0     0.0         0         0           0              0
  all                    24       8    33.3         2         4           2              0

ACE, average use in % of the fullest edges: 200.0 of 0.5 %, 200.0 of 1 %, 200.0 of 2 %, 200.0 of 5 %

    region  box, units         overflow  edges over  at capacity 0  nets
1  0 0 2 2  (0, 0) - (30, 30)         4           2              0     2

nets, and how many of the region's overfull edges they need
1  a 2, b 2
"""
CROWDED_TABLE = """region,column,row,to_column,to_row,x1 (units),y1 (units),x2 (units),y2 (units),overflow,edges_over,\
overflow_at_capacity_0,nets
1,0,0,2,2,0,0,30,30,4,2,0,a b
"""
# What OpenROAD reads a congestion report by.
VIOLATION = re.compile(r"violation type: (Horizontal|Vertical) congestion\n\tsrcs: ((?:net:\S+ ?)*)\n"
                       r"\tcongestion information: capacity:(\d+) usage:(\d+) overflow:(\d+)\n"
                       r"\tbbox = \((.*), (.*)\) - \((.*), (.*)\) on Layer (\S+)\n")
KLAYOUT = """
import pya
database = pya.ReportDatabase("read")
database.load(path)
for category in database.each_category():
    for item in database.each_item_per_category(category.rdb_id()):
        print(category.name(), *(value.to_s() for value in item.each_value()))
"""


@unittest.skipUnless(PICTURES, "numpy and matplotlib are not there")
class Hotspots(InFolder):
    """hotspots.py: what it counts is what is counted edge by edge."""

    def test_crowd(self) -> None:
        table = os.path.join(self.folder.name, "table")
        self.assertEqual(tool("hotspots.py", CROWD, self.routed(CROWD, 1), "--csv", table), (0, CROWDED, ""))
        with open(table, encoding="ascii") as file:
            self.assertEqual(file.read(), CROWDED_TABLE)

    def test_edge_by_edge(self) -> None:
        """Random designs, beside plain Python: regions, their nets, and the nets of each overfull edge."""
        loads, edges_numpy, viewers = map(importlib.import_module, (
            "groute.loads.regions", "groute.loads.edges_numpy", "groute.show.viewers"))
        regions = 0
        for seed, text in random_designs(40):
            path = self.put("design", text)
            solution = self.routed(path, int(text.split()[3]))
            design = Netlist(Tokens(path))
            edges = edges_plain.Edges(design, solution)
            over = {edge[:2]: edge[3] - edge[2] for edge in edges.used() if edge[3] > edge[2]}
            covered = {id_: {edge for segment in segments for edge in edges.covered(*design.run(segment))}
                       for id_, segments in records(design, solution)}
            mine = loads.Loads(edges_numpy.Edges(design, solution))
            with self.subTest(seed=seed):
                left = {edge for edge in over if edges_plain.capacity_of(design, *edge)}
                for region in mine.regions(10):
                    regions += 1
                    inside = {edge for edge in over if is_in(region, design.place(*edge))}
                    here = inside & left
                    left -= inside
                    self.assertEqual(region.overflow, sum(map(over.get, here)))
                    self.assertEqual(region.closed, sum(over[edge] for edge in inside) - region.overflow)
                    self.assertEqual(region.over, len(here))
                    needs = {id_: len(here & some) for id_, some in covered.items() if here & some}
                    self.assertEqual(region.nets, sorted(needs.items(), key=lambda net: -int(net[1])))
                self.assertEqual(left, set())
                found = viewers.overfull(mine, design, names.Terms(design))
                self.assertEqual(sorted(sorted(edge.nets) for edge in found), sorted(
                    sorted(design.names[id_] for id_, some in covered.items() if edge in some) for edge in over))
                self.assertEqual(sum(edge.demand - edge.capacity for edge in found), sum(over.values()))
        self.assertGreater(regions, 10)

    def test_an_overfull_chip(self) -> None:
        """Ten regions, each of other tiles, the worst first."""
        design = self.put("design", run(testing.program(), "make", "11", "40", "30", "4", "9000")[1])
        table = os.path.join(self.folder.name, "table")
        self.assertEqual(tool("hotspots.py", design, self.routed(design, 4), "--csv", table)[0], 0)
        with open(table, encoding="ascii") as file:
            rows = list(csv.DictReader(file))
        self.assertEqual(len(rows), 10)
        tiles = [(column, row) for line in rows for column in range(int(line["column"]), int(line["to_column"]) + 1)
                 for row in range(int(line["row"]), int(line["to_row"]) + 1)]
        self.assertEqual((len(tiles), len(set(tiles))), (640, 640))
        overflow = [int(line["overflow"]) for line in rows]
        self.assertEqual(overflow, sorted(overflow, reverse=True))

    def reports(self) -> list[str]:
        """A design whose net has a hard name, its overfull edges for OpenROAD, and for KLayout."""
        with open(CROWD, encoding="ascii") as file:
            design = self.put("design", file.read().replace("\na 0", "\n<a&'\\> 0"))
        paths = [os.path.join(self.folder.name, name) for name in ("openroad", "klayout.lyrdb")]
        names = self.put("names", NAMES.replace("layer 2 m2\n", "").replace("metal1", "<m>'1"))
        solution = self.routed(design, 1)
        done = tool("hotspots.py", design, solution, "--names", names, "--openroad", paths[0], "--klayout", paths[1])
        self.assertEqual((done[0], done[2]), (0, ""))
        self.assertIn("--openroad is in microns", tool("hotspots.py", design, solution, "--openroad", "x")[2])
        return paths

    def test_openroad(self) -> None:
        with open(self.reports()[0], encoding="utf-8") as file:
            text = file.read()
        self.assertEqual(VIOLATION.sub("", text), "")
        self.assertEqual([found[1:] for found in VIOLATION.findall(text)], [
            ("net:<a&'\\> net:b", "2", "4", "2", "-0.5", "0.9", "-0.2", "1.1", "<m>'1"),
            ("net:<a&'\\> net:b", "2", "4", "2", "-0.35", "0.9", "-0.05", "1.1", "<m>'1")])

    @unittest.skipUnless(shutil.which("klayout"), "klayout is not there")
    def test_klayout(self) -> None:
        environment = {**os.environ, "QT_QPA_PLATFORM": "offscreen"}
        status, out, err = run("klayout", "-b", "-r", self.put("read.py", KLAYOUT), "-rd", f"path={self.reports()[1]}",
                               env=environment, timeout=60)
        self.assertEqual((status, err), (0, ""))
        demand = 4
        edge = rf"text: 'capacity 2 demand {demand} overflow 2 nets <a&\'\\> b'"
        self.assertEqual(out.splitlines(), [
            r"worst regions box: (-0.5,0.7;-0.05,1.3) text: 'overflow 4 edges 2 at capacity 0 0 nets <a&\'\\> b'",
            f"<m>'1 box: (-0.5,0.9;-0.2,1.1) {edge}", f"<m>'1 box: (-0.35,0.9;-0.05,1.1) {edge}"])

    def test_ends(self) -> None:
        """A closed pipe, a full device, a missing file: of each tool a line at most."""
        crowd = CROWD, self.routed(CROWD, 1)
        _, out, err = run(testing.program(), "route", CROWD, f"{ROOT}/examples/crowd.library", "0")
        slowest = CROWD, f"{ROOT}/examples/crowd.library", self.put("routes", out), self.put("report", err)
        for name, words in (("hotspots", crowd), ("congestion", crowd), ("slowest", slowest), ("adjust", [CROWD]),
                            ("report", [*crowd, "-o", self.put("page", "")])):
            called = shell_words(f"{name}.py", *words)
            self.assertEqual(run("sh", "-c", f"{called} | true"), (0, "", ""))
            status, _, err = run("sh", "-c", f"{called} > /dev/full")
            self.assertEqual((status, err), (3, f"{name}: No space left on device\n"))
            status, _, err = tool(f"{name}.py", "missing", *words[1:])
            self.assertEqual((status, err), (3, f"{name}: missing: No such file or directory\n"))
        for words in (["hotspots.py", *crowd, "--csv"], ["report.py", *crowd, "-o"], ["adjust.py", CROWD, "-o"]):
            self.assertEqual(tool(*words, "/dev/full")[::2],
                             (3, f"{words[0][:-3]}: /dev/full: No space left on device\n"))


# Worked out by hand. Sink 1 of net a is in the same row as its driver, four steps away; its delay without buffers is
# 100 * 410 (the driver) + 4 wires of 100 ohms with 100 femtofarads each: 100 * (50 + 310) + .. + 100 * (50 + 10), in
# all 137 ps, and so its required time is -137 ps, or -274000 half femtoseconds. Net b has two sinks with two times.
TIMED = """grid 5 1 1
vertical capacity 0
horizontal capacity 4
minimum width 1
minimum spacing 1
via spacing 1
0 0 10 10
num net 3
a 0 2 1
5 5 1
45 5 1
b 7 3 1
5 5 1
15 5 1
25 5 1
c 3 1 1
5 5 1
"""
TIMED_SOLUTION = "a 0 (5,5,1)-(45,5,1) ! b 7 (5,5,1)-(25,5,1) !"
TIMED_REPORT = """buffers 3
net a 0 required -274000 buffers 2
(15,5,1) mid
(25,5,1) mid
net b 7 required 6000 buffers 1
(15,5,1) low
net c 3 required 0 buffers 0
"""
SLOWEST = """net  required, ps  delay, ps  pins  wire, tiles  vias  box, units         buffers
a          -137.0      137.0     2            4     0  (0, 0) - (50, 10)  mid 2
c             0.0          -     1            0     0  (0, 0) - (10, 10)
b             3.0       -3.0     3            2     0  (0, 0) - (30, 10)  low 1

from, ps  to, ps  nets
  -137.0  -123.0     1  #########################
  -123.0  -109.0     0
  -109.0   -95.0     0
   -95.0   -81.0     0
   -81.0   -67.0     0
   -67.0   -53.0     0
   -53.0   -39.0     0
   -39.0   -25.0     0
   -25.0   -11.0     0
   -11.0     3.0     2  ##################################################
"""


@unittest.skipUnless(PICTURES, "numpy and matplotlib are not there")
class Slowest(InFolder):
    """slowest.py on a report that was worked out by hand."""

    def slowest(self, *words: str, library: str = "sink 10 0\n", report: str = TIMED_REPORT) -> tuple[int, str, str]:
        """What the tool did."""
        text = f"library 2\nwire 1 100 100\nvia 0 0\ndriver 100\nkind mid 1 2 3\nkind low 1 2 3\n{library}end\n"
        return tool("slowest.py", self.put("design", TIMED), self.put("library", text),
                    self.put("solution", TIMED_SOLUTION), self.put("report", report), *words)

    def test_table(self) -> None:
        self.assertEqual(self.slowest(), (0, SLOWEST, ""))
        behind = "routed 3\noverflow 0\nmaximum 0\nwirelength 6\nvias 0\n" + TIMED_REPORT
        self.assertEqual(self.slowest(report=behind), self.slowest())

    def test_times(self) -> None:
        """Slack comes where a time isn't 0, delay where the sinks of a net share theirs."""
        library = "sink 10 0\npin 7 1 10 9000\n"
        found = self.slowest("--worst", "3", library=library)[1].splitlines()
        self.assertEqual(found[0], "slack of nets, not of paths, ps: worst -137.0, total negative -137.0 of 1 nets")
        self.assertEqual([line.split()[:3] for line in found[3:6]],
                         [["a", "-137.0", "137.0"], ["c", "0.0", "-"], ["b", "3.0", "-"]])
        out = self.slowest(library=library + "pin 7 2 10 9000\n")[1]
        self.assertIn("b             3.0        6.0", out)

    def test_scale_and_names(self) -> None:
        names = self.put("names", "units 1\norigin 3 4\ntile 5 6\nlayer 1 m\n")
        found = self.slowest("--scale", "10", "--worst", "1", "--names", names)[1].splitlines()
        self.assertIn("box, microns", found[0])
        self.assertEqual(found[1:3], ["a            -1.4        1.4     2            4     0  (3, 4) - (28, 10)  mid 2",
                                      ""])

    def test_a_real_report(self) -> None:
        """Required times are those that groute told, wire and vias those of its totals."""
        with open(f"{ROOT}/examples/small.ispd", encoding="ascii") as file:
            design = self.put("design", file.read())
        library = f"{ROOT}/examples/small.library"
        _, solution, report = run(testing.program(), "route", design, library, "0")
        found = tool("slowest.py", design, library, self.put("solution", solution), self.put("report", report))[1]
        required = int(report.split("required ")[1].split()[0])
        self.assertEqual(found.splitlines()[1].split()[:6],
                         ["a", f"{required / 2000:.1f}", f"{-required / 2000:.1f}", "2", "3", "2"])

    def test_faults(self) -> None:
        for old, new, says in (("a 0 required", "a 5 required", "no net 5"), ("buffers 3", "buffer 3", "whole number"),
                               ("required 6000", "needs 5000", "a line `net"), ("(15,5,1) low\n", "", "ends after"),
                               ("net c 3 required 0 buffers 0", "net c", "ends after")):
            self.assertIn(old, TIMED_REPORT)
            status, out, err = self.slowest(report=TIMED_REPORT.replace(old, new, 1))
            self.assertEqual((status, out), (3, ""))
            self.assertIn(says, err)


@unittest.skipUnless(PICTURES, "numpy and matplotlib are not there")
class Pictures(InFolder):
    """congestion.py's picture of tiles."""

    def picture(self, *words: str) -> Any:
        """The pixels of a picture, with numbers from 0 to 255."""
        path = os.path.join(self.folder.name, "out.png")
        status, _, err = tool("congestion.py", *words, "-o", path)
        self.assertEqual((status, err), (0, ""))
        return (importlib.import_module("matplotlib.image").imread(path)[:, :, :3] * 255).round().astype(int)

    def count(self, pixels: Any, colour: str) -> int:
        """How many pixels have a colour."""
        return int((pixels == [int(colour[at:at + 2], 16) for at in (1, 3, 5)]).all(axis=2).sum())

    def test_tiles_edge_by_edge(self) -> None:
        """Random designs, beside plain Python: the worst of each tile's wire edges."""
        loads, edges_numpy = map(importlib.import_module, ("groute.loads.regions", "groute.loads.edges_numpy"))
        for seed, text in random_designs(20):
            path = self.put("design", text)
            solution = self.routed(path, int(text.split()[3]))
            design = Netlist(Tokens(path))
            edges = edges_plain.Edges(design, solution)
            used = {(way, number): demand for way, number, _, demand in edges.used()}
            layers, ways = seed % design.layers, [(0, 1), (0,), (1,)][seed % 3]
            wanted: dict[tuple[int, int], tuple[float, int, int]] = {}
            for way in ways:
                for column in range(design.columns - (way == 0)):
                    for row in range(design.rows - (way == 1)):
                        number = design.number(way, column, row, layers)
                        capacity = edges_plain.capacity_of(design, way, number)
                        demand = used.get((way, number), 0)
                        excess = max(0, demand - capacity)
                        found = (demand / capacity, excess, 0) if capacity else (-1.0, 0, excess)
                        for tile in ((row, column), (row + (way == 1), column + (way == 0))):
                            before = wanted.get(tile, (-1.0, 0, 0))
                            wanted[tile] = (max(found[0], before[0]), max(found[1], before[1]),
                                            max(found[2], before[2]))
            maps = loads.Loads(edges_numpy.Edges(design, solution)).by_tile(slice(layers, layers + 1), ways)
            for (row, column), (full, over, closed) in wanted.items():
                mine = [some[row, column] for some in maps]
                self.assertEqual([-1 if mine[0] != mine[0] else mine[0], *mine[1:]], [full, over, closed])

    def test_grades(self) -> None:
        """The tiles of overflow 2 have the first grade's colour, and none has it after a round."""
        before = self.count(self.picture(CROWD, self.routed(CROWD, 1)), "#fdb863")
        legend = self.count(self.picture(CROWD, self.routed(CROWD, 1, 1)), "#fdb863")
        self.assertLess(legend, 500)
        self.assertGreater(before - legend, 3 * 110 ** 2)

    def test_what_is_drawn(self) -> None:
        """A net, buffers, regions, a part of the chip and one direction each change the picture."""
        library = f"{ROOT}/examples/small.library"
        _, solution, report = run(testing.program(), "route", SMALL, library, "0")
        words = SMALL, self.put("solution", solution)
        report = self.put("report", report.replace("buffers 0", "buffers 1") + "(15,5,1) mid\n")
        plain = self.picture(*words)
        bounds = self.put("bounds", testing.BOUNDS)
        for more in (("--net", "a"), ("--buffers", report), ("--region", "1", "0", "2", "1"), ("--direction", "v"),
                     ("--bound", bounds), ("--layer", "2"), ("--edges",), ("--names", self.put("names", NAMES))):
            other = self.picture(*words, *more)
            self.assertFalse(other.shape == plain.shape and (other == plain).all(), more)
        crowd = CROWD, self.routed(CROWD, 1)
        self.assertGreater(abs(self.picture(*crowd, "--worst", "1") - self.picture(*crowd)).sum(), 0)

    def test_faults(self) -> None:
        solution = self.put("solution", "")
        path = os.path.join(self.folder.name, "out.png")
        for words, says in ((("--net", "b"), "no net b"), (("--region", "0", "0", "3", "1"), "tiles 0 0 to 2 1"),
                            (("--region", "2", "0", "1", "1"), "tiles"), (("--edges", "--worst", "1"), "of tiles"),
                            (("--bound", SMALL), "grbound")):
            status, _, err = tool("congestion.py", SMALL, solution, "-o", path, *words)
            self.assertNotEqual(status, 0)
            self.assertIn(says, err)


@unittest.skipUnless(PICTURES, "numpy and matplotlib are not there")
class Adjusted(InFolder):
    """adjust.py: what is cut, to what sum, and what stays."""

    def capacities(self, path: str) -> Any:
        """Of a design, the capacity of each wire edge that is there, by way, layer, column and row."""
        design = Netlist(Tokens(path))
        return design, {
            (way, layer, column, row): design.adjusted.get((way, design.number(way, column, row, layer)),
                                                           design.capacity[way][layer])
            for way in (EAST, NORTH) for layer in range(design.layers)
            for column in range(design.columns - (way == EAST))
            for row in range(design.rows - (way == NORTH))}

    def adjusted(self, path: str, *words: str) -> Any:
        """The capacities before and after, and the design after."""
        status, out, err = tool("adjust.py", path, *words)
        self.assertEqual((status, err), (0, ""))
        design, before = self.capacities(path)
        return before, self.capacities(self.put("adjusted", out))[1], design, out

    def test_random_designs(self) -> None:
        """Each layer's sum is the share of its tracks to within one; no edge has more than before."""
        for seed, text in random_designs(30):
            path = self.put("design", text)
            share = ("0.8", "0.5", "0.123", "0")[seed % 4]
            before, after, design, out = self.adjusted(path, "--layer", "all", share)
            for way, layer in {key[:2] for key in before}:
                track = max(1, design.width[layer] + design.spacing[layer])
                mine = [(before[key] // track, after[key]) for key in before if key[:2] == (way, layer)]
                self.assertTrue(all(new % track == 0 and new // track <= old for old, new in mine))
                wanted = float(share) * sum(old for old, _ in mine)
                self.assertLess(abs(sum(new for _, new in mine) / track - wanted), 1)
            library = self.put("library", testing.LIBRARY % "".join(
                f"wire {layer + 1} 1 1\n" for layer in range(design.layers)))
            routed = [run(testing.program(), "route", some, library, "0") for some in (path, self.put("adjusted", out))]
            self.assertEqual([found[0] for found in routed], [0, 0])
            self.assertEqual(*(found[2].split()[1] for found in routed))

    def test_nothing_is_cut(self) -> None:
        for seed, text in random_designs(10):
            path = self.put("design", text)
            before, after, _, out = self.adjusted(path, "--layer", "all", "1")
            self.assertEqual(before, after, seed)
            again = self.put("again", out)
            self.assertEqual(tool("adjust.py", again)[1], out)
        path = self.put("unrouted", "grid 2 1 1 vertical capacity 0 horizontal capacity 3 minimum width 1 "
                        "minimum spacing 1 via spacing 4 -5 6 7 8 num net 1 a 9 1001 5 " + "1 8 1 " * 1001)
        self.assertIn("via spacing 4\n-5 6 7 8\nnum net 1\na 9 1001 5\n1 8 1\n", self.adjusted(path)[3])

    def test_regions_and_directions(self) -> None:
        design = self.put("design", run(testing.program(), "make", "11", "9", "8", "3", "10")[1])
        before, after, *_ = self.adjusted(design, "--region", "2", "1", "5", "3", "0.5", "--direction", "h",
                                          "--layer", "3", "0.5")
        for (way, layer, column, row), held in before.items():
            is_inside = 2 <= column < 5 and 1 <= row <= 3
            wanted = held / 2 ** (is_inside + (layer == 2)) if way == 0 else held
            self.assertLessEqual(abs(after[way, layer, column, row] - wanted), 1, (way, layer, column, row))
        self.assertEqual(sum(after[key] for key in after if key[:2] == (0, 0)),
                         sum(before[key] for key in before if key[:2] == (0, 0)) - 3 * 3 * 10)

    def test_faults(self) -> None:
        for words, says in ((("--layer", "3", "0.5"), "3 is no layer"), (("--layer", "1", "1.5"), "no share"),
                            (("--layer", "1", "0.12345"), "no share"), (("--layer", "1", "half"), "no share"),
                            (("--region", "0", "0", "3", "1", "1"), "3 is no column"),
                            (("--region", "1", "0", "0", "1", "1"), "lower left")):
            status, out, err = tool("adjust.py", SMALL, *words)
            self.assertEqual((status, out), (3, ""))
            self.assertIn(says, err)

    def test_layers_by_name(self) -> None:
        names = self.put("names", NAMES)
        self.assertEqual(tool("adjust.py", SMALL, "--layer", "m2", "0.5", "--names", names),
                         tool("adjust.py", SMALL, "--layer", "2", "0.5"))
        self.assertIn("m3 is no layer: the design has layers 1 to 2, metal1, m2",
                      tool("adjust.py", SMALL, "--layer", "m3", "0.5", "--names", names)[2])


def is_in(region: Any, place: tuple[int, ...]) -> bool:
    """Whether a wire edge with this lower end belongs to a region."""
    return all(low <= at <= high for low, at, high in zip(region.low, place, region.high))


def shell_words(name: str, *words: str) -> str:
    """The words of a shell that call a tool."""
    return shlex.join([sys.executable, os.path.join(testing.TOOLS, name), *words])
