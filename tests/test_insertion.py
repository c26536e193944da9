"""Tests of insert.py: nets worked out by hand, and a processor whose netlists yosys and OpenSTA compare."""
import lzma
import os
import re
import unittest

from chips import KLAYOUT, STA, YOSYS, OnChip, equivalent, placed
from groute.placed.def_edits import connections_of, sections
from groute.texts.files import Fault
from groute.timing import sta, taken_out
from groute.timing.insertion import Kind
from groute.timing.verilog import Verilog
from testing import ROOT, tool

OSU = "/usr/share/qflow/tech/osu035/osu035_stdcells"
OSU_THERE = os.path.exists(f"{OSU}.lib")
# Eight tiles by four, each five sites wide. Each net goes along its row; `branch` also up to the row above.
CELLS = {"a": ("BUF", 0, 0), "b": ("INV", 37, 0), "c": ("BUF", 0, 1), "d": ("INV", 37, 1), "e": ("DFF", 10, 2),
         "g": ("INV", 0, 3), "h": ("BUF", 36, 3), "w": ("FILL", 15, 0), "x": ("FILL2", 16, 0), "y": ("AND", 20, 1),
         "z": ("FILL", 19, 0)}
PORTS = {"in": ("INPUT", 0, 2), "out": (None, 7, 2), "ck": ("INPUT", 3, 2)}
NETS = {"in": ["in", "a/A"], "two": ["a/Y", "b/A"], "branch": ["b/Y", "c/A"], "series": ["c/Y", "d/A", "e/D"],
        "ck": ["ck", "e/CLK"], "pair": ["g/Y", "h/A"], "more[1]": ["e/Q", "g/A", "y/A"], "out": ["h/Y", "out"],
        "back": ["d/Y", "y/B"]}
SOLUTION = """two 1 (500,500,1)-(7500,500,1) !
series 3 (500,1500,1)-(7500,1500,1) (2500,1500,1)-(2500,1500,2)
(2500,1500,2)-(2500,2500,2) (2500,2500,1)-(2500,2500,2) !
pair 5 (500,3500,1)-(7500,3500,1) !
out 7 (7500,3500,1)-(7500,3500,2) (7500,2500,2)-(7500,3500,2) !
"""
REPORT = """routed 9
overflow 0
maximum 0
wirelength 30
vias 6
buffers 6
net two 1 required -1 buffers 1
(3500,500,1) BUF
net series 3 required -1 buffers 2
(2500,2500,2) BUF
(5500,1500,1) BUF
net pair 5 required -1 buffers 2
(2500,3500,1) INV
(5500,3500,1) INV2
net out 7 required -1 buffers 1
(7500,2500,2) BUF
"""
# What the parted nets are, and where the new cells stand.
PARTS = {"two": [("a", "Y"), ("two_buf1", "A")], "two_buf1_net": [("two_buf1", "Y"), ("b", "A")],
         "series": [("c", "Y"), ("series_buf1", "A"), ("series_buf2", "A")],
         "series_buf1_net": [("series_buf1", "Y"), ("e", "D")], "series_buf2_net": [("series_buf2", "Y"), ("d", "A")],
         "pair": [("g", "Y"), ("pair_buf1", "A")], "pair_buf1_net": [("pair_buf1", "Y"), ("pair_buf2", "A")],
         "pair_buf2_net": [("pair_buf2", "Y"), ("h", "A")],
         "out": [("out_buf1", "Y"), ("PIN", "out")], "out_net": [("h", "Y"), ("out_buf1", "A")]}
# A tile's middle is a cell's, to half a site, where no cell but fillers lies; the tile of series_buf1 is full.
PLACES = {"two_buf1": "BUF + SOURCE TIMING + PLACED ( 3000 0 ) N",
          "series_buf1": "BUF + SOURCE TIMING + PLACED ( 2000 2000 ) N",
          "series_buf2": "BUF + SOURCE TIMING + PLACED ( 5000 1000 ) FS",
          "pair_buf1": "INV + SOURCE TIMING + PLACED ( 2200 3000 ) FS",
          "pair_buf2": "INV2 + SOURCE TIMING + PLACED ( 5000 3000 ) FS",
          "out_buf1": "BUF + SOURCE TIMING + PLACED ( 7000 2000 ) N"}


class ByHand(OnChip):
    """A small chip, with routes and a report that are given."""

    def setUp(self) -> None:
        OnChip.setUp(self)
        self.rows = "".join(f"ROW r{at} core 0 {at * 1000} {'N' if at % 2 == 0 else 'FS'} DO 40 BY 1 STEP 200 0 ;\n"
                            for at in range(4))
        self.design(placed(8, 4, CELLS, PORTS, NETS, self.rows + "GCELLGRID X 0 DO 9 STEP 1000 ;\n"
                           "GCELLGRID Y 0 DO 5 STEP 1000 ;\n"))
        self.given(SOLUTION, REPORT)

    def given(self, solution: str, report: str) -> None:
        """Puts routes and a report; nets that have no routes here keep those before."""
        records = {record.split()[1]: record for text in (self.text("a.solution"), solution)
                   for record in text.split("!\n") if record}
        self.put("a.solution", "".join(f"{record}!\n" for record in records.values()))
        self.put("a.report", report)

    def inserted(self, *words: str) -> tuple[int, str, str]:
        """What the tool did."""
        paths = [self.path(f"a.{kind}") for kind in ("def", "ispd", "solution", "report")]
        return tool("insert.py", *paths, "-o", self.path("b.def"), "--lef", self.lef, "--liberty", self.lib,
                    "--verilog", self.path("a.v"), self.path("b.v"), "--eco", self.path("b.tcl"), *words)

    def nets(self) -> dict[str, list[tuple[str, str]]]:
        """Of the placement that was written."""
        items = sections(self.text("b.def"), "b.def")["NETS"].items
        return {name: connections_of(item) for name, item in items.items()}

    def test_nets(self) -> None:
        status, out, err = self.inserted()
        self.assertEqual((status, out), (0, "buffers 6\nnets 4\narea 460\nfillers removed 2\noverlaps 1\n"), err)
        self.assertIn("insert: series_buf1 lies on e: its tile has no room\n", err)
        given = {name: [("PIN", pin) if pin in PORTS else (pin[0], pin[2:]) for pin in pins]
                 for name, pins in NETS.items()}
        self.assertEqual({name: sorted(pins) for name, pins in self.nets().items()},
                         {name: sorted(pins) for name, pins in {**given, **PARTS}.items()})
        text = self.text("b.def")
        self.assertIn("COMPONENTS 15 ;", text)
        self.assertIn("NETS 15 ;", text)
        for name, says in PLACES.items():
            self.assertIn(f"- {name} {says} ;\n", text)
        self.assertEqual(re.findall(r"- (\w) FILL", text), ["z"])
        self.done("netlist.py", self.path("b.def"), "--lef", self.lef, "-o", self.path("c.v"))
        one, other = (Verilog(self.path(name)) for name in ("b.v", "c.v"))
        self.assertEqual({name: sorted(pins) for name, pins in taken_out.nets_of(one).items()},
                         {name: sorted(pins) for name, pins in taken_out.nets_of(other).items()})
        self.route_again("b")

    @unittest.skipUnless(KLAYOUT, "klayout is not there")
    def test_klayout(self) -> None:
        self.inserted()
        self.check_cells("b")

    def test_which_nets(self) -> None:
        self.put("keep", "series pair\n")
        self.put("slacks", "slacks 1\nslack 1 -5000\nslack 3 -5000\nslack 5 -5000\nslack 7 -999\nclock 1\nend\n")
        for words, nets in ((("--keep", self.path("keep")), 2), (("--slack", self.path("slacks")), 3),
                            (("--slack", self.path("slacks"), "--below", "-1"), 2),
                            (("--slack", self.path("slacks"), "--below", "-5"), 0),
                            (("--slack", self.path("slacks"), "--keep", self.path("keep")), 1)):
            status, out, err = self.inserted(*words)
            self.assertEqual((status, out.splitlines()[1]), (0, f"nets {nets}"), (words, err))
        if not nets:
            self.assertEqual(self.text("b.v"), self.text("a.v"))
        # A clock's net stays without a table too, by liberty.
        self.given(f"{SOLUTION}ck 4 (2500,2500,1)-(3500,2500,1) (3500,2500,1)-(3500,2500,2) !\n",
                   f"{REPORT}net ck 4 required -1 buffers 1\n(2500,2500,1) BUF\n")
        self.assertEqual(self.inserted()[1].splitlines()[1], "nets 4")
        self.assertNotIn("ck_buf", self.text("b.v"))
        self.put("keep", "none")
        for words, says in ((("--keep", self.path("keep")), "has no net none"), (("--below", "1"), "wants --slack"),
                            (("--slack", self.path("slacks"), "--below", "x"), "no number of picoseconds")):
            self.assertIn(says, self.inserted(*words)[2])

    def test_what_stays(self) -> None:
        for old, new, says in (("(5500,3500,1) INV2", "(5500,3500,1) BUF", "a sink would get the inverted signal"),
                               ("(3500,500,1) BUF", "(3500,500,1) INV1_INV2", "no liberty file has the cell INV1_INV2"),
                               ("(3500,500,1) BUF", "(3500,500,1) AND", "no buffer and no inverter"),
                               ("(3500,500,1) BUF", "(500,500,1) BUF", "where none can stand"),
                               ("(3500,500,1) BUF", "(3500,1500,1) BUF", "where none can stand")):
            self.given(SOLUTION, REPORT.replace(old, new))
            status, _, err = self.inserted()
            self.assertEqual(status, 0 if "stays" in err else 3)
            self.assertIn(says, err)
        self.given(SOLUTION.replace("two 1 (500,500,1)-(7500,500,1)", "two 1 (500,500,1)-(6500,500,1)"), REPORT)
        self.assertIn("leave pins unjoined", self.inserted()[2])
        self.given(SOLUTION + "in 0 !\nback 8 !\n", REPORT)     # of which no buffer is told
        status, out, err = self.inserted()
        self.assertEqual((status, out.splitlines()[:2]), (1, ["unjoined 2", "buffers 6"]))
        self.assertTrue(err.endswith("insert: 2 nets unjoined: in, back\n"), err)
        self.design(self.text("a.def"))
        self.put("b.def", "VERSION 5.6 ;\n")
        self.given(SOLUTION, REPORT)
        self.assertIn("would be written over", self.inserted()[2])

    def test_names_and_wires(self) -> None:
        """Names that are taken are passed over; what a net says besides its pins and wires stays."""
        text = self.text("a.def").replace("- h BUF", "- two_buf1 BUF").replace("( h ", "( two_buf1 ")
        text = text.replace("  ( b A )\n  ;", "  ( b A )\n  + USE SIGNAL + ROUTED m1 ( 0 0 ) ( 5 * ) NEW m2 ( 5 0 )\n"
                                              "  + WEIGHT 2 ;")
        text = text.replace("- back", "- series_buf1_net").replace("- pair\n", "- 5pair\n")
        self.design(text)
        self.given(SOLUTION, REPORT)
        status, _, err = self.inserted()
        self.assertEqual(status, 0, err)
        nets, text = self.nets(), self.text("b.def")
        self.assertEqual(nets["two_buf2_net"], [("two_buf2", "Y"), ("b", "A")])
        self.assertEqual(nets["_5pair_buf2_net"], [("_5pair_buf2", "Y"), ("two_buf1", "A")])
        self.assertEqual(nets["series_buf2_net"], [("series_buf2", "Y"), ("e", "D")])
        self.assertIn("- two\n  ( a Y )\n  ( two_buf2 A )\n  + USE SIGNAL\n  + WEIGHT 2\n  ;\n", text)
        self.assertNotIn("ROUTED", text)

    def test_ports_apart(self) -> None:
        nets = {**NETS, "out": ["h/Y", "out", "far"]}
        self.design(placed(8, 4, CELLS, {**PORTS, "far": ("OUTPUT", 0, 3)}, nets))
        self.given(SOLUTION.replace("out 7", "out 7 (500,3500,2)-(500,3500,1) (500,3500,1)-(7500,3500,1)"), REPORT)
        status, out, err = self.inserted()
        self.assertEqual((status, out.splitlines()[1]), (0, "nets 3"), err)
        self.assertIn("the net out stays without its buffers: its ports would have several nets", err)

    @unittest.skipUnless(YOSYS, "yosys is not there")
    def test_equivalent(self) -> None:
        self.inserted()
        words = self.folder.name, self.lib, self.path("a.v")
        self.assertEqual(equivalent(*words, self.path("b.v"), "top"), "")
        text = self.text("b.v")
        self.put("c.v", text.replace("INV2 pair_buf2", "BUF pair_buf2"))
        self.assertIn("unproven", equivalent(*words, self.path("c.v"), "top"))

    @unittest.skipUnless(STA, "sta is not there")
    def test_script(self) -> None:
        self.inserted()
        asks = ["create_clock -name c -period 1 [get_ports ck]", "set_input_delay 0 -clock c [get_ports in]",
                "set_output_delay 0 -clock c [get_ports out]",
                'puts "groute: [worst_slack] [total_negative_slack]"']
        one = sta.answer([*sta.reading([self.lib], self.path("b.v"), "top", None), *asks])
        other = sta.answer([*sta.reading([self.lib], self.path("a.v"), "top", None),
                            *self.text("b.tcl").splitlines(), *asks])
        self.assertEqual(one, other)
        self.assertNotEqual(one, sta.answer([*sta.reading([self.lib], self.path("a.v"), "top", None), *asks]))

    def test_hierarchy(self) -> None:
        self.put("a.v", self.text("a.v") + "module more (); endmodule\n")
        self.assertIn("is to be flat", self.inserted()[2])


class TakenOut(unittest.TestCase):
    """Netlists that aren't what they were."""

    def test_differences(self) -> None:
        given = {"n": [("a", "Y"), ("b", "A"), ("c", "A")], "m": [("b", "Y")]}
        cells = {"x": Kind("BUF", "A", "Y", False), "i": Kind("INV", "A", "Y", True), "j": Kind("INV", "A", "Y", True)}
        found = {"n": [("a", "Y"), ("x", "A"), ("i", "A")], "n1": [("x", "Y"), ("b", "A")], "m": [("b", "Y")],
                 "n2": [("i", "Y"), ("j", "A")], "n3": [("j", "Y"), ("c", "A")]}
        taken_out.check(given, found, cells)
        for name, pins in (("n1", [("x", "Y")]), ("n2", [("i", "Y"), ("j", "A"), ("c", "A")]), ("m", []),
                           ("n3", [("j", "Y"), ("c", "A"), ("d", "A")]), ("n1", [("x", "Y"), ("b", "B")]),
                           ("n2", [("i", "Y"), ("j", "A"), ("x", "Y")]), ("n", [("a", "Y"), ("i", "A")]),
                           ("new", [("e", "A")])):
            with self.subTest(name=name, pins=pins):
                self.assertRaises(Fault, taken_out.check, given, {**found, name: pins}, cells)
        loop = {**found, "n2": [("i", "Y"), ("x", "A")], "n": [("a", "Y"), ("j", "A")],
                "n1": [("x", "Y"), ("i", "A"), ("b", "A")]}
        self.assertRaises(Fault, taken_out.check, given, loop, cells)


@unittest.skipUnless(OSU_THERE, "qflow-tech-osu035 is not there")
class Grom(OnChip):
    """A processor of 2,000 nets."""

    def test_grom(self) -> None:
        self.lef, self.lib = f"{OSU}.lef", f"{OSU}.lib"
        with lzma.open(f"{ROOT}/examples/grom_osu035.def.xz", "rt") as file:
            self.design(file.read(), "--kinds", "BUFX2,BUFX4,INVX2,INVX4")
        paths = [self.path(f"a.{kind}") for kind in ("def", "ispd", "solution", "report")]
        out = self.done("insert.py", *paths, "-o", self.path("b.def"), "--lef", self.lef, "--liberty", self.lib,
                        "--verilog", self.path("a.v"), self.path("b.v"), "--eco", self.path("b.tcl"))
        self.assertGreater(int(out.split()[1]), 40)
        self.route_again("b")
        for is_there, name, check in ((YOSYS, "yosys", self.check_equivalent), (STA, "sta", self.check_slack),
                                      (KLAYOUT, "klayout", lambda: self.check_cells("b"))):
            with self.subTest(by=name):
                if not is_there:
                    self.skipTest(f"{name} is not there")
                check()

    def check_equivalent(self) -> None:
        """By yosys, which refuses an inverter too many."""
        words = self.folder.name, self.lib, self.path("a.v")
        self.assertEqual(equivalent(*words, self.path("b.v"), "grom_cpu"), "")
        text, count = re.subn(r"BUFX[24] (\w+_buf\d+) ", r"INVX1 \1 ", self.text("b.v"), 1)
        self.assertEqual(count, 1)
        self.put("c.v", text)
        self.assertIn("unproven", equivalent(*words, self.path("c.v"), "grom_cpu"))

    def check_slack(self) -> None:
        """The script and the netlist give one slack, by the parasitics of what came of it."""
        paths = [self.path(f"b.{kind}") for kind in ("ispd", "library", "solution", "spef")]
        self.done("spef.py", *paths[:3], "-o", paths[3], "--scale", "100")
        self.spef()
        asks = ["create_clock -name c -period 5 [get_ports clk]", 'puts "groute: [worst_slack] [total_negative_slack]"']
        before = sta.reading([self.lib], self.path("a.v"), "grom_cpu", self.path("a.spef"))
        after = sta.reading([self.lib], self.path("b.v"), "grom_cpu", paths[3])
        by_script = [*sta.reading([self.lib], self.path("a.v"), "grom_cpu", None),
                     *self.text("b.tcl").splitlines(), f"read_spef -reduce_to pi_elmore {paths[3]}"]
        one, two, three = (sta.answer([*lines, *asks])[0].split() for lines in (before, after, by_script))
        self.assertEqual(two, three)
        self.assertGreater(float(two[0]) - float(one[0]), 1)
