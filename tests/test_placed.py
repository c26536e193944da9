"""Tests of placed designs: LEF and DEF as def_to_ispd.py reads them."""
import hashlib
import lzma
import os
import random
import re
import shutil
import unittest
from typing import Any, Iterator

from groute.placed import design_text, library_text
from groute.placed.chip import Chip
from groute.placed.def_text import Def
from groute.placed.lef_text import Lef
from groute.placed.statements import Notes, Shape, moved, polygon, turned
from testing import HERE, ROOT, InFolder, program, run, tool
from groute.texts.files import Fault

SKY = [f"{ROOT}/examples/sky/{name}" for name in ("adder.def", "tech.lef", "cells.lef")]
OSU035 = "/usr/share/qflow/tech/osu035/osu035_stdcells.lef"
MUL8 = "10c6794949a61aa62129639d460cf72fb519b894c5674f4a29b5fc5859ed4841"    # of the design of examples/mul8.def.xz
GF = [f"{ROOT}/examples/gf/{name}" for name in ("ring.def", "all.lef")]

LEF = """
VERSION 5.4 ; # layers of two ways, and one cell with an input, an output and an obstruction
UNITS DATABASE MICRONS 100 ; END UNITS
LAYER poly TYPE MASTERSLICE ; END poly
LAYER m1 TYPE ROUTING ; DIRECTION HORIZONTAL ; PITCH 2 ; WIDTH 1 ; SPACING 1 ; RESISTANCE RPERSQ 5 ;
  CAPACITANCE CPERSQDIST 0.0001 ; EDGECAPACITANCE 0.00005 ; END m1
LAYER v1 TYPE CUT ; SPACING 1 ; END v1
LAYER m2 TYPE ROUTING ; DIRECTION VERTICAL ; PITCH 2 ; WIDTH 1 ; SPACING 1 ; RESISTANCE RPERSQ 2 ;
  CAPACITANCE CPERSQDIST 0.0002 ; END m2
VIA M2_M1 DEFAULT LAYER m1 ; RECT -1 -1 1 1 ; END M2_M1
SITE core CLASS CORE ; SYMMETRY Y ; SIZE 2 BY 10 ; END core
MACRO BUF
  CLASS CORE ; FOREIGN BUF 0 0 ; ORIGIN 0 0 ; SIZE 8 BY 10 ; SYMMETRY X Y ; SITE core ;
  PIN A DIRECTION INPUT ; PORT LAYER m1 ; RECT 0 0 2 2 ; END END A
  PIN Y DIRECTION OUTPUT ; PORT LAYER m1 ; RECT 4 6 6 8 ; END END Y
  OBS LAYER m2 ; RECT 2 0 3 10 ; END
END BUF
END LIBRARY
"""
DEF = """
VERSION 5.6 ;
DESIGN tiny ;
UNITS DISTANCE MICRONS 10 ;
DIEAREA ( 0 0 ) ( 300 200 ) ;
TRACKS Y 10 DO 10 STEP 20 LAYER m1 ;
TRACKS X 10 DO 15 STEP 20 LAYER m2 ;
VIAS 1 ;
- post + RECT m1 ( -5 -5 ) ( 5 5 ) + RECT m2 ( -5 -5 ) ( 5 5 ) ;
END VIAS
COMPONENTS 2 ;
- one BUF + PLACED ( 0 0 ) N ;
- two BUF + PLACED ( 200 100 ) S ;
END COMPONENTS
PINS 1 ;
- in + NET in + LAYER m2 ( -5 -5 ) ( 5 5 ) + PLACED ( 50 200 ) N ;
END PINS
SPECIALNETS 1 ;
- vdd + FIXED m1 10 ( 150 150 ) ( * * ) post NEW m2 20 ( 290 0 ) ( * 200 ) ;
END SPECIALNETS
NETS 3 ;
- in ( one A ) ( PIN in ) ;
- mid ( two A ) ( one Y ) ;
- out ( two Y ) ;
END NETS
END DESIGN
"""
# Worked out by hand. Tiles are 100 by 100, with 5 tracks each way, of 2 each; a wire's middle keeps 15 from metal, and
# what counts lies between the tiles' middles at 50, 150 and 250. On m1, Y of `one` (x 40 to 60, y 60 to 80) keeps
# tracks 50, 70 and 90 from the first border of row 0. `two` is turned around: its A (x 260 to 280, y 180 to 200) and
# its Y (x 220 to 240, y 120 to 140) leave the second border of row 1 no track; the via at (150, 150) takes track 150 of
# both borders. On m2, the obstruction of `one` (x 20 to 30) takes tracks 10 and 30, the via 150, the obstruction of
# `two` (x 250 to 260) 250 and 270, and the special wire (x 280 to 300) 270 and 290.
TINY = """grid 3 2 2
vertical capacity 0 8
horizontal capacity 10 0
minimum width 1 1
minimum spacing 1 1
via spacing 1 1
0 0 100 100
num net 3
in 0 2 1
50 200 2
10 10 1
mid 1 2 1
50 70 1
270 190 1
out 2 1 1
230 130 1
5
0 0 1 1 0 1 4
0 1 1 1 1 1 8
1 1 1 2 1 1 0
0 0 2 0 1 2 6
2 0 2 2 1 2 4
"""


class Placed(InFolder):
    """def_to_ispd.py on a small placed design."""

    def told(self, *kinds: str | int) -> str:
        """What is said of kinds that are skipped, each behind it the line of the LEF."""
        path = os.path.join(self.folder.name, "lef")
        return "".join(f"def_to_ispd: {path}:{line}: {kind} is skipped\n"
                       for kind, line in zip(kinds[::2], kinds[1::2]))

    def made(self, placed: str, lef: str, *words: str) -> Any:
        """What the tool did, and the design and the library that it wrote."""
        design, library = (os.path.join(self.folder.name, name) for name in ("design", "library"))
        done = tool("def_to_ispd.py", self.put("def", placed), self.put("lef", lef), design, library, *words)
        texts = []
        for path in (design, library):
            if os.path.exists(path):
                with open(path, encoding="ascii") as file:
                    texts.append(file.read())
        return done, texts

    def test_design_and_library(self) -> None:
        done, (design, library) = self.made(DEF, LEF, "--scale", "10", "--kind", "BUF", "1", "2", "3")
        self.assertEqual(done, (0, "", self.told("LAYER of TYPE MASTERSLICE", 4, "LAYER of TYPE CUT", 7)))
        self.assertEqual(design, TINY)
        self.assertEqual(library, "library 1\nwire 1 500 20\nwire 2 200 20\nvia 0 0\ndriver 10000\nsink 200 0\n"
                                  "kind BUF 10 20 300\nend\n")
        paths = (os.path.join(self.folder.name, name) for name in ("design", "library"))
        self.assertEqual(run(program(), "route", *paths, "3")[0], 0)

    def test_guides(self) -> None:
        solution = self.put("solution", "in 0 (50,150,1)-(50,150,2) (50,150,2)-(50,50,2) (50,50,1)-(50,50,2) !\n"
                                        "mid 1 (50,50,1)-(250,50,1) (250,50,1)-(250,50,2) (250,50,2)-(250,150,2)\n"
                                        "(250,150,1)-(250,150,2) ! out 2 !")
        guides = os.path.join(self.folder.name, "guides")
        self.assertEqual(tool("guides.py", self.put("design", TINY), solution, self.put("lef", LEF), guides),
                         (0, "", ""))
        with open(guides, encoding="ascii") as file:
            self.assertEqual(file.read(), """in
(
0 0 100 100 m1
0 0 100 200 m2
0 100 100 200 m1
)
mid
(
0 0 300 100 m1
200 0 300 200 m2
200 100 300 200 m1
)
out
(
200 100 300 200 m1
)
""")

    def test_statements_that_change_nothing(self) -> None:
        for old, new in (
            ("SPACING 1 ; RESISTANCE RPERSQ 5", "SPACING 1 ; SPACING 3 RANGE 5 10 ; RESISTANCE RPERSQ 5"),
            ("SPACING 1 ; RESISTANCE RPERSQ 5",
             "SPACINGTABLE PARALLELRUNLENGTH 0 WIDTH 0 1 WIDTH 9 4 ; RESISTANCE RPERSQ 5"),
            ("PITCH 2 ; WIDTH 1", "DCCURRENTDENSITY AVERAGE WIDTH 9 8 ; TABLEENTRIES 1 2 ; PITCH 2 4 ; WIDTH 1"),
            ("SITE core", "SITE two CLASS CORE ; SIZE 2 BY 20 ; END two SITE core"),
            ("END core", "END core SITE two CLASS CORE ; SIZE 2 BY 20 ; END two"),
            ("LAYER m1 ; RECT 0 0 2 2", "LAYER m1 ; POLYGON 0 0 2 0 2 2 0 2"),
            ("LAYER m1 ; RECT 0 0 2 2", "LAYER m1 ; WIDTH 2 ; PATH 1 1"),
        ):
            self.assertIn(old, LEF)
            self.assertEqual(self.made(DEF, LEF.replace(old, new, 1))[1][0], TINY, new)
        for old, new in (
            ("TRACKS Y 10 DO 10", "TRACKS Y 110 DO 5 STEP 20.0 LAYER m1 ;\nTRACKS Y 10 DO 5"),
            ("TRACKS Y 10 DO 10", "TRACKS Y 15 DO 9 STEP 20 LAYER m1 ;\nTRACKS Y 10 DO 10"),
            ("PLACED ( 0 0 ) N", "FIXED ( 0.0 0 ) N + HALO 1 1 1 1 + SOURCE DIST"),
            ("( two Y )", "( two Y + SYNTHESIZED ) + ROUTED m1 ( 0 0 ) ( 5 * ) + USE SIGNAL"),
            ("( 150 150 ) ( * * ) post", "( 150 150 ) post"),
            ("m2 20 ( 290 0 ) ( * 200 )",
             "m2 20 + SHAPE STRIPE ( 290 100 ) ( * 200 ) NEW m2 20 ( 290 100 10 ) ( 290 0 0 )"),
            ("+ LAYER m2 ( -5 -5 ) ( 5 5 ) + PLACED ( 50 200 ) N",
             "+ PORT + LAYER m2 ( -5 -5 ) ( 5 5 ) + PLACED ( 50 200 ) FE"),
            ("DIEAREA ( 0 0 ) ( 300 200 )", "DIEAREA ( 0 0 ) ( 0 200 ) ( 300 200 ) ( 300 50 ) ( 100 50 ) ( 100 0 )"),
            ("NETS 3", "GCELLGRID X 0 DO 4 STEP 100 ; GCELLGRID Y 0 DO 3 STEP 100 ;\nNETS 3"),
        ):
            self.assertIn(old, DEF)
            self.assertEqual(self.made(DEF.replace(old, new, 1), LEF)[1][0], TINY, new)

    def test_what_is_told(self) -> None:
        for text, old, new, says in (
            (DEF, "TRACKS X 10 DO 15 STEP 20 LAYER m2 ;", "TRACKS X 10 DO 15 STEP 20 LAYER m3 ;", None),
            (DEF, "TRACKS Y 10 DO 10", "TRACKS Y 10 DO 10 STEP 20 LAYER m3 ;\nTRACKS Y 10 DO 10", ""),
            (DEF, "COMPONENTS 2", "COMPONENTS 3", ":11: COMPONENTS says 3, and has 2\n"),
            (DEF, "NETS 3", "BLOCKAGES 1 ; - LAYER m9 RECT ( 0 0 ) ( 9 9 ) ; END BLOCKAGES NETS 3",
             ": the LEF has no LAYER m9: shapes on it are skipped\n"),
            (LEF, "OBS LAYER m2", "OBS LAYER m9 ; RECT 0 0 1 1 ; LAYER m2", ": the LEF has no LAYER m9: shapes on it"),
        ):
            self.assertIn(old, text)
            changed = text.replace(old, new, 1)
            (status, _, err), made = self.made(changed if text is DEF else DEF, changed if text is LEF else LEF)
            self.assertEqual(status, 3 if says is None else 0)
            self.assertIn("LAYER m2 has no TRACKS X, and so no room for wires" if says is None else says, err)
            self.assertEqual(made[:1], [] if says is None else [TINY])

    def test_a_pipe(self) -> None:
        status, out, _ = tool("def_to_ispd.py", self.put("def", DEF), self.put("lef", LEF), "/dev/stdout")
        self.assertEqual((status, out), (0, TINY))

    def test_bits_of_buses(self) -> None:
        lef = LEF.replace("PIN A ", "PIN A[0] ").replace("END A\n", "END A[0]\n")
        for bits, name in (("", "A[0]"), ("", "A\\[0\\]"), ('BUSBITCHARS "<>" ;', "A<0>")):
            placed = DEF.replace("one A", f"one {name}").replace("two A", f"two {name}")
            self.assertEqual(self.made(placed.replace("DESIGN tiny ;", f"DESIGN tiny ; {bits}"), lef)[1][0], TINY)

    def test_what_is_refused(self) -> None:
        for old, new, says in (
            ("PLACED ( 0 0 ) N", "UNPLACED", ":22: the net in needs the component one, which isn't placed"),
            ("( 200 100 ) S", "( 200 100 ) NE", ":13: the form of the statement is not read here: - two BUF + PLACED"),
            ("( two Y )", "( two Y ) + VPIN v ( 0 0 ) ( 5 0 )", ":24: + VPIN of the net out is not read here"),
            ("( two Y )", "( two Z )", ":24: there is no pin Z of component two"),
            ("( two Y )", "( two Y ) + NONDEFAULTRULE wide",
             ":24: neither NONDEFAULTRULES nor the LEF has the rule wide"),
            ("( 150 150 ) ( * * )", "( 150 150 ) ( 160 160 )", ":19: a special wire of width 10 from ( 150 150 )"),
            ("( * * ) post", "( * * ) pole", ":19: neither VIAS nor the LEF has the via pole"),
            ("END NETS\nEND DESIGN", "", "ends early"),
            ("END NETS", "END NET", "END NETS is due"),
            ("TRACKS Y 10 DO 10", "TRACKS Y ten DO 10", ":6: the form of the statement is not read here: TRACKS Y ten"),
            ("TRACKS Y 10 DO 10", "TRACKS Y 10.5 DO 10", ":6: the form of the statement"),
            ("DIEAREA ( 0 0 ) ( 300 200 ) ;", "", "DIEAREA are due"),
            ("PLACED ( 50 200 ) N", "PLACED ( 50 300 ) N",
             ":22: the pin in of PIN at ( 50 300 ) lies outside the chip"),
            ("+ LAYER m2 ( -5 -5 ) ( 5 5 ) + PLACED", "+ LAYER poly ( -5 -5 ) ( 5 5 ) + PLACED", "poly"),
            ("- mid (", "- in (", ":23: in stands here a second time"),
            ("DESIGN tiny ;", "DESIGN tiny ; SPARECELLS 1 ;", ":3: SPARECELLS is not read here: SPARECELLS 1 ;"),
        ):
            self.assertIn(old, DEF)
            (status, _, err), _ = self.made(DEF.replace(old, new, 1), LEF)
            self.assertEqual(status, 3)
            self.assertIn(says, err)
        for old, new, says in (
            ("PITCH 2 ;", "COLOUR 2 ;", ":5: COLOUR of LAYER m1 is not read here"),
            ("MACRO BUF", "MACRO OTHER", "END OTHER is due"),
            ("SPACING 1 ; RESISTANCE RPERSQ 5", "RESISTANCE RPERSQ 5", "no SPACING of LAYER m1"),
            ("WIDTH 1 ;", "WIDTH 1 ; WIDTH 2 ;", "width of m1 is said again, and otherwise"),
            ("VERSION 5.4 ;", "ALIAS a b ;", ":2: ALIAS is not read here: ALIAS"),
            ("RECT 4 6 6 8", "RECT 4 6 6", "form of the statement is not read here: RECT 4 6 6 ;"),
            ("LAYER m1 ; RECT 0 0 2 2", "RECT 0 0 2 2", ":14: LAYER is due before: RECT 0 0 2 2"),
            ("SIZE 8 BY 10 ; SYMMETRY", "SYMMETRY", ":17: MACRO BUF has no SIZE before: END BUF"),
        ):
            self.assertIn(old, LEF)
            (status, _, err), _ = self.made(DEF, LEF.replace(old, new, 1))
            self.assertEqual(status, 3)
            self.assertIn(says, err)

    def test_blockages(self) -> None:
        # On m1 above the first tile: tracks 110 and 130 lie nearer than 15 to it, and 110 alone nearer than 5; both
        # count for the first border of row 1, which held 8.
        for words, capacity in (("", 4), ("+ SPACING 0", 6), ("+ EXCEPTPGNET + SPACING 10 + PUSHDOWN", 4),
                                ("+ FILLS", 8)):
            item = f"BLOCKAGES 1 ; - LAYER m1 {words} RECT ( 120 100 ) ( 130 120 ) ; END BLOCKAGES\nNETS 3"
            design = self.made(DEF.replace("NETS 3", item), LEF)[1][0]
            self.assertEqual(design, TINY.replace("0 1 1 1 1 1 8", f"0 1 1 1 1 1 {capacity}"))
        item = "BLOCKAGES 1 ; - PLACEMENT + SOFT RECT ( 0 0 ) ( 300 200 ) ; END BLOCKAGES\nNETS 3"
        self.assertEqual(self.made(DEF.replace("NETS 3", item), LEF)[1][0], TINY)

    def test_rules_for_wide_nets(self) -> None:
        # Of a pitch of 2 micrometres: 3 + 2 of them take 5 of a track's 2, and 1.5 + 1 take 3.
        for rule, width in (("+ LAYER m1 WIDTH 30 SPACING 20", 4), ("+ LAYER m2 WIDTH 15", 2),
                            ("+ LAYER m3 WIDTH 90", 1),
                            ("+ LAYER m1 WIDTH 15 + LAYER m2 WIDTH 30 SPACING 30 + VIA post", 5)):
            item = f"NONDEFAULTRULES 1 ; - wide {rule} ; END NONDEFAULTRULES\nNETS 3"
            placed = DEF.replace("NETS 3", item).replace("( two Y )", "( two Y ) + NONDEFAULTRULE wide")
            self.assertEqual(self.made(placed, LEF)[1][0], TINY.replace("out 2 1 1", f"out 2 1 {width}"))

    def test_rows_of_qflow_and_fifteen_pitches(self) -> None:
        sized = self.made(DEF.replace("DESIGN tiny ;", "DESIGN tiny ; ROW r core 0 0 N ;"), LEF)[1][0]
        self.assertEqual(sized.splitlines()[0], "grid 1 1 2")   # 15 pitches of 2 micrometres are 300 units
        sized = self.made(DEF, LEF, "--tile", "150", "100")[1][0]
        self.assertEqual(sized.splitlines()[0], "grid 2 2 2")


class Geometry(unittest.TestCase):
    """Rectangles of polygons, and shapes that are turned."""

    def test_polygons(self) -> None:
        corner = polygon("m", [0, 0, 6, 0, 6, 2, 2, 2, 2, 5, 0, 5])
        self.assertEqual(corner, [("m", 0, 0, 6, 2, None), ("m", 0, 2, 2, 5, None)])
        ring = polygon("m", [0, 0, 6, 0, 6, 6, 0, 6, 0, 4, 4, 4, 4, 2, 0, 2])
        self.assertEqual(ring, [("m", 0, 0, 6, 2, None), ("m", 4, 2, 6, 4, None), ("m", 0, 4, 6, 6, None)])
        # Slanted sides are covered whole, between the heights of corners.
        self.assertEqual(polygon("m", [0, 0, 9, 0, 5, 3]), [("m", 0, 0, 9, 3, None)])
        self.assertEqual(polygon("m", [0, 0, 5, 3, 0, 6]), [("m", 0, 0, 5, 3, None), ("m", 0, 3, 5, 6, None)])
        for values in ([0, 0, 5, 0, 9, 0], [0, 0, 5], []):
            self.assertRaises(ValueError, polygon, "m", values)

    def test_orientations(self) -> None:
        # Of a cell 10 wide and 4 high, a shape near its lower left corner.
        shape = ("m", 1, 2, 4, 3, None)
        places = {"N": (1, 2, 4, 3), "S": (6, 1, 9, 2), "E": (2, 6, 3, 9), "W": (1, 1, 2, 4), "FN": (6, 2, 9, 3),
                  "FS": (1, 1, 4, 2), "FE": (1, 6, 2, 9), "FW": (2, 1, 3, 4)}
        for orientation, place in places.items():
            self.assertEqual(turned(Shape(*shape), orientation, 10, 4)[1:5], place, orientation)


class Technologies(InFolder):
    """def_to_ispd.py on designs in the style of two technologies of today."""

    def made(self, texts: list[str], *words: str) -> Any:
        """The lines of the design, of the text beside it and of the library, and what was told."""
        design, library = (os.path.join(self.folder.name, name) for name in ("design", "library"))
        lefs = [word for text in texts[2:] for word in ("--lef", text)]
        status, _, err = tool("def_to_ispd.py", texts[0], texts[1], design, library, *lefs, *words)
        self.assertEqual(status, 0, err)
        self.assertEqual(run(program(), "evaluate", design, self.put("empty", ""))[0], 1)
        lines = []
        for path in (design, f"{design}.names", library):
            with open(path, encoding="utf-8") as file:
                lines.append(file.read().splitlines())
        return (*lines, err)

    # Worked out by hand. Tiles of GCELLGRID are 6900 by 6900, and the last row runs from 41400 to 54400.
    def test_sky(self) -> None:
        design, names, library, err = self.made(SKY, "--layers", "met1-met5", "--scale", "10")
        self.assertEqual(design[0], "grid 8 7 5")
        self.assertEqual(design[6], "0 0 6900 6900")
        self.assertEqual(names, ["names 2", "units 1000", "origin 0 0", "tile 6900 6900", "die 0 0 55200 54400",
                                 "lower 0 li1", *(f"layer {at} met{at}" for at in range(1, 6)),
                                 "net 0 use 1 clock", "net 1 use 1 clock"])
        nets = design[8:]
        # By its rule a wire and its spacing take 0.84 micrometres of met1, whose pitch is 0.34: 4.94 of a track's 2.
        self.assertEqual(nets[:3], ["clk 0 2 4", "27830 480 2", "30845 45045 1"])
        # The X of clock_root lies on li1 first and then on met1: of the two the one of the grid; turned by FS.
        self.assertEqual(nets[3:5], ["clk_root 1 9 3", "31965 45525 1"])
        # D[0] of the blocks, 5.2 above their corner and 0.23 beside it, turned in each of the eight ways.
        places = [(230, 5200), (3450, 240), (5200, 3450), (240, 230), (3450, 5200), (230, 240), (240, 3450),
                  (5200, 230)]
        self.assertEqual(nets[5:13], [f"{2760 + 6440 * at + x} {2720 + y} 2" for at, (x, y) in enumerate(places)])
        self.assertEqual(nets[13:15], ["a\\[0\\] 2 3 1", "400 20400 3"])
        # A step on met1: 6.9 micrometres, 0.14 wide, 0.12 ohms a square; 25.7 and twice 40.5 attofarads.
        self.assertEqual(library[1], "wire 1 59 6")
        self.assertEqual(library[6:], ["via 45 0", "driver 10000", "sink 200 0", "end"])
        told = re.findall(r"^def_to_ispd: .*/(\w+\.\w+):([0-9]+): (.*)$", err, re.MULTILINE)
        self.assertEqual([text for *_, text in told], [
            "ROUTEHALO of COMPONENTS is skipped", "the component spare isn't placed", "FILLS is skipped",
            "ROUTED of NETS is skipped",
            "BEGINEXT is skipped", "LAYER of TYPE MASTERSLICE is skipped", "PROPERTY LEF58_.. is skipped",
            "LAYER of TYPE OVERLAP is skipped", "ANTENNA.. is skipped", "LAYER of TYPE CUT is skipped",
            "ACCURRENTDENSITY is skipped", "DCCURRENTDENSITY is skipped", "PROPERTY is skipped",
            "VIARULE GENERATE is skipped"])
        for name, line, text in told:
            with open(f"{ROOT}/examples/sky/{name}", encoding="utf-8") as file:
                there = file.read().splitlines()[int(line) - 1]
            words = [text.replace("..", "").split()[0], "TYPE", "spare", "- y"]
            self.assertTrue(any(word in there for word in words), text)

    def test_shares_and_layers(self) -> None:
        whole = self.made(SKY, "--layers", "met1-met3")[0]
        less = self.made(SKY, "--layers", "met1-met3", "--adjust", "met1=0.8", "--adjust", "met3=1")[0]
        most, least = ([int(value) for value in lines[2].split()[2:]] for lines in (whole, less))
        self.assertEqual((least[0], least[1:]), (most[0] * 2 // 10, [0, 0]))
        self.assertEqual(whole[1], less[1])
        for words, says in ((("--layers", "met1-met9"), "routing layers are li1 met1"),
                            (("--adjust", "tin=0.5"), "tin")):
            status, _, err = tool("def_to_ispd.py", *SKY[:2], "design", "--lef", SKY[2], *words)
            self.assertEqual(status, 3)
            self.assertIn(says, err)
        self.assertEqual(tool("def_to_ispd.py", *SKY[:2], "design", "--adjust", "met1=2")[0], 2)

    def test_gf(self) -> None:
        design, names, library, _ = self.made(GF)
        # GCELLGRID isn't regular: 15 pitches of Metal3, 0.56 micrometres at 2000 units, of a die of 61600 by 60000.
        self.assertEqual((design[0], design[6]), ("grid 4 4 4", "0 0 16800 16800"))
        self.assertEqual((names[1], names[4]), ("units 2000", "die 0 0 61600 60000"))
        self.assertEqual(design[8:10], ["clk 0 5 1", "20160 500 2"])
        # g0 lies mirrored at ( 4480 7840 ): its CLK is the first shape, 2.15 from its side of 8.4, 2 high.
        self.assertEqual(design[10], "16980 11840 1")
        self.assertEqual(library[5], "via 4 0")

    @unittest.skipUnless(os.path.exists(OSU035), "qflow-tech-osu035 is not there")
    def test_a_design_of_qflow(self) -> None:
        with lzma.open(f"{ROOT}/examples/mul8.def.xz", "rt", encoding="ascii") as file:
            placed = self.put("mul8.def", file.read())
        design = os.path.join(self.folder.name, "mul8.ispd")
        self.assertEqual(tool("def_to_ispd.py", placed, OSU035, design)[0], 0)
        with open(design, "rb") as file:
            self.assertEqual(hashlib.sha256(file.read()).hexdigest(), MUL8)

    def test_decimals_are_exact(self) -> None:
        # ZN of gf_inv lies from 1.0075 to 1.2375, which are 2015 and 2475 units, and rounded to 0.001 wouldn't be.
        lef = Lef(GF[1:], 2000, Notes("test", False))
        self.assertEqual(lef.macros["gf_inv"].pins["ZN"].shapes[0][:5], ("Metal1", 2015, 1200, 2475, 6400))


def chip_of(texts: list[str]) -> Chip:
    """A placed design."""
    placed = Def(texts[0], Notes("test", False))
    return Chip(placed, Lef(texts[1:], placed.units, Notes("test", False)))


class Shapes(InFolder):
    """Shapes in place are those that KLayout reads from the same texts."""

    # What KLayout 0.28 doesn't read, or reads without what it is for.
    SKY_EDITS = ((r"\+ POLYGON met2 (\( -140 -480 \)) .*(\( 140 480 \)).*", r"+ LAYER met2 \1 \2"),
                 (r".*\+ VIA met1_met2 \( 32540 .*", ""), (r".*\+ (SLOTS|FILLS) RECT.*", ""),
                 (r"\+ ROUTED met2 .*;", ";"),
                 (r"VIA 0.690 2.720 met1_met2 ;", ""))
    GF_EDITS = ((r"(?s)\nSPACING\n.*END SPACING", ""), (r"(?s)ARRAY.*END core_array", ""),
                (r"(?s)TIMING.*END TIMING", ""))

    def shapes(self, chip: Chip) -> Iterator[tuple[str, Any]]:
        """Shapes by kind, as KLayout has them."""
        for shape in chip.placed.special:
            yield "SPECIAL", shape
        for shape in chip.placed.blockages:
            yield "BLOCKAGE", shape
        for via, x, y, orientation, place in chip.placed.special_vias:
            for shape in chip.via(via, place):
                yield "VIA", moved(turned(shape, orientation), x, y)
        for pin in chip.placed.pins.values():
            for shape in pin.shapes:
                yield "PIN", shape
        for component in chip.placed.components.values():
            if component.orientation is not None:
                macro = chip.macro(component)
                kinds = [("LEFPIN", shape) for pin in macro.pins.values() for shape in pin.shapes]
                for kind, shape in kinds + [("OBS", shape) for shape in macro.obstructions]:
                    yield kind, moved(macro.in_place(shape, component.orientation), component.x, component.y)

    def test_capacities(self) -> None:
        """Track by track and shape by shape, the capacities are those of the design."""
        for texts in (SKY, GF):
            chip = chip_of(texts)
            grid, metal = chip.grid, [shape for _, shape in self.shapes(chip)]
            for number, layer in enumerate(chip.layers):
                along = 0 if layer.is_horizontal() else 1
                mine = [shape for shape in metal if shape[0] == layer.name]
                found = chip.capacities(number)
                starts, counts = (grid.left, grid.low), (grid.columns, grid.rows)
                for line in range(counts[1 - along]):
                    edge = starts[1 - along] + line * grid.tile[1 - along]
                    end = edge + grid.tile[1 - along] if line + 1 < counts[1 - along] else grid.end(1 - along)
                    tracks = [track for track in chip.tracks(layer, along) if edge <= track < end]
                    for at in range(counts[along] - 1):
                        middle = starts[along] + grid.tile[along] * at + grid.tile[along] // 2
                        free = sum(not any(self.takes(chip, layer, shape, along, track, middle, grid.tile[along])
                                           for shape in mine) for track in tracks)
                        self.assertEqual(found[line][at], 2 * free, (layer.name, line, at))

    def takes(self, chip: Chip, layer: Any, shape: Any, along: int, track: int, middle: int, side: int) -> bool:
        """Whether a shape keeps a wire from a track between this middle of a tile and the next."""
        spacing = layer.apart() * chip.placed.units if shape.spacing is None else shape.spacing
        room = round(layer.width * chip.placed.units / 2 + spacing)
        across, far = (shape[2], shape[4]) if along == 0 else (shape[1], shape[3])
        low, high = (shape[1], shape[3]) if along == 0 else (shape[2], shape[4])
        return bool(across - room < track < far + room and low - room < middle + side and high + room > middle)

    @unittest.skipUnless(shutil.which("klayout"), "klayout is not there")
    def test_klayout(self) -> None:
        for texts, edits, kinds in ((SKY, self.SKY_EDITS, 25), (GF, self.GF_EDITS, 11)):
            paths = []
            for path in texts:
                with open(path, encoding="utf-8") as file:
                    text = file.read()
                for old, new in edits:
                    text = re.sub(old, new, text)
                paths.append(self.put(os.path.basename(path), text))
            chip = chip_of(paths)
            layers = {layer.name for layer in chip.lef.routing}
            listed = self.put("listed", "".join(f"{kind} {' '.join(map(str, shape[:5]))}\n"
                                                for kind, shape in self.shapes(chip)))
            status, out, err = run("klayout", "-b", "-r", f"{HERE}/klayout_shapes.py", "-rd", f"placed={paths[0]}",
                                   "-rd", f"lefs={','.join(paths[1:])}", "-rd", f"listed={listed}",
                                   "-rd", f"units={chip.placed.units}",
                                   env={**os.environ, "QT_QPA_PLATFORM": "offscreen"})
            self.assertEqual(status, 0, err)
            lines = [line.split() for line in out.splitlines() if line.startswith("differ ")]
            found = [(kind, layer, area) for _, kind, layer, area, *_ in lines if layer in layers]
            self.assertEqual([line for line in found if line[2] != "0"], [])
            self.assertEqual(len(found), kinds)
            self.assert_pins(chip, out)

    def assert_pins(self, chip: Chip, out: str) -> None:
        """Each pin of a net lies in the middle of a shape of its name, on its layer, as KLayout has it; of a polygon
        with corners to the inside, within its box."""
        boxes: dict[Any, Any] = {}
        for line in out.splitlines():
            if line.startswith("pin "):
                _, name, layer, *corners = line.split()
                boxes.setdefault((name, layer), []).append(tuple(map(int, corners)))
        count = 0
        for net in chip.nets:
            for (component, name), (x, y, level) in zip(chip.ordered(net), chip.points(net)):
                if component != "PIN":
                    layer = chip.layers[level - 1].name
                    mine = boxes.get((name.replace("\\", ""), layer), [])
                    is_bent = chip.placed.components[component].macro == "sk_inv" and name == "Y"
                    self.assertTrue(any((x, y) == ((x1 + x2) // 2, (y1 + y2) // 2) or
                                        is_bent and x1 <= x <= x2 and y1 <= y <= y2 for x1, y1, x2, y2 in mine))
                    count += 1
        self.assertGreater(count, 20)


class Mutated(InFolder):
    """Texts in which a statement is missing, doubled or at fault are read or refused in words."""

    def test_five_hundred_texts(self) -> None:
        rng = random.Random(55)
        empty, read = self.put("empty", ""), 0
        for _ in range(500):
            texts = rng.choice([SKY, GF])
            at = rng.randrange(len(texts))
            with open(texts[at], encoding="utf-8") as file:
                mutated = self.put("mutated", self.mutated(file.read(), rng))
            try:
                chip = chip_of([*texts[:at], mutated, *texts[at + 1:]])
                lines = list(design_text.design_text(chip))
                list(library_text.wires(chip, 1))
            except Fault as fault:
                self.assertRegex(str(fault), r"[a-z]")
                continue
            read += 1
            design = self.put("design", "".join(f"{line}\n" for line in lines))
            self.assertIn(run(program(), "evaluate", design, empty)[0], (0, 1))
        self.assertGreater(read, 100)

    def mutated(self, text: str, rng: random.Random) -> str:
        """The text with a line left out, doubled or moved, a token changed, or without its end."""
        lines = text.splitlines(keepends=True)
        at, way = rng.randrange(len(lines)), rng.randrange(6)
        if way == 0:
            del lines[at]
        elif way == 1:
            lines.insert(at, lines[at])
        elif way == 2:
            lines.insert(rng.randrange(len(lines)), lines.pop(at))
        elif way == 3:
            del lines[at:]
        else:
            words = [lines[at], *rng.choice(lines).split()]
            tokens = lines[at].split(" ")
            tokens[rng.randrange(len(tokens))] = rng.choice(["", "?", "-1", "0", "1e99", "9" * 30, "0.0001", ";", "(",
                                                             "\"", "END", "*", "+", words[-1]])
            lines[at] = " ".join(tokens) + "\n"
        return "".join(lines)
