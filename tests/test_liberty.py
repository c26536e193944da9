"""Tests of liberty.py, and of the libraries that def_to_ispd.py makes of liberty files."""
import os
import random

from groute.commands.liberty import report
from groute.placed.liberty import Liberty
from testing import ROOT, InFolder, program, run, tool
from groute.texts.files import Fault

SKY = [f"{ROOT}/examples/sky/{name}" for name in ("adder.def", "tech.lef", "cells.lef", "cells.lib")]


class Cells(InFolder):
    """The linear model, worked out by hand."""

    def test_model(self) -> None:
        cells = Liberty([SKY[3]]).cells
        # The worse edge at 10 fF falls in 0.11 ns, that at 100 fF rises in 0.28 ns, at the middle slew.
        buffer = cells["sk_buf"].lines["X"]
        self.assertAlmostEqual(buffer.resistance, 170000 / 90)
        self.assertAlmostEqual(buffer.delay, 110000 - 10 * 170000 / 90)
        # From 0.05 to 0.23 ns; the table is straight, so that there is no error at the middle slew.
        inverter = cells["sk_inv"].lines["Y"]
        self.assertAlmostEqual(inverter.resistance, 2000)
        self.assertAlmostEqual(inverter.delay, 30000)
        self.assertAlmostEqual(max(inverter.errors()[0]), 0)
        # At 10 fF and the least slew the model says 0.05 ns, and the table 0.03.
        self.assertAlmostEqual(max(inverter.errors()[1]), 2 / 3)
        # Of two inputs the worse: from 0.06 to 0.25; at 40 fF the table says 0.12, the model 0.06 + 0.19 / 3.
        nand = cells["sk_nand"].lines["Y"]
        self.assertAlmostEqual(nand.resistance, 190000 / 90)
        self.assertAlmostEqual(max(nand.errors()[0]), (0.06 + 0.19 / 3 - 0.12) / 0.12)
        self.assertEqual({name: {pin: round(load, 6) for pin, load in cell.loads.items()}
                          for name, cell in cells.items()}, {
            "sk_buf": {"A": 2.1}, "sk_inv": {"A": 1.9}, "sk_nand": {"A": 2.3, "B": 2.4},
            "sk_block": {"D": 5.1, "D[1]": 6.1}})
        self.assertEqual([cell.sense() for cell in cells.values()], ["kind", "inverter", None, None])
        self.assertAlmostEqual(cells["sk_block"].of_pin(cells["sk_block"].loads, "D\\[0\\]") or 0, 5.1)

    def test_report(self) -> None:
        status, out, err = tool("liberty.py", SKY[3], "sk_buf")
        self.assertEqual((status, out.splitlines()[:2], err),
                         (0, ["cell pin load ohms delay error_% most_%", "sk_buf X 2 1889 91111 0.0 0.0"], ""))
        self.assertEqual(tool("liberty.py", SKY[3], "sk_tie"),
                         (3, "", "liberty: no liberty file has the cell sk_tie\n"))

    def library(self, *words: str) -> tuple[int, list[str], str]:
        """Status, the library that is made, and what was told."""
        design, library = (os.path.join(self.folder.name, name) for name in ("design", "library"))
        status, _, err = tool("def_to_ispd.py", SKY[0], SKY[1], design, library, "--lef", SKY[2],
                              "--layers", "met1-met5", *words)
        if status:
            return status, [], err
        self.assertEqual(run(program(), "route", design, library, "0")[0], 0)
        with open(library, encoding="ascii") as file:
            return status, file.read().splitlines(), err

    def test_libraries(self) -> None:
        liberty = ("--liberty", SKY[3], "--scale", "10")
        lines = self.library(*liberty, "--driver", "sk_inv")[1]
        self.assertEqual(lines[0], "library 2")
        # Net 0 goes from a pin of the chip to a buffer, net 1 from it to the eight blocks.
        self.assertEqual(lines[7:13], ["driver 20000", "sink 19 0", "kind sk_buf 21 18889 9111111", "pin 0 1 21 0",
                                       "drive 1 18889", "pin 1 1 51 0"])
        self.assertEqual(lines[-1], "end")
        lines = self.library(*liberty, "--kinds", "sk_inv,sk_buf", "--kind", "own", "1", "2", "3", "--sink", "7")[1]
        self.assertEqual([lines[0], *lines[7:12]], ["library 3", "driver 10000", "sink 70 0", "kind own 10 20 300",
                                                    "inverter sk_inv 19 20000 3000000", "kind sk_buf 21 18889 9111111"])
        for words, says in (((*liberty, "--kinds", "sk_nand"), "sk_nand is no buffer and no inverter"),
                            ((*liberty, "--driver", "sk_no"), "no liberty file has the cell sk_no"),
                            (("--driver", "sk_inv"), "want --liberty"),
                            ((*liberty[:2], "--scale", "100000"), "and a library takes 0 to 1000000")):
            status, _, err = self.library(*words)
            self.assertIn(status, (2, 3))
            self.assertIn(says, err)

    def test_pads(self) -> None:
        """A pad that buffers is a kind only where it is named."""
        with open(SKY[3], encoding="ascii") as file:
            text = file.read()
        self.assertIn('cell ("sk_buf") {', text)
        path = self.put("lib", text.replace('cell ("sk_buf") {', 'cell ("sk_buf") { pad_cell : true ;'))
        for words, kinds in (((), []), (("--kinds", "sk_buf"), ["sk_buf"])):
            lines = self.library("--liberty", path, "--scale", "10", "--driver", "sk_inv", *words)[1]
            self.assertEqual([line.split()[1] for line in lines if line.startswith("kind ")], kinds)

    def test_faults(self) -> None:
        with open(SKY[3], encoding="ascii") as file:
            text = file.read()
        for old, new, says in (("time_unit", "time", "time_unit and capacitive_load_unit are due"),
                               ('"1ns"', '"1 hour"', "time_unit"), ("0.08, 0.26", "nan", "sk_buf"),
                               ("/* Delays", "/ Delays", ":1: "), ('"0.05, 0.2, 0.8"', '"0.05', ":41: "),
                               ("capacitance : 0.0023;", "capacitance 0.0023;", ": ( or : is due behind capacitance"),
                               ("\n}", "", "the text ends within library"),
                               ("sk_block\") {", "x\") { }", "hasn't begun")):
            self.assertIn(old, text)
            status, _, err = tool("liberty.py", self.put("lib", text.replace(old, new, 1)))
            self.assertEqual((status, err[:9]), (3, "liberty: "), new)
            self.assertIn(says, err)

    def test_a_cell_at_fault(self) -> None:
        with open(SKY[3], encoding="ascii") as file:
            path = self.put("lib", file.read().replace("0.09, 0.24", "0.09"))
        self.assertEqual(tool("liberty.py", path, "sk_inv")[0], 0)
        status, _, err = self.library("--liberty", path, "--scale", "10", "--kinds", "sk_inv")
        self.assertEqual(status, 0)
        self.assertIn("of the cell sk_buf has a form that is not read here", err)
        self.assertEqual(self.library("--liberty", path, "--kinds", "sk_buf")[0], 3)

    def test_mutated(self) -> None:
        with open(SKY[3], encoding="ascii") as file:
            text = file.read()
        rng, read = random.Random(4), 0
        for _ in range(300):
            at, end = rng.randrange(len(text)), rng.choice([1, 1, 5, 40])
            mutated = text[:at] + rng.choice(["", "{", "}", ";", '"', "x", "-", "e9", ":", "("]) + text[at + end:]
            try:
                list(report(list(Liberty([self.put("lib", mutated)]).cells.values())))
                read += 1
            except Fault:
                pass
        self.assertGreater(read, 50)
