"""Tests of nets as a flow means them: supplies are left out, and clocks are told apart."""
import os
import re
import unittest

from testing import PICTURES, InFolder, program, run, tool
from test_placed import DEF, LEF

NETS = """NETS 3 ;
- tied ( one A ) ( two A ) %s;
- low ( two Y ) ( PIN in ) ;
- out ( one Y ) ;
END NETS
"""
SPECIAL = "SPECIALNETS 1 ;\n- tied %s;\nEND SPECIALNETS\n"
PIN = "- in + NET %s + LAYER m2 ( -5 -5 ) ( 5 5 ) + PLACED ( 50 200 ) N %s;\n"
LIBERTY = """library (tiny) {
  time_unit : "1ns" ;
  capacitive_load_unit (1, pf) ;
  lu_table_template (load) { variable_1 : total_output_net_capacitance ; index_1 ("0.01, 0.1") ; }
  cell (BUF) {
    pin (A) { direction : input ; capacitance : 0.002 ; %s }
    pin (Y) { direction : output ; timing () { related_pin : A ; cell_rise (load) { values ("0.1, 0.2") ; } } }
  }
}
"""


class Made(InFolder):
    """What def_to_ispd.py makes of a small placement."""

    def placed(self, nets: str = "", special: str | None = None, pin: str = "", pins_net: str = "low") -> str:
        """The path of a DEF with words of the net `tied` in NETS and SPECIALNETS, and of a pin."""
        text = DEF[:DEF.index("PINS 1")] + "PINS 1 ;\n" + PIN % (pins_net, pin) + "END PINS\n"
        text += "" if special is None else SPECIAL % special
        return self.put("def", f"{text}{NETS % nets}END DESIGN\n")

    def made(self, placed: str, *words: str, lef: str = LEF) -> tuple[int, list[str], list[str], list[str]]:
        """The status, what is told of nets, the names of the design's nets, and those that are clocks."""
        design = os.path.join(self.folder.name, "design")
        status, _, err = tool("def_to_ispd.py", placed, self.put("lef", lef), design, *words)
        told = [line for line in err.splitlines() if not line.endswith("is skipped")]
        if status:
            return status, told, [], []
        with open(design, encoding="ascii") as file:
            found = re.findall(r"^(\w+) ([0-9]+) [0-9]+ [0-9]+$", file.read().split("num net")[1], re.MULTILINE)
        nets = {id_: name for name, id_ in found}
        with open(f"{design}.names", encoding="ascii") as file:
            clocks = re.findall(r"^net ([0-9]+) use 1 clock$", file.read(), re.MULTILINE)
        return status, told, list(nets.values()), [nets[id_] for id_ in clocks]


class Supplies(Made):
    """Which nets are supplies, and what is told of them."""

    def test_left_out(self) -> None:
        """By a word in NETS, SPECIALNETS or PINS, or in SPECIALNETS without a word."""
        words = [{"nets": f"+ USE {use} "} for use in ("POWER", "GROUND")]
        words += [{"special": f"+ USE {use} "} for use in ("POWER", "GROUND")]
        words += [{"pin": f"+ USE {use} ", "pins_net": "tied"} for use in ("POWER", "GROUND")]
        words += [{"special": ""}, {"special": "+ FIXED m1 10 ( 150 150 ) ( * * ) post "},
                  {"nets": "+ USE SIGNAL ", "special": "+ USE GROUND "}]
        for said in words:
            path = self.placed(**said)
            line = 1 + open(path, encoding="ascii").read().split("- tied ( one")[0].count("\n")
            status, told, nets, _ = self.made(path)
            self.assertEqual((status, nets), (0, ["low", "out"]), said)
            self.assertEqual(told, [f"def_to_ispd: {path}:{line}: the net tied is a supply and left out; it ties off 2 "
                                    "inputs of cells (--keep-supply keeps it)"])
            status, told, nets, _ = self.made(path, "--keep-supply")
            self.assertEqual((status, told, nets), (0, [], ["tied", "low", "out"]), said)

    def test_stay(self) -> None:
        """A net that nothing calls a supply; and one that SPECIALNETS has with another word, as a clock's trunk."""
        words: list[dict[str, str]] = [
            {}, {"nets": "+ USE SIGNAL "}, {"special": "+ USE CLOCK "}, {"special": "+ USE SIGNAL "},
            {"nets": "+ USE CLOCK ", "special": ""}, {"nets": "+ USE SIGNAL ", "special": ""},
            {"special": "", "pin": "+ USE CLOCK ", "pins_net": "tied"}]
        for said in words:
            status, told, nets, clocks = self.made(self.placed(**said))
            self.assertEqual((status, told, nets), (0, [], ["tied", "low", "out"]), said)
            self.assertEqual(clocks, ["tied"] if "CLOCK" in str(said) else [], said)

    def test_nothing_else(self) -> None:
        """A DEF whose nets with a pin are all supplies is refused."""
        text = DEF[:DEF.index("PINS 1")] + "NETS 1 ;\n- tied ( one A ) + USE GROUND ;\nEND NETS\nEND DESIGN\n"
        status, told, _, _ = self.made(self.put("def", text))
        self.assertEqual((status, told[-1].split(": ", 2)[-1]),
                         (3, "all nets of NETS that have a pin are supplies: --keep-supply keeps them"))
        self.assertFalse(os.path.exists(os.path.join(self.folder.name, "design")))
        self.assertEqual(self.made(self.put("def", text), "--keep-supply")[0], 0)


class Clocks(Made):
    """Which nets are clocks', and the tools that list them."""

    def test_by_sinks(self) -> None:
        """A sink that the LEF or liberty calls a clock's; a driver does not."""
        placed = self.placed()
        self.assertEqual(self.made(placed)[3], [])
        lef = LEF.replace("PIN A DIRECTION INPUT ;", "PIN A DIRECTION INPUT ; USE CLOCK ;")
        self.assertEqual(self.made(placed, lef=lef)[3], ["tied"])
        lef = LEF.replace("PIN Y DIRECTION OUTPUT ;", "PIN Y DIRECTION OUTPUT ; USE CLOCK ;")
        self.assertEqual(self.made(placed, lef=lef)[3], [])
        library = os.path.join(self.folder.name, "library")
        for said, wanted in (("clock : true ;", ["tied"]), ("clock : false ;", []), ("", [])):
            words = library, "--liberty", self.put("lib", LIBERTY % said), "--driver", "BUF"
            self.assertEqual(self.made(placed, *words)[::3], (0, wanted), said)

    @unittest.skipUnless(PICTURES, "numpy and matplotlib are not there")
    def test_lists(self) -> None:
        """slowest.py and hotspots.py list clocks alone, or all others."""
        design = self.put("design", run(program(), "make", "3", "10", "10", "2", "60")[1])
        library = self.put("library", "library 1\nwire 1 100 100\nwire 2 100 100\nvia 1 1\ndriver 9\nsink 9 0\nend\n")
        _, solution, report = run(program(), "route", design, library, "0")
        texts = [self.put("solution", solution), self.put("report", report)]
        names = "units 1\norigin 0 0\ntile 10 10\nlayer 1 m1\nlayer 2 m2\n"
        own = ["n4", "n7"]
        self.put("design.names", f"names 2\n{names}net 4 use 1 clock\nnet 7 group 2 a b\nnet 7 use 1 clock\n"
                                 "net 8 use 1 reset\n")

        def listed(*words: str) -> list[str]:
            status, out, err = tool("slowest.py", design, library, *texts, "--worst", "100", *words)
            self.assertEqual((status, err), (0, ""))
            return sorted(re.findall(r"^(n[0-9]+) ", out, re.MULTILINE))
        everything = sorted(f"n{at}" for at in range(60))
        self.assertEqual(listed(), everything)
        self.assertEqual(listed("--nets", "clocks"), own)
        self.assertEqual(listed("--nets", "signals"), sorted({*everything} - {*own}))
        whole = tool("hotspots.py", design, texts[0])[1]
        found = [set(re.findall(r"\bn[0-9]+\b", tool("hotspots.py", design, texts[0], "--nets", use)[1].split(
            "region  box")[-1])) for use in ("clocks", "signals")]
        named = set(re.findall(r"\bn[0-9]+\b", whole.split("region  box")[-1]))
        self.assertTrue(found[0] <= {*own} and not found[1] & {*own})
        self.assertTrue(named <= found[0] | found[1] or not named)
        # A text of version 1 says nothing of nets.
        self.put("design.names", f"names 1\n{names}")
        self.assertEqual(listed("--nets", "signals"), everything)
        status, _, err = tool("slowest.py", design, library, *texts, "--nets", "clocks")
        self.assertEqual((status, err), (3, f"slowest: {texts[1]}: no net is told of that is among the clocks\n"))
        self.put("design.names", f"names 1\n{names}net 4 use 1 clock\n")
        self.assertEqual(tool("slowest.py", design, library, *texts)[0], 3)
