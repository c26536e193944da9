"""Tests of netlist.py and spef.py: worked out by hand, and by OpenSTA where it is there."""
import lzma
import os
import random
import re
import unittest

from chips import STA, YOSYS, OnChip, equivalent, placed
from groute.placed.def_edits import sections
from groute.placed.liberty import Liberty
from groute.texts.designs import Netlist
from groute.texts.files import Fault
from groute.texts.pins import Pins
from groute.texts.solutions import routes
from groute.texts.tokens import Tokens
from groute.timing import sta
from groute.timing.delays import Model
from groute.timing.naming import Name, doubled, own
from groute.timing.slacks import timer_pin
from groute.timing.spef import Names
from groute.timing.taken_out import nets_of
from groute.timing.trees import Tree
from groute.timing.verilog import Verilog
from testing import ROOT, program, run, text_of, tool

OSU = "/usr/share/qflow/tech/osu035/osu035_stdcells"
OSU_THERE = os.path.exists(f"{OSU}.lib")
# Four tiles by two; the step on m1 has 100 ohms and 10 fF, that on m2 50 and 20, a via 4 and none.
CELLS = {"one": ("BUF", 0, 0), "two": ("INV", 15, 0), "three": ("DFF", 5, 1), "f": ("FILL", 19, 0)}
PORTS = {"in": (None, 0, 1), "clk": ("INPUT", 1, 1), "q[0]": (None, 3, 1), "q[1]": (None, 2, 0),
         "also": ("OUTPUT", 2, 1)}
NETS = {"in": ["in", "one/A"], "clk": ["clk", "three/CLK"], "a$b": ["one/Y", "two/A", "three/D"],
        "q[0]": ["two/Y", "q[0]"], "x": ["three/Q", "q[1]", "also"]}
NETLIST = """module top (in, clk, q, also);
  input in;
  input clk;
  output [1:0] q;
  output also;
  wire a$b;
  BUF one (.A(in), .Y(a$b));
  INV two (.A(a$b), .Y(q[0]));
  DFF three (.CLK(clk), .D(a$b), .Q(q[1]));
  assign also = q[1];
endmodule
"""
SOLUTION = """in 0 (500,1500,2)-(500,500,2) (500,500,1)-(500,500,2) !
clk 1 (1500,1500,1)-(1500,1500,2) !
a$b 2 (500,500,1)-(3500,500,1) (1500,500,1)-(1500,500,2) (1500,500,2)-(1500,1500,2) (1500,1500,1)-(1500,1500,2) !
q[0] 3 (3500,500,1)-(3500,500,2) (3500,500,2)-(3500,1500,2) !
"""
# From (0, 0) along the row to (1, 0), where a via begins, and on to (3, 0); through the second layer to (1, 1).
BRANCH = """*D_NET a\\$b 50
*CONN
*I one:Y O
*I two:A I
*I three:D I
*CAP
1 one:Y 5
2 a\\$b:2 10
3 a\\$b:3 10
4 a\\$b:4 10
5 two:A 5
6 a\\$b:6 10
*RES
1 one:Y a\\$b:2 100
2 a\\$b:2 a\\$b:3 100
3 a\\$b:2 a\\$b:4 4
4 a\\$b:3 two:A 100
5 a\\$b:4 a\\$b:6 50
6 a\\$b:6 three:D 4
*END

"""


class Elmore(OnChip):
    """Tests that ask OpenSTA for delays of wires."""

    def elmore(self, top: str, pairs: list[tuple[str, str]], load: float) -> list[float]:
        """Between two pins of each pair, by a.v and a.spef, in picoseconds; output ports load so many femtofarads."""
        *lines, parasitics = sta.reading([self.lib], self.path("a.v"), top, self.path("a.spef"))
        lines += ["set_cmd_units -capacitance fF", f"set_load -pin_load {load} [all_outputs]", parasitics]
        lines += ["set all [::sta::vertex_iterator]", "while {[$all has_next]} {", "  set one [[$all next] pin]",
                  "  set pins([get_full_name $one]) $one", "}", "$all finish"]
        for pair in pairs:
            one, other = (f"$pins({sta.word(pin)})" for pin in pair)
            lines.append(f'puts "groute: [::sta::find_elmore {one} {other} rise max] '
                         f'[::sta::find_elmore {one} {other} fall max]"')
        return [max(map(float, line.split())) * 1e12 for line in sta.answer(lines)]


class ByHand(Elmore):
    """A small chip."""

    def setUp(self) -> None:
        OnChip.setUp(self)
        self.design(placed(4, 2, CELLS, PORTS, NETS))

    def test_netlist(self) -> None:
        self.assertEqual(self.text("a.v"), NETLIST)
        found = Pins(self.path("a.ispd.pins"))
        self.assertEqual((found.name, found.nets[4]), ("top", [("three", "Q", "output"), ("PIN", "q[1]", "output"),
                                                               ("PIN", "also", "output")]))
        self.assertEqual(found.nets[0], [("PIN", "in", "input"), ("one", "A", "input")])

    def test_spef(self) -> None:
        self.put("a.solution", SOLUTION)
        paths = [self.path(f"a.{kind}") for kind in ("ispd", "library", "solution", "spef")]
        words = (*paths[:3], "-o", paths[3], "--scale", "100")
        self.assertEqual(tool("spef.py", *words), (1, "", "spef: 1 net unjoined: x\n"))
        nets = [f"*D_NET{net}" for net in self.text("a.spef").split("*D_NET")[1:]]
        self.assertEqual([re.sub(r"^\*D_NET (\S+) (\S+)\n(?s:.*)$", r"\1 \2", net) for net in nets],
                         ["in 20", "clk 0", "a\\$b 50", "q[0] 20"])
        self.assertEqual(nets[2], BRANCH)
        self.assertIn("*P q[0] O\n", nets[3])
        for old, new, says in ((" !\nclk", " (500,500,2)-(1500,500,2) (1500,500,2)-(1500,1500,2) (1500,1500,2)-"
                                "(500,1500,1) !\nclk", "is not straight"),
                               (" !\nclk", " (500,500,1)-(1500,500,1) (1500,500,1)-(1500,500,2) (1500,500,2)-"
                                "(1500,1500,2) (1500,1500,1)-(1500,1500,2) (1500,1500,1)-(500,1500,1) "
                                "(500,1500,1)-(500,1500,2) !\nclk", "the routes of the net in have a loop")):
            self.put("a.solution", SOLUTION.replace(old, new, 1))
            status, _, err = tool("spef.py", *words)
            self.assertEqual(status, 3)
            self.assertIn(says, err)

    @unittest.skipUnless(STA, "sta is not there")
    def test_elmore(self) -> None:
        """Of a net of two pins and of a branch, whose wires are heavier than their pins: ohms times femtofarads."""
        self.put("a.solution", SOLUTION)
        tool("spef.py", *(self.path(f"a.{kind}") for kind in ("ispd", "library", "solution")), "-o",
             self.path("a.spef"), "--scale", "100")
        found = self.elmore("top", [("in", "one/A"), ("one/Y", "two/A"), ("one/Y", "three/D")], 0)
        wanted = [50 * (10 + 10) + 4 * 10, 100 * (65 + 25 + 15), 100 * 65 + 4 * 30 + 50 * 20 + 4 * 10]
        for one, other in zip(found, wanted):
            self.assertAlmostEqual(one, other / 1000, delta=0.001)

    def test_bad_netlists(self) -> None:
        """What no netlist has is told, in time that goes with the text's length."""
        head = "module top (a); input a;\nB b (.A("
        for text, says in (("?", ":1: module is due, and here is ?"), (f"{head}a{' ' * 50000}?", ":2: ) is due"),
                           (f"module top (a); {'/* ' * 50000}", "ends within a module"),
                           (f"{head}{'{' * 50000}", "ends within a module"), (f"{head}\\ ", "a name is due"),
                           (f"{head}1000000000'b0", "the constant 1000000000'b0"), (f"{head}2'b2", "the constant 2'b2"),
                           (f"{head}0'b0", "the constant 0'b0"), (f"{head}4'd{'9' * 5000}", ":2: the constant"),
                           (f"{head}a[0:99999999]", "more bits"), ("module top (); 1 b", "a name is due")):
            path = self.put("b.v", text)
            self.assertRaisesRegex(Fault, re.escape(says), Verilog, path)
        self.put("b.v", f"{head}{'{' * 50000}a{'}' * 50000})); endmodule")
        self.assertEqual(Verilog(self.path("b.v")).instances["b"].pins["A"].signals, [Name("a")])

    def test_names_of_a_netlist(self) -> None:
        other = NETLIST.replace("a$b", "\\a/b ").replace("input in;\n  input clk", "input in, clk")
        other = other.replace("  BUF", "  // cells\n  (* keep *) BUF").replace("assign also = q[1];", "assign also=u;")
        other = other.replace(".Q(q[1])", ".Q(u)").replace("wire", "wire u = q[1];\n  wire")
        self.put("b.v", other)
        self.assertIn("*D_NET a\\/b ", self.spef("--verilog", self.path("b.v")))
        for old, new, says in ((".A(in)", ".A(clk)", "it isn't of this placement: the net in has the pin A of one"),
                               ("(in, ", "(", None), ("input in, clk", "input clk", "it has no port in"),
                               ("endmodule", "endmodule module b (); endmodule", "is to be flat"),
                               ("BUF one", "BUF #(1) one", "parameters"), (".A(in)", "in", "is due"),
                               ("endmodule", "", "the text ends within a module")):
            self.put("b.v", other.replace(old, new, 1))
            paths = [self.path(name) for name in ("a.ispd", "a.library", "a.solution", "b.spef", "b.v")]
            status, _, err = tool("spef.py", *paths[:3], "-o", paths[3], "--verilog", paths[4])
            self.assertEqual(status, 0 if says is None else 3, new)
            self.assertIn(says or "", err)

    @unittest.skipUnless(STA, "sta is not there")
    def test_a_wrong_name(self) -> None:
        text = self.spef()
        lines = sta.reading([self.lib], self.path("a.v"), "top", self.path("a.spef"))
        self.assertEqual(sta.answer([*lines, 'puts "groute: 7"']), ["7"])
        for old, new in (("*D_NET in ", "*D_NET im "), ("one:A", "won:A"), ("*RES", "*RAS")):
            self.put("a.spef", text.replace(old, new, 1))
            self.assertRaises(Fault, sta.answer, lines)
        self.put("a.spef", text)
        self.assertRaises(Fault, sta.answer, [*lines, "proc a {} {"])      # without an end
        self.assertRaises(Fault, sta.answer, [*lines, "get_such a"])


class Odd(OnChip):
    """Names with odd letters."""

    def chip(self, count: int) -> str:
        """A chain of buffers and inverters whose names, and whose nets' names, are odd."""
        rng = random.Random(73)
        letters = "abXY019_$/.:[]<>{}()|!%&'*+,-=?@^~`\"#"
        names: dict[str, None] = dict.fromkeys(["module", "wire", "a[0]", "a[1]", "12", "1", "\\[", "x\\/y", "\\\\"])
        while len(names) < 2 * count:
            word = "".join(rng.choice(letters) for _ in range(rng.randrange(1, 9)))
            if word[0] not in '#"+-;*()/' and not word.startswith("PIN"):
                names.setdefault("".join("\\" + letter if rng.random() < 0.1 else letter for letter in word))
        words = list(names)
        by_plain: dict[str, str] = {}
        for name in words:
            by_plain.setdefault(own(name), name)
        words = list(by_plain.values())
        cells = {name: (("BUF", "INV")[at % 2], at % 20 * 5, at // 20) for at, name in enumerate(words[::2])}
        instances = list(cells)
        nets = {"first": ["first", f"{instances[0]}/A"]}
        for at, name in enumerate(words[1::2][:len(instances) - 1]):
            nets[name] = [f"{instances[at]}/Y", f"{instances[at + 1]}/A"]
        nets["b[1]"] = [f"{instances[-1]}/Y", "b[1]"]
        rows = -(-len(cells) // 20)
        return placed(20, rows, cells, {"first": (None, 0, 0), "b[1]": (None, 19, rows - 1)}, nets)

    @unittest.skipUnless(STA, "sta is not there")
    def test_names_survive(self) -> None:
        self.design(self.chip(520))
        self.spef()
        found = self.names_in(sta.reading([self.lib], self.path("a.v"), "top", self.path("a.spef")))
        self.assertGreater(len(found), 1000)
        self.assertEqual(found, self.names_of("a.v"))
        text = self.text("a.spef")
        self.put("a.v", self.text("a.v").replace("module top", "module other"))
        self.assertEqual(self.spef("--verilog", self.path("a.v")), text.replace('"top"', '"other"'))

    @unittest.skipUnless(STA, "sta is not there")
    def test_names_survive_insertion(self) -> None:
        """With a buffer in each net that goes to another tile; the script does what the new netlist says."""
        self.design(self.chip(520))
        count = self.put_report()
        self.assertGreater(count, 450)
        out = self.done("insert.py", *(self.path(f"a.{kind}") for kind in ("def", "ispd", "solution", "report")), "-o",
                        self.path("b.def"), "--lef", self.lef, "--liberty", self.lib, "--verilog", self.path("a.v"),
                        self.path("b.v"), "--eco", self.path("b.tcl"))
        self.assertIn(f"buffers {count}\nnets {count}\n", out)
        found = self.names_in(sta.reading([self.lib], self.path("b.v"), "top", None))
        self.assertEqual(found, self.names_of("b.v"))
        self.assertEqual(len(found), len(self.names_of("a.v")) + 2 * count)
        lines = [*sta.reading([self.lib], self.path("a.v"), "top", None), *self.text("b.tcl").splitlines()]
        self.assertEqual(self.names_in(lines), found)
        before, after = (sections(self.text(name), name) for name in ("a.def", "b.def"))
        for section in ("COMPONENTS", "NETS"):
            self.assertEqual(before[section].items.keys() - after[section].items.keys(), set())
        self.done("netlist.py", self.path("b.def"), "--lef", self.lef, "-o", self.path("c.v"))
        one, other = (nets_of(Verilog(self.path(name))) for name in ("b.v", "c.v"))
        self.assertEqual({name: sorted(pins) for name, pins in one.items()},
                         {name: sorted(pins) for name, pins in other.items()})

    def put_report(self) -> int:
        """Writes a.report, with a buffer at the sink of each net that goes to another tile; how many there are."""
        design, lines = Netlist(Tokens(self.path("a.ispd"))), []
        for id_ in design.ids:
            driver, sink = design.pins(id_)
            if design.cell(*driver) != design.cell(*sink):
                point = ",".join(map(str, sink))
                lines.append(f"net {design.names[id_]} {id_} required 0 buffers 1\n({point}) BUF\n")
        self.put("a.report", f"buffers {len(lines)}\n{''.join(lines)}")
        return len(lines)

    def names_in(self, lines: list[str]) -> list[str]:
        """The cells and the nets that OpenSTA has behind a script."""
        asks = (f'foreach one [get_{kind} *] {{ puts "groute: [get_full_name $one]" }}' for kind in ("cells", "nets"))
        return sorted(sta.answer([*lines, *asks]))

    def names_of(self, name: str) -> list[str]:
        """The same of a netlist."""
        found = ["b[1]"]
        for name, instance in Verilog(self.path(name)).instances.items():
            signals = instance.pins["A"].signals
            found += [doubled(name), *(signal.timer() for signal in signals if isinstance(signal, Name))]
        return sorted(found)

    @unittest.skipUnless(YOSYS, "yosys is not there")
    def test_yosys_reads_them(self) -> None:
        self.design(self.chip(100))
        self.assertEqual(equivalent(self.folder.name, self.lib, self.path("a.v"), self.path("a.v"), "top"), "")


# The greatest delay of the arcs of some edges, in seconds; an arc that a cell lacks has one beyond all.
MOST = """proc most {edges} {
  set most 0
  while {[$edges has_next]} {
    set edge [$edges next]
    set arcs [$edge timing_arc_iterator]
    while {[$arcs has_next]} {
      foreach delay [$edge arc_delays [$arcs next]] { if {$delay < 1e20} { set most [expr {max($most, $delay)}] } }
    }
    $arcs finish
  }
  $edges finish
  return $most
}"""


@unittest.skipUnless(STA and OSU_THERE, "sta and qflow-tech-osu035 are not there")
class Grom(Elmore):
    """A processor of 2,000 nets."""

    def setUp(self) -> None:
        Elmore.setUp(self)
        with lzma.open(f"{ROOT}/examples/grom_osu035.def.xz", "rt") as file:
            placed_text = file.read()
        self.lef, self.lib = f"{OSU}.lef", f"{OSU}.lib"
        self.design(placed_text, "--kinds", "BUFX2")

    def test_model(self) -> None:
        """FLOW has groute's delay of the slowest nets, through driver and wire, and OpenSTA's."""
        self.spef()
        design, pins = Netlist(Tokens(self.path("a.ispd"))), Pins(self.path("a.ispd.pins"))
        cells, liberty = Verilog(self.path("a.v")).instances, Liberty([self.lib])
        model, mine = Model(self.path("a.library")), {}
        for id_, runs in routes(design, self.path("a.solution")):
            driver = pins.nets[id_][0]
            if not driver.is_port():
                cell = liberty.cell(cells[driver.component].cell)
                halves = [half for half in model.halves(id_, Tree(design, id_, runs)) if half is not None]
                mine[id_] = cell.lines[driver.name].delay / 1000 + max(halves, default=0) / 2e7
        slowest = sorted(mine, key=lambda id_: -mine[id_])[:20]
        lines = sta.reading([self.lib], self.path("a.v"), "grom_cpu", self.path("a.spef"))
        lines += ["::sta::find_delays", MOST, "set all [::sta::vertex_iterator]", "while {[$all has_next]} {",
                  "  set one [$all next]", "  set vertices([get_full_name [$one pin]]) $one", "}", "$all finish"]
        names = Names(design, pins, None)
        for id_ in slowest:
            one = f"$vertices({sta.word(timer_pin(pins.nets[id_][0], names))})"
            lines.append(f'puts "groute: [most [{one} in_edge_iterator]] [most [{one} out_edge_iterator]]"')
        found = {}
        for id_, line in zip(slowest, sta.answer(lines)):
            theirs = sum(map(float, line.split())) * 1e12
            found[design.names[id_]] = round(mine[id_]), round(theirs), round(100 * (mine[id_] / theirs - 1))
        told = re.findall(r"`(\S+)` \| ([0-9]+) \| ([0-9]+) \| (-?[0-9]+) %", text_of("docs/FLOW.md"))
        self.assertEqual({name: tuple(map(int, words)) for name, *words in told}, found)

    def test_delays(self) -> None:
        """With drivers of 0 ohms groute's delay of each net is the greatest that OpenSTA finds, to 1 %."""
        library = re.sub(r"(?m)^(drive \d+|driver) \d+$", r"\1 0", self.text("a.library"))
        self.put("a.library", re.sub(r"(?m)^kind .*\n", "", library))
        status, out, err = run(program(), "buffer", *(self.path(f"a.{name}")
                                                      for name in ("ispd", "library", "solution")))
        self.assertEqual(status, 0, err)
        delays = {name: -int(time) / 2e7 for name, time in re.findall(r"^net (\S+) \d+ required (-?\d+)", out, re.M)}
        self.spef()
        design, pins = Netlist(Tokens(self.path("a.ispd"))), Pins(self.path("a.ispd.pins"))
        names = Names(design, pins, None)
        pairs = [(id_, timer_pin(driver, names), timer_pin(sink, names))
                 for id_, (driver, *sinks) in pins.nets.items() for sink in sinks]
        real = dict.fromkeys(design.ids, 0.0)
        load = Model(self.path("a.library")).load / 100
        for (id_, _, _), delay in zip(pairs, self.elmore("grom_cpu", [pair[1:] for pair in pairs], load)):
            real[id_] = max(real[id_], delay)
        self.assertEqual(len(delays), 1999)
        worst = max(abs(delays[design.names[id_]] - delay) / max(delay, 0.01) for id_, delay in real.items())
        self.assertLess(worst, 0.01)
