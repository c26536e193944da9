"""A small technology, and placements over it: what the tests of timing share."""
import os
import shutil
from typing import Mapping, Sequence

from groute.placed.def_edits import sections
from testing import HERE, InFolder, program, run, tool

STA, YOSYS, KLAYOUT = (bool(shutil.which(name)) for name in ("sta", "yosys", "klayout"))
UNITS, SITE, ROW = 100, 200, 1000       # database units to a micrometre, of a site and of a row of cells
WIDTHS = {"BUF": 4, "INV": 3, "INV2": 4, "AND": 5, "DFF": 8, "FILL": 1, "FILL2": 2}     # in sites
PINS: dict[str, dict[str, str]] = {
        "BUF": {"A": "INPUT", "Y": "OUTPUT"}, "INV": {"A": "INPUT", "Y": "OUTPUT"},
        "INV2": {"A": "INPUT", "Y": "OUTPUT"}, "AND": {"A": "INPUT", "B": "INPUT", "Y": "OUTPUT"},
        "DFF": {"CLK": "INPUT", "D": "INPUT", "Q": "OUTPUT"}, "FILL": {}, "FILL2": {}}
# A cell's delay is its own and its resistance (in ohms) times the load, its slew likewise; in picoseconds.
MODELS = {"BUF": ("A", 200, 1000), "INV": ("!A", 60, 2000), "INV2": ("!A", 60, 1000), "AND": ("A B", 150, 2000)}
LOAD = 10       # of each input, in femtofarads
LAYER = """LAYER {0} TYPE ROUTING ; DIRECTION {1} ; PITCH 2 ; WIDTH 1 ; SPACING 1 ; RESISTANCE RPERSQ {2} ;
  CAPACITANCE CPERSQDIST {3} ; END {0}
"""


def lef() -> str:
    """Two layers, and the cells."""
    text = "VERSION 5.6 ;\nUNITS DATABASE MICRONS 100 ; END UNITS\n"
    text += LAYER.format("m1", "HORIZONTAL", 10, 0.001) + "LAYER v1 TYPE CUT ; END v1\n"
    text += LAYER.format("m2", "VERTICAL", 5, 0.002)
    text += "VIA M2_M1 DEFAULT LAYER m1 ; RECT -1 -1 1 1 ; LAYER m2 ; RECT -1 -1 1 1 ; RESISTANCE 4 ; END M2_M1\n"
    text += "SITE core CLASS CORE ; SYMMETRY Y ; SIZE 2 BY 10 ; END core\n"
    for name, width in WIDTHS.items():
        text += f"MACRO {name}\n  CLASS CORE ; ORIGIN 0 0 ; SIZE {2 * width} BY 10 ; SYMMETRY X Y ; SITE core ;\n"
        for at, (pin, direction) in enumerate(PINS[name].items()):
            text += (f"  PIN {pin} DIRECTION {direction} ; PORT LAYER m1 ; RECT {2 * at + 0.5} 4 {2 * at + 1.5} 5 ; "
                     f"END END {pin}\n")
        text += f"END {name}\n"
    return text + "END LIBRARY\n"


def table(own: float, ohms: float) -> str:
    """Values in nanoseconds at loads of 0 and 1 pF."""
    rows = (", ".join([f"{(own + ohms * load) / 1000:g}"] * 2) for load in (0, 1))
    return f"(t) {{ values ({', '.join(chr(34) + row + chr(34) for row in rows)}); }}"


def arc(pin: str, kind: str, own: float, ohms: float) -> str:
    """A timing group."""
    tables = " ".join(f"{name} {table(own, ohms)}"
                      for name in ("cell_rise", "cell_fall", "rise_transition", "fall_transition"))
    return f'timing () {{ related_pin : "{pin}"; {kind} {tables} }}'


def liberty() -> str:
    """The cells' delays."""
    text = """library (tiny) { delay_model : table_lookup; time_unit : "1ns"; voltage_unit : "1V"; current_unit : "1mA";
capacitive_load_unit (1, pf); pulling_resistance_unit : "1kohm"; nom_voltage : 1; nom_temperature : 25; nom_process : 1;
default_max_transition : 2;
input_threshold_pct_rise : 50; input_threshold_pct_fall : 50; output_threshold_pct_rise : 50;
output_threshold_pct_fall : 50; slew_lower_threshold_pct_rise : 20; slew_lower_threshold_pct_fall : 20;
slew_upper_threshold_pct_rise : 80; slew_upper_threshold_pct_fall : 80; slew_derate_from_library : 1;
lu_table_template (t) { variable_1 : total_output_net_capacitance; variable_2 : input_net_transition;
  index_1 ("0, 1"); index_2 ("0, 1"); }
lu_table_template (c) { variable_1 : related_pin_transition; variable_2 : constrained_pin_transition;
  index_1 ("0, 1"); index_2 ("0, 1"); }
"""
    for name, (function, own, ohms) in MODELS.items():
        text += f"cell ({name}) {{ area : {WIDTHS[name]};\n"
        inputs = [pin for pin, direction in PINS[name].items() if direction == "INPUT"]
        text += "".join(f"  pin ({pin}) {{ direction : input; capacitance : {LOAD / 1000}; }}\n" for pin in inputs)
        sense = f"timing_sense : {'negative' if function[0] == '!' else 'positive'}_unate;"
        arcs = " ".join(arc(pin, sense, own, ohms) for pin in inputs)
        text += f'  pin (Y) {{ direction : output; function : "{function}"; max_capacitance : 0.5; {arcs} }}\n}}\n'
    check = '(c) { values ("0.1, 0.1", "0.1, 0.1"); }'
    setup, hold = (f'timing () {{ related_pin : "CLK"; timing_type : {kind}_rising; rise_constraint {check} '
                   f"fall_constraint {check} }}" for kind in ("setup", "hold"))
    return text + f"""cell (DFF) {{ area : 8; ff (IQ, IQN) {{ next_state : "D"; clocked_on : "CLK"; }}
  pin (CLK) {{ direction : input; clock : true; capacitance : 0.01; }}
  pin (D) {{ direction : input; capacitance : 0.01; {setup} {hold} }}
  pin (Q) {{ direction : output; function : "IQ"; max_capacitance : 0.5;
    {arc("CLK", "timing_type : rising_edge;", 300, 1000)} }}
}}
}}
"""


Cell = tuple[str, int, int]     # its kind, its site and its row


def placed(columns: int, rows: int, cells: Mapping[str, Cell], ports: Mapping[str, tuple[str | None, int, int]],
           nets: Mapping[str, Sequence[str]], more: str = "") -> str:
    """A placed DEF of so many tiles, which are as high as a row. Ports have a direction and a tile; a net's pins are
    `CELL/PIN`, and a port's its name."""
    text = (f"VERSION 5.6 ;\nBUSBITCHARS \"<>\" ;\nDESIGN top ;\nUNITS DISTANCE MICRONS {UNITS} ;\n"
            f"DIEAREA ( 0 0 ) ( {columns * ROW} {rows * ROW} ) ;\n{more}")
    text += f"TRACKS Y 100 DO {rows * 5} STEP {SITE} LAYER m1 ;\nTRACKS X 100 DO {columns * 5} STEP {SITE} LAYER m2 ;\n"
    text += f"COMPONENTS {len(cells)} ;\n"
    text += "".join(f"- {name} {kind} + PLACED ( {site * SITE} {row * ROW} ) {'FS' if row % 2 else 'N'} ;\n"
                    for name, (kind, site, row) in cells.items())
    text += f"END COMPONENTS\nPINS {len(ports)} ;\n"
    on = {port: name for name, pins in nets.items() for port in pins}
    for port, (direction, column, row) in ports.items():
        says = f" + DIRECTION {direction}" if direction else ""
        text += (f"- {port} + NET {on[port]}{says} + LAYER m2 ( -50 -50 ) ( 50 50 ) + PLACED "
                 f"( {column * ROW + 500} {row * ROW + 500} ) N ;\n")
    text += f"END PINS\nNETS {len(nets)} ;\n"
    for name, pins in nets.items():
        connections = (pin.rpartition("/") if pin not in ports else ("PIN", "", pin) for pin in pins)
        text += f"- {name}\n" + "".join(f"  ( {one} {pin} )\n" for one, _, pin in connections) + "  ;\n"
    return text + "END NETS\nEND DESIGN\n"


class OnChip(InFolder):
    """Tests with a placement, its design, its routes and its netlist."""

    def setUp(self) -> None:
        InFolder.setUp(self)
        self.lef, self.lib = self.put("cells.lef", lef()), self.put("cells.lib", liberty())

    def path(self, name: str) -> str:
        """Of a file in the folder."""
        return os.path.join(self.folder.name, name)

    def text(self, name: str) -> str:
        """Of a file in the folder."""
        with open(self.path(name), encoding="utf-8") as file:
            return file.read()

    def done(self, name: str, *words: str, says: str = "") -> str:
        """What a tool printed that did its work."""
        status, out, err = tool(name, *words)
        self.assertEqual(status, 0, err)
        self.assertIn(says, err)
        return out

    def design(self, text: str, *words: str, rounds: str = "4", liberty: bool = True) -> None:
        """Writes a.def, a.ispd, a.library, a.solution, a.report and a.v."""
        self.put("a.def", text)
        of_liberty = ("--liberty", self.lib) if liberty else ()
        paths = [self.path("a.def"), self.lef, self.path("a.ispd"), self.path("a.library")]
        self.done("def_to_ispd.py", *paths, "--scale", "100", *of_liberty, *words)
        self.route("a", rounds)
        self.done("netlist.py", self.path("a.def"), "--lef", self.lef, "-o", self.path("a.v"))

    def route(self, name: str, rounds: str = "4") -> None:
        """Routes a design."""
        paths = [self.path(f"{name}.{kind}") for kind in ("ispd", "library")]
        status, out, err = run(program(), "route", *paths, rounds)
        self.assertEqual(status, 0, err)
        self.put(f"{name}.solution", out)
        self.put(f"{name}.report", err)

    def route_again(self, name: str) -> None:
        """Makes the design of a placement that a tool wrote, and routes it."""
        paths = [self.path(f"{name}.def"), self.lef, self.path(f"{name}.ispd"), self.path(f"{name}.library")]
        self.done("def_to_ispd.py", *paths, "--scale", "100", "--liberty", self.lib)
        self.route(name)

    def check_cells(self, name: str) -> None:
        """KLayout finds the cells of a placement that a tool wrote."""
        placed = self.path(f"{name}.def")
        status, out, err = run("klayout", "-b", "-r", f"{HERE}/klayout_cells.py", "-rd", f"placed={placed}", "-rd",
                               f"lef={self.lef}")
        self.assertEqual((status, err), (0, ""))
        self.assertEqual(int(out), len(sections(self.text(f"{name}.def"), placed)["COMPONENTS"].items))

    def spef(self, *words: str) -> str:
        """The text of a.spef, which is written."""
        paths = [self.path(f"a.{kind}") for kind in ("ispd", "library", "solution", "spef")]
        self.done("spef.py", *paths[:3], "-o", paths[3], "--scale", "100", *words)
        return self.text("a.spef")


def equivalent(folder: str, liberty: str, one: str, other: str, top: str) -> str:
    """What yosys says of two netlists: nothing where it proves them equivalent."""
    for path, name in ((one, "gold"), (other, "gate")):
        # Each by itself, so that a flip-flop has one name in both.
        done = run("yosys", "-q", "-p", f"read_liberty -ignore_miss_func {liberty}; read_verilog {path}; hierarchy "
                   f"-top {top}; flatten; rename {top} {name}; select {name}; write_rtlil -selected {folder}/{name}.il")
        if done[0] != 0:
            return done[2]
    status, out, err = run("yosys", "-q", "-p", f"read_rtlil {folder}/gold.il; read_rtlil {folder}/gate.il; equiv_make "
                           "-inames gold gate equiv; hierarchy -top equiv; equiv_simple -short; equiv_status -assert")
    return "" if status == 0 else err or out
