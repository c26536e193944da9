"""Tests of time: what a tool takes goes with the size of a chip."""
import random
import resource

from chips import PINS, OnChip, placed

KINDS = ["BUF", "INV", "AND", "DFF"]
SITES = 10      # from cell to cell


def chip(count: int) -> str:
    """A square placement of so many cells, and a net behind each, which goes to cells nearby."""
    rng = random.Random(count)
    columns = int((count * 2) ** 0.5) + 1
    names = [f"u{at}" for at in range(count)]
    cells = {name: (rng.choice(KINDS), at % columns * SITES, at // columns) for at, name in enumerate(names)}
    nets = {f"n{at}": [f"u{at}/{'Q' if cells[name][0] == 'DFF' else 'Y'}"] for at, name in enumerate(names)}
    nets["in"] = ["in"]
    for at, name in enumerate(names):
        for pin, direction in PINS[cells[name][0]].items():
            if direction == "INPUT":
                near = at + rng.randrange(-3, 4) + columns * rng.randrange(-3, 4)
                nets[f"n{near}" if 0 <= near < count else "in"].append(f"{name}/{pin}")
    return placed(columns * SITES // 5, -(-count // columns), cells, {"in": ("INPUT", 0, 0)}, nets)


class Speed(OnChip):
    """Tools of timing."""

    def seconds(self, count: int) -> dict[str, float]:
        """What each tool takes of a processor for a chip of so many nets."""
        self.design(chip(count), rounds="0")
        paths = [self.path(f"a.{kind}") for kind in ("def", "ispd", "library", "solution", "report", "v", "spef")]
        placement, design, library, solution, report, netlist, spef = paths
        found: dict[str, float] = {}
        for name, *words in (
                ("netlist", placement, "--lef", self.lef, "-o", netlist),
                ("spef", design, library, solution, "-o", spef, "--verilog", netlist),
                ("insert", placement, design, solution, report, "--lef", self.lef, "--liberty", self.lib, "-o",
                 self.path("b.def"), "--verilog", netlist, self.path("b.v"), "--eco", self.path("b.tcl"))):
            before = resource.getrusage(resource.RUSAGE_CHILDREN)
            self.done(f"{name}.py", *words)
            after = resource.getrusage(resource.RUSAGE_CHILDREN)
            found[name] = after.ru_utime + after.ru_stime - before.ru_utime - before.ru_stime
        return found

    def test_timing(self) -> None:
        """Eight times the nets take less than sixteen times the time."""
        small, large = self.seconds(1000), self.seconds(8000)
        for name, seconds in large.items():
            self.assertLess(seconds, 16 * small[name], name)
