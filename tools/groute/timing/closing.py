"""Runs of a flow until timing no longer improves: slacks in, buffers back into the placement, routes of what comes."""
import os
import shutil
from dataclasses import dataclass, field
from typing import Callable, Sequence

from groute.texts.figures import MICRON, Figures, read_figures, rows
from groute.texts.files import Outputs

RUNS = 3
BEST = "timed"          # the folder of the run that is kept
# What a run's folder has.
FILES = {"design": "design.ispd", "library": "design.library", "solution": "routes.solution", "report": "report.txt",
         "spef": "routes.spef", "slacks": "slacks.txt", "figures": "figures.txt", "timed": "timing.library",
         "buffers": "buffers.txt", "netlist": "netlist.v", "placed": "placed.def"}


@dataclass
class Run:
    """A placement with its netlist, and its folder; how many buffers it has more than the first, and their area; and
    whether its routes leave nets unjoined, which get no buffers."""
    folder: str
    placed: str
    netlist: str
    buffers: int = 0
    area: float = 0.0
    has_unjoined: bool = False
    figures: Figures = field(default_factory=lambda: Figures(0, 0, 0, 0, 0))

    def path(self, name: str) -> str:
        """Of a file of FILES."""
        return os.path.join(self.folder, FILES[name])

    def paths(self, *names: str) -> list[str]:
        """Of several."""
        return [self.path(name) for name in names]


@dataclass
class Steps:
    """What a run is made by: tools by name and words, which give what they print, and two steps of the flow: design and
    routes of a run, from those of the one before it, and buffers by a library."""
    tool: Callable[..., str]
    route: Callable[[Run, Run], None]
    buffer: Callable[[Run], None]
    lef: Sequence[str]
    liberty: Sequence[str]
    constraints: Sequence[str]
    scale: int

    def cells(self, *, with_lef: bool = True) -> list[str]:
        """The words that name LEF and liberty."""
        found = [word for path in self.lef for word in ("--lef", path)] if with_lef else []
        return found + [word for path in self.liberty for word in ("--liberty", path)]

    def time(self, run: Run) -> None:
        """Parasitics, slacks and figures of a run that is routed."""
        scale = ["--scale", str(self.scale)]
        self.tool("spef.py", *run.paths("design", "library", "solution"), "-o", run.path("spef"), "--verilog",
                  run.netlist, *scale)
        said = self.tool("required.py", *run.paths("design", "library", "solution"), run.netlist, run.path("spef"),
                         "-o", run.path("slacks"), "--library", run.path("timed"), "--figures", run.path("figures"),
                         *scale, *self.cells(with_lef=False), *self.constraints)
        run.has_unjoined = said.startswith("unjoined ")
        run.figures = read_figures(run.path("figures"))
        run.figures.buffers, run.figures.area = run.buffers, round(run.area * MICRON)
        with Outputs() as outputs:
            outputs.lines(run.path("figures"), run.figures.lines())

    def next(self, run: Run, folder: str) -> Run | None:
        """The run behind one: with buffers in its late nets; None where there are none."""
        self.buffer(run)
        os.makedirs(folder, exist_ok=True)
        new = Run(folder, "", "")
        new.placed, new.netlist = new.path("placed"), new.path("netlist")
        out = self.tool("insert.py", run.placed, *run.paths("design", "solution", "buffers"), "-o", new.placed,
                        "--slack", run.path("slacks"), "--verilog", run.netlist, new.netlist, *self.cells())
        said = dict(line.rsplit(" ", 1) for line in out.splitlines())
        if said["buffers"] == "0":
            return None
        new.buffers, new.area = run.buffers + int(said["buffers"]), run.area + float(said["area"])
        self.route(new, run)
        self.time(new)
        return new


def total(run: Run) -> int:
    """The total negative slack."""
    return run.figures.total


def closed(first: Run, steps: Steps) -> Run:
    """The best of at most three runs, each while the total negative slack improves, or the first one. The first is
    timed; the others' folders go, but for the best one's, which gets a name of its own."""
    steps.time(first)
    best, folders = first, []
    for number in range(1, RUNS + 1):
        if total(best) >= 0 or best.has_unjoined:
            break
        folders.append(os.path.join(first.folder, f"run{number}"))
        new = steps.next(best, folders[-1])
        if new is None or total(new) <= total(best) or new.has_unjoined:
            break
        best = new
    for folder in folders:
        if folder != best.folder:
            shutil.rmtree(folder, ignore_errors=True)
    if best is not first:
        kept = os.path.join(first.folder, BEST)
        os.rename(best.folder, kept)
        best.folder = kept
        best.placed, best.netlist = best.path("placed"), best.path("netlist")
    return best


def verdict(before: Figures, after: Figures) -> str:
    """The whole in words."""
    words = [f"{says.removesuffix(', ns')} {one} to {other} ns" for says, one, other in rows(before, after)
             if says.endswith(", ns")]
    return f"{', '.join(words)}; {after.buffers} buffer{'s' * (after.buffers != 1)}"
