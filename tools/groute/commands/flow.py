"""From a placed DEF to routes, guides and a page, in one folder, with the verdict in a line.

Makes the design and its library (def_to_ispd.py), routes it (groute), writes route guides (guides.py), where it is
congested (hotspots.py) and a page to look at (report.py):

  design.ispd, design.library                       what groute reads
  design.ispd.names, design.ispd.pins               what its numbers are called
  routes.solution, report.txt                       the routes; overflow, buffers and required times
  routes.guide                                      for a detailed router
  hotspots.txt, index.html                          where it is full; congestion.csv instead, without numpy

With --sta it goes on by OpenSTA's slacks, at a clock of --period nanoseconds or by --sdc (required.py says how):
buffers of late nets go into the placement (insert.py), which is routed again from the routes before (carry.py) and
timed, at most three times, while the total negative slack improves. The best is kept, or none; page and guides are of
it, and the verdict has slacks before and after:

  netlist.v, routes.spef, slacks.txt, figures.txt   of the placement as it was; --verilog gives another netlist
  timing.library, buffers.txt                       the library by its slacks, and the buffers that groute finds by it
  timing.txt                                        figures before and after, and the worst paths' nets
  timed/                                            the same of the placement with buffers: placed.def, netlist.v ..

It stops at the first step that fails, with that tool's message and status; what an earlier run wrote is gone then. Else
the status is 1 where routes leave nets unjoined, and 0.

--from DIR begins from the routes of an earlier run, of which DIR is the folder: nets are found by their names
(carry.py), and those whose pins are where they were keep their routes, until rounds need them otherwise. The grid has
to be the same one. `given.solution` has what was carried over, and the verdict how many nets were kept.

Routes are made by --rule near, if no other is given. Without --rounds there are up to 64 rounds, which end once the
overflow is 0, but 16 where grbound proves that there is overflow in any routes; with --batch, which takes no --stop, 8.
The verdict says how near the routes are to what grbound proves by --steps of prices; without it these are 20,000 by the
number of nets, at most 100, which takes seconds.
"""
import importlib.util
import json
import os
import shutil
import subprocess
import sys
import tempfile
from argparse import Namespace
from typing import IO, Any, Iterator, Sequence

from groute import frame, start
from groute.commands import def_to_ispd
from groute.commands.required import nanoseconds
from groute.explained import Ended, explained, program_of
from groute.options import RANGES, Status, values
from groute.show import tables
from groute.texts import objects
from groute.texts.bounds import bounds_in
from groute.texts.designs import Netlist
from groute.texts.figures import NANOSECOND, Figures, object_of, read_figures, rows
from groute.texts.files import Fault, Outputs
from groute.texts.reports import kept_in
from groute.texts.tokens import Tokens
from groute.timing import closing, sta

# Passed on to def_to_ispd.py, and how many words stand behind each.
PASSED = {"--tile": 2, "--layers": 1, "--adjust": 1, "--kinds": 1, "--driver": 1, "--sink": 1, "--kind": 4, "--via": 2,
          "--keep-supply": 0}
WRITTEN = ("design.ispd", "design.ispd.names", "design.ispd.pins", "design.library", "given.solution",
           "routes.solution", "report.txt", "routes.guide", "bounds.txt", "hotspots.txt", "index.html",
           "congestion.csv", "netlist.v", "routes.spef", "slacks.txt", "figures.txt", "timing.library", "buffers.txt",
           "timing.txt")
# Of each placement that is routed.
OF_RUN = ("design.ispd", "design.library", "given.solution", "routes.solution", "report.txt")
FOLDERS = (closing.BEST, *(f"run{number}" for number in range(1, closing.RUNS + 1)))
IN_FOLDERS = {*OF_RUN, *closing.FILES.values(), "design.ispd.names", "design.ispd.pins"}
MOST_ROUNDS = RANGES["ROUNDS"][1]
RULE = "near"           # the one that leaves least overflow
OVERFULL_ROUNDS = 16    # where no routes are without overflow
BATCH_ROUNDS = 8
MOST_STEPS, STEPS_OF_NETS = 100, 20_000     # of prices: at most, and of all nets together
USAGE = b"groute: usage\n", b"grbound: usage\n"
TOLD = 4096             # bytes that are looked at of what a program told


class Stopped(Exception):
    """A step that failed: its name and its status."""


def step(name: str, words: Sequence[str], also: tuple[int, ...] = (), **options: Any) -> tuple[int, bytes]:
    """Runs a step to its end: its status, which is 0 or one of some others, and what it wrote in a pipe."""
    status, written = frame.run(words, **options)
    if status not in (Status.DONE, *also):
        raise Stopped(name, status)
    return status, written


def tool(name: str, *words: str) -> tuple[int, str]:
    """Runs one of the tools that stand beside this one; the answer is its status and what it printed."""
    path = os.path.join(frame.TOOLS, name)
    status, written = step(name, [sys.executable, path, *words], (Status.UNJOINED,), stdout=subprocess.PIPE)
    return status, written.decode("utf-8", "surrogateescape")


def run_program(path: str, words: Sequence[str], out: IO[bytes], err: IO[bytes] | None = None) -> None:
    """Runs groute or grbound to its end. Where it fails, what it told is told, and in words what is wrong."""
    name = program_of(path)
    with tempfile.NamedTemporaryFile() as own:
        try:
            step(name, [path, *words], stdout=out, stderr=err or own)
        except Stopped as stopped:
            with open((err or own).name, "rb") as file:
                told = file.read()
            sys.stderr.write(told.decode(errors="replace"))
            ended = Ended(name, words, stopped.args[1], told[:TOLD])
            streams = {"standard output": out.fileno(), **({"standard error": err.fileno()} if err else {})}
            for line in explained(ended, streams):
                print(line, file=sys.stderr)
            raise


def programs(asked: Namespace) -> tuple[str, str | None]:
    """groute, as asked or beside the tools or on PATH, and grbound beside it. Each is called once without words, so
    that one that isn't built yet is built now."""
    beside = os.path.join(os.path.dirname(frame.TOOLS), "groute")
    groute = asked.program or (beside if os.path.isfile(beside) else shutil.which("groute"))
    if groute is None:
        raise Fault("groute is neither beside the tools nor on PATH: give --program")
    if not called(groute):
        raise Fault(f"{groute} can't run")
    bounds = os.path.join(os.path.dirname(groute), "grbound")
    if os.access(bounds, os.X_OK) and called(bounds):
        return groute, bounds
    frame.say("flow", f"{bounds} isn't there or can't run: the page has no bounds")
    return groute, None


def called(program: str) -> bool:
    """Calls a program without words: whether it says its usage. All else that it tells is told."""
    try:
        with subprocess.Popen([program], stdin=subprocess.DEVNULL, stdout=subprocess.DEVNULL,
                              stderr=subprocess.PIPE) as process:
            for line in process.stderr or ():
                if line not in USAGE:
                    sys.stderr.buffer.write(line)
                    sys.stderr.flush()
    except OSError:
        return False
    return process.returncode == Status.WORDS


def prepare(asked: Namespace, paths: dict[str, str]) -> None:
    """Checks the inputs, and removes what an earlier run wrote."""
    if asked.sta and not sta.is_there():
        raise Fault(sta.LACKS)
    inputs = [asked.placed, *asked.lef, *asked.liberty, *filter(None, [asked.verilog, asked.sdc]), *earlier(asked)]
    for path in inputs:
        with open(path, "rb"):
            pass
    os.makedirs(asked.output, exist_ok=True)
    folders = [os.path.join(asked.output, name) for name in FOLDERS]
    written = [*paths.values(), *(os.path.join(folder, name) for folder in folders for name in IN_FOLDERS)]
    with Outputs(inputs) as outputs:
        outputs.check(*written)
    for folder in filter(os.path.lexists, folders if asked.sta else ()):
        if not (os.path.isdir(folder) and IN_FOLDERS.issuperset(os.listdir(folder))):
            raise Fault(f"{folder} has what no run wrote")
    for path in written:
        if os.path.isfile(path):
            os.unlink(path)
    for folder in folders:
        try:
            os.rmdir(folder)
        except OSError:
            pass    # it isn't there, or has more


def earlier(asked: Namespace) -> list[str]:
    """The design and the routes of the earlier run, if there is one."""
    return [os.path.join(asked.given, name) for name in ("design.ispd", "routes.solution")] if asked.given else []


def steps(asked: Namespace) -> tuple[int, str]:
    """Goes through all steps; the answer is the status and what is printed."""
    paths = {name: os.path.join(asked.output, name) for name in WRITTEN}
    groute, bounds = programs(asked)
    prepare(asked, paths)
    make_design(asked, asked.placed, paths)
    least = bound(bounds, asked, paths) if bounds else 0
    route(groute, asked, least, paths, earlier(asked))
    kept = kept_in(paths["report.txt"])
    timing = timed(groute, asked, least, paths) if asked.sta else ""
    if bounds and timing:
        bound(bounds, asked, paths)     # of the placement that the page shows
    tool("guides.py", paths["design.ispd"], paths["routes.solution"], paths["routes.guide"])
    status, verdict, found = judged(asked, bounds is not None, paths)
    of_kept = "" if kept is None else f"; {kept:,} nets kept"
    verdict = f"{os.path.basename(asked.placed).split('.')[0]}: {verdict}{of_kept}{timing}"
    if not asked.json:
        return status, f"{verdict}\n"
    if asked.sta:
        found["timing"] = {name: object_of(read_figures(paths[name])) for name in ("before", "after")}
    written = sorted(name for name in WRITTEN if os.path.isfile(os.path.join(asked.output, name)))
    least_words = {"least_overflow_units": least if bounds else None, "kept_nets": kept,
                   "price_steps": price_steps(asked, paths["design.ispd"]) if bounds else None}
    return status, objects.text_of("flow", {"verdict": verdict, "status": int(status), "folder": asked.output,
                                            "files": written, **least_words, **found})


def make_design(asked: Namespace, placed: str, paths: dict[str, str]) -> None:
    """Writes design and library of a placement."""
    tool("def_to_ispd.py", placed, asked.lef[0], paths["design.ispd"], paths["design.library"], *design_words(asked))


def design_words(asked: Namespace) -> list[str]:
    """The options of that."""
    words = ["--scale", str(asked.scale), *(word for lef in asked.lef[1:] for word in ("--lef", lef))]
    return [*words, *(word for liberty in asked.liberty for word in ("--liberty", liberty)), *asked.passed]


def timed(groute: str, asked: Namespace, least: int, paths: dict[str, str]) -> str:
    """Puts buffers in by OpenSTA's slacks. The answer is for the verdict; the paths are those of what came of it."""
    def again(run: closing.Run, before: closing.Run) -> None:
        mine = {**paths, **{name: os.path.join(run.folder, name) for name in OF_RUN}}
        make_design(asked, run.placed, mine)
        route(groute, asked, least, mine, before.paths("design", "solution"))

    def buffer(run: closing.Run) -> None:
        with Outputs() as outputs:
            run_program(groute, ["buffer", *run.paths("design", "timed", "solution")],
                        outputs.binary(run.path("buffers")))

    netlist = asked.verilog or paths["netlist.v"]
    cells = [word for path in asked.lef for word in ("--lef", path)]
    if not asked.verilog:
        tool("netlist.py", asked.placed, *cells, "-o", netlist)
    given = {"--period": asked.period, "--clock": asked.clock, "--sdc": asked.sdc}
    constraints = [word for pair in given.items() if pair[1] for word in pair]
    steps = closing.Steps(lambda *words: tool(*words)[1], again, buffer, asked.lef, asked.liberty, constraints,
                          asked.scale)
    first = closing.Run(asked.output, asked.placed, netlist)
    best = closing.closed(first, steps)
    with Outputs() as outputs:
        outputs.lines(paths["timing.txt"], timing_lines(first.figures, best))
    paths.update({name: os.path.join(best.folder, name) for name in OF_RUN})
    paths["before"], paths["after"], paths["slacks.txt"] = first.path("figures"), *best.paths("figures", "slacks")
    return f"; {closing.verdict(first.figures, best.figures)}"


def timing_lines(before: Figures, best: closing.Run) -> Iterator[str]:
    """Figures before and after, and the worst paths' nets, as a text."""
    yield from tables.lines(["", "before", "after"], list(rows(before, best.figures)))
    names = Netlist(Tokens(best.path("design"))).names
    for slack, ids in best.figures.paths:
        yield ""
        yield f"path of slack {slack / NANOSECOND:.3f} ns: {', '.join(names[id_] for id_ in ids)}"


def price_steps(asked: Namespace, design: str) -> int:
    """How many steps of prices grbound takes."""
    if asked.steps is not None:
        return int(asked.steps)
    with open(design, encoding="utf-8", errors="replace") as file:
        nets = next(int(line.split()[2]) for line in file if line.startswith("num net "))
    return min(MOST_STEPS, STEPS_OF_NETS // nets)


def bound(program: str, asked: Namespace, paths: dict[str, str]) -> int:
    """Writes what no routes can be below; the answer is the least overflow."""
    design = paths["design.ispd"]
    with Outputs() as outputs:
        run_program(program, [design, "--steps", str(price_steps(asked, design))], outputs.binary(paths["bounds.txt"]))
    return bounds_in(paths["bounds.txt"]).least().overflow


def order(asked: Namespace, least: int) -> list[str]:
    """The rounds and options of `route`."""
    rounds, rule, stop = asked.rounds, asked.rule or RULE, asked.stop
    if rounds is None and asked.batch is not None:
        rounds = BATCH_ROUNDS
    elif rounds is None and least > 0:
        rounds = OVERFULL_ROUNDS
    elif rounds is None:
        rounds, stop = MOST_ROUNDS, stop or "0"
    given = {"--workers": asked.workers, "--rule": rule, "--stop": stop, "--batch": asked.batch}
    return [str(rounds), *(str(word) for pair in given.items() if pair[1] is not None for word in pair)]


def route(groute: str, asked: Namespace, least: int, paths: dict[str, str], before: Sequence[str]) -> None:
    """Writes the routes and the report, together or none; `before` has a design with the routes to begin from, or
    nothing."""
    words = ["route", paths["design.ispd"], paths["design.library"], *order(asked, least), "--trace"]
    if before:
        tool("carry.py", *before, paths["design.ispd"], paths["given.solution"])
        words.append(f"--from={paths['given.solution']}")
    with Outputs() as outputs:
        report = outputs.binary(paths["report.txt"])
        run_program(groute, words, outputs.binary(paths["routes.solution"]), report)


def judged(asked: Namespace, has_bounds: bool, paths: dict[str, str]) -> tuple[int, str, dict[str, Any]]:
    """Writes what shows where it is full. The answer is the status, the verdict, and the answers of the tools."""
    routes = [paths["design.ispd"], paths["routes.solution"]]
    if importlib.util.find_spec("numpy") is None:
        frame.say("flow", f"{start.lacks('numpy')}: a table takes the place of hot spots and page")
        status, totals = tool("congestion.py", *routes, "-o", paths["congestion.csv"])
        found = {"congestion": read_object(tool("congestion.py", *routes, "--json")[1])} if asked.json else {}
        return status, ", ".join(totals.splitlines()), found
    with Outputs() as outputs:
        outputs.text(paths["hotspots.txt"]).write(tool("hotspots.py", *routes)[1])
    words = ["--bound", paths["bounds.txt"]] if has_bounds else []
    if asked.sta:
        words += ["--slack", paths["slacks.txt"], "--timing", paths["before"], paths["after"]]
    status, verdict = tool("report.py", *routes, paths["design.library"], paths["report.txt"], *words,
                           "--scale", str(asked.scale), "--json", "-o", paths["index.html"])
    found = {"report": read_object(verdict)}
    if asked.json:
        found["hotspots"] = read_object(tool("hotspots.py", *routes, "--json")[1])
    return status, found["report"].pop("verdict"), found


def read_object(text: str) -> dict[str, Any]:
    """What a tool printed with --json, but whose it is."""
    found: dict[str, Any] = json.loads(text)
    return {name: value for name, value in found.items() if name not in ("version", "tool")}


def check_timing(reader: frame.Parser, asked: Namespace) -> None:
    """That the words of --sta stand with it, and are enough."""
    others = [asked.period, asked.clock, asked.sdc, asked.verilog]
    if not asked.sta and any(others):
        reader.error("--period, --clock, --sdc and --verilog want --sta")
    if asked.sta and ((asked.period is None) == (asked.sdc is None) or asked.sdc and asked.clock):
        reader.error("--sta wants either --period, with or without --clock, or --sdc")
    if asked.sta and not asked.liberty:
        reader.error("--sta wants --liberty")


def stop(word: str) -> str:
    """The value of --stop."""
    return word if word in values("--stop") else str(frame.number(*RANGES["--stop"])(word))


def parser() -> frame.Parser:
    """The reader of the words."""
    words = frame.parser(__doc__)
    words.add_argument("placed", metavar="PLACED.def", help="a placed design")
    words.add_argument("--lef", action="append", required=True, metavar="FILE", help="the technology, then the cells")
    words.add_argument("--liberty", action="append", default=[], metavar="FILE", help="delays of the cells")
    words.add_argument("--rounds", type=frame.number(*RANGES["ROUNDS"]), metavar="N",
                       help="of rip-up and reroute at most; else as above")
    words.add_argument("--workers", type=frame.number(*RANGES["--workers"]), default=1, metavar="N",
                       help="threads that route; else 1")
    words.add_argument("--rule", choices=values("--rule"), help="as of groute route; else near")
    words.add_argument("--stop", type=stop, metavar="still|N", help="as of groute route")
    words.add_argument("--batch", type=frame.number(*RANGES["--batch"]), metavar="B", help="as of groute route")
    words.add_argument("--steps", type=frame.number(*RANGES["--steps"]), metavar="K",
                       help="of prices, as of grbound; else as above")
    words.add_argument("--from", metavar="DIR", dest="given", help="the folder of an earlier run, to keep its routes")
    words.add_argument("--scale", type=frame.number(1), default=100, metavar="N",
                       help="of the library's numbers; else 100")
    words.add_argument("--sta", action="store_true", help="goes on by OpenSTA's slacks")
    words.add_argument("--period", type=nanoseconds, metavar="NS", help="of the clock, in nanoseconds")
    words.add_argument("--clock", metavar="PORT", help="where it begins")
    words.add_argument("--sdc", metavar="FILE", help="constraints, in the place of a clock")
    words.add_argument("--verilog", metavar="NETLIST", help="a flat netlist of the placement, in the place of its own")
    words.add_argument("--program", metavar="PATH", help="groute, where it is not beside the tools or on PATH")
    frame.add_json(words)
    words.add_argument("-o", "--output", required=True, metavar="DIR", help="the folder that is written")
    for word, count in PASSED.items():
        if count:
            words.add_argument(word, action="append", nargs=count, default=[], metavar=("..",) * count,
                               help="as of def_to_ispd.py")
        else:
            words.add_argument(word, action="append_const", const=[], default=[], help="as of def_to_ispd.py")
    return words


def asked_of(words: Sequence[str]) -> Namespace:
    """What is asked for."""
    reader = parser()
    asked = reader.parse_args(words)
    if asked.batch is not None and asked.stop is not None:
        reader.error("--batch and --stop exclude each other")
    check_timing(reader, asked)
    asked.passed = [part for word in PASSED for given in getattr(asked, word[2:].replace("-", "_"))
                    for part in (word, *given)]
    def_to_ispd.asked_of(["-", "-", "-", "-", *design_words(asked)], reader)
    return asked


def main(words: Sequence[str]) -> int:
    """Goes through the steps and prints the verdict."""
    asked = asked_of(words)
    if importlib.util.find_spec("numpy") is None:
        start.again("numpy")
    try:
        status, verdict = steps(asked)
    except Stopped as stopped:
        name, failed = stopped.args
        frame.say("flow", f"{name} ended with status {failed}")
        return int(failed)
    sys.stdout.write(verdict)
    return status
