"""groute and grbound, called from Python: `import groute` has these names. It wants no numpy.

Texts are files, given by their paths. Each call runs the program to its end and answers what it wrote. A status of
which the answer can't be had is raised, in words: `Usage` (2), `DesignFault` (3), `LibraryFault` (4), `SolutionFault`
(5), `ReadFailed` (6), `WriteFailed` (7), `NoMemory` (8), and `Failed` for what else may come. A call that takes longer
than `timeout` seconds is ended, and so is one that is interrupted. The program is the one that `program` names, else
./groute or ./grbound of the clone, or the one on PATH.
"""
import os
import shutil
import signal
import subprocess
from dataclasses import dataclass
from typing import Iterator, Sequence

from groute.explained import Ended, explained, fault_of, tree_of
from groute.texts.bounds import Bounds as Bounds, Prices as Prices, Wall as Wall, bounds_of  # noqa: F401

TOOLS = os.path.dirname(os.path.dirname(os.path.realpath(__file__)))
Path = str | os.PathLike[str]
FIRST = 4096        # bytes of what was told by which a fault is known
GRACE = 5           # seconds in which a program that is asked to end does so


class Failed(Exception):
    """That a program ended without an answer: its status, below 0 for a signal, and why, in words. Of a text's fault
    `number` and `token` are those that it told, and `line` and `column` where that token stands, all from 1."""

    def __init__(self, ended: Ended) -> None:
        lines = [*filter(None, [ended.told.decode(errors="replace").strip()]), *explained(ended)]
        Exception.__init__(self, "\n".join(lines) or f"{ended.program} ended with status {ended.status}")
        self.status = ended.status
        self.number: int | None = None
        self.token: int | None = None
        self.line: int | None = None
        self.column: int | None = None
        if fault := fault_of(ended):
            self.number, self.token, self.line, self.column = fault.number, fault.token, fault.line, fault.column


class Usage(Failed):
    """That the words give no order."""


class DesignFault(Failed):
    """The first fault of a design."""


class LibraryFault(Failed):
    """The first fault of a library."""


class SolutionFault(Failed):
    """The first fault of a solution; or, of `buffer`, that the edges of the net of id `net` are no tree."""

    def __init__(self, ended: Ended) -> None:
        Failed.__init__(self, ended)
        self.net = tree_of(ended)


class ReadFailed(Failed):
    """That a file can't be read."""


class WriteFailed(Failed):
    """That a write failed."""


class NoMemory(Failed):
    """That there isn't enough memory."""


RAISED: dict[int, type[Failed]] = {2: Usage, 3: DesignFault, 4: LibraryFault, 5: SolutionFault, 6: ReadFailed,
                                   7: WriteFailed, 8: NoMemory}


@dataclass(frozen=True)
class Report:
    """The totals of routes: nets that are routed, the sum and the greatest of demand above capacity, wirelength in
    edges, of which a via counts as `via_cost` says, and vias."""
    routed: int
    overflow: int
    maximum: int
    wirelength: int
    vias: int


@dataclass(frozen=True)
class Round:
    """What a round did: the overflow at its end, the nets that were routed, and the plans that found no room."""
    overflow: int
    nets: int
    full: int


@dataclass(frozen=True)
class Buffer:
    """A buffer: the centre of its tile, its layer from 1, and its kind."""
    x: int
    y: int
    layer: int
    kind: str


@dataclass(frozen=True)
class Net:
    """A net with its required time in half femtoseconds, None where it has no legal placement, and its buffers."""
    name: str
    id: int
    required: int | None
    buffers: tuple[Buffer, ...]


@dataclass(frozen=True)
class Routed:
    """What `route` wrote: the solution's text, the report, the rounds, and the nets in the design's order; `kept` is
    how many nets were kept of given routes, None where there were none."""
    solution: bytes
    report: Report
    kept: int | None
    rounds: tuple[Round, ...]
    nets: tuple[Net, ...]


@dataclass(frozen=True)
class Judged:
    """What `evaluate` wrote: the report, and name and id of each net that is left unjoined."""
    report: Report
    unjoined: tuple[tuple[str, int], ...]


def route(design: Path, library: Path, rounds: int, *, workers: int = 1, via_cost: int = 1, batch: int | None = None,
          rule: str = "first", stop: str | int | None = None, given: Path | None = None, program: Path | None = None,
          timeout: float | None = None) -> Routed:
    """Routes a design with at most so many rounds, and places buffers; options as of `groute route`, `given` as of
    `--from`."""
    words = [*options(workers=workers, via_cost=via_cost, batch=batch, rule=rule, stop=stop), "--trace"]
    if given is not None:
        words.append(f"--from={text(given)}")
    out, err = run("groute", ["route", *words, "--", text(design), text(library), str(rounds)], program, timeout)
    lines = iter(err.decode("utf-8", "surrogateescape").split("\n"))
    report = report_in(lines)
    kept = None if given is None else number(lines, "kept")
    done = tuple(round_in(next(lines)) for _ in range(number(lines, "rounds") + 1))
    return Routed(out, report, kept, done, tuple(nets_in(lines)))


def evaluate(design: Path, solution: Path, *, via_cost: int = 1, program: Path | None = None,
             timeout: float | None = None) -> Judged:
    """Judges the routes of any router."""
    words = ["evaluate", *options(via_cost=via_cost), "--", text(design), text(solution)]
    out, _ = run("groute", words, program, timeout, (0, 1))
    lines = iter(out.decode("utf-8", "surrogateescape").split("\n"))
    report = report_in(lines)
    number(lines, "unjoined")
    unjoined = (line.split(" ") for line in lines if line)
    return Judged(report, tuple((name, int(id_)) for name, id_ in unjoined))


def buffer(design: Path, library: Path, solution: Path, *, program: Path | None = None,
           timeout: float | None = None) -> tuple[Net, ...]:
    """Places buffers on the routes of any router."""
    out, _ = run("groute", ["buffer", "--", text(design), text(library), text(solution)], program, timeout)
    return tuple(nets_in(iter(out.decode("utf-8", "surrogateescape").split("\n"))))


def bound(design: Path, *, steps: int = 0, via_cost: int = 1, program: Path | None = None,
          timeout: float | None = None) -> Bounds:
    """Says what no routes of a design can be below; more by so many steps of prices."""
    out, _ = run("grbound", [*options(steps=steps, via_cost=via_cost), "--", text(design)], program, timeout)
    return bounds_of(out.decode("ascii"))


def text(path: Path) -> str:
    """A path as a word."""
    return os.fspath(path)


def options(**given: str | int | None) -> Iterator[str]:
    """Options as words, those that are given."""
    for name, value in given.items():
        if value is not None:
            yield f"--{name.replace('_', '-')}={value}"


def found(name: str) -> str:
    """The path of a program: of the clone, else on PATH."""
    beside = os.path.join(os.path.dirname(TOOLS), name)
    path = beside if os.path.isfile(beside) else shutil.which(name)
    if path is None:
        raise FileNotFoundError(f"{name} is neither beside the tools nor on PATH")
    return path


def run(name: str, words: Sequence[str], program: Path | None, timeout: float | None,
        statuses: tuple[int, ...] = (0,)) -> tuple[bytes, bytes]:
    """Runs a program to its end: what it wrote on standard output and on standard error."""
    path = found(name) if program is None else text(program)
    with subprocess.Popen([path, *words], stdin=subprocess.DEVNULL, stdout=subprocess.PIPE,
                          stderr=subprocess.PIPE) as process:
        try:
            out, err = process.communicate(timeout=timeout)
        except BaseException:
            process.send_signal(signal.SIGTERM)
            try:
                process.wait(GRACE)
            except subprocess.TimeoutExpired:
                process.kill()
            raise
    if process.returncode not in statuses:
        raise RAISED.get(process.returncode, Failed)(Ended(name, words, process.returncode, err[:FIRST]))
    return out, err


def number(lines: Iterator[str], word: str) -> int:
    """The number of the next line, which begins with this word."""
    found_word, _, value = next(lines).partition(" ")
    if found_word != word:
        raise ValueError(f"{word} is due: {found_word}")
    return int(value)


def report_in(lines: Iterator[str]) -> Report:
    """The report that lines begin with."""
    return Report(*(number(lines, word) for word in ("routed", "overflow", "maximum", "wirelength", "vias")))


def round_in(line: str) -> Round:
    """The round of a line."""
    _, _, _, overflow, _, nets, _, full = line.split(" ")
    return Round(int(overflow), int(nets), int(full))


def nets_in(lines: Iterator[str]) -> Iterator[Net]:
    """The nets of a buffers' text."""
    number(lines, "buffers")
    for line in filter(None, lines):
        _, name, id_, word, *rest = line.split(" ")
        if word == "has":
            yield Net(name, int(id_), None, ())
        else:
            yield Net(name, int(id_), int(rest[0]), tuple(buffer_in(next(lines)) for _ in range(int(rest[2]))))


def buffer_in(line: str) -> Buffer:
    """The buffer of a line."""
    place, _, kind = line.partition(" ")
    x, y, layer = map(int, place[1:-1].split(","))
    return Buffer(x, y, layer, kind)
