"""Tells which nets are slowest: those of least required time in a report of `groute route` or `groute buffer`.

Of each it prints the required time, the delay to its worst sink (the time at which its sinks want the signal less the
required time; `-` where they don't want it at one time), and what may explain it: pins, wire in steps from tile to
tile, vias, buffers by kind, and the box of its pins. Below stands how many nets have which required time. Where the
library has a time other than 0, the worst and the total negative slack come first: of nets, each by itself, and not of
paths through several.

With --slack, a table of required.py, nets are ranked by the timer's slack, which stands first; nets that nothing
constrains are `free` and come last.

Times are in picoseconds. Of a library that def_to_ispd.py made with --scale N say --scale N here too.
"""
import sys
from argparse import Namespace
from dataclasses import dataclass
from typing import Any, Iterator, Mapping, Sequence

from groute import frame
from groute.show import tables
from groute.texts import objects
from groute.texts.designs import Netlist
from groute.texts.files import Fault
from groute.texts.libraries import Library
from groute.texts.names import Terms, chosen, names_beside
from groute.texts.reports import buffered, check_report
from groute.texts.slacks import Slacks, read_slacks
from groute.texts.solutions import unjoined_first
from groute.texts.tokens import Tokens

HALVES, FEMTOSECONDS = 2000, 1000   # half femtoseconds, and femtoseconds, a picosecond
BARS, WIDE = 10, 50     # of the histogram, how many, and how long the longest is


@dataclass
class Timed:
    """A net of a report, with the tokens of its buffers."""
    id: int
    required: int
    buffers: list[bytes]

    def kinds(self) -> str:
        """Its buffers by kind, as a text."""
        return ", ".join(f"{kind} {count}" for kind, count in self.counts().items())

    def counts(self) -> dict[str, int]:
        """How many buffers it has of each kind."""
        kinds = self.buffers[1::2]
        return {kind.decode(errors="surrogateescape"): kinds.count(kind) for kind in sorted(set(kinds))}


def parser() -> frame.Parser:
    """The reader of the words."""
    words = frame.parser(__doc__)
    words.add_argument("design", metavar="DESIGN", help="a design text")
    words.add_argument("library", metavar="LIBRARY", help="the library of the report")
    words.add_argument("solution", metavar="SOLUTION", help="the routes of the report")
    words.add_argument("report", metavar="REPORT", help="what `route` wrote on standard error, or `buffer` on output")
    words.add_argument("--slack", metavar="TABLE", help="slacks of nets, as required.py writes them")
    words.add_argument("--worst", type=frame.number(0), default=10, metavar="N", help="as many nets at most; else 10")
    frame.add_scale(words)
    frame.add_json(words)
    frame.add_nets(words)
    frame.add_names(words)
    return words


def delay(net: Timed, design: Netlist, library: Library) -> int | None:
    """From its driver to its worst sink in half femtoseconds, or None."""
    sinks = len(design.pins(net.id)) - 1
    time = library.shared_time(net.id, sinks)
    return None if time is None or sinks == 0 else 2 * time - net.required


def box(design: Netlist, id_: int) -> tuple[tuple[int, int], tuple[int, int]]:
    """The lower and the upper corner of a net's pins, in tiles."""
    cells = [design.cell(*pin)[:2] for pin in design.pins(id_)]
    columns, rows = zip(*cells)
    return (min(columns), min(rows)), (max(columns), max(rows))


def slack(nets: Sequence[Timed], half: int) -> str:
    """Of nets that begin at time 0."""
    late = [net.required for net in nets if net.required < 0]
    return (f"slack of nets, not of paths, ps: worst {picoseconds(min(late, default=0), half)}, total negative "
            f"{picoseconds(sum(late), half)} of {len(late):,} nets")


def picoseconds(time: float, half: int) -> str:
    """A time as a text; `half` of its units are a picosecond."""
    return f"{time / half:,.1f}"


def slack_words(slacks: Slacks, id_: int) -> str:
    """A net's slack as a text."""
    return picoseconds(slacks.times[id_], FEMTOSECONDS) if id_ in slacks.times else "free"


def histogram(times: Sequence[float]) -> tuple[list[float], list[int]]:
    """The borders of steps of time, and how many nets lie in each."""
    low, high = min(times), max(times)
    step = (high - low) / BARS or 1.0
    counts = [0] * BARS
    for time in times:
        counts[min(BARS - 1, int((time - low) / step))] += 1
    return [low + at * step for at in range(BARS + 1)], counts


def histogram_lines(times: Sequence[float]) -> Iterator[str]:
    """The lines of a table: how many nets have which time, in picoseconds."""
    numbers, counts = histogram(times)
    borders = [f"{number:,.1f}" for number in numbers]
    bars = ["#" * -(-count * WIDE // max(counts)) for count in counts]
    rows = list(zip(borders, borders[1:], counts, bars))
    yield from tables.lines(["from, ps", "to, ps", "nets", ""], rows)


def printed(asked: Namespace, nets: Sequence[Timed], design: Netlist, library: Library,
            sizes: Mapping[int, tuple[int, int]], terms: Terms, slacks: Slacks | None) -> Iterator[str]:
    """The lines of the answer; sizes has steps of wire and vias by net."""
    half = HALVES * asked.scale ** 2
    if slacks is not None:
        yield from (f"nets are ranked by the slack of {asked.slack}", "")
    elif library.has_times():
        yield from (slack(nets, half), "")
    rows: list[list[str | int]] = []
    for net in nets[:asked.worst]:
        found = delay(net, design, library)
        said = [] if slacks is None else [slack_words(slacks, net.id)]
        rows.append([design.names[net.id], *said, picoseconds(net.required, half),
                     "-" if found is None else picoseconds(found, half), len(design.pins(net.id)),
                     *sizes.get(net.id, (0, 0)), terms.words(*box(design, net.id)), net.kinds()])
    first = ["net"] if slacks is None else ["net", "slack, ps"]
    yield from tables.lines([*first, "required, ps", "delay, ps", "pins", "wire, tiles", "vias",
                             f"box, {terms.unit}", "buffers"], rows)
    yield ""
    times = ranks(nets, half, slacks)
    yield from histogram_lines(times) if times else ()


def ranks(nets: Sequence[Timed], half: int, slacks: Slacks | None) -> list[float]:
    """The picoseconds by which nets are ranked, of those that have some."""
    if slacks is None:
        return [net.required / half for net in nets]
    return [slacks.times[net.id] / FEMTOSECONDS for net in nets if net.id in slacks.times]


def answer(asked: Namespace, nets: Sequence[Timed], design: Netlist, library: Library,
           sizes: Mapping[int, tuple[int, int]], terms: Terms, slacks: Slacks | None) -> dict[str, Any]:
    """The answer as an object."""
    half = HALVES * asked.scale ** 2
    shown = []
    for net in nets[:asked.worst]:
        found, (wires, vias) = delay(net, design, library), sizes.get(net.id, (0, 0))
        low, high = box(design, net.id)
        shown.append({
            **objects.net_of(design, net.id), "required_ps": net.required / half,
            "delay_ps": None if found is None else found / half,
            "slack_ps": slacks.times[net.id] / FEMTOSECONDS if slacks and net.id in slacks.times else None,
            "pins": len(design.pins(net.id)), "wire_edges": wires, "via_edges": vias,
            f"box_{terms.unit}": [float(word) for word in terms.box(low, high)], "buffers": net.counts()})
    late = [net.required for net in nets if net.required < 0] if library.has_times() else None
    times = ranks(nets, half, slacks)
    borders, counts = histogram(times) if times else ([], [])
    return {
        "ranked_by": "required" if slacks is None else "slack", "ranked_nets": len(nets), "nets": shown,
        "worst_net_slack_ps": None if late is None else min(late, default=0) / half,
        "total_negative_net_slack_ps": None if late is None else sum(late) / half,
        "histogram": [{"from_ps": low, "to_ps": high, "nets": count}
                      for low, high, count in zip(borders, borders[1:], counts)]}


def main(words: Sequence[str]) -> int:
    """Prints the answer."""
    asked = parser().parse_args(words)
    design = Netlist(Tokens(asked.design))
    terms = Terms(design, names_beside(asked.design, asked.names))
    library = Library(asked.library)
    timed = {net[0]: Timed(*net) for net in buffered(design, asked.report)}
    slacks = read_slacks(asked.slack) if asked.slack else None
    nets = sorted((timed[id_] for id_ in chosen(timed, terms, asked.nets, slacks.clocks if slacks else ())),
                  key=lambda net: net.required)
    if slacks is not None:
        known = slacks.times
        nets.sort(key=lambda net: known.get(net.id, float("inf")))
    if not nets:
        raise Fault(f"{asked.report}: no net is told of" + (f" that is among the {asked.nets}" if asked.nets else ""))
    from groute.loads.edges_numpy import Edges
    edges = Edges(design, asked.solution)
    check_report(asked.report, design.routed, edges.overflow(), edges.vias)
    sizes = dict(zip(edges.ids, zip(*(some.tolist() for some in edges.sizes()))))
    said = asked, nets, design, library, sizes, terms, slacks
    if asked.json:
        found = {"unjoined_nets": len(edges.unjoined), **answer(*said)}
        sys.stdout.write(objects.text_of("slowest", found))
    else:
        sys.stdout.writelines(f"{line}\n" for line in (*unjoined_first(edges.unjoined), *printed(*said)))
    return frame.tell_unjoined("slowest", design, edges.unjoined)
