"""The page of a design's routes: what it says, packed into one file."""
import base64
import hashlib
import json
import os
import struct
import zlib
from argparse import Namespace
from typing import Any, Sequence

import numpy

from groute.loads.edges import totals, totals_object
from groute.loads.edges_numpy import Array, Edges, points
from groute.loads.proofs import OVERFLOW, Proof, object_of, proofs, wirelength_of
from groute.loads.regions import GRADES, SHARES, WAYS, Loads
from groute.texts.bounds import bounds_in
from groute.texts.designs import EAST, NORTH, Netlist
from groute.texts.libraries import Library
from groute.texts.figures import read_figures, rows
from groute.texts.files import Fault
from groute.texts.names import Terms, names_beside
from groute.texts.reports import Round, buffered, check_report, first_fault, rounds_of, total_of, written
from groute.texts.slacks import read_slacks
from groute.texts.solutions import unjoined_words
from groute.texts.tokens import Tokens

PAGE = os.path.join(os.path.dirname(os.path.realpath(__file__)), "page")
SCRIPTS = ("tables.js", "map.js", "page.js")    # the last one begins
MOST_NETS = 100_000     # of which all are on the page
MOST_BYTES = 20_000_000
REGIONS, SLOWEST = 10, 1000     # how many are always there
HALVES, PICOSECOND = 2000, 1000     # half femtoseconds, and femtoseconds, a picosecond
PAD = 8                 # bytes to which arrays are aligned
LEVEL = 4               # of zlib; more takes longer and saves little


class Packed:
    """Arrays behind a head that says where each begins."""

    def __init__(self) -> None:
        self.places: dict[str, list[str | int]] = {}
        self.parts: list[bytes] = []
        self.size = 0

    def add(self, name: str, array: Array) -> None:
        """One more array, in the smallest type that holds its numbers."""
        if array.dtype.kind in "iu":
            array = array.astype(numpy.min_scalar_type(int(array.max(initial=0))))
        self.places[name] = [array.dtype.str[1:], self.size, len(array)]
        data = array.tobytes()
        self.parts.append(data + bytes(-len(data) % PAD))
        self.size += len(self.parts[-1])

    def text(self, head: dict[str, Any]) -> str:
        """Head and arrays, deflated, in base64."""
        words = json.dumps({**head, "arrays": self.places}).encode()
        words += b" " * (-(len(words) + 4) % PAD)
        return base64.b64encode(zlib.compress(
            struct.pack("<I", len(words)) + words + b"".join(self.parts), LEVEL)).decode()


class Routes:
    """All that is read: the design, the loads, and of each net its required time and buffers."""

    def __init__(self, asked: Namespace) -> None:
        self.design = Netlist(Tokens(asked.design))
        self.terms = Terms(self.design, names_beside(asked.design, asked.names))
        self.edges = Edges(self.design, asked.solution)
        self.loads = Loads(self.edges)
        self.regions = self.loads.regions(REGIONS)
        self.half = HALVES * asked.scale ** 2
        self.bounds = bounds_in(asked.bound) if asked.bound else None
        self.kinds: list[str] = []
        self.has_times = False
        self.required: dict[int, int] = {}
        self.buffers: dict[int, list[bytes]] = {}
        self.slacks = read_slacks(asked.slack) if asked.slack else None
        self.timing = [read_figures(path) for path in asked.timing or ()]
        self.rounds: list[Round] = []
        self.report = asked.report or ""
        if asked.report:
            library = Library(asked.library)
            self.kinds, self.has_times = library.kinds, library.has_times()
            check_report(asked.report, self.design.routed, self.edges.overflow(), self.edges.vias)
            for id_, required, buffers in buffered(self.design, asked.report):
                self.required[id_], self.buffers[id_] = required, buffers
            self.rounds = rounds_of(asked.report)
        if asked.before and not self.rounds:
            self.rounds = [Round(overflow) for overflow in self.by_round(asked.before)]
        self.proofs = self.proved(asked)

    def proved(self, asked: Namespace) -> list[Proof]:
        """What the bounds prove of the routes."""
        if self.bounds is None:
            return []
        told = total_of(asked.report, "wirelength") if asked.report else None
        return proofs(self.bounds, self.edges, wirelength_of(self.edges, asked.via_cost, told))

    def by_round(self, before: Sequence[str]) -> list[int]:
        """The overflow of earlier rounds, by their reports, and of these routes."""
        found = [overflow for path in before if (overflow := total_of(path, "overflow")) is not None]
        if len(found) < len(before):
            raise Fault("a text of buffers tells no overflow: reports of `groute route` are due before")
        return [*found, self.edges.overflow()[0]]

    def answer(self, before: Sequence[str]) -> dict[str, Any]:
        """The verdict as an object."""
        uses = self.loads.uses
        worst = min(self.required.values()) / self.half if self.required else None
        rounds = self.rounds or [Round(self.edges.overflow()[0])]
        return {"verdict": self.verdict(before), "totals": totals_object(self.edges),
                "overflow_by_round_units": [some.overflow for some in rounds],
                "rounds": [{"overflow_units": some.overflow, "routed_nets": some.nets, "refused_plans": some.full}
                           for some in rounds],
                "written_round": written(rounds),
                "least_overflow_units": self.bounds.least().overflow if self.bounds else None,
                "proved": object_of(self.proofs),
                "fullest_tile_percent": 100 * float(uses[0]) if len(uses) else None,
                "worst_net_required_ps": worst if self.has_times else None,
                "worst_net_delay_ps": None if worst is None or self.has_times else -worst}

    def verdict(self, before: Sequence[str]) -> str:
        """The whole in a line."""
        words = f"overflow {self.edges.overflow()[0]:,}"
        if self.edges.unjoined:
            words = f"{unjoined_words(len(self.edges.unjoined))}; {words}"
        if before:
            words += (f" after {len(before)} round{'s' * (len(before) > 1)} "
                      f"({', '.join(f'{value:,}' for value in self.by_round(before))})")
        for proof in self.proofs:
            own = "" if proof.figure == OVERFLOW else f"; {proof.figure} {proof.reached:,}"
            words += f"{own}, {proof.words()}"
        uses = self.loads.uses
        if len(uses):
            words += f"; fullest tile {100 * uses[0]:,.0f} %"
        if self.required:
            worst = min(self.required.values()) / self.half
            words += f"; worst net {worst:,.0f} ps" if self.has_times else f"; worst net delay {-worst:,.0f} ps"
        return words

    def times(self) -> dict[int, float]:
        """The picoseconds by which nets are ranked: their slack, where a table has it, else their required time."""
        if self.slacks is not None:
            return {id_: time / PICOSECOND for id_, time in self.slacks.times.items() if id_ in self.design.places}
        return {id_: time / self.half for id_, time in self.required.items()}

    def clocks(self) -> set[int]:
        """The nets that are known to be clocks'."""
        return self.terms.clocks() | (self.slacks.clocks if self.slacks is not None else set())

    def on_paths(self) -> list[int]:
        """The nets of the worst paths of the routes."""
        return [id_ for _, ids in (self.timing[1].paths if self.timing else ()) for id_ in ids]

    def nets(self, all_: bool) -> list[int]:
        """The ids of the nets that the page has."""
        if all_:
            return self.design.ids
        times = self.times()
        slowest = sorted(times, key=lambda id_: times[id_])[:SLOWEST] + self.on_paths()
        some = {id_ for region in self.regions for id_, _ in region.nets} | {*slowest, *self.edges.unjoined[:SLOWEST]}
        return [id_ for id_ in self.design.ids if id_ in some]


def head(routes: Routes, ids: list[int], asked: Namespace) -> dict[str, Any]:
    """What isn't an array."""
    design, terms = routes.design, routes.terms
    place = {id_: at for at, id_ in enumerate(ids)}
    shares = ", ".join(f"{use:.1f} of {share} %" for share, use in zip(SHARES, routes.loads.fullest()))
    report = totals(routes.edges).split()
    return {
        "design": os.path.basename(asked.design), "verdict": routes.verdict(asked.before),
        "ace": f"ACE, average use in % of the fullest edges: {shares}",
        "totals": dict(zip(report[::2], map(int, report[1::2]))),
        "columns": design.columns, "rows": design.rows, "layers": terms.layers, "unit": terms.unit,
        "corner": [float(value) for value in terms.corner], "step": [float(value) for value in terms.step],
        "hasTimes": bool(routes.required), "allNets": len(design.ids), "kinds": routes.kinds,
        "table": [vars(line) | {"use": line.use()} for line in routes.loads.table(terms.layers)],
        "ways": [WAYS[EAST], WAYS[NORTH]], "grades": GRADES,
        "unjoined": [place[id_] for id_ in routes.edges.unjoined if id_ in place],
        "clocks": [place[id_] for id_ in sorted(routes.clocks()) if id_ in place],
        "bySlack": routes.slacks is not None, "timing": list(rows(*routes.timing)) if routes.timing else [],
        "paths": [[slack / PICOSECOND, [place[id_] for id_ in some if id_ in place]]
                  for slack, some in (routes.timing[1].paths if routes.timing else ())],
        "rounds": [vars(some) for some in routes.rounds], "written": written(routes.rounds) if routes.rounds else None,
        "walls": [vars(wall) for wall in routes.bounds.walls] if routes.bounds else [],
        "regions": [{"low": region.low, "high": region.high, "overflow": region.overflow, "over": region.over,
                     "closed": region.closed, "nets": [place[id_] for id_, _ in region.nets],
                     "counts": [count for _, count in region.nets]} for region in routes.regions],
    }


def add_planes(packed: Packed, loads: Loads) -> list[list[int]]:
    """Demand and capacity of each layer and direction that has wires, by row and column of the lower end."""
    planes: list[list[int]] = []
    for layer in range(loads.design.layers):
        for way in (EAST, NORTH):
            demand, capacity = loads.demand[way][layer], loads.capacity[way][layer]
            if demand.any() or capacity.any():
                packed.add(f"demand{len(planes)}", demand.ravel())
                packed.add(f"capacity{len(planes)}", capacity.ravel())
                planes.append([layer, way])
    return planes


def add_nets(packed: Packed, routes: Routes, ids: list[int]) -> None:
    """Names, pins, runs, buffers and numbers of these nets, in their order."""
    design, edges = routes.design, routes.edges
    names = "\n".join(design.names[id_] for id_ in ids).encode(errors="surrogateescape")
    packed.add("names", numpy.frombuffer(names, numpy.uint8))
    first = numpy.array(design.first)
    counts, places = numpy.diff(first), numpy.array([design.places[id_] for id_ in ids], int)
    cells = edges.cell_numbers(numpy.array(design.points, numpy.int64).reshape(-1, 3))
    packed.add("pins", counts[places])
    packed.add("pinValues", cells[numpy.repeat(numpy.isin(numpy.arange(len(counts)), places), counts)])
    place = {id_: at for at, id_ in enumerate(ids)}
    mine = numpy.array([place.get(id_, -1) for id_ in edges.ids] + [-1])    # by place in edges.ids
    net = mine[edges.net]
    order = net.argsort(kind="stable")[numpy.count_nonzero(net < 0):]
    packed.add("runs", numpy.bincount(net[order], minlength=len(ids)))
    for name, some in (("runWay", edges.way), ("runFirst", edges.number), ("runLength", edges.length)):
        packed.add(name, some[order])
    through = edges.through([edges.demand[way] > edges.capacity[way] for way in (EAST, NORTH)])
    for name, some in zip(("wires", "vias", "over"), (*edges.sizes(), through)):
        found = numpy.zeros(len(ids), numpy.int64)
        found[mine[:-1][mine[:-1] >= 0]] = some[mine[:-1] >= 0]
        packed.add(name, found)
    if routes.required:
        times = routes.times()
        packed.add("required", numpy.array([times.get(id_, numpy.nan) for id_ in ids]))
        try:
            add_buffers(packed, routes, ids)
        except Fault as fault:
            raise first_fault(routes.design, routes.report, routes.kinds) or fault from None


def add_buffers(packed: Packed, routes: Routes, ids: list[int]) -> None:
    """The buffers of these nets: how many each has, and the cells and kinds of all."""
    kinds = {kind.encode(errors="surrogateescape"): at for at, kind in enumerate(routes.kinds)}
    tokens: list[list[bytes]] = [routes.buffers.get(id_, []) for id_ in ids]
    unknown = {kind for some in tokens for kind in some[1::2]} - set(kinds)
    if unknown:
        raise Fault(f"the library has no kind {min(unknown).decode(errors='replace')}")
    packed.add("buffers", numpy.array([len(some) // 2 for some in tokens], int))
    packed.add("bufferValues", routes.edges.cell_numbers(points([point for some in tokens for point in some[::2]])))
    packed.add("kindValues", numpy.array([kinds[kind] for some in tokens for kind in some[1::2]], int))


def text_of(routes: Routes, asked: Namespace) -> str:
    """The page, with all nets or, where that would be too large, with some."""
    size = 0
    for all_ in (True, False):
        if all_ and len(routes.design.ids) > MOST_NETS:
            continue
        ids = routes.nets(all_)
        packed = Packed()
        planes = add_planes(packed, routes.loads)
        add_nets(packed, routes, ids)
        text = page(packed.text({**head(routes, ids, asked), "planes": planes}))
        if len(text) <= MOST_BYTES:
            return text
        size = len(text)
    raise Fault(f"the page would have {size:,} bytes, and more than {MOST_BYTES:,} are not written")


def page(data: str) -> str:
    """The page with this data, and a policy that allows its own script and style alone."""
    style, script = part("page.css"), '"use strict";\n' + "".join(map(part, SCRIPTS))
    hashes = [base64.b64encode(hashlib.sha256(inner.encode()).digest()).decode() for inner in (script, style)]
    policy = ("default-src 'none'; script-src 'sha256-{}'; style-src 'sha256-{}'; base-uri 'none'; "
              "form-action 'none'").format(*hashes)
    text = part("page.html").replace("@POLICY@", policy).replace("@STYLE@", style).replace("@SCRIPT@", script)
    return text.replace("@DATA@", data)


def part(name: str) -> str:
    """A file of the page."""
    with open(os.path.join(PAGE, name), encoding="utf-8") as file:
        return file.read()
