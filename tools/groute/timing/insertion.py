"""Buffers of a report as cells of a netlist: nets parted along their routes, at the buffers."""
import re
from dataclasses import dataclass, field
from typing import Container, Iterable, Iterator, Sequence

from groute.placed.liberty import Liberty
from groute.texts.designs import Cell, Netlist
from groute.texts.files import Fault
from groute.texts.pins import Pin
from groute.texts.reports import buffer_of, buffered, first_fault
from groute.texts.solutions import has_joined, routes, unjoined_without
from groute.timing.trees import Tree

ODD = re.compile(r"[^A-Za-z0-9_]")


@dataclass
class Kind:
    """A cell that buffers: its pins, and whether it inverts."""
    name: str
    input: str
    output: str
    inverts: bool


@dataclass
class Part:
    """A part of a net, behind its driver or behind a new cell: its pins by their number in the net, and the parts
    behind the new cells that it drives. `name` is that of the new net, or None of the part that keeps the net's."""
    kind: Kind | None = None        # of the new cell that drives it
    cell: Cell = (0, 0, 0)          # where that stands
    feeder: int = 0                 # the part that drives that
    inverted: bool = False
    pins: list[int] = field(default_factory=list)
    fed: list[int] = field(default_factory=list)
    instance: str = ""
    name: str | None = None


@dataclass
class Change:
    """A net that is parted: the first part has the driver."""
    id: int
    parts: list[Part]

    def keeper(self) -> int:
        """The part that keeps the net's name."""
        return next(at for at, part in enumerate(self.parts) if part.name is None)


class Kinds:
    """The cells of liberty that buffers are of."""

    def __init__(self, liberty: Liberty) -> None:
        self.liberty = liberty
        self.known: dict[str, Kind] = {}

    def kind(self, name: str) -> Kind:
        """The kind of this name."""
        if name not in self.known:
            cell = self.liberty.cell(name)
            sense = cell.sense()
            if sense is None:
                raise Fault(f"the cell {name} is no buffer and no inverter")
            self.known[name] = Kind(name, next(iter(cell.loads)), next(iter(cell.lines)), sense == "inverter")
        return self.known[name]


class Insertion:
    """The nets that change. `left` has others that have buffers in the report, with why they stay as they are, and
    `unjoined` those whose routes leave a pin unjoined."""

    def __init__(self, design: Netlist, pins: dict[int, list[Pin]], kinds: Kinds) -> None:
        self.design, self.pins, self.kinds = design, pins, kinds
        self.changes: list[Change] = []
        self.left: list[tuple[int, str]] = []
        self.unjoined: list[int] = []

    def read(self, solution: str, report: str, without: Container[int]) -> None:
        """Parts the nets of a report at their buffers, but some."""
        found = {id_: tokens for id_, _, tokens in buffered(self.design, report) if tokens and id_ not in without}
        told = set()
        for id_, runs in routes(self.design, solution):
            told.add(id_)
            if id_ in found:
                tokens = found.pop(id_)
                try:
                    buffers = [buffer_of(self.design, *pair) for pair in zip(tokens[::2], tokens[1::2])]
                except Fault as fault:
                    raise first_fault(self.design, report) or fault from None
                self.part(id_, Tree(self.design, id_, runs), buffers)
            elif not has_joined(self.design.pin_cells(id_), runs):
                self.unjoined.append(id_)
        if found:
            raise Fault(f"{report}: it isn't of these routes: the net {self.design.names[next(iter(found))]} has none")
        self.unjoined += unjoined_without(self.design, told)
        self.unjoined.sort(key=self.design.places.__getitem__)

    def part(self, id_: int, tree: Tree, buffers: Sequence[tuple[Cell, str]]) -> None:
        """Parts a net."""
        parts = self.parts(id_, tree, buffers)
        ports = {at for at, part in enumerate(parts) for pin in part.pins if self.pins[id_][pin].is_port()}
        if any(part.inverted for part in parts if part.pins):
            self.left.append((id_, "a sink would get the inverted signal"))
        elif len(ports) > 1:
            self.left.append((id_, "its ports would have several nets"))
        elif len(parts) > 1:
            change = Change(id_, parts)
            for at, part in enumerate(parts):
                part.name = None if at == (min(ports) if ports else 0) else ""
            self.changes.append(change)

    def parts(self, id_: int, tree: Tree, buffers: Sequence[tuple[Cell, str]]) -> list[Part]:
        """The parts of a net, without those that drive nothing."""
        name = self.design.names[id_]
        if tree.unjoined():
            raise Fault(f"the routes of the net {name} leave pins unjoined")
        at_place = {tree.place.get(tree.number(cell), 0): (cell, kind) for cell, kind in buffers}
        if 0 in at_place or len(at_place) < len(buffers):
            raise Fault(f"the net {name} has a buffer where none can stand on these routes")
        parts = [Part()]
        owner = [0] * len(tree.cells)
        for at in range(1, len(tree.cells)):
            owner[at] = owner[tree.parents[at]]
            if at in at_place:
                cell, word = at_place[at]
                kind, feeder = self.kinds.kind(word), owner[at]
                parts.append(Part(kind, cell, feeder, parts[feeder].inverted != kind.inverts))
                owner[at] = len(parts) - 1
        for pin, place in enumerate(tree.pins):
            parts[owner[place or 0] if pin else 0].pins.append(pin)
        return driving(parts)

    def name(self, taken: set[str]) -> Iterator[Part]:
        """Gives new cells and nets names that weren't taken; yields each part that has a new cell."""
        for change in self.changes:
            base = ODD.sub("_", self.design.names[change.id])
            base = f"_{base}" if base[0].isdigit() else base
            number = 0
            for part in change.parts:
                if part.kind is not None:
                    number = unused(base, number, taken)
                    part.instance = f"{base}_buf{number}"
                    taken.update((part.instance, f"{part.instance}_net"))
                    if part.name is not None:
                        part.name = f"{part.instance}_net"
                    yield part
            if change.parts[0].name is not None:
                name = f"{base}_net"
                while name in taken:
                    name += "_"
                taken.add(name)
                change.parts[0].name = name


def unused(base: str, number: int, taken: set[str]) -> int:
    """The next number whose names aren't taken."""
    number += 1
    while f"{base}_buf{number}" in taken or f"{base}_buf{number}_net" in taken:
        number += 1
    return number


def driving(parts: list[Part]) -> list[Part]:
    """The parts that drive a pin, themselves or through others, and what each feeds."""
    useful = [bool(part.pins) for part in parts]
    for at in range(len(parts) - 1, 0, -1):
        useful[parts[at].feeder] = useful[parts[at].feeder] or useful[at]
    numbers = {at: number for number, at in enumerate(at for at, is_useful in enumerate(useful) if is_useful)}
    kept = [parts[at] for at in numbers]
    for number, part in enumerate(kept[1:], 1):
        part.feeder = numbers[part.feeder]
        kept[part.feeder].fed.append(number)
    return kept


def connections(change: Change, pins: Sequence[tuple[str, str]]) -> Iterator[tuple[Part, list[tuple[str, str]]]]:
    """Each part with what its net joins, as (component, pin): what drives it first."""
    for part in change.parts:
        found = [(part.instance, part.kind.output)] if part.kind is not None else []
        found += [pins[pin] for pin in part.pins]
        for at in part.fed:
            kind = change.parts[at].kind
            if kind is not None:
                found.append((change.parts[at].instance, kind.input))
        yield part, found


def left_words(names: dict[int, str], left: Iterable[tuple[int, str]]) -> Iterator[str]:
    """Why nets stay as they are, in lines."""
    yield from (f"the net {names[id_]} stays without its buffers: {why}" for id_, why in left)
