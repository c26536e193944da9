"""Netlists without the cells that were inserted: whether they are what they were."""
from typing import Hashable, Iterable, Mapping, Sequence, TypeVar

from groute.texts.files import Fault
from groute.texts.pins import CHIP
from groute.timing.insertion import Kind
from groute.timing.naming import Name
from groute.timing.verilog import Joined, Signal, Verilog, pin_signals

N = TypeVar("N", bound=Hashable)
Pin = tuple[str, str]       # of an instance, or of CHIP, and its name
Nets = Mapping[N, Sequence[Pin]]


def check(given: Nets[N], found: Nets[N], cells: Mapping[str, Kind]) -> None:
    """That a netlist, where each of some cells joins the nets at its two pins, has the given nets, and inverts none."""
    ends = {pin: name for name, pins in found.items() for pin in pins if pin[0] in cells}
    before: dict[N, tuple[N, bool]] = {}
    for instance, kind in cells.items():
        if (instance, kind.input) not in ends or (instance, kind.output) not in ends:
            raise differs(instance)
        output = ends[instance, kind.output]
        if output in before:
            raise differs(output)
        before[output] = ends[instance, kind.input], kind.inverts
    groups: dict[N, list[Pin]] = {}
    names: dict[N, N] = {}
    for name, pins in found.items():
        first, inverted = root(name, before)
        mine = [pin for pin in pins if pin[0] not in cells]
        if inverted and mine:
            raise differs(name)
        groups.setdefault(first, []).extend(mine)
        if name in given and names.setdefault(first, name) != name:
            raise differs(name)
    for first, mine in groups.items():
        if first not in names or not same(mine, given[names[first]]):
            raise differs(names.get(first, first))
    if len(groups) < len(given):
        raise differs(next(iter(given.keys() - set(names.values()))))


def same(some: Sequence[Pin], others: Sequence[Pin]) -> bool:
    """Whether these are the same pins, in any order."""
    return some == others or sorted(some) == sorted(others)


def root(name: N, before: Mapping[N, tuple[N, bool]]) -> tuple[N, bool]:
    """The net that a net comes from through cells, and whether these invert."""
    inverted, steps = False, 0
    while name in before:
        name, inverts = before[name]
        inverted, steps = inverted != inverts, steps + 1
        if steps > len(before):
            raise differs(name)
    return name, inverted


def differs(name: object) -> Fault:
    """That a netlist isn't the given one."""
    says = name.verilog() if isinstance(name, Name) else name
    return Fault(f"an error of this tool: without the new cells the netlist isn't the given one, at {says}")


def nets_of(netlist: Verilog) -> dict[Signal, list[Pin]]:
    """The nets of a netlist, of those that `assign` joins one, with their pins."""
    joined = Joined(netlist)
    found: dict[Signal, list[Pin]] = {}
    for name, instance in netlist.instances.items():
        for pin, signal in pin_signals(instance):
            found.setdefault(joined.first(signal), []).append((name, pin))
    for base in netlist.directions:
        first, last = netlist.ranges.get(base, (None, None))
        bits: Iterable[int | None] = [None] if first is None or last is None else \
            range(min(first, last), max(first, last) + 1)
        for bit in bits:
            signal = Name(base, bit)
            found.setdefault(joined.first(signal), []).append((CHIP, signal.verilog()))
    return found
