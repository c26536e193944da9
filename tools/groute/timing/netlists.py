"""Structural Verilog of a placed design."""
from typing import Iterator

from groute.placed.connected import Connected
from groute.placed.def_text import Component, Net
from groute.placed.lef_text import SUPPLIES, Macro
from groute.texts.files import Fault
from groute.texts.pins import CHIP
from groute.timing.naming import BIT, Called, Name, identifier, own, plain

WAYS = ("input", "output", "inout")
OPEN = "1'bz"   # what a bit is connected to that is left open


class Circuit:
    """The netlist of a placed design, without supplies and fillers: by component, what its pins are connected to."""

    def __init__(self, chip: Connected) -> None:
        self.chip = chip
        self.ports = {net.name: [pin for component, pin in chip.ordered(net) if component == CHIP]
                      for net in chip.nets}
        self.called = Called(self.ports.items())
        self.names = dict(zip(self.ports, self.called.nets))
        self.pins: dict[str, dict[str, str]] = {}
        for net in chip.nets:
            self.connect(net, self.names[net.name].verilog())
        mine = {net.name for net in chip.nets}
        for net in chip.placed.nets.values():
            if net.connections and net.name not in mine:
                self.tie(net)
        self.buses: dict[str, dict[str, list[str]]] = {}

    def connect(self, net: Net, signal: str) -> None:
        """The cells' pins of a net."""
        for component, pin in net.connections:
            if component != CHIP:
                self.pins.setdefault(component, {})[self.chip.cell_pin(pin)] = signal

    def tie(self, net: Net) -> None:
        """The inputs of cells at a supply, which are constants."""
        chip = self.chip
        pins = [(connection, chip.pin(net, *connection)) for connection in net.connections]
        uses = {*chip.uses(net), *(pin.use for _, (pin, _) in pins),
                *(macro.pins[net.name].use for macro in chip.lef.macros.values() if net.name in macro.pins)}
        found = [use in uses for use in SUPPLIES]
        inputs = [connection for connection, (pin, cell) in pins if cell is not None and pin.use not in SUPPLIES]
        if inputs and found[0] == found[1]:
            chip.lef.notes.tell(net.place, f"{net.name} may be power or ground: the inputs that it ties off are open")
        for component, pin in inputs if found[0] != found[1] else ():
            self.pins.setdefault(component, {})[chip.cell_pin(pin)] = f"1'b{int(found[0])}"

    def lines(self) -> Iterator[str]:
        """The text."""
        chip = self.chip
        directions = dict(self.directions())
        loose = [port for port in self.loose() if Name(plain(port)).base not in self.called.taken]
        names = list(dict.fromkeys([*(name.base for name in self.called.ports.values()), *map(plain, loose)]))
        yield f"module {identifier(chip.placed.name)} ({', '.join(map(identifier, names))});"
        buses = self.called.buses()
        for base in names:
            bits = f" [{buses[base][1]}:{buses[base][0]}]" if base in buses else ""
            yield f"  {directions.get(base, 'input')}{bits} {identifier(base)};"
        yield from (f"  wire {name.verilog()};" for net, name in self.names.items() if not self.ports[net])
        for component, cell in self.instances():
            macro = chip.macro(cell)
            pins = ", ".join(self.connections(cell.macro, macro, self.pins.get(component, {})))
            yield f"  {identifier(cell.macro)} {identifier(own(component))} ({pins});"
        for net, ports in self.ports.items():
            for name in (self.called.ports[port] for port in ports):
                if name != self.names[net]:
                    ways = directions[name.base], directions[self.names[net].base]
                    pair = (self.names[net], name) if ways[0] == "input" != ways[1] else (name, self.names[net])
                    yield f"  assign {pair[0].verilog()} = {pair[1].verilog()};"
        yield "endmodule"

    def instances(self) -> Iterator[tuple[str, Component]]:
        """All components but fillers."""
        found: dict[str, str] = {}
        for name, component in self.chip.placed.components.items():
            if not self.chip.macro(component).is_filler():
                if found.setdefault(own(name), name) != name:
                    raise Fault(f"{component.place}: {name} and {found[own(name)]} have one name in Verilog")
                yield name, component

    def directions(self) -> Iterator[tuple[str, str]]:
        """Of ports and buses; a bus of bits that differ is `inout`."""
        found: dict[str, str] = {}
        for net in self.chip.nets:
            for port in self.ports[net.name]:
                base, way = self.called.ports[port].base, self.chip.direction(net, CHIP, port)
                way = way if way in WAYS else "inout"
                found[base] = way if found.get(base, way) == way else "inout"
        yield from found.items()

    def loose(self) -> Iterator[str]:
        """The ports that no net has, but those of supplies."""
        chip = self.chip
        mine = {port for ports in self.ports.values() for port in ports}
        for port, pin in chip.placed.pins.items():
            is_special = pin.net in chip.placed.special_uses or pin.net in chip.placed.nets
            if port not in mine and pin.use not in SUPPLIES and not is_special:
                yield port

    def connections(self, name: str, macro: Macro, pins: dict[str, str]) -> Iterator[str]:
        """`.PIN(SIGNAL)` of a cell's pins that are connected, a bus's bits together, the highest first."""
        if name not in self.buses:
            self.buses[name] = buses_of([self.chip.cell_pin(pin) for pin in macro.pins])
        for pin, bits in self.buses[name].items():
            if bits == [pin] and pin in pins:
                yield f".{identifier(pin)}({pins[pin]})"
            elif bits != [pin] and any(bit in pins for bit in bits):
                yield f".{identifier(pin)}({{{', '.join(pins.get(bit, OPEN) for bit in bits)}}})"


def buses_of(pins: list[str]) -> dict[str, list[str]]:
    """A cell's pins, each by itself, and its buses with the pins that are their bits, the highest first."""
    found: dict[str, list[str]] = {}
    for pin in pins:
        bit = BIT.fullmatch(pin)
        if bit and bit[1] not in pins:
            found.setdefault(bit[1], []).append(pin)
        else:
            found[pin] = [pin]
    for base, bits in found.items():
        if bits != [base]:
            bits.sort(key=lambda pin: -int(pin[len(base) + 1:-1]))
    return found
