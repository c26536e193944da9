"""Parasitics of routes in SPEF, by IEEE 1481: of each net a tree of resistances and capacitances."""
import os
import time
from typing import Iterator

from groute.texts.designs import Netlist
from groute.texts.files import Fault
from groute.texts.libraries import Library
from groute.texts.pins import Pin, Pins
from groute.texts.solutions import routes
from groute.timing.naming import BIT, Called, Name, own, pin_in_spef, plain
from groute.timing.trees import Tree
from groute.timing.verilog import Joined, Signal, Verilog, pin_signals

HEAD = """*SPEF "IEEE 1481-1998"
*DESIGN "{}"
*DATE "{}"
*VENDOR "groute"
*PROGRAM "groute-spef"
*VERSION "1"
*DESIGN_FLOW "NETLIST_TYPE_VERILOG"
*DIVIDER /
*DELIMITER :
*BUS_DELIMITER [ ]
*T_UNIT 1 PS
*C_UNIT 1 FF
*R_UNIT 1 OHM
*L_UNIT 1 HENRY"""
WAYS = {"input": "I", "output": "O"}
DATE = "%Y-%m-%d"


class Names:
    """What a design's nets and the chip's ports are called in its netlist: `nets` by id, `ports` by the DEF's name."""

    def __init__(self, design: Netlist, pins: Pins, netlist: Verilog | None) -> None:
        self.name = pins.name
        ports = [[pin.name for pin in pins.nets[id_] if pin.is_port()] for id_ in design.ids]
        called = Called(zip((design.names[id_] for id_ in design.ids), ports))
        self.ports = called.ports
        self.nets = dict(zip(design.ids, called.nets))
        if netlist is not None:
            self.name = netlist.name
            self.ports = {port: port_of(netlist, name, port) for port, name in self.ports.items()}
            self.nets = dict(nets_of(netlist, design, pins, self.ports))

    def pin(self, pin: Pin) -> str:
        """A pin in SPEF."""
        return self.ports[pin.name].spef() if pin.is_port() else pin_in_spef(own(pin.component), plain(pin.name))


def port_of(netlist: Verilog, name: Name, port: str) -> Name:
    """A port of the chip as a netlist has it: its name as it is, or a bit of a bus."""
    bit = BIT.fullmatch(plain(port))
    bits = Name(bit[1], int(bit[2])) if bit else name
    whole = Name(plain(port))
    found = bits if bits.base in netlist.ranges else whole
    if found.base not in netlist.directions:
        raise Fault(f"{netlist.path}: it has no port {port}, which the placement has")
    return found


def nets_of(netlist: Verilog, design: Netlist, pins: Pins, ports: dict[str, Name]) -> Iterator[tuple[int, Name]]:
    """Each net's name in a netlist, found by the net's pins."""
    joined = Joined(netlist)
    signals: dict[tuple[str, str], Signal] = {}
    for name, instance in netlist.instances.items():
        signals.update(((name, pin), signal) for pin, signal in pin_signals(instance))
    for id_ in design.ids:
        found = [ports[pin.name] if pin.is_port() else signals.get((own(pin.component), plain(pin.name)))
                 for pin in pins.nets[id_]]
        names = [name for name in found if isinstance(name, Name)]
        if len(names) < len(found) or len(set(map(joined.first, names))) != 1:
            wrong = next((at for at, name in enumerate(found) if not isinstance(name, Name)
                          or joined.first(name) != joined.first(found[0])), 0)
            component, pin, _ = pins.nets[id_][wrong]
            raise Fault(f"{netlist.path}: it isn't of this placement: the net {design.names[id_]} has the pin {pin} of "
                        f"{component} there")
        yield id_, names[0]


class Parasitics:
    """The text of a solution's parasitics. `unrouted` gets the nets that have no routes, `unjoined` those with a pin
    that their routes don't reach."""

    def __init__(self, design: Netlist, pins: Pins, library: Library, scale: int, names: Names) -> None:
        self.design, self.pins, self.names = design, pins, names
        values = [library.steps[layer] for layer in range(design.layers + 1)]      # of vias 0
        self.ohms = [f"{resistance / scale:.6g}" for resistance, _ in values]
        self.halves = [capacitance / scale / 2 for _, capacitance in values]
        self.unrouted: list[int] = []
        self.unjoined: list[int] = []

    def lines(self, solution: str) -> Iterator[str]:
        """All lines."""
        now = time.gmtime(int(os.environ.get("SOURCE_DATE_EPOCH", time.time())))
        yield HEAD.format(self.names.name, time.strftime(DATE, now))
        told = set()
        for id_, runs in routes(self.design, solution):
            told.add(id_)
            yield self.net(id_, Tree(self.design, id_, runs))
        for id_ in self.design.ids:
            if id_ not in told:
                tree = Tree(self.design, id_, [])
                if tree.unjoined():
                    self.unrouted.append(id_)
                else:
                    yield self.net(id_, tree)
        if self.unrouted and len(self.unrouted) == len(self.design.ids):
            id_ = self.unrouted.pop(0)      # as readers want a net, one without wires
            yield self.net(id_, Tree(self.design, id_, []))

    def net(self, id_: int, tree: Tree) -> str:
        """The text of a net, in which a cell has the name of its first pin, if it has one."""
        if tree.unjoined():
            self.unjoined.append(id_)
        name, halves, ohms = self.names.nets[id_].spef(), self.halves, self.ohms
        nodes = [f"{name}:{at}" for at in range(1, len(tree.cells) + 1)]
        connected, beside = [], []
        taken: set[int] = set()
        for pin, place in zip(self.pins.nets[id_], tree.pins):
            word = self.names.pin(pin)
            connected.append(f"*{'P' if pin.is_port() else 'I'} {word} {WAYS.get(pin.direction, 'B')}")
            if place is None:
                continue
            if place in taken:
                beside.append((nodes[place], word))
            else:
                taken.add(place)
                nodes[place] = word
        farads = [0.0] * len(nodes)
        for at in tree.backwards():
            half = halves[tree.layers[at]]
            farads[at] += half
            farads[tree.parents[at]] += half
        caps = [f"{node} {value:.6g}" for node, value in zip(nodes, farads) if value]
        steps = [f"{nodes[parent]} {node} {ohms[layer]}"
                 for node, parent, layer in zip(nodes[1:], tree.parents[1:], tree.layers[1:])]
        steps += [f"{node} {word} 0" for node, word in beside]
        return "\n".join(["", f"*D_NET {name} {sum(farads):.6g}", "*CONN", *connected, "*CAP", *numbered(caps), "*RES",
                          *numbered(steps), "*END"])


def numbered(lines: list[str]) -> Iterator[str]:
    """Lines with their numbers, from 1."""
    return (f"{number} {line}" for number, line in enumerate(lines, 1))
