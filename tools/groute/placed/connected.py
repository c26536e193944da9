"""The pins of a placed design's nets: which drives, and which nets are supplies or clocks."""
from functools import cached_property

from groute.placed.def_text import Component, Def, Net
from groute.placed.def_text import Pin as ChipPin
from groute.placed.lef_text import SUPPLIES, Lef, Macro, Pin
from groute.placed.liberty import Liberty
from groute.texts.files import Fault

MOST_NETS, MOST_PINS = 4194304, 16777216    # these are groute's limits
SHOWN = 5                           # supplies that are named


class Connected:
    """A placed design with the cells that its components are of."""

    def __init__(self, placed: Def, lef: Lef, keeps_supplies: bool = False) -> None:
        self.placed, self.lef, self.keeps_supplies = placed, lef, keeps_supplies

    def macro(self, component: Component) -> Macro:
        """The cell that a component is of."""
        if component.macro not in self.lef.macros:
            raise Fault(f"{component.place}: the LEF has no cell {component.macro}")
        return self.lef.macros[component.macro]

    def pin(self, net: Net, component: str, name: str) -> tuple[Pin | ChipPin, Component | None]:
        """A net's pin, and the component that it is of, None of the chip's pins."""
        if component == "PIN":
            if name not in self.placed.pins:
                raise Fault(f"{net.place}: PINS has no {name}")
            return self.placed.pins[name], None
        if component not in self.placed.components:
            raise Fault(f"{net.place}: COMPONENTS has no {component}")
        cell = self.placed.components[component]
        pin = self.pin_of(self.macro(cell), name)
        if pin is None:
            raise Fault(f"{net.place}: there is no pin {name} of component {component}")
        if cell.orientation is None:
            raise Fault(f"{net.place}: the net {net.name} needs the component {component}, which isn't placed")
        return pin, cell

    def pin_of(self, macro: Macro, name: str) -> Pin | None:
        """A cell's pin, by the name that the DEF has; the two texts may write bits of buses in two ways."""
        ways = dict(zip(self.placed.bus_bits, self.lef.bus_bits))
        plain = name.replace("\\", "")
        return macro.pins.get(name) or macro.pins.get(plain) or \
            macro.pins.get("".join(ways.get(letter, letter) for letter in plain))

    def ordered(self, net: Net) -> list[tuple[str, str]]:
        """A net's connections, its driver first: the output of a component, else a pin of the chip that is no output,
        else the first."""
        ranks = [self.rank(net, *connection) for connection in net.connections]
        driver = ranks.index(min(ranks))
        return [net.connections[driver], *net.connections[:driver], *net.connections[driver + 1:]]

    def rank(self, net: Net, component: str, name: str) -> int:
        """By which the driver is chosen: the least is it."""
        pin, cell = self.pin(net, component, name)
        if cell is None:
            return 2 if pin.direction == "OUTPUT" else 1
        return 0 if pin.direction == "OUTPUT" else 2

    def direction(self, net: Net, component: str, name: str) -> str:
        """Of a net's pin, in small letters: as its text says; else `-` of a cell's, and of the chip's `output` where a
        cell drives the net, else `input`."""
        pin, cell = self.pin(net, component, name)
        if pin.direction is not None:
            return pin.direction.lower()
        if cell is not None:
            return "-"
        return "output" if any(self.rank(net, *other) == 0 for other in net.connections) else "input"

    def cell_pin(self, name: str) -> str:
        """The name of a cell's pin as liberty has it, with a bit of a bus in square brackets."""
        ways = dict(zip(self.placed.bus_bits, "[]"))
        return "".join(ways.get(letter, letter) for letter in name.replace("\\", ""))

    def complete(self, liberty: Liberty) -> None:
        """Takes from liberty the directions of cells' pins that the LEF doesn't say; tells of cells that it lacks."""
        first = {component.macro: component for component in reversed(self.placed.components.values())}
        for name, component in first.items():
            macro, cell = self.macro(component), liberty.cells.get(name)
            if cell is None:
                if not macro.is_filler():
                    says = liberty.faults.get(name, f"no liberty file has the cell {name}")
                    self.lef.notes.tell(component.place, says)
                continue
            for word, pin in macro.pins.items():
                if pin.direction is None:
                    is_output = cell.of_pin(cell.functions, word) is not None
                    is_input = cell.of_pin(cell.loads, word) is not None
                    pin.direction = "OUTPUT" if is_output else "INPUT" if is_input else None

    @cached_property
    def nets(self) -> list[Net]:
        """The nets that have pins and are no supplies, in their order."""
        found = [net for net in self.placed.nets.values() if net.connections]
        if not found:
            raise Fault(f"{self.placed.path}: no net of NETS has a pin")
        supplies = [] if self.keeps_supplies else [net for net in found if self.supplies(net)]
        for net in supplies[:SHOWN]:
            says = f"the net {net.name} is a supply and left out; it ties off {self.tied(net):,} inputs of cells"
            self.lef.notes.tell(net.place, f"{says} (--keep-supply keeps it)")
        if len(supplies) > SHOWN:
            self.lef.notes.tell(self.placed.path, f"{len(supplies) - SHOWN:,} more nets are supplies and left out")
        names = {net.name for net in supplies}
        found = [net for net in found if net.name not in names]
        if not found:
            raise Fault(f"{self.placed.path}: all nets of NETS that have a pin are supplies: --keep-supply keeps them")
        if len(found) > MOST_NETS or sum(len(net.connections) for net in found) > MOST_PINS:
            raise Fault(f"{self.placed.path}: more than groute's {MOST_NETS:,} nets, or {MOST_PINS:,} pins")
        return found

    @cached_property
    def pin_uses(self) -> dict[str, set[str]]:
        """What the chip's pins say that their nets are used for."""
        found: dict[str, set[str]] = {}
        for pin in self.placed.pins.values():
            if pin.net is not None and pin.use is not None:
                found.setdefault(pin.net, set()).add(pin.use)
        return found

    def uses(self, net: Net) -> set[str]:
        """What a net is used for, by NETS, SPECIALNETS and PINS."""
        said = {net.use, self.placed.special_uses.get(net.name), *self.pin_uses.get(net.name, ())}
        return {use for use in said if use is not None}

    def supplies(self, net: Net) -> bool:
        """Whether a net is a supply: by what it is used for, or as qflow writes it, in SPECIALNETS without a word."""
        uses = self.uses(net)
        special = self.placed.special_uses
        is_silent = net.use is None and "CLOCK" not in uses and special.get(net.name, "") is None
        return is_silent or bool(uses & set(SUPPLIES))

    def tied(self, net: Net) -> int:
        """How many inputs of cells a net drives."""
        pins = [self.pin(net, *connection) for connection in net.connections]
        return sum(cell is not None and pin.direction == "INPUT" for pin, cell in pins)

    def is_clock(self, net: Net) -> bool:
        """Whether a net is a clock's, by what it is used for or by a sink in the LEF."""
        if "CLOCK" in self.uses(net):
            return True
        pins = [self.pin(net, *connection) for connection in net.connections]
        return any(cell is not None and pin.use == "CLOCK" and pin.direction != "OUTPUT" for pin, cell in pins)
