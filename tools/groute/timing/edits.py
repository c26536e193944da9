"""What insertion writes: the netlist with its new cells, and the script that inserts them."""
from typing import Iterable, Iterator, Mapping, Sequence

from groute.placed.liberty import Liberty
from groute.texts.pins import Pin
from groute.timing.insertion import Change, Kind, Part, connections
from groute.timing.naming import Name, identifier, in_path, own, plain
from groute.timing.spef import Names
from groute.timing.sta import word
from groute.timing.verilog import Verilog, written

Moved = tuple[str, str, Name, Name]     # instance and pin, from a net to another


class Named:
    """Changes with the names of the netlist."""

    def __init__(self, changes: Sequence[Change], pins: Mapping[int, list[Pin]], names: Names) -> None:
        self.changes, self.pins, self.names = changes, pins, names

    def net(self, change: Change, part: Part) -> Name:
        """Of a part."""
        return self.names.nets[change.id] if part.name is None else Name(part.name)

    def moved(self) -> Iterator[Moved]:
        """The pins that get other nets."""
        for change in self.changes:
            for part in change.parts:
                pins = (self.pins[change.id][pin] for pin in part.pins) if part.name is not None else ()
                for pin in pins:
                    yield own(pin.component), plain(pin.name), self.names.nets[change.id], self.net(change, part)

    def cells(self) -> Iterator[tuple[str, Kind, Name, Name]]:
        """The new cells, each with its instance, its kind, its input's net and its output's."""
        for change in self.changes:
            for part in change.parts:
                if part.kind is not None:
                    yield part.instance, part.kind, self.net(change, change.parts[part.feeder]), self.net(change, part)

    def nets(self) -> Iterator[str]:
        """The names of the new nets."""
        yield from (part.name for change in self.changes for part in change.parts if part.name is not None)


def verilog(netlist: Verilog, named: Named) -> str:
    """The text of a netlist with its new cells."""
    edits = [(netlist.body, netlist.body, "".join(f"\nwire {name};" for name in named.nets()))]
    by_connection: dict[tuple[str, str], dict[int, Name]] = {}
    for instance, pin, _, name in named.moved():
        base, _, bit = pin.partition("[")
        pins = netlist.instances[instance].pins
        key, at = (pin, 0) if pin in pins else (base, len(pins[base].signals) - 1 - int(bit[:-1]))
        by_connection.setdefault((instance, key), {})[at] = name
    for (instance, pin), changed in by_connection.items():
        connection = netlist.instances[instance].pins[pin]
        signals = [written(changed.get(at, signal)) for at, signal in enumerate(connection.signals)]
        text = signals[0] if len(signals) == 1 else f"{{{', '.join(signals)}}}"
        edits.append((*connection.place, text))
    lines = "".join(f"{identifier(kind.name)} {instance} (.{identifier(kind.input)}({before.verilog()}), "
                    f".{identifier(kind.output)}({name.verilog()}));\n"
                    for instance, kind, before, name in named.cells())
    edits.append((netlist.end, netlist.end, lines))
    parts, at = [], 0
    for first, end, new in sorted(edits):
        parts += [netlist.text[at:first], new]
        at = end
    return "".join([*parts, netlist.text[at:]])


def script(named: Named, liberty: Liberty) -> Iterator[str]:
    """The lines of a script that inserts the new cells, for sta and OpenROAD."""
    yield from (f"make_net {name}" for name in named.nets())
    for instance, kind, _, _ in named.cells():
        yield f"make_instance {instance} {word(f'{liberty.cell(kind.name).library}/{kind.name}')}"
    for instance, pin, before, name in named.moved():
        path = one("pin", f"{in_path(instance)}/{pin}")
        yield f"disconnect_pin {one('net', before.path())} {path}"
        yield f"connect_pin {one('net', name.path())} {path}"
    for instance, kind, before, name in named.cells():
        yield f"connect_pin {one('net', before.path())} {instance}/{kind.input}"
        yield f"connect_pin {one('net', name.path())} {instance}/{kind.output}"


def one(kind: str, path: str) -> str:
    """A net or a pin in a script, whose commands take a word for a list, which one that begins so isn't."""
    return f"[::sta::find_{kind} {word(path)}]" if path[0] in '{"' else word(path)


def def_items(changes: Iterable[tuple[Change, str, Sequence[tuple[str, str]]]]
              ) -> Iterator[tuple[str, str, list[tuple[str, str]]]]:
    """The nets of the DEF: the given net's name, the part's, and what the part joins."""
    for change, name, pins in changes:
        for part, found in connections(change, pins):
            yield name, part.name or name, found
