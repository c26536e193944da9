"""How a chip's names are written in Verilog and in SPEF, and which net has which."""
import re
from typing import Iterable, NamedTuple, Sequence

from groute.texts.files import Fault

ESCAPE = re.compile(r"\\(.)")
SIMPLE = re.compile(r"[A-Za-z_][A-Za-z0-9_$]*")
BIT = re.compile(r"([A-Za-z_][A-Za-z0-9_$]*)\[([0-9]{1,5})\]")
NUMBER = re.compile(r"[0-9]+(?:[eE][0-9]+)?")     # which is no name in SPEF
DIVIDING = re.compile(r"[/\[\]\\]")
ODD = re.compile(r"[^A-Za-z0-9_]")
SPARSE, FEW = 4, 64     # a bus has at most so many bits for each that is there, and so many more
KEYWORDS = set("""always and assign automatic begin buf bufif0 bufif1 case casex casez cell cmos config deassign default
    defparam design disable edge else end endcase endconfig endfunction endgenerate endmodule endprimitive endspecify
    endtable endtask event for force forever fork function generate genvar highz0 highz1 if ifnone incdir include
    initial inout input instance integer join large liblist library localparam macromodule medium module nand negedge
    nmos nor noshowcancelled not notif0 notif1 or output parameter pmos posedge primitive pull0 pull1 pulldown pullup
    pulsestyle_ondetect pulsestyle_onevent rcmos real realtime reg release repeat rnmos rpmos rtran rtranif0 rtranif1
    scalared showcancelled signed small specify specparam strong0 strong1 supply0 supply1 table task time tran tranif0
    tranif1 tri tri0 tri1 triand trior trireg unsigned use vectored wait wand weak0 weak1 while wire wor xnor
    xor""".split())


class Name(NamedTuple):
    """A name in a netlist: of a scalar, or of a bit of a bus."""
    base: str
    bit: int | None = None

    def verilog(self) -> str:
        """As Verilog has it."""
        return identifier(self.base) + ("" if self.bit is None else f"[{self.bit}]")

    def path(self) -> str:
        """As sta takes it."""
        return in_path(self.base) + ("" if self.bit is None else f"[{self.bit}]")

    def timer(self) -> str:
        """As sta prints it."""
        return doubled(self.base) + ("" if self.bit is None else f"[{self.bit}]")

    def spef(self) -> str:
        """As SPEF has it."""
        return escaped(self.base) + ("" if self.bit is None else f"[{self.bit}]")


def identifier(word: str) -> str:
    """A word as an identifier of Verilog, escaped where it has to be."""
    return word if SIMPLE.fullmatch(word) and word not in KEYWORDS else f"\\{word} "


def escaped(word: str) -> str:
    """A word of SPEF whose letters mean themselves."""
    return word if word.isalnum() and word.isascii() else ODD.sub(r"\\\g<0>", word)


def in_path(word: str) -> str:
    """A word as sta takes it within a path."""
    return DIVIDING.sub(r"\\\g<0>", word)


def doubled(word: str) -> str:
    """A word as sta prints it."""
    return word.replace("\\", "\\\\")


def pin_in_spef(instance: str, pin: str) -> str:
    """A pin of an instance, whose own brackets are those of a bus."""
    bit = BIT.fullmatch(pin)
    return f"{escaped(instance)}:{Name(bit[1], int(bit[2])).spef() if bit else escaped(pin)}"


def plain(word: str) -> str:
    """A name of a DEF without the backslashes before letters that mean themselves."""
    return ESCAPE.sub(r"\1", word) if "\\" in word else word


def own(word: str) -> str:
    """What an instance or a net of a DEF is called, if that is free: no number, which SPEF has not as a name."""
    word = plain(word)
    return f"_{word}" if NUMBER.fullmatch(word) else word


class Called:
    """The names of a chip's ports, by the DEF's, and of its nets, in their order.

    A port NAME[N] is a bit of a bus, unless the bus would have few of its bits or its name is another port's. A net has
    the name of its port, else its own, with `_` before a number and behind what is another's.
    """

    def __init__(self, nets: Iterable[tuple[str, Sequence[str]]]) -> None:
        nets = list(nets)
        self.ports = called_ports([port for _, ports in nets for port in ports])
        self.taken = {name.base for name in self.ports.values()}
        self.nets = [self.net(name, ports) for name, ports in nets]

    def net(self, name: str, ports: Sequence[str]) -> Name:
        """The name of a net with these ports."""
        if ports:
            return self.ports[name if name in ports else ports[0]]
        base = own(name)
        while base in self.taken:
            base += "_"
        self.taken.add(base)
        return Name(base)

    def buses(self) -> dict[str, tuple[int, int]]:
        """The least and the greatest bit of each bus."""
        found: dict[str, tuple[int, int]] = {}
        for name in self.ports.values():
            if name.bit is not None:
                low, high = found.get(name.base, (name.bit, name.bit))
                found[name.base] = min(low, name.bit), max(high, name.bit)
        return found


def called_ports(ports: Sequence[str]) -> dict[str, Name]:
    """The names of ports, by the DEF's."""
    bits: dict[str, set[int]] = {}
    for port in ports:
        if bit := BIT.fullmatch(port):
            bits.setdefault(bit[1], set()).add(int(bit[2]))
    scalars = {plain(port) for port in ports if not BIT.fullmatch(port)}
    buses = {base for base, some in bits.items()
             if base not in scalars and max(some) - min(some) < SPARSE * len(some) + FEW}
    found: dict[str, Name] = {}
    for port in ports:
        bit = BIT.fullmatch(port)
        found[port] = Name(bit[1], int(bit[2])) if bit and bit[1] in buses else Name(plain(port))
    if len({name.timer() for name in found.values()}) < len(found):
        raise Fault("two ports have one name in Verilog")
    return found
