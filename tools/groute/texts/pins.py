"""Which pins of a chip those of a design are: the text DESIGN.pins.

    pins 1
    design NAME
    net ID N                     for each net, and behind it a line for each of its N pins, in the design's order
    COMPONENT PIN DIRECTION      a component of PIN is the chip itself
    end

Names are those of the DEF. A direction is `input`, `output`, `inout`, another word of LEF or DEF, or `-`; that of the
chip's pins is seen from outside.
"""
import os
from typing import Iterable, Iterator, NamedTuple

from groute.texts.designs import Netlist
from groute.texts.files import Fault
from groute.texts.tokens import Tokens

CHIP = "PIN"    # the component of the chip's own pins


class Pin(NamedTuple):
    """A pin of a net."""
    component: str
    name: str
    direction: str

    def is_port(self) -> bool:
        """Whether it is the chip's."""
        return self.component == CHIP


def lines(design: str, nets: Iterable[tuple[int, list[tuple[str, str, str]]]]) -> Iterator[str]:
    """The lines of the text."""
    yield "pins 1"
    yield f"design {design}"
    for id_, pins in nets:
        yield f"net {id_} {len(pins)}"
        yield from map(" ".join, pins)
    yield "end"


class Pins:
    """The name of a chip, and by net's id its pins, the driver first."""

    def __init__(self, path: str) -> None:
        tokens = Tokens(path)
        with tokens.file:
            tokens.words(b"pins", b"1", b"design")
            self.path, self.name = path, text(tokens.take(1)[0])
            self.nets: dict[int, list[Pin]] = {}
            while (word := tokens.take(1)[0]) == b"net":
                id_, count = tokens.numbers(2)
                if id_ in self.nets or count < 1:
                    raise tokens.fault(f"the net {id_} stands twice, or has no pin")
                words = list(map(text, tokens.take(3 * count)))
                self.nets[id_] = list(map(Pin, words[::3], words[1::3], words[2::3]))
            if word != b"end":
                raise tokens.fault("the word net or end is due")

    def check(self, design: Netlist) -> None:
        """That they are those of a design."""
        for id_, first, end in zip(design.ids, design.first, design.first[1:]):
            if len(self.nets.get(id_, ())) != end - first:
                raise Fault(f"{self.path}: it isn't of {design.path}, whose net {id_} has {end - first} pins")


def text(token: bytes) -> str:
    """A token as a text."""
    return token.decode(errors="surrogateescape")


def pins_beside(design: str, path: str | None = None) -> Pins:
    """The pins of a design: of the text at this path, or of DESIGN.pins."""
    if path is None and not os.path.exists(f"{design}.pins"):
        raise Fault(f"{design}.pins isn't there, which def_to_ispd.py writes")
    return Pins(path or f"{design}.pins")
