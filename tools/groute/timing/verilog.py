"""Structural Verilog of one flat module, as synthesis writes it."""
import re
import string
from dataclasses import dataclass, field
from typing import Iterator, NamedTuple, Sequence

from groute.texts.files import Fault, text_of
from groute.texts.places import words_of
from groute.timing.naming import Name

# The blanks and comments before a word, and the word: any other letter is one too, and the parser's to refuse.
TOKEN = re.compile(r"((?:\s+|//[^\n]*|/\*.*?(?:\*/|\Z)|\(\*.*?(?:\*\)|\Z)|`[^\n]*)*)(\\\S+|[A-Za-z_][\w$]*|"
                   r"[0-9]*\s*'[sS]?[bBoOdDhH]\s*[0-9a-fA-FxXzZ_?]+|[0-9]+|\Z|.)", re.DOTALL)
FIRST = {*string.ascii_letters, "_", "\\"}    # how names begin
DIRECTIONS = ("input", "output", "inout")
NETS = ("wire", "tri", "wand", "wor", "supply0", "supply1")
MOST_BITS = 1 << 16     # of a bus, and of a constant
REFUSED = ("parameter", "defparam", "always", "initial", "generate", "function", "task", "reg", "specify", "localparam")


class Constant(NamedTuple):
    """0 or 1."""
    value: int


Signal = Name | Constant | None     # None of what is connected to nothing


class Place(NamedTuple):
    """Where a text begins and ends."""
    first: int
    end: int


@dataclass
class Connection:
    """What a pin of an instance is connected to, the highest bit first, and where that stands."""
    signals: list[Signal]
    place: Place


@dataclass
class Instance:
    """A cell of a netlist."""
    cell: str
    pins: dict[str, Connection] = field(default_factory=dict)


class Verilog:
    """A flat module: its ports with directions, its buses with their bits, its instances, and what `assign` joins."""

    def __init__(self, path: str) -> None:
        self.path, self.text = path, text_of(path)
        self.words, self.firsts = words_of(TOKEN, self.text)
        self.at = 0
        self.name = ""
        self.header: list[str] = []                     # the names of the ports, in the module's order
        self.directions: dict[str, str] = {}
        self.ranges: dict[str, tuple[int, int]] = {}    # (first, last)
        self.declared: set[str] = set()
        self.instances: dict[str, Instance] = {}
        self.assigns: list[tuple[Signal, Signal]] = []
        self.body = self.end = 0                        # where the head ends, and where `endmodule` stands
        self.read_module()
        if self.peek():
            raise self.fault("a second module, or what is behind the first, isn't read: the netlist is to be flat")
        for instance in self.instances.values():
            if instance.cell == self.name:
                raise Fault(f"{path}: the module {self.name} holds itself")
        self.words, self.firsts = [], []

    def taken(self) -> set[str]:
        """All names of nets, ports and instances."""
        found = {*self.declared, *self.header, *self.instances}
        signals = [signal for instance in self.instances.values() for _, signal in pin_signals(instance)]
        signals += [signal for pair in self.assigns for signal in pair]
        return found | {signal.base for signal in signals if isinstance(signal, Name)}

    def fault(self, what: str) -> Fault:
        """Of the word that was taken last."""
        line = 1 + self.text.count("\n", 0, self.firsts[max(self.at - 1, 0)])
        return Fault(f"{self.path}:{line}: {what}")

    def take(self, *wanted: str) -> str:
        """The next word, which is one of these where some are named."""
        word = self.words[self.at]
        if not word:
            raise self.fault("the text ends within a module")
        self.at += 1
        if wanted and word not in wanted:
            raise self.fault(f"{' or '.join(wanted)} is due, and here is {word}")
        return word

    def peek(self) -> str:
        """The next word, which isn't taken."""
        return self.words[self.at]

    def end_before(self) -> int:
        """Where the word ends that was taken last."""
        return self.firsts[self.at - 1] + len(self.words[self.at - 1])

    def identifier(self) -> str:
        """The next word as a name."""
        return self.named(self.take())

    def named(self, word: str) -> str:
        """The word that was taken last, as a name."""
        if not is_name(word):
            raise self.fault(f"a name is due, and here is {word}")
        return word.removeprefix("\\")

    def read_module(self) -> None:
        """All of the module."""
        self.take("module")
        self.name = self.identifier()
        if self.take("(", ";") == "(":
            self.read_header()
            self.take(";")
        self.body = self.end_before()
        while (word := self.take()) != "endmodule":
            if word in DIRECTIONS or word in NETS:
                self.read_declaration(word)
            elif word == "assign":
                self.read_assign()
            elif word in REFUSED:
                raise self.fault(f"{word} isn't read: a netlist has instances of cells, and assign")
            elif word != ";":
                self.read_instances(self.named(word))
        self.end = self.firsts[self.at - 1]

    def read_header(self) -> None:
        """The ports behind the module's name, with or without directions."""
        direction: str | None = None
        bits: tuple[int, int] | None = None
        while self.peek() != ")":
            if self.peek() in DIRECTIONS:
                direction = self.take()
                self.pass_net()
                bits = self.read_range()
            name = self.identifier()
            self.header.append(name)
            if direction is not None:
                self.declare(name, bits, direction)
            if self.peek() == ",":
                self.take()
        self.take(")")

    def pass_net(self) -> None:
        """Passes over the word `wire`."""
        if self.peek() in NETS:
            self.take()

    def read_range(self) -> tuple[int, int] | None:
        """`[FIRST:LAST]`, where it stands."""
        if self.peek() != "[":
            return None
        return self.read_bits(":")

    def read_bits(self, *marks: str) -> tuple[int, int]:
        """`[FIRST:LAST]`, or `[BIT]` where the first may end with `]`."""
        self.take("[")
        first = last = self.number()
        if self.take(*marks) == ":":
            last = self.number()
            self.take("]")
        if abs(first - last) >= MOST_BITS:
            raise self.fault("a bus has more bits than are read here")
        return first, last

    def number(self) -> int:
        """A whole number."""
        word = self.take()
        if not word.isdecimal() or len(word) > 9:
            raise self.fault(f"a number is due, and here is {word}")
        return int(word)

    def declare(self, name: str, bits: tuple[int, int] | None, direction: str | None) -> None:
        """A name with its bits; a port with its direction."""
        self.declared.add(name)
        if bits is not None:
            self.ranges[name] = bits
        if direction is not None:
            self.directions[name] = direction

    def read_declaration(self, word: str) -> None:
        """`input [1:0] a, b;`, `wire c = 1'b0;` and so on."""
        direction = word if word in DIRECTIONS else None
        self.pass_net()
        bits = self.read_range()
        mark = ","
        while mark == ",":
            name = self.identifier()
            self.declare(name, bits, direction)
            if word in ("supply0", "supply1"):
                self.assigns.append((Name(name), Constant(int(word[-1]))))
            mark = self.take(",", ";", "=")
            if mark == "=":
                self.join([Name(name)] if bits is None else self.bits(name, bits), self.expression())
                mark = self.take(",", ";")

    def read_assign(self) -> None:
        """`assign a = b, c = d;`."""
        mark = ","
        while mark == ",":
            left = self.expression()
            self.take("=")
            self.join(left, self.expression())
            mark = self.take(",", ";")

    def join(self, left: Sequence[Signal], right: Sequence[Signal]) -> None:
        """Signals of both sides of an assignment."""
        if len(left) != len(right):
            raise self.fault(f"{len(left)} bits are assigned {len(right)}")
        self.assigns += zip(left, right)

    def read_instances(self, cell: str) -> None:
        """`CELL NAME (.PIN(SIGNAL), ..), ..;`."""
        mark = ","
        while mark == ",":
            if self.peek() == "#":
                raise self.fault("parameters of instances are not read here")
            name = self.identifier()
            if name in self.instances:
                raise self.fault(f"the instance {name} stands here a second time")
            instance = self.instances[name] = Instance(cell)
            self.take("(")
            while self.take(")", ",", ".") != ")":
                if self.words[self.at - 1] == ".":
                    pin = self.identifier()
                    instance.pins[pin] = self.connection()
            mark = self.take(",", ";")

    def connection(self) -> Connection:
        """`(SIGNAL)` behind a pin."""
        words = self.words[self.at:self.at + 3]
        if words[::2] == ["(", ")"] and is_name(words[1]) and words[1].removeprefix("\\") not in self.ranges:
            self.at += 3        # a name alone, as most are: the same in less time
            first = self.firsts[self.at - 2]
            return Connection([Name(words[1].removeprefix("\\"))], Place(first, first + len(words[1])))
        self.take("(")
        first = self.firsts[self.at]
        signals: list[Signal] = [None] if self.peek() == ")" else self.expression()
        end = first if self.words[self.at - 1] == "(" else self.end_before()
        self.take(")")
        return Connection(signals, Place(first, end))

    def expression(self) -> list[Signal]:
        """A name, a bit or bits of one, a constant, or several in braces: its bits, the highest first."""
        found: list[Signal] = []
        depth = 0
        while not found or depth:
            while self.peek() == "{":
                self.take()
                depth += 1
            found += self.operand()
            while depth and self.take(",", "}") == "}":
                depth -= 1
        return found

    def operand(self) -> list[Signal]:
        """The same without braces."""
        word = self.take()
        if word[0] in "0123456789'":
            return self.constants(word)
        name = self.named(word)
        if self.peek() != "[":
            return self.bits(name, self.ranges[name]) if name in self.ranges else [Name(name)]
        return self.bits(name, self.read_bits(":", "]"))

    def constants(self, word: str) -> list[Signal]:
        """The bits of a constant of 0 and 1."""
        form = re.fullmatch(r"([0-9]{1,5})\s*'([bBhHdD])\s*([0-9a-fA-F_]+)", word)
        try:
            if form is None or not 1 <= int(form[1]) <= MOST_BITS:
                raise ValueError(word)
            value = int(form[3].replace("_", ""), {"b": 2, "h": 16, "d": 10}[form[2].lower()])
            if value >> int(form[1]):
                raise ValueError(word)
        except ValueError:
            raise self.fault(f"the constant {word} is not read here") from None
        return [Constant(value >> at & 1) for at in reversed(range(int(form[1])))]

    def bits(self, name: str, bits: tuple[int, int]) -> list[Signal]:
        """The bits of a bus from one to another."""
        first, last = bits
        step = 1 if last >= first else -1
        return [Name(name, bit) for bit in range(first, last + step, step)]


def is_name(word: str) -> bool:
    """Whether a word may be a name."""
    return word[0] in FIRST and word != "\\"


def written(signal: Signal) -> str:
    """A signal as Verilog has it."""
    if isinstance(signal, Name):
        return signal.verilog()
    return "1'bz" if signal is None else f"1'b{signal.value}"


def pin_signals(instance: Instance) -> Iterator[tuple[str, Signal]]:
    """The pins of an instance, each bit of a bus by itself, which goes down to 0, with what they are connected to."""
    for pin, connection in instance.pins.items():
        signals = connection.signals
        if len(signals) == 1:
            yield pin, signals[0]
        else:
            yield from ((f"{pin}[{len(signals) - 1 - at}]", signal) for at, signal in enumerate(signals))


class Joined:
    """Names that `assign` joins."""

    def __init__(self, netlist: Verilog) -> None:
        self.parent: dict[Signal, Signal] = {}
        for left, right in netlist.assigns:
            one, other = self.first(left), self.first(right)
            if one != other:
                self.parent[one] = other

    def first(self, signal: Signal) -> Signal:
        """One of a group of joined names: the same of all of them."""
        found = signal
        while found in self.parent:
            found = self.parent[found]
        while signal != found:
            self.parent[signal], signal = found, self.parent[signal]
        return found
