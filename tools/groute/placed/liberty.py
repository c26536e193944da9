"""Liberty files: the linear model of cells, by their tables of delays."""
import re
from bisect import bisect_right
from typing import Callable, Iterator, Mapping, Sequence, TypeVar

from groute.texts.files import Fault, text_of

T = TypeVar("T")

TOKEN = re.compile(r'(?P<skip>\s+|/\*.*?\*/|//[^\n]*|\\\s*?\n)|(?P<word>"(?:[^"\\]|\\.)*"|[{}();:,]|[^\s{}();:,"\\]+)',
                   re.DOTALL)
# Groups that say something of delays; what others hold is passed over.
KEPT = {"library", "cell", "pin", "bus", "bundle", "timing", "cell_rise", "cell_fall", "lu_table_template"}
LOAD, SLEW = "total_output_net_capacitance", "input_net_transition"
TIMES = {"fs": 1.0, "ps": 1e3, "ns": 1e6, "us": 1e9, "ms": 1e12, "s": 1e15}     # femtoseconds
CAPACITANCES = {"ff": 1.0, "pf": 1e3, "nf": 1e6, "uf": 1e9, "f": 1e15}          # femtofarads
UNIT = re.compile(r"((?:[0-9]+\.?[0-9]*|\.[0-9]+)(?:[eE][+-]?[0-9]{1,3})?)?\s*([a-zA-Z]+)")


class Group:
    """`name(arguments) { .. }`: attributes by name, of which the last counts, groups within, and where it begins."""

    def __init__(self, name: str, arguments: list[str], place: int) -> None:
        self.name, self.arguments, self.place = name, arguments, place
        self.attributes: dict[str, list[str]] = {}
        self.groups: list[Group] = []

    def all(self, *names: str) -> list["Group"]:
        """The groups within that have one of these names."""
        return [group for group in self.groups if group.name in names]

    def number(self, name: str) -> float | None:
        """An attribute as a number, or None."""
        return bounded(self.attributes[name][0]) if name in self.attributes else None


class Words:
    """The words of a liberty file."""

    def __init__(self, path: str) -> None:
        self.path = path
        self.text = text_of(path)
        self.at = self.last = 0
        self.peeked: str | None = None

    def take(self) -> str | None:
        """The next word, without its quotes; None at the end."""
        if self.peeked is not None:
            word, self.peeked = self.peeked, None
            return word
        while self.at < len(self.text):
            match = TOKEN.match(self.text, self.at)
            if match is None:
                self.last = self.at
                raise self.fault("a string has no end, or a letter has no meaning")
            self.last, self.at = self.at, match.end()
            if match.group("word"):
                return match.group("word")
        return None

    def place(self, at: int | None = None) -> str:
        """File and line of a letter, or of the last word."""
        return f"{self.path}:{1 + self.text.count(chr(10), 0, self.last if at is None else at)}"

    def fault(self, what: str) -> Fault:
        """Of the last word."""
        return Fault(f"{self.place()}: {what}")

    def until(self, *lasts: str) -> tuple[list[str], str]:
        """The words before the next one of these, without commas and quotes, and that one."""
        found: list[str] = []
        while (word := self.take()) not in lasts:
            if word is None or word in "{}":
                raise self.fault(f"{lasts[0]} is due")
            if word != ",":
                found.append(word.strip('"'))
        return found, word or ""

    def pass_over(self) -> None:
        """What a group holds, to its end."""
        depth = 1
        while depth:
            word = self.take()
            if word is None:
                raise self.fault("the text ends within a group")
            depth += (word == "{") - (word == "}")


def read_groups(words: Words) -> Group:
    """The groups of a file, read without recursion."""
    top = Group("", [], 0)
    open_groups = [top]
    while (word := words.take()) is not None:
        if word == ";":
            continue
        if word == "}":
            if len(open_groups) == 1:
                raise words.fault("a group ends that hasn't begun")
            open_groups.pop()
            continue
        mark = words.take()
        if mark == ":":
            open_groups[-1].attributes[word], _ = words.until(";")
        elif mark == "(":
            values, _ = words.until(")")
            read_behind(words, open_groups, Group(word, values, words.last))
        else:
            raise words.fault(f"( or : is due behind {word}")
    if len(open_groups) > 1:
        raise words.fault(f"the text ends within {open_groups[-1].name}")
    return top


def read_behind(words: Words, open_groups: list[Group], group: Group) -> None:
    """What follows `name(arguments)`: a group, or the end of an attribute."""
    behind = words.take()
    if behind != "{":
        open_groups[-1].attributes[group.name] = group.arguments
        words.peeked = None if behind == ";" else behind
    elif group.name in KEPT:
        open_groups[-1].groups.append(group)
        open_groups.append(group)
    else:
        words.pass_over()


class Table:
    """Delays by load and slew, in femtofarads and femtoseconds; slews stand as in the file."""

    def __init__(self, group: Group, templates: Mapping[str, Group], scales: tuple[float, float]) -> None:
        template = templates[group.arguments[0]]
        ways = variables(template)
        axes = [values_of(group.attributes.get(name) or template.attributes[name])
                for name in ("index_1", "index_2")[:len(ways)]]
        values = values_of(group.attributes["values"])
        width = len(axes[1]) if len(ways) == 2 else 1
        if len(values) != len(axes[0]) * width or sorted(ways) not in ([SLEW, LOAD], [LOAD]):
            raise ValueError(ways)
        time, farad = scales
        self.loads = [load * farad for load in axes[ways.index(LOAD)]]
        self.slews = axes[ways.index(SLEW)] if SLEW in ways else [0.0]
        rows = [[value * time for value in values[at:at + width]] for at in range(0, len(values), width)]
        self.rows = rows if ways[0] == LOAD else [list(row) for row in zip(*rows)]     # by load
        if self.loads != sorted(set(self.loads)) or len(self.loads) < 2:
            raise ValueError(self.loads)

    def delay(self, load: float, slew: int) -> float:
        """At a load, between its neighbours in the table, and at the slew of this number."""
        at = min(max(bisect_right(self.loads, load) - 1, 0), len(self.loads) - 2)
        low, high = self.loads[at:at + 2]
        first, last = self.rows[at][slew], self.rows[at + 1][slew]
        return first + (last - first) * (load - low) / (high - low)


def variables(template: Group) -> list[str]:
    """What the ways of a table stand for."""
    return [template.attributes[name][0] for name in ("variable_1", "variable_2") if name in template.attributes]


def values_of(words: Sequence[str]) -> list[float]:
    """The numbers of strings with commas."""
    return [bounded(value) for word in words for value in word.replace(",", " ").split()]


def bounded(word: str) -> float:
    """A number that sums and products can be made of."""
    value = float(word)
    if not abs(value) < 1e12:
        raise ValueError(word)
    return value


class Line:
    """The linear model of an output, by its tables."""

    def __init__(self, tables: list[Table]) -> None:
        self.tables = tables
        least, greatest = min(table.loads[0] for table in tables), max(table.loads[-1] for table in tables)
        first, last = (self.worst(load, middle) for load in (least, greatest))
        self.resistance = max(0.0, (last - first) / (greatest - least))
        self.delay = max(0.0, first - self.resistance * least)

    def worst(self, load: float, slew: Callable[[Table], int]) -> float:
        """The greatest delay of the tables at a load."""
        return max(table.delay(load, slew(table)) for table in self.tables)

    def errors(self) -> tuple[list[float], list[float]]:
        """Against the greatest delay of the tables, in shares of it: at the middle slew, and over all."""
        at_middle: list[float] = []
        at_all: list[float] = []
        loads = sorted({load for table in self.tables for load in table.loads})
        for load in loads:
            model = self.delay + self.resistance * load
            real = self.worst(load, middle)
            at_middle.append(abs(model - real) / abs(real) if real else 0.0)
            for number in range(min(len(table.slews) for table in self.tables)):
                real = max(table.delay(load, number) for table in self.tables)
                at_all.append(abs(model - real) / abs(real) if real else 0.0)
        return at_middle, at_all


def middle(table: Table) -> int:
    """The number of the middle slew."""
    return (len(table.slews) - 1) // 2


class Cell:
    """Loads of a cell's inputs, and models of its outputs, by the pins' names."""

    def __init__(self, name: str) -> None:
        self.name = name
        self.loads: dict[str, float] = {}
        self.lines: dict[str, Line] = {}
        self.functions: dict[str, str] = {}
        self.limits: dict[str, float] = {}      # max_capacitance of outputs
        self.clocks: dict[str, bool] = {}
        self.is_pad = False
        self.library = ""       # that it is of

    def input(self) -> float:
        """The load of the only input, of a buffer or an inverter."""
        return next(iter(self.loads.values()))

    def line(self) -> Line:
        """The model of the only output."""
        return next(iter(self.lines.values()))

    def sense(self) -> str | None:
        """`kind` of a buffer, `inverter` of an inverter, else None."""
        if len(self.loads) != 1 or len(self.lines) != 1:
            return None
        pin = next(iter(self.loads))
        says = re.sub(r"[\s()]", "", next(iter(self.functions.values()), ""))
        return {pin: "kind", f"!{pin}": "inverter", f"{pin}'": "inverter"}.get(says)

    def is_clock(self, name: str) -> bool:
        """Whether an input is a clock's."""
        return self.of_pin(self.clocks, name) or False

    def of_pin(self, found: Mapping[str, T], name: str) -> T | None:
        """What is known of a pin, or of the bus that it is of."""
        name = name.replace("\\", "")
        return found.get(name, found.get(re.sub(r"[\[<].*", "", name)))


class Liberty:
    """The cells of liberty files, by name; and what cells have that isn't read here."""

    def __init__(self, paths: Sequence[str]) -> None:
        self.cells: dict[str, Cell] = {}
        self.faults: dict[str, str] = {}
        for path in paths:
            words = Words(path)
            libraries = read_groups(words).all("library")
            if not libraries:
                raise Fault(f"{path}: it has no `library (..) {{ .. }}` of liberty")
            for library in libraries:
                self.read_library(library, words)

    def read_library(self, library: Group, words: Words) -> None:
        """All cells of a library."""
        templates = {group.arguments[0]: group for group in library.all("lu_table_template") if group.arguments}
        try:
            scales = unit(library.attributes["time_unit"], TIMES), \
                unit(library.attributes["capacitive_load_unit"], CAPACITANCES)
        except (KeyError, ValueError, IndexError):
            raise Fault(f"{words.place(library.place)}: time_unit and capacitive_load_unit are due, as 1ns and (1,pf)"
                        ) from None
        for group in library.all("cell"):
            cell = Cell(" ".join(group.arguments))
            cell.library = " ".join(library.arguments)
            cell.is_pad = group.attributes.get("pad_cell") == ["true"]
            try:
                for pin in pins_of(group):
                    read_pin(cell, pin, templates, scales)
                self.cells[cell.name] = cell
            except (KeyError, ValueError, IndexError, ZeroDivisionError) as fault:
                self.faults[cell.name] = f"{words.place(group.place)}: a table or a number of the cell {cell.name} " \
                                         f"has a form that is not read here: {fault}"

    def cell(self, name: str) -> Cell:
        """The cell of a name that was asked for."""
        if name not in self.cells:
            raise Fault(self.faults.get(name, f"no liberty file has the cell {name}"))
        return self.cells[name]

    def buffers(self) -> list[str]:
        """The names of the cells that are buffers and no pads."""
        return [cell.name for cell in self.cells.values() if cell.sense() == "kind" and not cell.is_pad]


def unit(words: Sequence[str], names: Mapping[str, float]) -> float:
    """`1ns`, `1.0e-9s`, or `1` and `pf`, by the names of units; without a number it is 1."""
    form = UNIT.fullmatch(" ".join(words))
    if form is None or form.group(2).lower() not in names:
        raise ValueError(words)
    value = bounded(form.group(1) or "1") * names[form.group(2).lower()]
    if value <= 0:
        raise ValueError(words)
    return value


def pins_of(group: Group) -> Iterator[Group]:
    """The pins of a cell; those of a bus have what it says, where they say nothing themselves."""
    for pin in group.all("pin", "bus", "bundle"):
        yield pin
        for inner in pin.all("pin"):
            inner.attributes = {**pin.attributes, **inner.attributes}
            inner.groups += [timing for timing in pin.all("timing") if not inner.all("timing")]
            yield inner


def read_pin(cell: Cell, pin: Group, templates: Mapping[str, Group], scales: tuple[float, float]) -> None:
    """Adds what a pin says."""
    direction = (pin.attributes.get("direction") or [""])[0]
    if direction == "input":
        values = [pin.number(name) or 0.0 for name in ("rise_capacitance", "fall_capacitance")]
        load = pin.number("capacitance") or max(0.0, *values)
        cell.loads.update({name: load * scales[1] for name in pin.arguments})
        cell.clocks.update({name: pin.attributes.get("clock") == ["true"] for name in pin.arguments})
    # A delay that no load changes, as of switching an output off, says nothing of a driver.
    tables = [Table(table, templates, scales) for timing in pin.all("timing")
              for table in timing.all("cell_rise", "cell_fall")
              if table.arguments[:1] != ["scalar"] and LOAD in variables(templates[table.arguments[0]])]
    if direction != "input" and tables:
        cell.lines.update({name: Line(tables) for name in pin.arguments})
    most = pin.number("max_capacitance")
    if direction != "input" and most is not None:
        cell.limits.update({name: most * scales[1] for name in pin.arguments})
    if "function" in pin.attributes:
        cell.functions.update({name: " ".join(pin.attributes["function"]) for name in pin.arguments})
