"""The commands of groute and grbound with their words, the tools, statuses, and faults in words.

tests/ compare the words with the tables of word_reader, the faults with docs/FORMATS.md, and the files of completion/
with what tools/dev/completion.py prints of this table.
"""
import enum
from typing import Iterator, NamedTuple


class Status(enum.IntEnum):
    """How a tool ends."""
    DONE = 0
    UNJOINED = 1    # all is done, and routes leave nets unjoined
    WORDS = 2
    FAULT = 3


# When a tool ends so.
COMES = {
    Status.DONE: "it is done; overflow is no fault",
    Status.UNJOINED: "it is done, and routes leave nets unjoined: a line says how many, and which first",
    Status.WORDS: "the words are none that it takes",
    Status.FAULT: "a text has a fault, or a file can't be read or written: a line says why",
}
# The words of each command, and what it does.
USAGE = {
    "route DESIGN LIBRARY ROUNDS [--workers N] [--via-cost V] [--batch B] [--rule first|steep|flat|near] "
    "[--stop still|N] [--from SOLUTION] [--trace]":
        "routes a design",
    "evaluate DESIGN SOLUTION [--via-cost V]": "judges the routes of any router",
    "buffer DESIGN LIBRARY SOLUTION": "places buffers on the routes of any router",
    "make SEED X Y L NETS": "makes a design",
    "trial SEED X Y L NETS ROUNDS [--workers N] [--rule first|steep|flat|near] [--trace]":
        "makes a design and routes it",
    "panels DESIGN SOLUTION": "gives straight runs the fewest tracks",
}
# The same of grbound, which has one command without a word.
BOUNDS = {
    "DESIGN [--steps K] [--workers N] [--via-cost V]":
        "says what overflow and wirelength no routes of a design can be below"}
# The ranges of numbers, by the word or the option that takes them.
RANGES = {
    "ROUNDS": (0, 64), "SEED": (0, (1 << 64) - 1), "X": (2, 2048), "Y": (2, 2048), "L": (2, 16), "NETS": (0, 1_000_000),
    "--workers": (1, 16), "--via-cost": (0, 1000), "--batch": (1, 65536), "--stop": (0, (1 << 64) - 1),
    "--steps": (0, 10_000),
}
# What words and options are.
MEANS = {
    "DESIGN": "a design in the form of the ISPD 2008 contest",
    "LIBRARY": "of the design's wires and of buffers",
    "SOLUTION": "the routes of a design",
    "ROUNDS": "the most rounds of rip-up and reroute",
    "SEED": "where the draws of a made design begin",
    "X": "columns of tiles",
    "Y": "rows of tiles",
    "L": "layers",
    "NETS": "how many nets",
    "--workers": "how many threads there are at most",
    "--via-cost": "as how many wire edges a via counts in wirelength",
    "--batch": "nets are planned B at a time, so that threads change no byte",
    "--rule": "how costs of edges rise with demand",
    "--from": "routes to begin from: those that are trees are kept until a later round",
    "--trace": "what each round did is told behind the report",
    "--steps": "how many steps of prices look for better bounds",
    "--stop": "rounds end once one doesn't lower the overflow (still), or once it is at most N",
}
ELSE = {"--workers": "1", "--via-cost": "1", "--rule": "first", "--steps": "0"}     # what is taken where none is given
EXCLUDES = [("--batch", "--stop")]      # options of which only one may be given
MOST_CELLS = 8_388_608                  # of a made design, X * Y * L
READ_ON = "docs/FORMATS.md"             # where texts, ranges and faults stand, beside the man page
# The tools that are commands of their own, installed as groute-NAME.
TOOLS = ("adjust", "carry", "congestion", "def_to_ispd", "differ", "flow", "guides", "hotspots", "insert", "liberty",
         "netlist", "report", "required", "slowest", "spef", "to_solution", "where")
TEXTS = ("DESIGN", "LIBRARY", "SOLUTION")   # words that are files
FAULTS: dict[str, list[str]] = {
    "design": [
        "the text ends where a token is due",
        "another word is due",
        "a whole number in its range is due",
        "the grid has more than 8,388,608 cells",
        "a tile has no width or no height",
        "no layer has capacity along a way in which the grid is wider than one tile",
        "the net has no pin, or the nets have too many pins together",
        "the pin lies outside the chip",
        "the pin lies on a layer that the grid doesn't have",
        "an earlier net has this id",
        "the adjustment names no border of two neighbouring tiles",
        "a token stands behind the end",
        "the text is too long"],
    "library": [
        "the text ends where a token is due",
        "`library` or a version from 1 to 3 is due, the word is no item of this version, or it is the second `via`, "
        "`driver` or `sink`",
        "a whole number in its range is due",
        "the design has no such layer, or the layer has its wire already",
        "an earlier kind has this name",
        "at `end`, a layer has no wire, or via, driver or sink are not given",
        "a token stands behind `end`",
        "the text is too long",
        "32 kinds stand before this one",
        "the design has no such tile",
        "no net of the design has this id",
        "the net has no such sink"],
    "solution": [
        "the text ends within a record",
        "a token has not the form that is due",
        "a whole number in its range is due",
        "no net of the design has this id",
        "the net of this id has another name",
        "an earlier record has this id",
        "an end lies outside the chip or its layers",
        "the ends differ in more than one of column, row and layer",
        "the text is too long"],
}


class Row(NamedTuple):
    """A command: its program, its word, its positionals, its options with their values, which are empty of an option
    without one, and what it does."""
    program: str
    word: str
    positionals: list[str]
    options: list[tuple[str, str]]
    does: str

    def name(self) -> str:
        """What is called."""
        return f"{self.program} {self.word}".strip()

    def line(self) -> str:
        """The line of usage."""
        return " ".join([self.name(), *self.positionals, *(f"[{option(*pair)}]" for pair in self.options)])


def option(word: str, value: str) -> str:
    """An option with its value, if it takes one."""
    return f"{word} {value}" if value else word


def rows(program: str = "groute") -> Iterator[Row]:
    """The commands of a program; the one of grbound has no word."""
    for line, does in (USAGE if program == "groute" else BOUNDS).items():
        word, _, rest = line.partition(" ") if program == "groute" else ("", "", line)
        yield Row(program, word, *parted(rest), does)


def parted(line: str) -> tuple[list[str], list[tuple[str, str]]]:
    """The positionals and the options of a line of usage."""
    words, *options = line.split(" [")
    pairs = (option.removesuffix("]").partition(" ") for option in options)
    return words.split(), [(word, value) for word, _, value in pairs]


def values(option: str) -> list[str]:
    """The words that an option of `route` takes, but numbers."""
    found = [value for row in rows() for word, value in row.options if word == option]
    return chosen(found[0]) if found else []


def chosen(value: str) -> list[str]:
    """The words among an option's values."""
    return [word for word in value.split("|") if word.islower()]


def told_of(program: str) -> Iterator[str]:
    """The lines of a program's --help."""
    every = list(rows(program))
    if len(every) == 1:
        yield from told_of_row(every[0])
    else:
        yield "The commands:"
        for row in every:
            yield from (f"  {row.line()}", f"      {row.does}")
    yield ""
    if len(every) > 1:
        yield f"{program} COMMAND --help has a command's words."
    yield f"{READ_ON}, or man {program}, has all words, ranges, texts and faults."


def told_of_row(row: Row) -> Iterator[str]:
    """The lines that say of a command what its words are."""
    yield from (row.line(), "", f"It {row.does}.", "")
    words = [*((word, word) for word in row.positionals), *((pair[0], option(*pair)) for pair in row.options)]
    wide = max(len(shown) for _, shown in words)
    for word, shown in words:
        some = f", {range_words(word)}" if word in RANGES else ""
        default = f"; else {ELSE[word]}" if word in ELSE else ""
        yield f"  {shown:<{wide}}  {MEANS[word]}{some}{default}"


def range_words(word: str) -> str:
    """The range of the numbers that a word or an option takes."""
    low, high = RANGES[word]
    return f"{low} to {'2^64 - 1' if high == (1 << 64) - 1 else high}"
