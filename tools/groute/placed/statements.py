"""Words and statements of LEF and DEF texts: what both readers share.

A shape is (layer, x1, y1, x2, y2, spacing): a rectangle in whole database units of the DEF, and how near a wire may
come to it where the text says so, else None.
"""
import re
import sys
from decimal import ROUND_HALF_UP, Decimal
from typing import Callable, Hashable, Iterable, Iterator, NamedTuple, Sequence, TypeVar

from groute.texts.files import Fault, lines_of, one_line

NUMBER = re.compile(r"[+-]?([0-9]{1,18}(\.[0-9]{0,18})?|\.[0-9]{1,18})([eE][+-]?[0-9]{1,2})?")
WORD = re.compile(r'"[^"]*(?:"|$)|#.*|[^\s]+', re.DOTALL)
ORIENTATIONS = ("N", "S", "E", "W", "FN", "FS", "FE", "FW")
MOST = 1 << 40      # the greatest coordinate
MOST_NUMBER = 10 ** 9
MOST_REPEATS = 1 << 16

T = TypeVar("T")
Point = tuple[int, int]


class Shape(NamedTuple):
    """A rectangle on a layer."""
    layer: str
    x1: int
    y1: int
    x2: int
    y2: int
    spacing: int | None = None


class Notes:
    """What is skipped: each kind is told once on standard error, or not at all."""

    def __init__(self, program: str, tells: bool = True) -> None:
        self.program, self.tells = program, tells
        self.told: set[Hashable] = set()

    def once(self, kind: Hashable, place: str, what: str) -> None:
        """Tells what is skipped, if its kind wasn't told before."""
        if self.tells and kind not in self.told:
            self.told.add(kind)
            self.tell(place, what)

    def tell(self, place: str, what: str) -> None:
        """Tells in a line."""
        print(one_line(f"{self.program}: {place}: {what}"), file=sys.stderr)


class Words:
    """The words of a text with their lines. Comments are left out, and a quoted string is one word."""

    def __init__(self, path: str, notes: Notes) -> None:
        self.path, self.notes = path, notes
        self.words: list[str] = []
        self.lines: list[int] = []
        self.scan(lines_of(path))
        self.at = self.start = 0    # the next word, and the first one of the statement

    def scan(self, file: Iterable[str]) -> None:
        """Takes in the words line by line."""
        string = ""     # what was read of a quoted string that goes over several lines
        for number, line in enumerate(file, 1):
            if string or '"' in line or "#" in line:
                words = WORD.findall(string + line)
                string = ""
                if words and words[-1][0] == "#":
                    words.pop()
                if words and words[-1][0] == '"' and (len(words[-1]) == 1 or words[-1][-1] != '"'):
                    string = words.pop()
            else:
                words = line.split()
            self.words += words
            self.lines += [number] * len(words)
        if string:
            raise Fault(f"{self.path}:{self.lines[-1] if self.lines else 1}: a quoted string has no end")

    def ended(self) -> bool:
        """Whether all words were taken."""
        return self.at == len(self.words)

    def take(self) -> str:
        """The next word."""
        if self.ended():
            raise self.fault("the text ends early")
        self.at += 1
        return self.words[self.at - 1]

    def begin(self) -> str:
        """The next word, which is the first one of a statement."""
        self.start = self.at
        return self.take()

    def until(self, *last: str) -> list[str]:
        """The words before the next ones that are `last`, which are taken with them."""
        at = self.at
        while True:
            try:
                at = self.words.index(last[0], at)
            except ValueError:
                self.at = len(self.words)
                raise self.fault("the text ends early") from None
            if tuple(self.words[at:at + len(last)]) == last:
                taken = self.words[self.at:at]
                self.at = at + len(last)
                return taken
            at += 1

    def place(self) -> str:
        """File and line of the statement."""
        line = self.lines[min(self.start, len(self.lines) - 1)] if self.lines else 1
        return f"{self.path}:{line}"

    def fault(self, what: str) -> Fault:
        """The fault that something of the statement is wrong."""
        shown = " ".join(self.words[self.start:min(self.at, self.start + 12)])
        return Fault(f"{self.place()}: {what}: {shown}")

    def refuse(self, what: str) -> Fault:
        """The fault that something is outside of what is read."""
        return self.fault(f"{what} is not read here")

    def skip(self, kind: str) -> None:
        """Tells that a kind of statement is skipped."""
        self.notes.once(kind, self.place(), f"{kind} is skipped")

    def read_by(self, read: Callable[..., T], *values: object) -> T:
        """Calls read, and tells where the form of a statement is wrong."""
        try:
            return read(*values)
        except (ValueError, IndexError, TypeError, KeyError, ArithmeticError):
            raise self.fault("the form of the statement is not read here") from None

    def items(self, name: str) -> Iterator[list[str]]:
        """The items of a section of a DEF, each from behind its `-` to its `;`."""
        count, found = whole(self.until(";")[0]), 0
        place = self.place()
        while (word := self.begin()) != "END":
            if word != "-":
                raise self.refuse(f"{word} in {name}")
            found += 1
            yield self.until(";")
        if self.take() != name:
            raise self.fault(f"END {name} is due")
        if count != found:
            self.notes.once(f"count of {name}", place, f"{name} says {count}, and has {found}")


def number(word: str) -> Decimal:
    """A decimal number, exactly."""
    if not NUMBER.fullmatch(word) or abs(value := Decimal(word)) > MOST_NUMBER:
        raise ValueError(word)
    return value


def positive(word: str) -> Decimal:
    """A decimal number above 0."""
    value = number(word)
    if value <= 0:
        raise ValueError(word)
    return value


def nearest(value: Decimal) -> int:
    """The nearest whole number."""
    return int(value.to_integral_value(ROUND_HALF_UP))


def whole(word: str) -> int:
    """A whole number, which may have decimals that are 0."""
    value = Decimal(int(word)) if len(word) < 20 and word.lstrip("-").isdecimal() else number(word)
    if value != int(value) or abs(value) > MOST:
        raise ValueError(word)
    return int(value)


def without_brackets(words: Iterable[str]) -> list[str]:
    """The words but for the brackets around points."""
    return [word for word in words if word not in ("(", ")")]


def split_at(words: Iterable[str], mark: str) -> list[list[str]]:
    """The runs of words between marks."""
    parts: list[list[str]] = [[]]
    for word in words:
        if word == mark:
            parts.append([])
        else:
            parts[-1].append(word)
    return parts


def pairs(values: Sequence[int]) -> list[Point]:
    """The points of numbers in turn."""
    if len(values) % 2:
        raise ValueError(values)
    return list(zip(values[::2], values[1::2]))


def rectangle(layer: str, values: Sequence[int], spacing: int | None = None) -> Shape:
    """The shape between two corners."""
    (x1, y1), (x2, y2) = pairs(values)
    return Shape(layer, min(x1, x2), min(y1, y2), max(x1, x2), max(y1, y2), spacing)


def moved(shape: Shape, x: int, y: int) -> Shape:
    """A shape that lies so far to the right and up."""
    layer, x1, y1, x2, y2, spacing = shape
    return Shape(layer, x1 + x, y1 + y, x2 + x, y2 + y, spacing)


def turned(shape: Shape, orientation: str, width: int = 0, height: int = 0) -> Shape:
    """A shape of a cell of this size, or of a pin or via around (0, 0), turned in its place."""
    layer, x1, y1, x2, y2, spacing = shape
    if orientation in ("S", "E", "FN", "FE"):
        x1, x2 = width - x2, width - x1
    if orientation in ("S", "W", "FS", "FE"):
        y1, y2 = height - y2, height - y1
    if orientation in ("E", "W", "FE", "FW"):
        x1, y1, x2, y2 = y1, x1, y2, x2
    return Shape(layer, x1, y1, x2, y2, spacing)


def polygon(layer: str, values: Sequence[int], spacing: int | None = None) -> list[Shape]:
    """The rectangles of a polygon, in lying slices between its corners; a slanted side is covered whole."""
    points = pairs(values)
    if len(points) == 2:
        return [rectangle(layer, values, spacing)]
    sides = list(zip(points, points[1:] + points[:1]))
    heights = sorted({y for _, y in points})
    shapes = []
    for low, high in zip(heights, heights[1:]):
        crossings = sorted(crossing(*side, low, high) for side in sides if spans(*side, low, high))
        for left, right in zip(crossings[::2], crossings[1::2]):
            shapes.append(Shape(layer, left[1], low, right[2], high, spacing))
    if not shapes:
        raise ValueError(values)
    return shapes


def spans(one: Point, other: Point, low: int, high: int) -> bool:
    """Whether a side goes through the whole slice between these heights."""
    return min(one[1], other[1]) <= low and max(one[1], other[1]) >= high


def crossing(one: Point, other: Point, low: int, high: int) -> tuple[int, int, int]:
    """Of a side through a slice: where it stands among others, and its left and its right end there."""
    wide, high_side = other[0] - one[0], other[1] - one[1]
    lefts = [one[0] + wide * (y - one[1]) // high_side for y in (low, high)]
    rights = [one[0] - -wide * (y - one[1]) // high_side for y in (low, high)]
    return sum(lefts) + sum(rights), min(lefts), max(rights)


def generated_via(parts: dict[str, list[str]], convert: Callable[[str], int]) -> list[Shape]:
    """The rectangles of a via that is given by cuts and enclosures; parts are its words by keyword."""
    cut = [convert(value) for value in parts["CUTSIZE"]]
    gap = [convert(value) for value in parts["CUTSPACING"]]
    rows, columns = (whole(value) for value in parts.get("ROWCOL", "11"))
    enclosure = [convert(value) for value in parts["ENCLOSURE"]]
    x, y = (convert(value) for value in parts.get("ORIGIN", "00"))
    offset = [convert(value) for value in parts.get("OFFSET", "0000")]
    bottom, _, top = parts["LAYERS"]
    wide, high = (count * size + (count - 1) * space for count, size, space in zip((columns, rows), cut, gap))
    if min(wide, high, *enclosure) < 0 or max(wide, high, *enclosure) > MOST:
        raise ValueError(parts)
    shapes = []
    for layer, (out_x, out_y), (by_x, by_y) in ((bottom, enclosure[:2], offset[:2]), (top, enclosure[2:], offset[2:])):
        shape = Shape(layer, -(wide // 2) - out_x, -(high // 2) - out_y, wide - wide // 2 + out_x,
                      high - high // 2 + out_y)
        shapes.append(moved(shape, x + by_x, y + by_y))
    return shapes
