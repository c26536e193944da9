"""Places for new cells in the rows of a placed design."""
from bisect import bisect_left, bisect_right, insort
from dataclasses import dataclass, field
from decimal import Decimal
from typing import Iterator

from groute.placed.connected import Connected
from groute.placed.def_text import Component
from groute.placed.lef_text import Macro
from groute.placed.statements import nearest
from groute.texts.files import Fault

ACROSS = ("E", "W", "FE", "FW")
FLIPPED = {"N": "N", "FN": "N", "S": "FS", "FS": "FS"}     # how a new cell lies beside one that lies so
Box = tuple[int, int, int, int]     # x1, y1, x2, y2


@dataclass
class Line:
    """A row of sites: its lower left corner, its right end, its height, the step of its sites, how cells lie in it,
    and where cells and fillers take it, each (left, right, name) in order."""
    x: int
    y: int
    right: int
    height: int
    step: int
    orientation: str
    cells: list[tuple[int, int, str]] = field(default_factory=list)
    fillers: list[tuple[int, int, str]] = field(default_factory=list)
    widest: int = 0

    def middle(self) -> int:
        """Its height's."""
        return self.y + self.height // 2

    def taken(self, left: int, right: int) -> list[tuple[int, int, str]]:
        """The cells that lie between two places."""
        return overlapping(self.cells, left, right, self.widest)

    def free(self, low: int, high: int, width: int, middle: int) -> int | None:
        """The left end for a cell of a width, from one place to another, so that no cell lies there: the nearest to a
        middle, or None."""
        wanted = middle - width // 2
        edges = [(left, right) for left, right, _ in self.taken(low, high + width)] + [(high + width, high + width)]
        found: list[int] = []
        end = low
        for left, right in edges:
            first, last = self.site(end, True), self.site(min(left - width, high), False)
            if first <= last and first >= low:
                found.append(min(max(self.site(wanted, False), first), last))
            end = max(end, right)
        return min(found, key=lambda x: (abs(x - wanted), x)) if found else None

    def site(self, x: int, rises: bool) -> int:
        """The site at a place, or the next one behind or before it."""
        return self.x + (-(-(x - self.x) // self.step) if rises else (x - self.x) // self.step) * self.step


def overlapping(cells: list[tuple[int, int, str]], left: int, right: int, widest: int) -> list[tuple[int, int, str]]:
    """Those that lie between two places."""
    some = cells[bisect_left(cells, (left - widest, 0, "")):bisect_right(cells, (right, 0, ""))]
    return [cell for cell in some if cell[0] < right and cell[1] > left]


class Sites:
    """The rows of a design, and who takes them. `removed` has fillers that gave way, `overlaps` what lies on what."""

    def __init__(self, chip: Connected) -> None:
        self.chip = chip
        self.step = site_width(chip)
        self.lines = list(self.by_rows() if chip.placed.rows else self.by_cells())
        if not self.lines:
            raise Fault(f"{chip.placed.path}: neither ROW nor a placed cell says where cells may stand")
        self.lines.sort(key=lambda line: (line.middle(), line.x))
        self.middles = [line.middle() for line in self.lines]
        self.tallest = max(line.height for line in self.lines)
        self.removed: list[str] = []
        self.overlaps: list[tuple[str, str]] = []
        for name, component in chip.placed.components.items():
            if component.orientation is not None:
                self.take(name, component, chip.macro(component))
        for line in self.lines:
            line.cells.sort()
            line.fillers.sort()

    def by_rows(self) -> Iterator[Line]:
        """Those of ROW."""
        for row in self.chip.placed.rows:
            _, width, height = self.chip.lef.sites.get(row.site, ("", Decimal(0), Decimal(0)))
            step = row.step or nearest(width * self.chip.placed.units)
            high = nearest(height * self.chip.placed.units)
            if high and step > 0 and row.orientation in FLIPPED:
                yield Line(row.x, row.y, row.x + step * row.count, high, step, row.orientation)

    def by_cells(self) -> Iterator[Line]:
        """The rows that cells of the usual height stand in."""
        chip = self.chip
        height = min((macro.height for macro in map(chip.macro, chip.placed.components.values())), default=0)
        found: dict[int, Line] = {}
        for component in chip.placed.components.values():
            macro = chip.macro(component)
            if component.orientation in FLIPPED and macro.height == height:
                line = found.setdefault(component.y, Line(component.x, component.y, component.x, height, self.step,
                                                          FLIPPED[component.orientation]))
                line.x, line.right = min(line.x, component.x), max(line.right, component.x + macro.width)
        yield from found.values()

    def take(self, name: str, component: Component, macro: Macro) -> None:
        """What a placed cell takes of rows."""
        wide, high = (macro.height, macro.width) if component.orientation in ACROSS else (macro.width, macro.height)
        first = bisect_left(self.middles, component.y - self.tallest)
        for line in self.lines[first:bisect_right(self.middles, component.y + high + self.tallest)]:
            if line.y < component.y + high and component.y < line.y + line.height:
                cells = line.fillers if macro.is_filler() and high == line.height else line.cells
                cells.append((component.x, component.x + wide, name))
                line.widest = max(line.widest, wide)

    def place(self, name: str, macro: Macro, box: Box) -> tuple[int, int, str]:
        """x, y and orientation of a new cell whose middle lies in a box: the free place that is nearest to the box's
        middle, else one over other cells."""
        x1, y1, x2, y2 = box
        lines = self.lines[bisect_left(self.middles, y1):bisect_left(self.middles, y2)]
        lines = [line for line in lines if line.x < x2 and line.right > x1 and line.height == macro.height]
        if not lines:
            like = [line for line in self.lines if line.height == macro.height]
            lines = [min(like or self.lines, key=lambda line: distance(line, box))]
        middle = (x1 + x2) // 2
        found: list[tuple[int, int, Line, int]] = []
        for at, line in enumerate(sorted(lines, key=lambda line: abs(line.middle() - (y1 + y2) // 2))):
            low, high = ends(line, x1, x2, macro.width)
            x = line.free(low, high, macro.width, middle)
            if x is not None:
                found.append((abs(x + macro.width // 2 - middle), at, line, x))
        if found:
            _, _, line, x = min(found, key=lambda one: one[:2])
        else:
            line = lines[0]
            low, high = ends(line, x1, x2, macro.width)
            x = min(max(line.site(middle - macro.width // 2, False), low), max(low, high))
            self.overlaps.append((name, next((cell[2] for cell in line.taken(x, x + macro.width)), "a row's end")))
        self.put(line, x, macro.width, name)
        return x, line.y, line.orientation

    def put(self, line: Line, x: int, width: int, name: str) -> None:
        """Takes a place; fillers give way."""
        gone = overlapping(line.fillers, x, x + width, line.widest)
        self.removed += [filler for _, _, filler in gone]
        line.fillers = [filler for filler in line.fillers if filler not in gone] if gone else line.fillers
        insort(line.cells, (x, x + width, name))
        line.widest = max(line.widest, width)


def ends(line: Line, x1: int, x2: int, width: int) -> tuple[int, int]:
    """The least and the greatest left end of a cell with its middle between two places, within its row."""
    low = line.site(max(x1 - width // 2, line.x), True)
    high = line.site(min(x2 - 1 - width // 2, line.right - width), False)
    return min(low, line.site(max(line.right - width, line.x), False)), high


def distance(line: Line, box: Box) -> int:
    """How far a row lies from a box."""
    x1, y1, x2, y2 = box
    return max(0, y1 - line.middle(), line.middle() - y2) + max(0, line.x - x2, x1 - line.right)


def site_width(chip: Connected) -> int:
    """The step of sites where no ROW says it: the least CORE site's width."""
    widths = [width for kind, width, _ in chip.lef.sites.values() if kind == "CORE"]
    if not widths:
        raise Fault("the LEF has no SITE of CLASS CORE")
    return max(1, nearest(min(widths) * chip.placed.units))
