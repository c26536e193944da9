"""Turns routes of OpenROAD into a solution text of a design, so that `groute evaluate` and `groute buffer` judge them.

ROUTES is the text of `write_global_route_segments`, of which each segment becomes one of the solution, or a text of
route guides. Of guides a net gets the tiles that its rectangles cover: wires along the ways of a layer within each
rectangle, and a via wherever two rectangles on neighbouring layers share a tile. Of these edges those of a
breadth-first tree from the driver are kept, so that a net has no loop; how many others were dropped is told on standard
error.

What lies on a layer below the grid's is lifted to its first layer. The layers' names are those of DESIGN.names or of
--names.
"""
import sys
from collections import deque
from typing import Iterator, Sequence

from groute import frame
from groute.texts.designs import EAST, MOST_DIGITS, NORTH, UP, Cell
from groute.texts.files import Fault, Outputs, open_text
from groute.texts.names import Names, names_beside
from groute.texts.tiled import Tiled

Near = dict[Cell, set[Cell]]    # neighbours by cell


class Known(Tiled):
    """A design whose nets are found by name, and its layers too."""

    def __init__(self, path: str, names: Names | None) -> None:
        if names is None:
            raise Fault(f"{path}.names isn't there: give --names")
        Tiled.__init__(self, path, names)
        self.id_of = self.by_name()
        self.level = {**{name: 0 for name in names.lower}, **{name: at for at, name in enumerate(names.layers)}}

    def driver(self, id_: int) -> Cell:
        """The cell of a net's driver."""
        return self.cell(*self.pins(id_)[0])

    def inside(self, x: int, y: int) -> tuple[int, int]:
        """A point of the chip, in the text's last tiles where it lies behind them."""
        if not (self.xs[0] <= x <= self.xs[-1] and self.ys[0] <= y <= self.ys[-1]):
            raise Fault(f"({x},{y}) lies outside the chip")
        right, top = self.left + self.columns * self.tile_width, self.low + self.rows * self.tile_height
        return min(max(x, self.left), right), min(max(y, self.low), top)

    def is_along(self, way: int, layer: int) -> bool:
        """Whether a layer has wires along this way."""
        return self.capacity[way][layer] > 0

    def middle(self, cell: Cell) -> Cell:
        """The middle of a cell's tile, and the layer, as the solution has them."""
        column, row, layer = cell
        return (self.left + self.tile_width * column + self.tile_width // 2,
                self.low + self.tile_height * row + self.tile_height // 2, layer + 1)


def blocks(path: str) -> Iterator[tuple[str, list[list[str]], int]]:
    """Of each net of the routes: its name, and the words of each of its lines, with the number of the first."""
    with open_text(path) as file:
        name: str | None = None
        lines: list[list[str]] | None = None
        first = 0
        for number, line in enumerate(file, 1):
            words = line.split()
            if not words:
                continue
            if lines is not None and name is not None and words == [")"]:
                yield name, lines, first
                name = lines = None
            elif lines is not None:
                lines.append(words)
            elif words == ["("] and name is not None:
                lines, first = [], number
            elif name is None and len(words) == 1:
                name = words[0]
            else:
                raise Fault(f"{path}:{number}: a net's name, ( or ) is due: {line.strip()}")
        if name is not None:
            raise Fault(f"{path}: the text ends within the net {name}")


def segments_of(design: Known, lines: list[list[str]]) -> Iterator[tuple[Cell, Cell]]:
    """The segments of a net by OpenROAD's, `x y LAYER x y LAYER`."""
    for x, y, layer, x2, y2, layer2 in lines:
        one = (*design.inside(number(x), number(y)), design.level[layer] + 1)
        other = (*design.inside(number(x2), number(y2)), design.level[layer2] + 1)
        if one != other:
            yield one, other


def number(word: str) -> int:
    """A coordinate."""
    if len(word) > MOST_DIGITS:
        raise ValueError(word[:MOST_DIGITS])
    return int(word)


def tiles_of(design: Known, words: list[str]) -> tuple[range, range, int]:
    """Columns, rows and layer of the tiles that a rectangle of a guide covers."""
    x1, y1, x2, y2 = map(number, words[:4])
    layer = design.level[words[4]]
    low, high = design.inside(x1, y1), design.inside(x2, y2)
    if x1 >= x2 or y1 >= y2:
        raise ValueError(words)
    first = design.cell(*low, 1)
    last = design.cell(high[0] - 1 if high[0] > low[0] else high[0], high[1] - 1 if high[1] > low[1] else high[1], 1)
    return range(first[0], last[0] + 1), range(first[1], last[1] + 1), layer


def edges_of(design: Known, lines: list[list[str]]) -> Near:
    """Neighbours by cell: within rectangles along a layer's ways, and where layers share a tile."""
    near: Near = {}
    for columns, rows, layer in (tiles_of(design, words) for words in lines):
        for column in columns:
            for row in rows:
                near.setdefault((column, row, layer), set())
        if design.is_along(EAST, layer):
            join(near, [((column, row, layer), (column + 1, row, layer)) for column in columns[:-1] for row in rows])
        if design.is_along(NORTH, layer):
            join(near, [((column, row, layer), (column, row + 1, layer)) for column in columns for row in rows[:-1]])
    join(near, [(cell, above) for cell in near if (above := (cell[0], cell[1], cell[2] + 1)) in near])
    return near


def join(near: Near, pairs: list[tuple[Cell, Cell]]) -> None:
    """Makes cells neighbours."""
    for one, other in pairs:
        near[one].add(other)
        near[other].add(one)


def tree_of(near: Near, root: Cell) -> Iterator[tuple[Cell, Cell]]:
    """The edges of breadth-first trees, the first from the root, if it is there."""
    seen: set[Cell] = set()
    for start in ([root] if root in near else []) + sorted(near):
        if start in seen:
            continue
        seen.add(start)
        queue = deque([start])
        while queue:
            cell = queue.popleft()
            for other in sorted(near[cell] - seen):
                seen.add(other)
                queue.append(other)
                yield (cell, other) if cell < other else (other, cell)


def runs_of(edges: list[tuple[Cell, Cell]]) -> Iterator[tuple[Cell, Cell]]:
    """Straight runs of edges, each its lower and its upper cell."""
    # By way and line, the lower ends of its edges along the way.
    ways: list[dict[tuple[int, int], list[int]]] = [{}, {}, {}]
    for low, high in edges:
        way = [one != other for one, other in zip(low, high)].index(True)
        one, other = (low[at] for at in (EAST, NORTH, UP) if at != way)
        ways[way].setdefault((one, other), []).append(low[way])
    for way, lines in enumerate(ways):
        for line, places in sorted(lines.items()):
            places.sort()
            begin = places[0]
            for at, place in enumerate(places):
                if at + 1 == len(places) or places[at + 1] != place + 1:
                    yield cell_of(way, begin, line), cell_of(way, place + 1, line)
                    begin = places[min(at + 1, len(places) - 1)]


def cell_of(way: int, place: int, line: tuple[int, int]) -> Cell:
    """The cell at a place along a line of this way."""
    cell = [*line[:way], place, *line[way:]]
    return cell[0], cell[1], cell[2]


def solution(design: Known, path: str) -> tuple[dict[int, list[tuple[Cell, Cell]]], int]:
    """The segments of each net by its id, and how many edges were dropped."""
    found: dict[int, list[tuple[Cell, Cell]]] = {}
    dropped = 0
    for name, lines, first in blocks(path):
        place = f"{path}:{first}: of the net {name}"
        if name not in design.id_of:
            raise Fault(f"{place}: the design has no such net")
        id_ = design.id_of[name]
        if id_ in found:
            raise Fault(f"{place}: it stands here a second time")
        try:
            if any(len(words) != len(lines[0]) for words in lines) or (lines and len(lines[0]) not in (5, 6)):
                raise ValueError(lines)
            if lines and len(lines[0]) == 6:
                found[id_] = list(segments_of(design, lines))
                continue
            near = edges_of(design, lines)
            tree = list(tree_of(near, design.driver(id_)))
            dropped += sum(map(len, near.values())) // 2 - len(tree)
            found[id_] = [(design.middle(low), design.middle(high)) for low, high in runs_of(tree)]
        except (Fault, ValueError, KeyError, IndexError) as fault:
            raise Fault(f"{place}: a line has not the form that is due, or lies outside: {fault}") from None
    return found, dropped


def text_of(design: Known, found: dict[int, list[tuple[Cell, Cell]]]) -> Iterator[str]:
    """The lines of a solution."""
    for id_, segments in found.items():
        yield f"{design.names[id_]} {id_}"
        for one, other in segments:
            yield f"({','.join(map(str, one))})-({','.join(map(str, other))})"
        yield "!"


def parser() -> frame.Parser:
    """The reader of the words."""
    words = frame.parser(__doc__)
    for name, says in (("DESIGN", "a design text, as def_to_ispd.py makes it"),
                       ("ROUTES", "OpenROAD's segments or guides"), ("SOLUTION", "the text that is written")):
        words.add_argument(name.lower(), metavar=name, help=says)
    words.add_argument("--names", metavar="FILE", help="the text beside the design; else DESIGN.names")
    return words


def main(words: Sequence[str]) -> None:
    """Reads the routes and writes the solution."""
    asked = parser().parse_args(words)
    design = Known(asked.design, names_beside(asked.design, asked.names))
    found, dropped = solution(design, asked.routes)
    with Outputs([asked.design, asked.routes, asked.names]) as outputs:
        outputs.lines(asked.solution, text_of(design, found))
    # Lines of their own, which scripts read.
    print(f"nets {len(found)}\ndropped edges {dropped}", file=sys.stderr)
