"""The routes of a net as a tree from its driver."""
from typing import Iterable, Iterator

from groute.texts.designs import NORTH, UP, Cell, Netlist
from groute.texts.files import Fault
from groute.texts.solutions import routes, unjoined_without


class Tree:
    """The cells of a net's routes by number, the driver's first and each behind its parent: of each, the place of its
    parent and the layer of the wire to it from 1, 0 of a via. `pins` has the place of each pin's cell, or None where
    no route leads there."""

    def __init__(self, design: Netlist, id_: int, runs: Iterable[range]) -> None:
        self.steps = 1, design.columns, design.columns * design.rows
        near: dict[int, list[int]] = {}     # by cell: those beside it
        for run in runs:
            for cell, other in zip(run, run[1:]):
                near.setdefault(cell, []).append(other)
                near.setdefault(other, []).append(cell)
        cells = [self.number(design.cell(*pin)) for pin in design.pins(id_)]
        self.cells, self.parents, self.layers = [cells[0]], [-1], [0]
        self.walk(near)
        self.place = dict(zip(self.cells, range(len(self.cells))))
        if len(self.place) < len(self.cells):
            raise Fault(f"the routes of the net {design.names[id_]} have a loop")
        self.pins = [self.place.get(cell) for cell in cells]

    def number(self, cell: Cell) -> int:
        """Of a cell."""
        return cell[0] + cell[1] * self.steps[NORTH] + cell[2] * self.steps[UP]

    def walk(self, near: dict[int, list[int]]) -> None:
        """From the driver's cell on; where two ways lead to a cell, it comes twice, and the walk ends there."""
        cells, parents, layers = self.cells, self.parents, self.layers
        level = self.steps[UP]
        before = {cells[0]: -1}
        for at, cell in enumerate(cells):
            for other in near.get(cell, ()):
                if other == before[cell] or before.get(other) == cell:
                    continue        # where it came from, or a step that segments cover twice
                cells.append(other)
                if other in before:
                    return
                before[other] = cell
                parents.append(at)
                layers.append(0 if abs(other - cell) == level else cell // level + 1)

    def unjoined(self) -> bool:
        """Whether no route leads to a pin."""
        return None in self.pins

    def cell(self, at: int) -> Cell:
        """Column, row and layer of a cell at a place."""
        layer, rest = divmod(self.cells[at], self.steps[UP])
        return rest % self.steps[NORTH], rest // self.steps[NORTH], layer

    def backwards(self) -> Iterator[int]:
        """All places but the first, each before its parent."""
        return iter(range(len(self.cells) - 1, 0, -1))


def trees_of(design: Netlist, solution: str) -> tuple[dict[int, Tree], list[int]]:
    """The trees of a solution's nets, by id, and the nets that it leaves unjoined."""
    trees = {id_: Tree(design, id_, runs) for id_, runs in routes(design, solution)}
    unjoined = {id_ for id_, tree in trees.items() if tree.unjoined()} | set(unjoined_without(design, trees))
    return trees, [id_ for id_ in design.ids if id_ in unjoined]
