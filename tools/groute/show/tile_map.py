"""The picture of a solution's congestion, tile by tile. It wants numpy and matplotlib."""
from argparse import Namespace
from typing import Any, Sequence

import matplotlib
import matplotlib.colors
import numpy
from matplotlib.collections import LineCollection
from matplotlib.lines import Line2D
from matplotlib.patches import Patch, Rectangle

from groute.loads.edges_numpy import Array, Edges
from groute.loads.regions import GRADES, WAYS, Loads
from groute.show.figures import DOTS, LARGE, LARGE_DOTS, SMALL, SMALL_DOTS, Axes, layer_words, maps, said
from groute.texts.bounds import Wall
from groute.texts.designs import Cell
from groute.texts.files import Outputs
from groute.texts.names import Terms

Point = tuple[float, float]

FULL = matplotlib.colors.LinearSegmentedColormap.from_list("full", ["#f7fbff", "#abd0e6", "#3787c0", "#1b5397"])
OVER = ("#fdb863", "#e66101", "#7f1d0b")    # by the grade of overflow
NO_WIRES = "#d9d9d9"
APART = 7       # pixels between the strokes of a hatching, at least
LAYERS = matplotlib.colormaps["tab10"].colors


class TileMap:
    """What is drawn: the loads, and what the words of the tool ask for."""

    def __init__(self, loads: Loads, terms: Terms, asked: Namespace) -> None:
        self.loads, self.design, self.terms, self.asked = loads, loads.design, terms, asked
        self.ways = [way for way, name in WAYS.items() if asked.direction in (None, name[0])]
        region = asked.region or (0, 0, self.design.columns - 1, self.design.rows - 1)
        self.columns, self.rows = slice(region[0], region[2] + 1), slice(region[1], region[3] + 1)

    def place(self, column: float, row: float) -> Point:
        """A point of the picture: microns where they are known, else tiles, whose middles are whole numbers."""
        if self.terms.names is None:
            return column - 0.5, row - 0.5
        (left, low), (wide, high) = self.terms.corner, self.terms.step
        return float(left) + column * float(wide), float(low) + row * float(high)

    def middle(self, cell: Sequence[int]) -> Point:
        """That of a cell's tile."""
        return self.place(cell[0] + 0.5, cell[1] + 0.5)

    def heading(self, layers: slice, words: str, is_large: bool) -> str:
        """Of a map: the overflow in what it shows."""
        place = layers, self.rows, self.columns
        total = sum(int(self.loads.excess[way][place].sum()) for way in self.ways)
        closed = total - sum(int(self.loads.room[way][place].sum()) for way in self.ways)
        between = ", " if is_large else "\n"
        if self.asked.direction:
            words += f", {WAYS[self.ways[0]]}"
        return f"{words}: overflow {total:,}" + (f"{between}{closed:,} at capacity 0" if closed else "")

    def draw(self, axes: Axes, layers: slice, words: str, is_large: bool) -> int:
        """One map."""
        full, over, closed = (some[self.rows, self.columns] for some in self.loads.by_tile(layers, self.ways))
        side = -(-max(full.shape) // (LARGE_DOTS if is_large else SMALL_DOTS))
        full, over, closed = (mean(some, side) for some in (full, over, closed))
        left, low = self.place(self.columns.start, self.rows.start)
        right, top = self.place(self.columns.start + side * full.shape[1], self.rows.start + side * full.shape[0])
        axes.imshow(colours(full, over), origin="lower", interpolation="nearest", extent=(left, right, low, top))
        pixels = (LARGE if is_large else SMALL) * DOTS / max(full.shape)
        axes.add_collection(hatch(closed, (left, low), ((right - left) / full.shape[1], (top - low) / full.shape[0]),
                                  pixels))
        axes.set(xlim=(left, self.place(self.columns.stop, 0)[0]), ylim=(low, self.place(0, self.rows.stop)[1]))
        axes.set_title(self.heading(layers, words, is_large), fontsize=11 if is_large else 9)
        axes.tick_params(labelsize=8)
        axes.locator_params(integer=True, min_n_ticks=1, nbins=6 if is_large else 4)
        if is_large:
            axes.set_xlabel("column" if self.terms.names is None else "x, microns", fontsize=9)
            axes.set_ylabel("row" if self.terms.names is None else "y, microns", fontsize=9)
        return side

    def frame(self, axes: Axes) -> None:
        """The worst regions, each with its number."""
        for number, region in enumerate(self.loads.regions(self.asked.worst), 1):
            low, high = self.place(*region.low), self.place(region.high[0] + 1, region.high[1] + 1)
            axes.add_patch(Rectangle(low, high[0] - low[0], high[1] - low[1], fill=False, edgecolor="black"))
            axes.annotate(str(number), (low[0], high[1]), (2, -2), textcoords="offset points", fontsize=9, va="top",
                          weight="bold", clip_on=True, bbox={"facecolor": "white", "edgecolor": "none", "pad": 1})

    def draw_net(self, axes: Axes, id_: int) -> list[Any]:
        """A net's runs by layer, its vias and its pins; the answer is what the legend says of them."""
        used: set[int] = set()
        vias: list[Point] = []
        for low, high in self.loads.edges.runs_of(id_):
            if low[2] != high[2]:
                vias.append(self.middle(low))
                continue
            used.add(low[2])
            axes.plot(*zip(self.middle(low), self.middle(high)), **wire(low[2]))
        pins = [self.middle(self.design.cell(*pin)) for pin in self.design.pins(id_)]
        marks = [Line2D([], [], label=layer_words(self.terms, at + 1), **wire(at)) for at in sorted(used)]
        for points, label, mark in ((vias, "via", "o"), (pins[1:], "sink", "s"), (pins[:1], "driver", "D")):
            if points:
                marks += axes.plot(*zip(*points), mark, color="black", markersize=3 if label == "via" else 6,
                                   label=label, linestyle="none")
        return marks

    def draw_buffers(self, axes: Axes, cells: Sequence[Cell]) -> list[Any]:
        """Buffers, by their cells."""
        points = [self.middle(cell) for cell in cells]
        return list(axes.plot(*zip(*points), "^", color="black", markerfacecolor="white", markersize=7, label="buffer",
                              linestyle="none")) if points else []

    def draw_walls(self, axes: Axes, walls: Sequence[Wall]) -> list[Any]:
        """Walls; the answer is what the legend says of them."""
        for wall in walls:
            colour = OVER[1] if wall.needs > wall.holds else "black"
            style = {"edgecolor" if wall.kind == "box" else "color": colour, "linestyle": "--"}
            if wall.kind == "column":
                axes.axvline(self.place(wall.numbers[0] + 1, 0)[0], **style)
            elif wall.kind == "row":
                axes.axhline(self.place(0, wall.numbers[0] + 1)[1], **style)
            else:
                low, high = self.place(*wall.numbers[:2]), self.place(wall.numbers[2] + 1, wall.numbers[3] + 1)
                axes.add_patch(Rectangle(low, high[0] - low[0], high[1] - low[1], fill=False, **style))
        return [Line2D([], [], linestyle="--", label="fullest walls",
                       color=OVER[1] if any(wall.needs > wall.holds for wall in walls) else "black")] if walls else []

    def legend(self, axes: Axes, name: str, side: int, marks: list[Any]) -> None:
        """The totals and what colours and marks mean."""
        said(axes, self.loads, name)
        scale = matplotlib.cm.ScalarMappable(matplotlib.colors.Normalize(0, 100), FULL)
        bar = axes.figure.colorbar(scale, cax=axes.inset_axes([0, 0.40, 0.92, 0.04]), orientation="horizontal")
        bar.ax.tick_params(labelsize=8)
        bar.set_label("fullest wire edge of the tile, demand in % of capacity", fontsize=8)
        keys = [Patch(facecolor=colour, label=f"overflow {words}") for (_, words), colour in zip(GRADES, OVER)]
        keys += [Patch(facecolor="white", edgecolor="black", hatch="////", label="at capacity 0"),
                 Patch(facecolor=NO_WIRES, label="no wires"), *marks]
        axes.legend(handles=keys, loc="upper left", bbox_to_anchor=(-0.02, 0.29), fontsize=8, frameon=False,
                    title=None if side == 1 else f"means over {side} by {side} tiles", title_fontsize=8, ncols=2)


def write_picture(edges: Edges, path: str, outputs: Outputs, asked: Namespace, name: str, terms: Terms,
                  buffers: Sequence[Cell] | None) -> None:
    """All layers together and layer by layer, or one layer alone; `buffers` are cells or None."""
    picture = TileMap(Loads(edges), terms, asked)
    marks: list[Any] = []

    def draw_map(axes: Axes, layers: slice, words: str, is_large: bool) -> int:
        side = picture.draw(axes, layers, words, is_large)
        if is_large:
            if asked.worst:
                picture.frame(axes)
            if asked.net is not None:
                marks.extend(picture.draw_net(axes, asked.net))
            if buffers is not None:
                marks.extend(picture.draw_buffers(axes, buffers))
            marks.extend(picture.draw_walls(axes, asked.bound))
        return side

    (left, low), (right, top) = (picture.place(*corner) for corner in (
        (picture.columns.start, picture.rows.start), (picture.columns.stop, picture.rows.stop)))
    maps(picture.loads, path, outputs, asked.layer, terms, (top - low) / (right - left), draw_map,
         lambda axes, side: picture.legend(axes, name, side, marks))


def wire(layer: int) -> dict[str, Any]:
    """How wires of a layer (from 0) are drawn."""
    return {"color": LAYERS[layer % len(LAYERS)], "linestyle": "-" if layer < len(LAYERS) else "--", "linewidth": 2.5}


def mean(values: Array, side: int) -> Array:
    """The means of squares of so many tiles, of those that have a number; the squares at the border may be smaller."""
    if side == 1:
        return values
    high, wide = (-(-size // side) * side for size in values.shape)
    padded = numpy.full((high, wide), numpy.nan)
    padded[:values.shape[0], :values.shape[1]] = values
    squares = padded.reshape(high // side, side, wide // side, side)
    count = (~numpy.isnan(squares)).sum(axis=(1, 3))
    means: Array = numpy.divide(numpy.nansum(squares, axis=(1, 3)), count,
                                out=numpy.full(count.shape, numpy.nan),
                                where=count > 0)
    return means


def colours(full: Array, over: Array) -> Array:
    """The colour of each tile."""
    found: Array = FULL(numpy.nan_to_num(numpy.minimum(full, 1)))
    found[numpy.isnan(full)] = matplotlib.colors.to_rgba(NO_WIRES)
    for (least, _), colour in zip(GRADES, OVER):
        found[numpy.rint(over) >= least] = matplotlib.colors.to_rgba(colour)
    return found


def hatch(closed: Array, corner: Point, step: Point, pixels: float) -> Any:
    """Strokes through the tiles with overflow on an edge of capacity 0; a tile has so many pixels. Those of neighbours
    meet; where tiles are small, not each has one, and where they are large, each has three."""
    rows, columns = (numpy.rint(closed) >= 1).nonzero()
    has_one = (columns - rows) % int(-(-APART // pixels)) == 0
    x, y = corner[0] + columns[has_one] * step[0], corner[1] + rows[has_one] * step[1]
    parts = [(0, 0, 1, 1), (0, 0.5, 0.5, 1), (0.5, 0, 1, 0.5)][:3 if pixels >= 2 * APART else 1]
    strokes = [numpy.stack([numpy.stack([x + a * step[0], y + b * step[1]], -1),
                            numpy.stack([x + c * step[0], y + d * step[1]], -1)], 1) for a, b, c, d in parts]
    return LineCollection(numpy.concatenate(strokes), colors="black", linewidths=0.6)
