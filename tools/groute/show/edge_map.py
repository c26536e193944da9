"""The picture of a solution's wire edges, each at its place between two tiles. It wants numpy and matplotlib."""
from typing import Any

import matplotlib
import numpy

from groute.loads.edges_numpy import Array, Edges
from groute.loads.regions import Loads
from groute.show.figures import LARGE_DOTS, SMALL_DOTS, Axes, maps, said
from groute.texts.designs import EAST, NORTH
from groute.texts.files import Outputs
from groute.texts.names import Terms

OVER = "#d7191c"    # wire edges over their capacity
EMPTY = "#ffffff"   # where there are no wires


class EdgeLoads(Loads):
    """Loads, and how full the places between tiles are."""

    def fullness(self, way: int, layers: slice) -> Array:
        """By row and column, demand over capacity of these layers together; 2 where one of them is over its capacity,
        and not a number where there are no wires."""
        demand, capacity = self.demand[way][layers].sum(axis=0), self.capacity[way][layers].sum(axis=0)
        full = numpy.full(demand.shape, numpy.nan, numpy.float32)
        numpy.divide(demand, capacity, out=full, where=capacity > 0, casting="unsafe")
        full[self.excess[way][layers].any(axis=0)] = 2
        return full

    def mosaic(self, layers: slice) -> Array:
        """The tiles with the wire edges between them: those along rows stand between two tiles of a row, and those
        along columns between two of a column."""
        dots = numpy.full((2 * self.design.rows - 1, 2 * self.design.columns - 1), numpy.nan, numpy.float32)
        dots[::2, 1::2] = self.fullness(EAST, layers)[:, :-1]
        dots[1::2, ::2] = self.fullness(NORTH, layers)[:-1]
        return dots


def write_picture(edges: Edges, path: str, outputs: Outputs, layer: int | None, name: str, terms: Terms) -> None:
    """All layers together and layer by layer, or one layer alone (from 1)."""
    loads = EdgeLoads(edges)

    def draw_map(axes: Axes, layers: slice, heading: str, is_large: bool) -> Any:
        return draw(axes, loads, layers, heading, LARGE_DOTS if is_large else SMALL_DOTS)

    maps(loads, path, outputs, layer, terms, edges.design.rows / edges.design.columns, draw_map,
         lambda axes, picture: write_totals(axes, loads, name, picture))


def draw(axes: Axes, loads: EdgeLoads, layers: slice, heading: str, most: int) -> Any:
    """One map, with the numbers of tiles along its sides."""
    colours = matplotlib.colormaps["YlGnBu"].with_extremes(over=OVER, bad=EMPTY)
    columns, rows = loads.design.columns, loads.design.rows
    picture = axes.imshow(coarser(loads.mosaic(layers), most), cmap=colours, vmin=0, vmax=1, origin="lower",
                          interpolation="nearest", extent=(-0.25, columns - 0.75, -0.25, rows - 0.75))
    # The frame would hide what lies along the chip's border.
    margin = 0.5 + 0.015 * max(columns, rows)
    axes.set(xlim=(-margin, columns - 1 + margin), ylim=(-margin, rows - 1 + margin))
    axes.set_title(f"{heading}: overflow {loads.overflow(layers):,}", fontsize=11 if most == LARGE_DOTS else 9)
    axes.tick_params(labelsize=8)
    axes.locator_params(integer=True, min_n_ticks=1, nbins=6 if most == LARGE_DOTS else 4)
    return picture


def coarser(dots: Array, most: int) -> Array:
    """At most so many dots each way: each the fullest of a square of them."""
    side = -(-max(dots.shape) // most)
    if side == 1:
        return dots
    high, wide = (-(-size // side) * side for size in dots.shape)
    padded = numpy.full((high, wide), -1, numpy.float32)
    padded[:dots.shape[0], :dots.shape[1]] = numpy.nan_to_num(dots, nan=-1)
    fullest = padded.reshape(high // side, side, wide // side, side).max(axis=(1, 3))
    return numpy.where(fullest < 0, numpy.nan, fullest)


def write_totals(axes: Axes, loads: Loads, name: str, picture: Any) -> None:
    """The name of the design, the totals of all layers, and the scale."""
    said(axes, loads, name)
    bar = axes.figure.colorbar(picture, cax=axes.inset_axes([0, 0.12, 0.92, 0.06]), orientation="horizontal",
                               extend="max", extendfrac=0.12)
    bar.ax.tick_params(labelsize=9)
    bar.set_label("demand over capacity; red: over capacity", fontsize=10)
