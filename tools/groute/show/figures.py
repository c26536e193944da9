"""A page with a large map, the totals beside it, and a small map of each layer below. It wants matplotlib."""
import os
from typing import Any, Callable, TypeVar

from matplotlib.backends.backend_agg import FigureCanvasAgg
from matplotlib.figure import Figure

from groute.loads.edges import totals
from groute.loads.regions import Loads
from groute.texts.files import Outputs
from groute.texts.names import Terms

T = TypeVar("T")
Axes = Any      # matplotlib says no types

WIDE = 10           # inches, at DOTS to the inch: 1,000 pixels
DOTS = 100
ACROSS = 4          # maps of single layers side by side
LARGE, SMALL = 5.3, 2.05    # inches that a map is wide, and high at most
LEAST = 3.6                 # inches that the totals want
LARGE_DOTS, SMALL_DOTS = 260, 110   # along the longer side of a map at most, so that one dot can be seen


class Page:
    """A figure on which boxes are placed from the top, in inches."""

    def __init__(self, height: float) -> None:
        self.height = height
        self.figure = Figure(figsize=(WIDE, height), dpi=DOTS)
        FigureCanvasAgg(self.figure)

    def box(self, left: float, top: float, wide: float, high: float) -> Axes:
        """Axes of this size, so far from the left and from the top."""
        return self.figure.add_axes([left / WIDE, 1 - (top + high) / self.height, wide / WIDE, high / self.height])


def maps(loads: Loads, path: str, outputs: Outputs, layer: int | None, terms: Terms, shape: float,
         draw_map: Callable[[Axes, slice, str, bool], T], draw_totals: Callable[[Axes, T], None]) -> None:
    """Writes the page. `shape` is a map's height by its width; `draw_map` draws some layers on axes, under a heading,
    and `draw_totals` is given what the large map answered."""
    design, shape = loads.design, min(1, shape)
    head, band = max(LEAST, LARGE * shape), max(0.5, SMALL * shape) + 0.75
    bands = -(-design.layers // ACROSS) if layer is None and design.layers > 1 else 0
    page = Page(0.4 + head + 0.7 + bands * band)
    shown = slice(None) if layer is None else slice(layer - 1, layer)
    large = page.box(0.65, 0.4, LARGE, head)
    large.set_anchor("N")
    picture = draw_map(large, shown, "all layers" if layer is None else layer_words(terms, layer), True)
    draw_totals(page.box(6.35, 0.4, 3.4, head), picture)
    for at in range(design.layers if bands else 0):
        small = page.box(0.65 + at % ACROSS * (SMALL + 0.25), head + 1.25 + at // ACROSS * band, SMALL, band - 0.75)
        draw_map(small, slice(at, at + 1), layer_words(terms, at + 1), False)
        small.tick_params(labelleft=at % ACROSS == 0)
    page.figure.savefig(outputs.binary(path), format=os.path.splitext(path)[1][1:])


def layer_words(terms: Terms, layer: int) -> str:
    """How a layer (from 1) is called in a heading."""
    return f"layer {layer}" if terms.names is None else terms.layers[layer - 1]


def said(axes: Axes, loads: Loads, name: str) -> None:
    """The name of the design and the totals of all layers."""
    axes.set_axis_off()
    edges, design = loads.edges, loads.design
    numbers = totals(edges).split()
    lines = [f"{design.columns} by {design.rows} tiles, {design.layers} layer{'s' * (design.layers > 1)}", "",
             *(f"{word} {int(number):,}" for word, number in zip(numbers[::2], numbers[1::2])), "",
             f"wire edges over capacity {loads.overfull():,}"]
    axes.text(0, 1, name, fontsize=12, weight="bold", va="top", transform=axes.transAxes)
    axes.text(0, 0.93, "\n".join(lines), fontsize=10, va="top", linespacing=1.4, transform=axes.transAxes)
