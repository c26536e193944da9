"""The tracks that a text of `groute panels` uses in each row and column, beside those that it holds, tile by tile.

Between two tiles a layer holds its capacity there over its minimum width and spacing; a tile holds the more of its two
borders along the row or column. Nothing is said of a layer whose width and spacing are 0.
"""
from dataclasses import dataclass
from typing import Iterator

from groute.texts.designs import EAST, NORTH, Design
from groute.texts.files import Fault
from groute.texts.names import Terms
from groute.texts.tokens import Tokens

HEAD = ["", "layer", "number", "tracks", "holds", "%", "at tile"]
WAYS = {b"h": EAST, b"v": NORTH}
WORDS = {EAST: "row", NORTH: "column"}


@dataclass
class Panel:
    """A row or column of a layer, from 0, and the first and last tile of each of its runs."""
    way: int
    layer: int
    number: int
    tracks: int
    at: int         # the first tile where that many runs lie
    runs: list[tuple[int, int]]


@dataclass
class Use:
    """The runs at a tile and the tracks that it holds."""
    tile: int
    runs: int
    holds: int

    def share(self) -> float:
        """What is used of what it holds."""
        return self.runs / self.holds if self.holds else float("inf") if self.runs else 0.0


def panels(path: str) -> list[Panel]:
    """The panels of a text."""
    tokens = Tokens(path)
    tokens.words(b"panels")
    count = tokens.number()
    tokens.words(b"tracks")
    tokens.number()
    found: list[Panel] = []
    while not tokens.is_ended():
        if tokens.take(1)[0] != b"panel":
            first, last, _ = tokens.numbers(3)      # behind its net's id
            if not found:
                raise tokens.fault("a panel is due")
            found[-1].runs.append((first, last))
            continue
        way = tokens.take(1)[0]
        if way not in WAYS:
            raise tokens.fault("h or v is due")
        layer, number = tokens.numbers(2)
        tokens.words(b"tracks")
        tracks = tokens.number()
        tokens.words(b"at")
        found.append(Panel(WAYS[way], layer - 1, number, tracks, tokens.number(), []))
    if len(found) != count:
        raise Fault(f"{path}: {count} panels are due")
    return found


def uses(design: Design, panel: Panel, pitch: int, path: str) -> Iterator[Use]:
    """Tile after tile, the runs there and the tracks that it holds."""
    count = design.columns if panel.way == EAST else design.rows
    change = [0] * (count + 1)
    for first, last in panel.runs:
        if not 0 <= first <= last < count:
            raise Fault(f"{path}: the design has no {WORDS[panel.way]} with the tiles {first} to {last}")
        change[first] += 1
        change[last + 1] -= 1
    stated = design.capacity[panel.way][panel.layer]
    begin = design.number(panel.way, *((0, panel.number) if panel.way == EAST else (panel.number, 0)), panel.layer)
    borders = [0, *(design.adjusted.get((panel.way, begin + at), stated) // pitch for at in range(count - 1)), 0]
    runs = 0
    for tile in range(count):
        runs += change[tile]
        yield Use(tile, runs, max(borders[tile:tile + 2]))


def rows(design: Design, path: str, terms: Terms) -> list[list[str | int]]:
    """A row of a table for each panel, by the tile where the greatest share is used, the fullest first; those of which
    nothing is said come last."""
    table: list[tuple[float, list[str | int]]] = []
    for panel in panels(path):
        way, layer, number = panel.way, panel.layer, panel.number
        if not (0 <= layer < design.layers and 0 <= number < (design.rows, design.columns)[way]):
            raise Fault(f"{path}: the design has no {WORDS[way]} {number} on layer {layer + 1}")
        place: list[str | int] = [WORDS[way], terms.layers[layer], number]
        pitch = design.need(layer, 0)
        if not pitch:
            table.append((-1, [*place, panel.tracks, "-", "-", panel.at]))
            continue
        fullest = max(uses(design, panel, pitch, path), key=Use.share)
        percent: str | int = round(100 * fullest.share()) if fullest.holds else "-"
        table.append((fullest.share(), [*place, fullest.runs, fullest.holds, percent, fullest.tile]))
    table.sort(key=lambda row: -row[0])
    return [cells for _, cells in table]
