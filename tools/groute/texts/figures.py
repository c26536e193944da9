"""What a timer says of a whole chip: the text that required.py writes with --figures.

    figures 1
    worst TIME              the worst slack; this and all times in femtoseconds
    total TIME              the sum of the negative slacks of paths' ends
    hold TIME               the worst hold slack
    transition N            nets with a pin over liberty's max_transition
    capacitance N           nets over liberty's max_capacitance
    buffers N               cells that were put in
    area N                  of these, in square nanometres
    path TIME N ID ..       for each of the worst paths its slack, and its nets in their order
    end
"""
from dataclasses import dataclass, field
from typing import Iterator

from groute.texts.files import Fault
from groute.texts.tokens import Tokens

WORDS = ("worst", "total", "hold", "transition", "capacitance", "buffers", "area")
NANOSECOND, MICRON = 10 ** 6, 10 ** 6   # femtoseconds; square nanometres a square micron


@dataclass
class Figures:
    """The figures, and the worst paths: each its slack and the ids of its nets."""
    worst: int
    total: int
    hold: int
    transition: int
    capacitance: int
    buffers: int = 0
    area: int = 0
    paths: list[tuple[int, list[int]]] = field(default_factory=list)

    def lines(self) -> Iterator[str]:
        """The lines of the text."""
        yield "figures 1"
        yield from (f"{word} {getattr(self, word)}" for word in WORDS)
        yield from (" ".join(map(str, ["path", slack, len(ids), *ids])) for slack, ids in self.paths)
        yield "end"


def object_of(some: Figures) -> dict[str, int]:
    """Figures as an object."""
    return {"worst_slack_fs": some.worst, "total_negative_slack_fs": some.total, "worst_hold_slack_fs": some.hold,
            "nets_over_max_transition": some.transition, "nets_over_max_capacitance": some.capacitance,
            "buffers": some.buffers, "area_of_buffers_nm2": some.area}


def rows(before: Figures, after: Figures) -> Iterator[tuple[str, str, str]]:
    """What is told of a chip before and after, and how it is called."""
    for says, name in (("worst slack, ns", "worst"), ("total negative slack, ns", "total"),
                       ("worst hold slack, ns", "hold")):
        yield says, f"{getattr(before, name) / NANOSECOND:.3f}", f"{getattr(after, name) / NANOSECOND:.3f}"
    for says, name in (("nets over max_transition", "transition"), ("nets over max_capacitance", "capacitance"),
                       ("buffers", "buffers")):
        yield says, str(getattr(before, name)), str(getattr(after, name))
    yield "area of buffers, square microns", f"{before.area / MICRON:.10g}", f"{after.area / MICRON:.10g}"


def read_figures(path: str) -> Figures:
    """The figures of a text."""
    tokens = Tokens(path)
    found: dict[str, int] = {}
    paths: list[tuple[int, list[int]]] = []
    with tokens.file:
        tokens.words(b"figures", b"1")
        while (word := tokens.take(1)[0].decode(errors="replace")) != "end":
            if word == "path":
                slack, count = tokens.numbers(2)
                if count < 0:
                    raise tokens.fault("how many nets the path has is due")
                paths.append((slack, tokens.numbers(count)))
            elif word in WORDS and word not in found:
                found[word] = tokens.number()
            else:
                raise tokens.fault("a figure, path or end is due")
    if len(found) < len(WORDS):
        raise Fault(f"{path}: {', '.join(WORDS)} are due")
    return Figures(paths=paths, **found)
