"""Elmore's delays of routes without buffers, as groute counts them, and libraries with other times for sinks."""
from typing import Iterator, Mapping

from groute.texts.libraries import MOST_TIME, Library
from groute.timing.trees import Tree


class Model(Library):
    """A library whose numbers make a net's delay, in its own units, and the items but sinks' to write again."""

    def __init__(self, path: str, layers: int = 0) -> None:
        self.items: list[str] = []
        Library.__init__(self, path, layers)

    def keep(self, word: str, name: str, numbers: list[int]) -> None:
        """What an item says."""
        Library.keep(self, word, name, numbers)
        if word != "pin":
            self.items.append(" ".join([word, *([name] if name else []), *map(str, numbers)]))

    def halves(self, id_: int, tree: Tree) -> list[int | None]:
        """Twice the delay to each pin of a net but its driver; None where no route leads."""
        behind = [0] * len(tree.cells)
        for pin, place in enumerate(tree.pins[1:], 1):
            if place is not None:
                behind[place] += self.loads.get((id_, pin), self.load)
        for at in tree.backwards():
            behind[tree.parents[at]] += behind[at] + self.steps[tree.layers[at]][1]
        delays = [2 * self.drivers.get(id_, self.driver) * behind[0]]
        for at in range(1, len(tree.cells)):
            ohms, farads = self.steps[tree.layers[at]]
            delays.append(delays[tree.parents[at]] + ohms * (farads + 2 * behind[at]))
        return [None if place is None else delays[place] for place in tree.pins[1:]]

    def lines(self, times: Mapping[tuple[int, int], int]) -> Iterator[str]:
        """The library with times of sinks, by net's id and pin."""
        yield f"library {max(self.version, 2)}"
        yield from self.items
        for (id_, pin), time in times.items():
            yield f"pin {id_} {pin} {self.loads.get((id_, pin), self.load)} {max(-MOST_TIME, min(time, MOST_TIME))}"
        yield "end"
