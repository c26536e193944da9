"""Slacks of nets, as a timer tells them: the text that required.py writes.

    slacks 1
    slack ID TIME       the least slack of the sinks of the net of this id, in femtoseconds
    free ID             no path through the net is constrained
    clock ID            the net is a clock's; it may have a slack too
    end
"""
from typing import Iterable, Iterator, Mapping

from groute.texts.tokens import Tokens


class Slacks:
    """By net's id its slack in femtoseconds, the nets that are free, and those that are clocks'."""

    def __init__(self, times: Mapping[int, int], free: Iterable[int], clocks: Iterable[int]) -> None:
        self.times, self.free, self.clocks = dict(times), set(free), set(clocks)

    def lines(self) -> Iterator[str]:
        """The lines of the text."""
        yield "slacks 1"
        yield from (f"slack {id_} {time}" for id_, time in self.times.items())
        yield from (f"free {id_}" for id_ in sorted(self.free))
        yield from (f"clock {id_}" for id_ in sorted(self.clocks))
        yield "end"


def read_slacks(path: str) -> Slacks:
    """The slacks of a text."""
    tokens = Tokens(path)
    found = Slacks({}, (), ())
    with tokens.file:
        tokens.words(b"slacks", b"1")
        while (word := tokens.take(1)[0]) != b"end":
            if word == b"slack":
                id_, time = tokens.numbers(2)
                found.times[id_] = time
            elif word in (b"free", b"clock"):
                (found.free if word == b"free" else found.clocks).add(tokens.number())
            else:
                raise tokens.fault("slack, free, clock or end is due")
    return found
