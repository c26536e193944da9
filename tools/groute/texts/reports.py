"""What groute tells of routes: totals, rounds, buffers."""
import re
from dataclasses import dataclass
from typing import Container, Iterator, Sequence

from groute.texts.designs import MOST_DIGITS, POINT, Cell, Design
from groute.texts.files import Fault
from groute.texts.tokens import SMALL_PIECE, Tokens, counted, whole


TOTALS = (b"routed", b"overflow", b"maximum", b"wirelength", b"vias")


def totals_of(path: str) -> dict[str, int] | None:
    """The totals that a report tells, or None of a text of `groute buffer`, which has none."""
    tokens = Tokens(path, SMALL_PIECE)
    with tokens.file:
        if tokens.take(1)[0] == b"buffers":
            return None
        tokens.at = 0
        found = {}
        for word in TOTALS:
            tokens.words(word)
            found[word.decode()] = tokens.number()
        return found


def check_report(path: str, routed: int, overflow: tuple[int, int], vias: int) -> None:
    """That a report with totals is of routes with these."""
    found = totals_of(path)
    mine = {"routed": routed, "overflow": overflow[0], "maximum": overflow[1], "vias": vias}
    for word, value in mine.items():
        if found is not None and found[word] != value:
            raise Fault(f"{path}: it is of other routes: it tells {word} {found[word]:,}, the solution has {value:,}")


def total_of(path: str, word: str) -> int | None:
    """One of the totals that a report tells, or None of a text of `groute buffer`."""
    found = totals_of(path)
    return None if found is None else found[word]


@dataclass
class Round:
    """What a round did: the overflow at its end, how many nets it routed, and how many of their plans found no room.
    The last two are None where only the overflow is known."""
    overflow: int
    nets: int | None = None
    full: int | None = None


def rounds_of(path: str) -> list[Round]:
    """The rounds that a report tells of, from round 0 on; none, where it has no such lines."""
    tokens = Tokens(path, SMALL_PIECE)
    found: list[Round] = []
    with tokens.file:
        while not tokens.is_ended() and (word := tokens.take(1)[0]) != b"buffers":
            if word != b"round":
                tokens.numbers(1)
            elif tokens.number() != len(found):
                raise tokens.fault(f"round {len(found)} is due")
            else:
                found.append(Round(*(numbered(tokens, name) for name in (b"overflow", b"nets", b"full"))))
    return found


def numbered(tokens: Tokens, word: bytes) -> int:
    """The number behind this word."""
    tokens.words(word)
    return tokens.number()


def kept_in(path: str) -> int | None:
    """How many nets a report tells to have been kept of given routes; None where it was routed from nothing."""
    tokens = Tokens(path, SMALL_PIECE)
    with tokens.file:
        tokens.take(2 * len(TOTALS))
        return tokens.number() if not tokens.is_ended() and tokens.take(1) == [b"kept"] else None


def written(rounds: Sequence[Round]) -> int:
    """The round whose routes are written: the first of least overflow."""
    return min(range(len(rounds)), key=lambda number: rounds[number].overflow)


def buffered(design: Design, path: str) -> Iterator[tuple[int, int, list[bytes]]]:
    """Of each net in a report's or a buffers' text: its id, its required time in half femtoseconds, and two tokens for
    each of its buffers, which `buffer_of` reads."""
    yield from buffered_in(design, Tokens(path))


def buffered_in(design: Design, tokens: Tokens) -> Iterator[tuple[int, int, list[bytes]]]:
    """The same of the tokens of a text."""
    while (word := tokens.take(1)[0]) != b"buffers":
        if word == b"round":
            tokens.take(7)          # its number, and three words with theirs
        else:
            tokens.numbers(1)
    tokens.numbers(1)
    while not tokens.is_ended():
        net, _, _, word, required, word2, count = line = tokens.take(7)
        if (net, word, required, word2, count) == (b"net", b"has", b"no", b"legal", b"placement"):
            continue
        number, time, buffers = counted(line[2]), whole(required), counted(count)
        if (net, word, word2) != (b"net", b"required", b"buffers") or number is None or time is None or buffers is None:
            raise tokens.fault("a line `net NAME ID required TIME buffers NUMBER` ends here or before")
        if number not in design.widths:
            raise tokens.fault(f"the design has no net {number}")
        yield number, time, tokens.take(2 * buffers)


def buffer_of(design: Design, point: bytes, kind: bytes) -> tuple[Cell, str]:
    """The cell and the kind of a buffer."""
    form = re.fullmatch(POINT, point)
    if form is None or max(map(len, form.groups())) > MOST_DIGITS:
        raise Fault(f"{point.decode(errors='replace')} is no place of a buffer")
    x, y, layer = map(int, form.groups())
    return design.cell(x, y, layer), kind.decode(errors="surrogateescape")


def first_fault(design: Design, path: str, kinds: Container[str] | None = None) -> Fault | None:
    """Of a text with a buffer that has no place, or is of none of these kinds: which it is, and where it stands."""
    tokens = Tokens(path)
    for _, _, some in buffered_in(design, tokens):
        for at in range(0, len(some), 2):
            try:
                kind = buffer_of(design, some[at], some[at + 1])[1]
                if kinds is not None and kind not in kinds:
                    raise Fault(f"the library has no kind {kind}")
            except Fault as fault:
                number = tokens.before + tokens.at - len(some) + at + 1
                return Fault(f"{path}{tokens.line(number)}: token {number}: {fault}")
    return None
