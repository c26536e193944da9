"""Carries routes over to a changed design with the same grid: a solution names nets by their ids, which count anew
where a net comes or goes.

A record of ROUTES, which are of OLD_DESIGN, goes over to the net of NEW_DESIGN of the same name; records of nets that
are gone are left out. It prints how many were carried over, how many nets are gone, and how many are new. Whether a
route still joins its net's pins is not looked at: `groute route --from` keeps those that do.
"""
import sys
from typing import Iterator, Mapping, Sequence

from groute import frame
from groute.texts.designs import Design, Netlist
from groute.texts.files import Fault, Outputs
from groute.texts.solutions import named_records
from groute.texts.tokens import Tokens


def parser() -> frame.Parser:
    """The reader of the words."""
    words = frame.parser(__doc__)
    for name, says in (("OLD_DESIGN", "the design of the routes"), ("ROUTES", "a solution text of it"),
                       ("NEW_DESIGN", "the changed design"), ("SOLUTION", "the text that is written")):
        words.add_argument(name.lower(), metavar=name, help=says)
    return words


def grid(design: Design) -> tuple[int, ...]:
    """The tiles of a design, and where they lie."""
    return (design.columns, design.rows, design.layers, design.left, design.low, design.tile_width,
            design.tile_height)


def lines(records: Mapping[str, list[bytes]], ids: Mapping[str, int]) -> Iterator[str]:
    """The lines of the solution."""
    for name, segments in records.items():
        yield f"{name} {ids[name]}"
        yield from (segment.decode(errors="surrogateescape") for segment in segments)
        yield "!"


def main(words: Sequence[str]) -> None:
    """Writes the solution."""
    asked = parser().parse_args(words)
    old, new = (Netlist(Tokens(path)) for path in (asked.old_design, asked.new_design))
    if grid(old) != grid(new):
        raise Fault(f"{asked.new_design}: its grid is another one than that of {asked.old_design}: "
                    f"{' '.join(map(str, grid(new)))} and {' '.join(map(str, grid(old)))}")
    before, ids = old.by_name(), new.by_name()
    found = {name: segments for name, segments in named_records(asked.routes, before).items() if name in ids}
    with Outputs([asked.old_design, asked.routes, asked.new_design]) as outputs:
        outputs.lines(asked.solution, lines(found, ids))
    gone, fresh = len(before.keys() - ids.keys()), len(ids.keys() - before.keys())
    sys.stdout.write(f"carried {len(found)}\ngone {gone}\nnew {fresh}\n")
