"""Tells how the routes of a design differ from earlier ones, net by net.

BEFORE and AFTER are solution texts; BEFORE may be of an earlier design with the same grid, so nets are told apart by
their names. A net is `new` where BEFORE has no record of it, `gone` where the design lacks it, `same` where its edges
are, and else `other`. By group it prints nets, wirelength (wire edges and vias), vias, and the overflow on edges of
these nets, before and after: an edge counts for each group that has it. Below stand the names of new and gone nets,
and of other ones with their wirelength. What nets that are gone take is that of a net of width 0.
"""
import sys
from typing import Any, Iterator, Sequence

from groute import frame
from groute.loads.differences import AFTER, BEFORE, GROUPS, Differences, Group, Sizes
from groute.show import tables
from groute.texts import objects
from groute.texts.designs import Netlist
from groute.texts.solutions import unjoined_first
from groute.texts.tokens import Tokens

HEAD = ["", "nets", "wirelength", "after", "vias", "after", "overflow", "after"]


def parser() -> frame.Parser:
    """The reader of the words."""
    words = frame.parser(__doc__)
    words.add_argument("design", metavar="DESIGN", help="a design text")
    words.add_argument("before", metavar="BEFORE", help="a solution text, of this design or of an earlier one")
    words.add_argument("after", metavar="AFTER", help="a solution text of the design")
    words.add_argument("--worst", type=frame.number(0), default=10, metavar="N",
                       help="as many names of a group at most; else 10")
    frame.add_json(words)
    return words


def pairs(found: Differences, group: Group | None) -> list[tuple[int, int]]:
    """Before and after: wirelength, vias and overflow of a group, or of all."""
    groups = [group] if group else list(found.groups.values())
    vias = [sum(some.vias[side] for some in groups) for side in (BEFORE, AFTER)]
    wires = [sum(some.wires[side] for some in groups) + vias[side] for side in (BEFORE, AFTER)]
    over = group.overflow if group else [found.overflow(side) for side in (BEFORE, AFTER)]
    return [(wires[0], wires[1]), (vias[0], vias[1]), (over[0], over[1])]


def printed(found: Differences, worst: int) -> Iterator[str]:
    """The lines of the answer."""
    rows: list[list[str | int]] = []
    for name, group in [*found.groups.items(), ("all", None)]:
        count = len(group.names) if group else sum(len(some.names) for some in found.groups.values())
        rows.append([name, count, *(number for pair in pairs(found, group) for number in pair)])
    yield from tables.lines(HEAD, rows)
    for name in ("new", "gone", "other"):
        names = found.groups[name].names
        shown = [f"{net} {length(found.sizes[net][BEFORE])} to {length(found.sizes[net][AFTER])}"
                 if net in found.sizes else net for net in names[:worst]]
        if shown:
            more = f", and {len(names) - worst:,} more" if len(names) > worst else ""
            yield from ("", f"{name}: {', '.join(shown)}{more}")


def length(sizes: Sizes) -> int:
    """The wirelength of a net."""
    return sizes.wires + sizes.vias


def answer(found: Differences) -> dict[str, Any]:
    """The answer as an object."""
    def sums(group: Group | None) -> dict[str, Any]:
        names = ("wirelength_edges", "via_edges", "overflow_units")
        return {side: dict(zip(names, numbers))
                for side, numbers in zip(("before", "after"), zip(*pairs(found, group)))}

    groups: dict[str, Any] = {}
    for name in GROUPS:
        group = found.groups[name]
        groups[name] = {"nets": len(group.names), **sums(group)}
        if name != "same":
            groups[name]["names"] = group.names
    groups["other"]["sizes"] = [
        {**objects.net_of(found.design, found.ids[name]), "wirelength_edges_before": length(before),
         "wirelength_edges_after": length(after), "via_edges_before": before.vias, "via_edges_after": after.vias}
        for name, (before, after) in found.sizes.items()]
    return {"groups": groups, "all": sums(None), "unjoined_nets": len(found.unjoined),
            "unjoined": [objects.net_of(found.design, id_) for id_ in found.unjoined]}


def main(words: Sequence[str]) -> int:
    """Prints the answer."""
    asked = parser().parse_args(words)
    design = Netlist(Tokens(asked.design))
    found = Differences(design, asked.before, asked.after)
    if asked.json:
        sys.stdout.write(objects.text_of("differ", answer(found)))
    else:
        sys.stdout.writelines(f"{line}\n" for line in (*unjoined_first(found.unjoined), *printed(found, asked.worst)))
    return frame.tell_unjoined("differ", design, found.unjoined)
