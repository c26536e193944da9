"""What tools print with --json: one object, for programs that read it.

`version` is that of the keys: new keys keep it, other changes raise it. Keys end with the unit of what has one. There
is no number but finite ones; what isn't known is null. A name is a text of UTF-8: a byte of it that is none stands as
`\\xHH`, so that two names may look alike, while ids don't.
"""
import json
from typing import Any, Mapping

from groute.texts.designs import Netlist

VERSION = 1
RAW = range(0xdc80, 0xdd00)     # what stands in a text of Python for a byte that is no UTF-8


def text_of(tool: str, found: Mapping[str, Any]) -> str:
    """The text of an object."""
    return json.dumps(clean({"version": VERSION, "tool": tool, **found}), indent=1, allow_nan=False) + "\n"


def clean(value: Any) -> Any:
    """The same with names that are UTF-8."""
    if isinstance(value, str):
        return "".join(f"\\x{ord(mark) - RAW.start + 0x80:02x}" if ord(mark) in RAW else mark for mark in value)
    if isinstance(value, Mapping):
        return {clean(key): clean(one) for key, one in value.items()}
    if isinstance(value, (list, tuple)):
        return [clean(one) for one in value]
    return value


def net_of(design: Netlist, id_: int) -> dict[str, Any]:
    """A net by its id and its name."""
    return {"id": id_, "name": design.names[id_]}


def totals(routed: int, overflow: tuple[int, int], wires: int, vias: int, unjoined: int) -> dict[str, int]:
    """The totals of routes; overflow is its sum and its maximum."""
    return {"routed_nets": routed, "overflow_units": overflow[0], "maximum_units": overflow[1],
            "wirelength_edges": wires + vias, "via_edges": vias, "unjoined_nets": unjoined}
