"""DEF texts with other components and nets: what doesn't change stays as it is, letter by letter."""
import re
from dataclasses import dataclass, field
from typing import NamedTuple, Sequence

from groute.placed.def_text import WIRED
from groute.placed.statements import split_at
from groute.texts.files import Fault
from groute.texts.places import words_of

WORD = re.compile(r'((?:\s+|#[^\n]*)*)("[^"]*"?|[^\s"#]\S*|\Z)')
SECTIONS = ("COMPONENTS", "NETS")


class Item(NamedTuple):
    """An item of a section, from its `-` to its `;`."""
    first: int
    end: int
    words: list[str]    # between these


@dataclass
class Section:
    """A section: where its count stands, its items by name, and where its END stands."""
    count: tuple[int, int]
    items: dict[str, Item] = field(default_factory=dict)
    end: int = 0


def sections(text: str, path: str) -> dict[str, Section]:
    """The sections of components and of nets."""
    words, firsts = words_of(WORD, text)
    del words[-1]       # which is empty
    found: dict[str, Section] = {}
    section: Section | None = None
    at = 0
    try:
        while at < len(words):
            word = words[at]
            if word == "END":
                if section is not None:
                    section.end, section = firsts[at], None
                at += 2
                continue
            end = words.index("ENDEXT" if word == "BEGINEXT" else ";", at)
            if section is not None:
                section.items[words[at + 1]] = Item(firsts[at], firsts[end] + 1, words[at + 1:end])
            elif word in SECTIONS:
                section = found[word] = Section((firsts[at + 1], firsts[at + 1] + len(words[at + 1])))
            at = end + 1
    except (ValueError, IndexError):
        pass        # which is told below
    if set(found) != set(SECTIONS) or section is not None or at < len(words):
        raise Fault(f"{path}: COMPONENTS and NETS are due, each with its END")
    return found


def connections_of(item: Item) -> list[tuple[str, str]]:
    """What an item of NETS joins, each component and pin."""
    words, at = item.words, 1
    found: list[tuple[str, str]] = []
    while words[at:at + 1] == ["("]:
        found.append((words[at + 1], words[at + 2]))
        at = words.index(")", at) + 1
    return found


def attributes(item: Item) -> list[str]:
    """What an item of NETS says behind its connections, without wires and without what it was before."""
    parts = split_at(item.words, "+")[1:]
    return [" ".join(part) for part in parts if part and part[0] not in WIRED and part[0] not in (")", "SYNTHESIZED")]


def net_lines(name: str, connections: Sequence[tuple[str, str]], says: Sequence[str]) -> str:
    """An item of NETS."""
    lines = [f"- {name}", *(f"  ( {component} {pin} )" for component, pin in connections),
             *(f"  + {word}" for word in says)]
    return "\n".join(lines) + "\n  ;"


class Edited:
    """A text of which items are replaced, removed and added."""

    def __init__(self, path: str, text: str) -> None:
        self.text = text
        self.sections = sections(text, path)
        self.edits: list[tuple[int, int, str]] = []
        self.added: dict[str, list[str]] = {name: [] for name in SECTIONS}
        self.removed = dict.fromkeys(SECTIONS, 0)

    def replace(self, section: str, name: str, item: str) -> None:
        """Puts an item in the place of the one of this name."""
        old = self.sections[section].items[name]
        self.edits.append((old.first, old.end, item))

    def remove(self, section: str, name: str) -> None:
        """Takes an item out, with the blanks before it."""
        old = self.sections[section].items[name]
        first = old.first
        while first > 0 and self.text[first - 1] in " \t":
            first -= 1
        first -= first > 0 and self.text[first - 1] == "\n"
        self.edits.append((first, old.end, ""))
        self.removed[section] += 1

    def add(self, section: str, item: str) -> None:
        """Puts one more item at the end of a section."""
        self.added[section].append(item)

    def whole(self) -> str:
        """The text that comes of it."""
        for name, section in self.sections.items():
            count = len(section.items) - self.removed[name] + len(self.added[name])
            self.edits.append((*section.count, str(count)))
            self.edits.append((section.end, section.end, "".join(f"{item}\n" for item in self.added[name])))
        parts, at = [], 0
        for first, end, new in sorted(self.edits):
            parts += [self.text[at:first], new]
            at = end
        return "".join([*parts, self.text[at:]])
