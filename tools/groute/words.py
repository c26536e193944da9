"""Words of groute and grbound: what each is, and which one is at fault where they give no order."""
import difflib
import os
from dataclasses import dataclass, field
from typing import Iterator, Sequence

from groute.options import EXCLUDES, MOST_CELLS, RANGES, TEXTS, Row, chosen, range_words, rows

MOST_DIGITS = 20        # of a number
# What takes the next word as its value, in whatever command it stands.
TAKES = sorted({word for program in ("groute", "grbound") for row in rows(program)
                for word, value in row.options if value})
FLAGS = sorted({word for row in rows() for word, value in row.options if not value})    # options without a value


@dataclass
class Sorted:
    """Words of a command: the row, by their names the positionals and the values of options, and what is at fault."""
    row: Row | None = None
    positionals: dict[str, str] = field(default_factory=dict)
    options: dict[str, str] = field(default_factory=dict)
    wrong: str | None = None

    def fault(self, says: str) -> None:
        """That something is wrong, where nothing before it is."""
        self.wrong = self.wrong or says

    def files(self) -> Iterator[tuple[str, str]]:
        """What the words that are files are called, and the words, in the order in which they are opened."""
        yield from ((name, word) for name, word in self.positionals.items() if name in TEXTS)
        own = dict(self.row.options) if self.row else {}
        yield from ((own[option], word) for option, word in self.options.items() if own[option] in TEXTS)


def nearest(word: str, right: Sequence[str]) -> str:
    """Which of some words is most like another one, in words."""
    if not right:
        return ""
    ratio = {one: difflib.SequenceMatcher(None, one, word).ratio() for one in right}
    return f": {max(right, key=lambda one: ratio[one])} is the nearest"


def listed(words: Sequence[str]) -> str:
    """Words as a list in a sentence."""
    return words[0] if len(words) == 1 else f"{', '.join(words[:-1])} or {words[-1]}"


def value_fault(name: str, value: str, word: str) -> str | None:
    """What is wrong with the value of a word or an option, whose words are `value`."""
    words = chosen(value)
    if word in words:
        return None
    if name not in RANGES:
        return f"{word} is no word of {name}{nearest(word, words)}" if words else None
    low, high = RANGES[name]
    if word.isascii() and word.isdigit() and len(word) <= MOST_DIGITS and low <= int(word) <= high:
        return None
    due = f"{name} is {words[0]} or {range_words(name)}" if words else f"{name} is {range_words(name)}"
    if word.isascii() and word.isdigit():
        return f"{word}: {due}: {min(max(int(word[:2 * MOST_DIGITS]), low), high)} is the nearest" \
            if len(word) <= MOST_DIGITS else f"{word}: {due}, of at most {MOST_DIGITS} digits"
    return f"{word}: {due}"


def command_of(program: str, words: Sequence[str]) -> tuple[Row | None, str | None]:
    """The row of a command, or what is wrong with its word."""
    every = {row.word: row for row in rows(program)}
    if "" in every:
        return every[""], None
    if not words:
        return None, f"a command is due: {listed(list(every))}"
    if words[0] in every:
        return every[words[0]], None
    return None, f"{words[0]} is no command{nearest(words[0], list(every))}"


def sort(program: str, words: Sequence[str]) -> Sorted:
    """The words of a program, without its name."""
    found = Sorted()
    for one in words:
        try:
            os.fsencode(one).decode()
        except UnicodeDecodeError:
            found.fault(f"{one} is not UTF-8")
    found.row, says = command_of(program, words)
    if says:
        found.fault(says)
    if found.row is None:
        return found
    rest = iter(words[1:] if found.row.word else words)
    is_option = True
    while (word := next(rest, None)) is not None:
        name, held, value = word.partition("=")
        if is_option and word == "--":
            is_option = False
        elif not is_option or not word.startswith("-") or word == "-":
            add_positional(found, word)
        elif word in FLAGS:
            add_option(found, word, "")
        elif name in FLAGS:
            found.fault(f"{word}: {name} takes no value")
        elif name not in TAKES:
            own = [option for option, _ in found.row.options]
            found.fault(f"{word}: {found.row.name()} has no such option{nearest(name, own)}")
        else:
            add_option(found, name, value if held else following(rest))
    check_whole(found)
    return found


def following(words: Iterator[str]) -> str | None:
    """The next word, if there is one."""
    return next(words, None)


def add_positional(found: Sorted, word: str) -> None:
    """A word that is no option."""
    assert found.row is not None
    names = found.row.positionals
    at = len(found.positionals)
    if at == len(names):
        found.fault(f"{word}: nothing more is due behind {names[-1]}")
        return
    found.positionals[names[at]] = word
    if says := value_fault(names[at], "", word):
        found.fault(says)


def add_option(found: Sorted, name: str, value: str | None) -> None:
    """An option with its value; None where there is none."""
    assert found.row is not None
    own = dict(found.row.options)
    if name not in own:
        found.fault(f"{name}: {found.row.name()} has no such option{nearest(name, list(own))}")
    elif value is None:
        found.fault(f"{name}: its value is due")
    elif name in found.options:
        found.fault(f"{name} stands twice")
    else:
        found.options[name] = value
        if says := value_fault(name, own[name], value):
            found.fault(says)


def check_whole(found: Sorted) -> None:
    """That all is there, and that it goes together."""
    assert found.row is not None
    names, given = found.row.positionals, found.positionals
    if len(given) < len(names):
        found.fault(f"{names[len(given)]} is due"
                    + (f" behind {names[len(given) - 1]} ({list(given.values())[-1]})" if given else ""))
    for one, other in EXCLUDES:
        if one in found.options and other in found.options:
            found.fault(f"{one} and {other} exclude each other")
    if found.wrong is None and {"X", "Y", "L"} <= set(given):
        x, y, layers = (int(given[name]) for name in ("X", "Y", "L"))
        if x * y * layers > MOST_CELLS:
            found.fault(f"{x} by {y} by {layers}: X * Y * L is at most {MOST_CELLS}: "
                        f"{x} by {MOST_CELLS // (x * layers)} by {layers} is the nearest")
