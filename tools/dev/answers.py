#!/usr/bin/env python3
"""Prints what the launchers answer by themselves, as a script of sh: tools/dev/answers.py

It goes to tools/answers.sh: the texts of --help and --version, by the table of the words and VERSION.
"""
import os
import sys
from typing import Iterator

TOOLS = os.path.dirname(os.path.dirname(os.path.abspath(__file__)))
sys.path.insert(0, TOOLS)
from groute.options import rows, told_of, told_of_row  # noqa: E402

PROGRAMS = ("groute", "grbound")
HEAD = """# shellcheck shell=sh
# What the launchers answer by themselves, as tools/dev/answers.py writes it.

# Sets `text` to the answer of the program `name` to these words; false where it is the program's to answer.
find_answer() {
    # shellcheck disable=SC2154
    case "$# $name $*" in
%s
    *) return 1 ;;
    esac
}
"""


def answers() -> Iterator[tuple[str, str]]:
    """Words, behind how many there are and whose they are, and the answer."""
    with open(os.path.join(os.path.dirname(TOOLS), "VERSION"), encoding="ascii") as file:
        version = file.read().strip()
    for program in PROGRAMS:
        yield f"1 {program} --help", "\n".join(told_of(program))
        yield f"1 {program} --version", f"{program} {version}"
    for row in rows():
        yield f"2 {row.name()} --help", "\n".join(told_of_row(row))


def script() -> str:
    """The script."""
    return HEAD % "\n".join(f"    '{words}')\n        text='{quoted(text)}' ;;" for words, text in answers())


def quoted(text: str) -> str:
    """A text within single quotes."""
    return text.replace("'", "'\\''")


if __name__ == "__main__":
    sys.stdout.write(script())
