#!/usr/bin/env python3
"""Copies the theorem into docs/PROVED.md: tools/dev/theorem.py

Behind each line `<!-- FILE NAME -->` of that document stands, in a block of code, what the file says of the name: of a
function its signature and clauses, of a definition its comment and the whole of it. The numbers of definitions and
files on which the contracts of `run` and `bound` stand are written where the document says `N definitions in M files`.
"""
import argparse
import os
import re
import sys
from typing import Match

sys.path.insert(0, os.path.dirname(os.path.dirname(os.path.abspath(__file__))))

from dev.definitions import DEFINED, ROOT, of_calls, read, specs   # noqa: E402

DOCUMENT = os.path.join(ROOT, "docs", "PROVED.md")
COPY = re.compile(r"^<!-- (\S+) (\w+) -->\n\n```\w*\n.*?^```\n", re.MULTILINE | re.DOTALL)
COUNT = re.compile(r"\b[0-9,]+ definitions in [0-9]+ files\b")


def function(code: str, name: str) -> str:
    """The signature and the clauses of a function."""
    found = re.search(rf"^pub fn {name}\b.*?(?=^\{{)", code, re.MULTILINE | re.DOTALL)
    if found is None:
        raise ValueError(f"no function {name}")
    return found.group()


def definition(text: str, name: str) -> str:
    """A definition with the comment before it."""
    first = re.compile(rf"^(?:abbrev |unfoldable )?pub (?:record |data )?{name}\b", re.MULTILINE)
    for part in text.split("\n\n"):
        if first.search(part):
            return part.strip("\n") + "\n"
    raise ValueError(f"no definition {name}")


def copied(found: Match[str]) -> str:
    """The block of code of a line that names a file and a name."""
    path, name = found.groups()
    text = read(os.path.join(ROOT, path))
    tongue, says = ("rust", function(text, name)) if path.endswith(".rt") else ("text", definition(text, name))
    return f"<!-- {path} {name} -->\n\n```{tongue}\n{says}```\n"


def counted() -> str:
    """How many definitions the contracts of `run` and `bound` stand on, and in how many files."""
    texts = specs()
    files = of_calls(texts)
    definitions = sum(len(DEFINED.findall(texts[file])) for file in files)
    return f"{definitions:,} definitions in {len(files)} files"


def document(text: str) -> str:
    """The document with what is copied as it stands now."""
    return COUNT.sub(counted(), COPY.sub(copied, text))


def main() -> int:
    """Writes the document. The answer is the status: 1 where a name isn't there."""
    argparse.ArgumentParser(description=__doc__, formatter_class=argparse.RawDescriptionHelpFormatter).parse_args()
    try:
        text = document(read(DOCUMENT))
    except (OSError, ValueError) as fault:
        print(f"theorem: {fault}", file=sys.stderr)
        return 1
    with open(DOCUMENT, "w", encoding="utf-8") as file:
        file.write(text)
    return 0


if __name__ == "__main__":
    sys.exit(main())
