#!/usr/bin/env python3
"""Writes docs/DEFINITIONS.md, the table of what the programs' contracts are made of: tools/dev/definitions.py

Each file of definitions, crates/CRATE/specs/NAME.antt, that the contract of `run` or of `bound` cites, or another such
file, or that defines a name of docs/PROVED.md, is listed by its crate, lowest crates first. Files ..Store.antt, of what
fields keep, are left out. Each file has to begin with a comment that says what it defines.
"""
import argparse
import glob
import os
import re
import sys
from typing import Iterator

ROOT = os.path.dirname(os.path.dirname(os.path.dirname(os.path.abspath(__file__))))
DOCUMENT = os.path.join(ROOT, "docs", "DEFINITIONS.md")
HEAD = """# Where each word is defined

The files of definitions that the contracts of `run` and `bound` cite, themselves or by one another, and those of the other names in `docs/PROVED.md`: Grid of gr_base is `crates/gr_base/specs/Grid.antt`. `head -n 1 crates/*/specs/*.antt` says what each defines, and `grep -rnw NAME crates/*/specs` finds any name. `tools/dev/definitions.py` writes this page.

| crate | files |
|---|---|
"""
File = tuple[str, str]      # crate and name
TOPS = [("router_top", "top"), ("bound_top", "top")]     # the crates and files of the programs' calls
USE = re.compile(r"use Rattle\.(\w+)\.specs\.(\w+)\.\{([^}]*)\}")
DEFINED = re.compile(r"^(?:abbrev|unfoldable|pub) (?:pub |record |data )?(\w+)", re.MULTILINE)
PUBLIC = re.compile(r"^( *)pub (?:const )?fn .*?(?=^\1\{)|^pub (?:trait|struct|enum) .*?^\}", re.MULTILINE | re.DOTALL)


def read(path: str) -> str:
    """The text of a file."""
    with open(path, encoding="utf-8") as file:
        return file.read()


def cited(text: str) -> Iterator[tuple[str, File]]:
    """The names that a text cites from definitions, each with the file that it is from."""
    for crate, file, names in USE.findall(text):
        for name in names.split(","):
            yield name.split(" as ")[-1].strip(), (crate, file)


def specs() -> dict[File, str]:
    """The texts of the files of definitions, by crate and name."""
    paths = glob.glob(os.path.join(ROOT, "crates", "*", "specs", "*.antt"))
    return {(path.split(os.sep)[-3], os.path.basename(path)[:-len(".antt")]): read(path) for path in paths}


def of_calls(texts: dict[File, str]) -> set[File]:
    """The files that the contracts of the programs' calls cite, and those that these cite."""
    found = set()
    for crate, file in TOPS:
        code = read(os.path.join(ROOT, "crates", crate, "src", f"{file}.rt"))
        words = {word for public in PUBLIC.finditer(code) for word in re.findall(r"\w+", public.group())}
        found |= {file for name, file in cited(code) if name in words}
    waiting = list(found)
    while waiting:
        new = {file for _, file in cited(texts.get(waiting.pop(), ""))} - found
        found |= new
        waiting += new
    return found & set(texts)


def of_rows(texts: dict[File, str], proved: str) -> Iterator[File]:
    """The files of a crate that define a name in its row of docs/PROVED.md."""
    for crates, says in re.findall(r"^\| ([a-z_, ]+) \| (.*) \|$", proved, re.MULTILINE):
        names = set(re.findall(r"`(\w+)`", says))
        for file, text in texts.items():
            if file[0] in crates.split(", ") and names & set(DEFINED.findall(text)):
                yield file


def of_contracts(texts: dict[File, str]) -> set[File]:
    """The files that the calls' contracts are made of, and those that define the names in docs/PROVED.md."""
    proved = read(os.path.join(ROOT, "docs", "PROVED.md"))
    found = of_calls(texts).union(of_rows(texts, proved))
    names = set(re.findall(r"`([A-Z]\w+)`", proved))
    names -= {name for file in found for name in DEFINED.findall(texts[file])}
    return found | {file for file, text in texts.items() if names & set(DEFINED.findall(text))}


def files() -> Iterator[tuple[str, str, str]]:
    """The crate and the name of each file that is listed, lowest crates first, with its text."""
    texts = specs()
    crates = [line.split()[0].rstrip(":") for line in read(os.path.join(ROOT, "crates.txt")).splitlines() if line]
    for crate, name in sorted(of_contracts(texts), key=lambda file: (crates.index(file[0]), file[1])):
        if name != "Lib" and not name.endswith("Store"):
            yield crate, name, texts[crate, name]


def document() -> str:
    """The text of the document."""
    names: dict[str, list[str]] = {}
    for crate, name, _ in files():
        names.setdefault(crate, []).append(name)
    return HEAD + "".join(f"| {crate} | {', '.join(of_crate)} |\n" for crate, of_crate in names.items())


def main() -> int:
    """Writes the document. The answer is the status: 1 where a file begins with no comment."""
    argparse.ArgumentParser(description=__doc__, formatter_class=argparse.RawDescriptionHelpFormatter).parse_args()
    silent = [f"{crate}/{name}" for crate, name, text in files() if not text.startswith("-- ")]
    if silent:
        print(f"definitions: no first line in {', '.join(silent)}", file=sys.stderr)
        return 1
    with open(DOCUMENT, "w", encoding="utf-8") as file:
        file.write(document())
    return 0


if __name__ == "__main__":
    sys.exit(main())
