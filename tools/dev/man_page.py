#!/usr/bin/env python3
"""Prints the man page of a tool, as its --help has it: tools/dev/man_page.py TOOL."""
import importlib
import os
import re
import subprocess
import sys
import time
from typing import Iterator

TOOLS = os.path.dirname(os.path.dirname(os.path.abspath(__file__)))
sys.path.insert(0, TOOLS)
from groute.options import COMES  # noqa: E402


def roff(text: str) -> str:
    """Text whose letters mean themselves."""
    text = text.replace("\\", "\\e").replace("-", "\\-")
    return re.sub(r"(?m)^([.'])", r"\\&\1", text)


def page(tool: str) -> Iterator[str]:
    """The lines of the page."""
    name = f"groute-{tool.replace('_', '-')}"
    doc = str(importlib.import_module(f"groute.commands.{tool}").__doc__).strip()
    told = subprocess.run([sys.executable, os.path.join(TOOLS, f"{tool}.py"), "--help"], check=True, text=True,
                          capture_output=True, env={**os.environ, "COLUMNS": "78"}).stdout
    told = told.replace(f"{tool}.py", name)
    usage, options = told.split("\n\n", 1)[0], told[told.index("\npositional arguments:") + 1:]
    first = re.split(r"(?<=[.])(?=\s|$)", doc, 1)[0]
    with open(os.path.join(os.path.dirname(TOOLS), "VERSION"), encoding="ascii") as file:
        version = file.read().strip()
    date = time.strftime("%Y-%m-%d", time.gmtime(int(os.environ.get("SOURCE_DATE_EPOCH", time.time()))))
    yield f'.TH {name.upper()} 1 {date} "groute {version}" "User commands"'
    yield f".SH NAME\n{name} \\- {roff(' '.join(first[:-1].split()))}"
    yield f".SH SYNOPSIS\n.nf\n{roff(usage.removeprefix('usage: '))}\n.fi"
    yield f".SH DESCRIPTION\n{description(doc)}"
    yield f".SH OPTIONS\n.nf\n{roff(options.strip())}\n.fi"
    yield ".SH EXIT STATUS\n" + "\n".join(f".TP\n{status:d}\n{roff(comes)}" for status, comes in COMES.items())
    yield ".SH SEE ALSO\n.BR groute (1)"


def description(doc: str) -> str:
    """Paragraphs, of which those that begin with blanks keep their lines."""
    shown = []
    for paragraph in doc.split("\n\n"):
        shown.append(f".nf\n{roff(paragraph)}\n.fi" if paragraph.startswith(" ") else roff(paragraph))
    return "\n.PP\n".join(shown)


if __name__ == "__main__":
    print("\n".join(page(sys.argv[1])))
