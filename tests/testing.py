"""What the tests of the tools share."""
import importlib.util
import os
import re
import subprocess
import sys
import tempfile
import unittest
from typing import Any

from groute import start

HERE = os.path.dirname(os.path.abspath(__file__))
ROOT = os.path.dirname(HERE)
TOOLS = os.path.join(ROOT, "tools")
PICTURES = all(importlib.util.find_spec(name) for name in ("numpy", "matplotlib"))
# A tool that lacks these would run itself again by a python that may have them.
ENVIRONMENT = dict(os.environ) if PICTURES else {**os.environ, start.AGAIN: "1"}
BOUNDS = """overflow at least 1
wirelength at least 3
usable wirelength at least 5
column cuts 0
row cuts 0
boxes 1
box 0 0 0 0 needs 3 holds 2
column 1 needs 2 holds 8
"""     # as grbound writes them
LIBRARY = "library 1\n%svia 10 10\ndriver 100\nsink 10 0\nend\n"


def program() -> str:
    """The path of groute."""
    return os.environ["GROUTE"]


def bounds() -> str | None:
    """The path of grbound, or None."""
    return os.environ.get("GRBOUND")


def found(pattern: str, text: str, flags: int = 0) -> re.Match[str]:
    """Where a pattern stands in a text, in which it does."""
    match = re.search(pattern, text, flags)
    assert match is not None, pattern
    return match


def text_of(name: str) -> str:
    """The text of a file of the repository."""
    with open(f"{ROOT}/{name}", encoding="utf-8") as file:
        return file.read()


def run(*words: str, folder: str | None = None, **options: Any) -> tuple[int, str, str]:
    """Status, standard output and standard error."""
    done = subprocess.run(words, capture_output=True, check=False, cwd=folder, **options)
    return done.returncode, done.stdout.decode(), done.stderr.decode()


def tool(name: str, *words: str) -> tuple[int, str, str]:
    """What a tool did."""
    return run(sys.executable, os.path.join(TOOLS, name), *words, env=ENVIRONMENT)


class InFolder(unittest.TestCase):
    """Tests with a folder of their own."""

    def setUp(self) -> None:
        self.folder = tempfile.TemporaryDirectory()
        self.addCleanup(self.folder.cleanup)

    def put(self, name: str, text: str) -> str:
        """The path of a file with this text."""
        path = os.path.join(self.folder.name, name)
        with open(path, "w", encoding="utf-8") as file:
            file.write(text)
        return path

    def routed(self, design: str, layers: int, rounds: int = 0) -> str:
        """The path of the routes of a design."""
        wires = "".join(f"wire {layer} 100 100\n" for layer in range(1, layers + 1))
        library = self.put("library", LIBRARY % wires)
        status, out, err = run(program(), "route", design, library, str(rounds))
        self.assertEqual((status, err[:7]), (0, "routed "))
        return self.put("solution", out)
