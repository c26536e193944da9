#!/usr/bin/env python3
"""Tests of the tools, and of the samples in the documents: tools/test.py --program PATH [NAME ..]

PATH is a built groute, and one of grbound with --bounds. The samples of README.md and of docs/*.md, lines that begin
with `$`, are run as they are written, with that program as ./groute. NAMEs pick tests, as in unittest. What wants
numpy and matplotlib, klayout, chromium, or for docs/FLOW.md Debian's qflow-tech-osu035, is left out by name where that
isn't there.
"""
import argparse
import os
import sys
import unittest
from typing import Iterator

HERE = os.path.dirname(os.path.abspath(__file__))
TESTS = os.path.join(os.path.dirname(HERE), "tests")


def chosen(suite: unittest.TestSuite, names: list[str]) -> Iterator[unittest.TestCase]:
    """The tests of a suite of which a part of the name is asked for; all, where none is."""
    for test in suite:
        if isinstance(test, unittest.TestSuite):
            yield from chosen(test, names)
        elif not names or any(f".{name}." in f".{test.id()}." for name in names):
            yield test


def main() -> int:
    """Runs the tests. The answer is the status."""
    parser = argparse.ArgumentParser(description=__doc__, formatter_class=argparse.RawDescriptionHelpFormatter)
    parser.add_argument("--program", required=True, metavar="PATH", help="a built groute")
    parser.add_argument("--bounds", metavar="PATH", help="a built grbound")
    parser.add_argument("names", nargs="*", metavar="NAME", help="of a test, as Where or Congestion.test_table")
    asked = parser.parse_args()
    os.environ["GROUTE"] = os.path.abspath(asked.program)
    if asked.bounds:
        os.environ["GRBOUND"] = os.path.abspath(asked.bounds)
    tests = list(chosen(unittest.defaultTestLoader.discover(TESTS), asked.names))
    if not tests:
        print(f"test: no test has a name of {' '.join(asked.names)}", file=sys.stderr)
        return 2
    result = unittest.TextTestRunner().run(unittest.TestSuite(tests))
    for test, reason in result.skipped:
        print(f"left out: {test.id()}: {reason}", file=sys.stderr)
    return 0 if result.wasSuccessful() else 1


if __name__ == "__main__":
    sys.exit(main())
