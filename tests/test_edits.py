"""Tests that the wrong bodies of the gate and of reference/edits fit the code as it stands."""
import collections
import glob
import os
import unittest
from typing import Iterator

from testing import ROOT, text_of

MOST_EDITS = 110
MOST_CRATES = 15


def edits() -> Iterator[tuple[str, str, str, list[list[str]]]]:
    """Each edit's path, crate, file, and pairs of an old and a new text."""
    for path in sorted(glob.glob(f"{ROOT}/crates/*/must-fail/*.edit") + glob.glob(f"{ROOT}/reference/edits/*/*.edit")):
        parts = os.path.relpath(path, ROOT).split(os.sep)
        crate = parts[1] if parts[0] == "crates" else parts[2]
        file = ""
        pairs: list[list[str]] = []
        for line in text_of(os.path.relpath(path, ROOT)).splitlines():
            word, _, rest = line.partition(": ")
            if word == "file":
                file = rest
            elif word == "old":
                pairs.append([rest])
            else:
                pairs[-1].append(rest)
        yield os.sep.join(parts), crate, file, pairs


class Edits(unittest.TestCase):
    """Whether they are refused, the gate and .ci/nightly try."""

    def test_each_fits_its_file(self) -> None:
        for path, crate, file, pairs in edits():
            with self.subTest(edit=path):
                text = text_of(f"crates/{crate}/{file}")
                for old, new in pairs:
                    self.assertEqual(text.count(old), 1)
                    self.assertNotEqual(old, new)

    def test_the_gate_has_few(self) -> None:
        found = collections.Counter(crate for path, crate, *_ in edits() if path.startswith("crates"))
        self.assertLessEqual(len(found), MOST_CRATES)
        self.assertLessEqual(sum(found.values()), MOST_EDITS)

    def test_a_crate_has_them_in_one_place(self) -> None:
        gate, apart = ({crate for path, crate, *_ in edits() if path.startswith(first)}
                       for first in ("crates", "reference"))
        self.assertEqual(gate & apart, set())
