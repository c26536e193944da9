"""Tests of --json: one object, whose keys and values are those of samples that are kept in tests/kept."""
import json
import os
import subprocess
import unittest
from typing import Any

from groute.texts import objects
from testing import PICTURES, ROOT, InFolder, bounds, program, tool

KEPT = os.path.join(ROOT, "tests", "kept")
CROWD = [f"{ROOT}/examples/crowd.{kind}" for kind in ("ispd", "library")]
SKY = [f"{ROOT}/examples/sky/{name}" for name in ("adder.def", "tech.lef", "cells.lef", "cells.lib")]


def differences(kept: Any, found: Any, place: str = "") -> list[str]:
    """Where what was found lacks something of what is kept, or has another value. More keys are no difference."""
    if isinstance(kept, dict) and isinstance(found, dict):
        return [line for key in kept for line in (differences(kept[key], found[key], f"{place}.{key}")
                                                  if key in found else [f"{place}.{key} is gone"])]
    if isinstance(kept, list) and isinstance(found, list) and len(kept) == len(found):
        return [line for at, pair in enumerate(zip(kept, found)) for line in differences(*pair, f"{place}[{at}]")]
    same = abs(kept - found) < 1e-6 if isinstance(kept, float) and isinstance(found, float) else kept == found
    return [] if same else [f"{place}: {kept}, and now {found}"]


class Objects(InFolder):
    """What tools print."""

    def routes(self, design: str, library: str, rounds: str = "0") -> list[str]:
        """The paths of the routes of a design and of their report."""
        paths = [os.path.join(self.folder.name, name) for name in ("routes", "report")]
        with open(paths[0], "wb") as out, open(paths[1], "wb") as err:
            subprocess.run([program(), "route", design, library, rounds], stdout=out, stderr=err, check=True)
        return paths

    def printed(self, name: str, *words: str) -> dict[str, Any]:
        """The object that a tool prints."""
        status, out, err = tool(f"{name}.py", *words, "--json")
        self.assertEqual(status, 0, err)

        def refuse(word: str) -> None:
            raise ValueError(word)

        found: dict[str, Any] = json.loads(out, parse_constant=refuse)
        self.assertEqual((found["version"], found["tool"]), (objects.VERSION, name))
        return found

    def compare(self, name: str, found: dict[str, Any]) -> None:
        """That an object is as the one that is kept; only new keys keep the version."""
        path = os.path.join(KEPT, f"{name}.json")
        text = json.dumps(found, indent=1).replace(self.folder.name, "FOLDER")
        if not os.path.exists(path):
            with open(path, "w", encoding="utf-8") as file:
                file.write(text + "\n")
            self.fail(f"{path} was not there: it is now")
        with open(path, encoding="utf-8") as file:
            self.assertEqual(differences(json.load(file), json.loads(text)), [])

    def test_congestion(self) -> None:
        routes, _ = self.routes(*CROWD)
        self.compare("congestion", self.printed("congestion", CROWD[0], routes))
        self.assertEqual(tool("congestion.py", CROWD[0], routes, "--json", "--tracks", "x")[0], 2)

    @unittest.skipUnless(PICTURES, "numpy and matplotlib are not there")
    def test_where_it_is_full(self) -> None:
        routes, report = self.routes(*CROWD)
        self.compare("hotspots", self.printed("hotspots", CROWD[0], routes, "--worst", "2"))
        page = os.path.join(self.folder.name, "page.html")
        self.compare("report", self.printed("report", CROWD[0], routes, CROWD[1], report, "-o", page))
        self.compare("slowest", self.printed("slowest", CROWD[0], CROWD[1], routes, report, "--worst", "2"))

    @unittest.skipUnless(PICTURES and bounds(), "numpy, matplotlib or grbound is not there")
    def test_flow(self) -> None:
        folder = os.path.join(self.folder.name, "out")
        for name, path in (("groute", program()), ("grbound", str(bounds()))):
            os.symlink(path, os.path.join(self.folder.name, name))
        found = self.printed("flow", SKY[0], "--lef", SKY[1], "--lef", SKY[2], "--liberty", SKY[3], "--layers",
                             "met1-met5", "--rounds", "1", "--rule", "first", "--driver", "sk_inv", "--program",
                             os.path.join(self.folder.name, "groute"), "-o", folder)
        del found["hotspots"]["regions"][1:]
        self.compare("flow", found)

    def test_names(self) -> None:
        """A name is UTF-8, whatever the design's is, and a number is finite."""
        name = b"\xff\xc3\xa9\\n".decode(errors="surrogateescape")
        found = objects.text_of("none", {"name": name, "more": [{name: (1, None)}]})
        self.assertEqual(json.loads(found.encode())["name"], "\\xff\u00e9\\n")
        self.assertEqual(json.loads(found)["more"], [{"\\xff\u00e9\\n": [1, None]}])
        for number in (float("nan"), float("inf")):
            with self.assertRaises(ValueError):
                objects.text_of("none", {"number": number})
