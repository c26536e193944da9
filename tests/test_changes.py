"""Tests of carry.py and differ.py: routes of a design that changes."""
import json
import os
import subprocess

from testing import ROOT, InFolder, program, run, tool

# Nets are a pin in the lower left tile and one in the tile `to`.
DESIGN = ("grid 4 2 2\nvertical capacity 0 4\nhorizontal capacity 4 0\nminimum width 1 1\nminimum spacing 1 1\n"
          "via spacing 1 1\n0 0 10 10\nnum net {}\n")
NET = "{} {} 2 {}\n5 5 1\n{} 5 1\n"
HEAD = "       nets  wirelength  after  vias  after  overflow  after\n"


def design(*nets: tuple[str, int, int, int]) -> str:
    """The text of a design: name, id, width and column of the far pin of each net."""
    lines = (NET.format(name, id_, width, 10 * to + 5) for name, id_, width, to in nets)
    return DESIGN.format(len(nets)) + "".join(lines)


class Changes(InFolder):
    """Nets that come, go, and are routed in other ways."""

    def setUp(self) -> None:
        super().setUp()
        self.old = self.put("old", design(("gone", 0, 3, 1), ("kept", 1, 1, 2), ("moved", 2, 1, 3)))
        self.new = self.put("new", design(("kept", 0, 1, 2), ("moved", 1, 1, 1), ("fresh", 2, 3, 1)))
        self.routes = self.put("routes", "moved 2\n(5,5,1)-(35,5,1)\n!\nkept 1 7\n(5,5,1)-(25,5,1)\n!\n"
                                         "gone 0\n(5,5,1)-(15,5,1)\n!\n")
        self.after = self.put("after", "kept 0\n(5,5,1)-(15,5,1)\n(25,5,1)-(15,5,1)\n!\nmoved 1\n(5,5,1)-(15,5,1)\n"
                                       "(5,5,1)-(5,5,2)\n!\nfresh 2\n(5,5,1)-(15,5,1)\n!\n")

    def test_carry(self) -> None:
        to = os.path.join(self.folder.name, "to")
        self.assertEqual(tool("carry.py", self.old, self.routes, self.new, to),
                         (0, "carried 2\ngone 1\nnew 1\n", ""))
        with open(to, encoding="ascii") as file:
            self.assertEqual(file.read(), "moved 1\n(5,5,1)-(35,5,1)\n!\nkept 0\n(5,5,1)-(25,5,1)\n!\n")
        self.assertEqual(run(program(), "evaluate", self.new, to)[1].splitlines()[-2:], ["unjoined 1", "fresh 2"])

    def test_what_carry_refuses(self) -> None:
        to = os.path.join(self.folder.name, "to")
        for text, says in ((design().replace("grid 4", "grid 5"), "its grid is another one"),
                           (design().replace("\n0 0 10 10", "\n0 0 10 20"), "its grid is another one"),
                           (design(("a", 0, 1, 1), ("a", 1, 1, 1)), "two nets have one name")):
            status, out, err = tool("carry.py", self.old, self.routes, self.put("other", text), to)
            self.assertEqual((status, out, os.path.exists(to)), (3, "", False))
            self.assertIn(says, err)
        status, _, err = tool("carry.py", self.new, self.routes, self.new, to)
        self.assertEqual((status, "the design has no net moved with this id" in err), (3, True), err)
        self.assertEqual(tool("carry.py", self.old, self.routes, self.new, self.routes)[0], 3)

    def test_differ(self) -> None:
        """Of a capacity of 4, nets take 6 before and 8 after; the one that is gone counts as the least wide."""
        self.assertEqual(tool("differ.py", self.new, self.routes, self.after), (0, HEAD + (
            "new       1           0      1     0      0         0      4\n"
            "gone      1           1      0     0      0         2      0\n"
            "same      1           2      2     0      0         2      4\n"
            "other     1           3      2     0      1         2      4\n"
            "all       4           6      5     0      1         2      4\n"
            "\nnew: fresh\n\ngone: gone\n\nother: moved 3 to 2\n"), ""))
        found = json.loads(tool("differ.py", self.new, self.routes, self.after, "--json")[1])
        self.assertEqual((found["version"], found["tool"], found["unjoined_nets"]), (1, "differ", 0))
        self.assertEqual(found["groups"]["other"]["sizes"], [
            {"id": 1, "name": "moved", "wirelength_edges_before": 3, "wirelength_edges_after": 2,
             "via_edges_before": 0, "via_edges_after": 1}])
        self.assertEqual(found["groups"]["gone"]["names"], ["gone"])
        self.assertEqual(found["all"]["after"], {"wirelength_edges": 5, "via_edges": 1, "overflow_units": 4})

    def test_what_differ_tells(self) -> None:
        """Nets that are left unjoined are told; a net of no record after is another one."""
        status, out, err = tool("differ.py", self.new, self.routes, self.put("less", "kept 0\n(5,5,1)-(25,5,1)\n!\n"),
                                "--worst", "0")
        self.assertEqual((status, err), (1, "differ: 2 nets unjoined: moved, fresh\n"))
        self.assertIn("other     1           3      0", out)
        for text, says in (("alien 9\n!\n", "the design has no net alien"), ("kept 0\n!\nkept 0\n!\n", "told apart"),
                           ("kept 0\n(5,5,1)-(95,5,1)\n!\n", "of the net kept: ")):
            status, out, err = tool("differ.py", self.new, self.routes, self.put("bad", text))
            self.assertEqual((status, out), (3, ""))
            self.assertIn(says, err)

    def test_a_chip(self) -> None:
        """The groups of a chip have its totals together."""
        with open(os.path.join(self.folder.name, "chip"), "wb") as file:
            file.write(run_bytes("xz", "-dc", f"{ROOT}/examples/grom_osu035.ispd.xz"))
        paths = []
        for rounds in "02":
            out = run(program(), "route", file.name, f"{ROOT}/examples/osu035.library", rounds)
            paths.append((self.put(f"routes{rounds}", out[1]), dict(line.split() for line in out[2].splitlines()[:5])))
        found = json.loads(tool("differ.py", file.name, paths[0][0], paths[1][0], "--json")[1])
        for side, (_, report) in zip(("before", "after"), paths):
            for word, key in (("wirelength", "wirelength_edges"), ("vias", "via_edges"),
                              ("overflow", "overflow_units")):
                self.assertEqual(found["all"][side][key], int(report[word]))
        self.assertEqual(sum(group["nets"] for group in found["groups"].values()), 1999)
        again = json.loads(tool("differ.py", file.name, paths[0][0], paths[0][0], "--json")[1])
        self.assertEqual(again["groups"]["same"]["nets"], 1999)

    def test_a_changed_chip(self) -> None:
        """Of a chip of which a net goes and a pin moves, most nets are kept, and no other goes another way."""
        chip = run_bytes("xz", "-dc", f"{ROOT}/examples/grom_osu035.ispd.xz").decode()
        old, library = self.put("chip", chip), f"{ROOT}/examples/osu035.library"
        lines = chip.splitlines()
        first = next(at for at, line in enumerate(lines) if line.startswith("num net"))
        pins = int(lines[first + 1].split()[2])
        lines[first] = f"num net {int(lines[first].split()[2]) - 1}"
        del lines[first + 1:first + 2 + pins]           # the first net
        x, y, layer = lines[first + 2].split()
        lines[first + 2] = f"{int(x) + 8000} {y} {layer}"     # a pin of the second
        new = self.put("changed", "".join(f"{line}\n" for line in lines))
        routes = self.put("before", run(program(), "route", old, library, "2")[1])
        given = os.path.join(self.folder.name, "given")
        self.assertEqual(tool("carry.py", old, routes, new, given)[1], "carried 1998\ngone 1\nnew 0\n")
        _, out, report = run(program(), "route", new, library, "8", "--from", given, "--stop", "0")
        kept = int(report.splitlines()[5].removeprefix("kept "))
        self.assertEqual(kept, 1997)
        groups = json.loads(tool("differ.py", new, routes, self.put("after", out), "--json")[1])["groups"]
        self.assertGreater(groups["same"]["nets"], 1970)
        self.assertEqual((groups["gone"]["nets"], groups["new"]["nets"]), (1, 0))


def run_bytes(*words: str) -> bytes:
    """What a program writes."""
    return subprocess.run(words, capture_output=True, check=True).stdout
