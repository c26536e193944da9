"""Tests of routes that leave nets unjoined, and of reports of other routes: every tool that takes a solution tells."""
import os
import random
import re

from groute.texts.designs import Netlist
from groute.texts.pins import lines
from groute.texts.tokens import Tokens
from testing import PICTURES, InFolder, program, run
from chips import STA, OnChip, placed
from test_answers import random_designs
from test_bad_inputs import in_process
from test_insertion import CELLS, NETS, PORTS

LAYERS = "names 2\nunits 1\norigin 0 0\ntile 10 10\n%s"


class Damaged(InFolder):
    """Random designs whose routes have lost segments or nets."""

    def damaged(self, rng: random.Random, solution: str) -> str:
        """Routes of which some are gone, or have a segment less."""
        records = solution.split("!\n")[:-1]
        for _ in range(rng.randrange(4)):
            at = rng.randrange(len(records))
            name, *segments = records[at].splitlines(keepends=True)
            if segments and rng.randrange(3):
                del segments[rng.randrange(len(segments))]
                records[at] = "".join([name, *segments])
            elif len(records) > 1:
                del records[at]
        return "".join(f"{record}!\n" for record in records)

    def pins(self, design: str) -> str:
        """The path of a text that gives each pin of a design a cell of its own."""
        read = Netlist(Tokens(design))
        nets = ((id_, [(f"c{id_}_{at}", "A", "-") for at in range(len(read.pins(id_)))]) for id_ in read.ids)
        return self.put("pins", "".join(f"{line}\n" for line in lines("made", nets)))

    def test_all_tools(self) -> None:
        """What `evaluate` calls unjoined is counted, named, and ends with status 1; overflow alone with 0."""
        rng = random.Random(4)
        seen = {0: 0, 1: 0}
        for seed, text in random_designs(25):
            layers = int(text.split()[3])
            design, library = self.put("design", text), self.put("library", "library 1\n" + "".join(
                f"wire {at + 1} 9 9\n" for at in range(layers)) + "via 1 1\ndriver 9\nsink 9 0\nend\n")
            names = self.put("names", LAYERS % "".join(f"layer {at + 1} m{at + 1}\n" for at in range(layers)))
            _, out, report = run(program(), "route", design, library, "0")
            solution = self.put("solution", self.damaged(rng, out))
            lines = run(program(), "evaluate", design, solution)[1].splitlines()
            ids = [line.rsplit(" ", 1)[0] for line in lines[6:]]
            told = "\n".join(lines[:5] + report.splitlines()[5:]) + "\n"
            count = int(lines[5].split()[1])
            says = f"{count} net{'s' * (count > 1)} unjoined"
            seen[count > 0] += 1
            output = os.path.join(self.folder.name, "out")
            calls = [("congestion", [design, solution]), ("guides", [design, solution, output, "--names", names]),
                     ("differ", [design, solution, solution]),
                     ("spef", [design, library, solution, "-o", output, "--pins", self.pins(design)])]
            if PICTURES:
                calls += [("hotspots", [design, solution]),
                          ("slowest", [design, library, solution, self.put("told", told)]),
                          ("report", [design, solution, "-o", output])]
            for name, words in calls:
                with self.subTest(seed=seed, tool=name):
                    status, out, err = in_process(name, words)
                    if name == "slowest" and "no net is told of" in err:
                        continue
                    self.assertEqual((status, err.split(":")[:2] if err else []),
                                     (1, [name, f" {says}"]) if count else (0, []), err)
                    if count:
                        self.assertEqual(err.strip().split(": ")[2].removesuffix(", ..").split(", "), ids[:5])
                    first = {"report": says, "guides": "", "spef": ""}.get(name, f"unjoined {count}\n")
                    self.assertEqual(out.startswith(first), bool(count) or not first, out)
        self.assertGreater(min(seen.values()), 4)


class OtherRoutes(InFolder):
    """A report that is of other routes is refused."""

    def test_refused(self) -> None:
        design = self.put("design", run(program(), "make", "2", "12", "12", "2", "80")[1])
        library = self.put("library", "library 1\nwire 1 9 9\nwire 2 9 9\nvia 1 1\ndriver 9\nsink 9 0\nend\n")
        _, out, report = run(program(), "route", design, library, "0")
        solution, told = self.put("solution", out), self.put("report", report)
        _, out, report = run(program(), "route", design, library, "9")
        other = self.put("other", report)
        self.assertNotEqual(report.splitlines()[1:5], open(told, encoding="ascii").read().splitlines()[1:5])
        buffers = self.put("buffers", run(program(), "buffer", design, library, solution)[1])
        picture, page = (os.path.join(self.folder.name, name) for name in ("a.png", "a.html"))
        calls = [("slowest", [design, library, solution, "REPORT"]),
                 ("congestion", [design, solution, "-o", picture, "--buffers", "REPORT"]),
                 ("report", [design, solution, library, "REPORT", "-o", page])]
        for name, words in calls if PICTURES else []:
            for path, wanted in ((told, 0), (buffers, 0), (other, 3)):
                status, _, err = in_process(name, [path if word == "REPORT" else word for word in words])
                self.assertEqual(status, wanted, err)
                if wanted:
                    self.assertRegex(err, rf"^{name}: {re.escape(other)}: it is of other routes: it tells \w+ [0-9,]+, "
                                          r"the solution has [0-9,]+\n$")


class NamesBeside(InFolder):
    """The text DESIGN.names beside a design is read by each tool that speaks of layers."""

    def test_read(self) -> None:
        design = self.put("design", run(program(), "make", "2", "12", "12", "2", "80")[1])
        library = self.put("library", "library 1\nwire 1 9 9\nwire 2 9 9\nvia 1 1\ndriver 9\nsink 9 0\nend\n")
        _, out, report = run(program(), "route", design, library, "0")
        solution, told = self.put("solution", out), self.put("report", report)
        table, page = (os.path.join(self.folder.name, name) for name in ("a.csv", "a.html"))
        calls = [["adjust", design, "--layer", "upper", "0.5"],
                 ["congestion", design, solution, "-o", table, "--layer", "upper"]]
        if not PICTURES:
            calls = calls[1:]
        else:
            calls += [["hotspots", design, solution], ["slowest", design, library, solution, told],
                      ["report", design, solution, "-o", page]]
        names = LAYERS % "layer 1 lower\nlayer 2 upper\n"
        for words in calls:
            without = in_process(words[0], words[1:])
            self.assertEqual(without[0], 3 if "upper" in words else 0, without)
            beside = self.put("design.names", names.replace("units 1", "units 1000"))
            found = in_process(words[0], words[1:])
            self.assertEqual(found[::2], (0, ""))
            os.rename(beside, f"{beside}.elsewhere")
            self.assertEqual(in_process(words[0], [*words[1:], "--names", f"{beside}.elsewhere"]), found)
            if "upper" not in words and words[0] != "report":
                self.assertIn("microns", found[1])
                self.assertNotIn("microns", without[1])
        self.put("design.names", LAYERS % "layer 1 lower\n")
        for words in calls:
            self.assertEqual(in_process(words[0], words[1:])[0], 3, words)


class Empty(OnChip):
    """Routes without a record: each tool that takes them tells how many nets are unjoined, first and by its status."""

    def test_all_tools(self) -> None:
        self.design(placed(8, 4, CELLS, PORTS, NETS))
        for kind in ("solution", "report"):
            os.rename(self.path(f"a.{kind}"), self.path(f"b.{kind}"))
        solution = self.put("a.solution", "")
        design, library, a_def, netlist, spef = (self.path(f"a.{kind}") for kind in (
            "ispd", "library", "def", "v", "spef"))
        report = self.put("a.report", "".join(f"{word} 0\n" for word in (
            f"routed {len(NETS)}\noverflow", "maximum", "wirelength", "vias", "buffers"))
            + "net in 0 required -9 buffers 0\n")
        cells, out = ["--lef", self.lef, "--liberty", self.lib], self.path("out")
        calls = [["spef", design, library, solution, "-o", spef, "--scale", "100"], ["congestion", design, solution],
                 ["congestion", design, solution, "-o", f"{out}.csv"], ["guides", design, solution, out],
                 ["differ", design, self.path("b.solution"), solution], ["differ", design, solution, solution],
                 ["insert", a_def, design, solution, report, "-o", out, *cells]]
        if STA:
            calls.append(["required", design, library, solution, netlist, spef, *cells[2:], "--period", "1", "-o", out,
                          "--library", f"{out}.library"])
        if PICTURES:
            calls += [["hotspots", design, solution], ["report", design, solution, "-o", out],
                      ["report", design, solution, library, report, "-o", out],
                      ["slowest", design, library, solution, report],
                      ["congestion", design, solution, "-o", f"{out}.png", "--buffers", report]]
        count = int(run(program(), "evaluate", design, solution)[1].split()[11])
        self.assertEqual(count, len(NETS))
        says = f"{count} nets unjoined"
        for name, *words in calls:
            with self.subTest(tool=name, words=words):
                status, printed, err = in_process(name, words)
                self.assertEqual((status, err.splitlines()[-1:]),
                                 (1, [f"{name}: {says}: in, two, branch, series, ck, .."]), err)
                first = {"spef": "", "guides": "", "report": says}.get(name, f"unjoined {count}\n")
                self.assertTrue(printed.startswith(first), printed)
