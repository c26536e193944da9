"""Tests of what tools do with bad words and texts: a line that says why, and nothing left."""
import bz2
import gzip
import importlib.util
import io
import lzma
import os
import random
import re
import shlex
import signal
import subprocess
import sys
import time
import unittest
from types import FrameType
from unittest import mock

from groute import frame, start
from groute.texts.figures import read_figures
from groute.texts.files import MOST_LETTERS, Fault
from chips import STA, OnChip, placed
from test_insertion import CELLS, NETS, PORTS, REPORT, SOLUTION
from testing import BOUNDS, PICTURES, ROOT, TOOLS, InFolder, program, run, tool

SMALL = [f"{ROOT}/examples/small.{kind}" for kind in ("ispd", "library", "solution")]
SKY = [f"{ROOT}/examples/sky/{name}" for name in ("adder.def", "tech.lef", "cells.lef", "cells.lib")]
INPUTS = 1000
MOST_SECONDS = 10       # of one input
DIGITS = "9" * 5000
GRID = "grid 1000000000 1000000000 2\n"
# What comes into texts: words, and what stands in numbers' places.
WORDS = ["", "x", "-1", "0", DIGITS, "1e9", "1.5", "\x1b[31m", "\udcff", "(", ")", "!", "END", ";", '"', "nan", "{",
         "}"]


class Hang(Exception):
    """That an input takes too long."""


def in_process(name: str, words: list[str]) -> tuple[int, str, str]:
    """What a tool does with words, in this process."""
    def ring(number: int, _: FrameType | None) -> None:
        raise Hang(f"{name} {words}")
    written = io.BytesIO(), io.BytesIO()
    out, err = (io.TextIOWrapper(each, errors="surrogateescape") for each in written)
    before = signal.signal(signal.SIGALRM, ring)
    signal.alarm(MOST_SECONDS)
    try:
        # Without numpy a tool would run itself again.
        with mock.patch.multiple(sys, stdout=out, stderr=err), mock.patch.object(start, "is_again", True):
            try:
                status = frame.done(name, words)
            except SystemExit as ended:
                status = ended.code if isinstance(ended.code, int) else -1
    finally:
        signal.alarm(0)
        signal.signal(signal.SIGALRM, before)
    out.flush()
    err.flush()
    texts = [each.getvalue().decode(errors="surrogateescape") for each in written]
    return status, texts[0], texts[1]


def runs_on(process: int) -> bool:
    """Whether a process still runs a moment later: one that has ended may wait for its parent to look."""
    for _ in range(50):
        try:
            with open(f"/proc/{process}/stat", encoding="ascii", errors="replace") as file:
                state = file.read().rpartition(")")[2].split()[0]
        except OSError:
            return False
        if state in "ZX":
            return False
        time.sleep(0.1)
    return True


def interrupted(child: "subprocess.Popen[bytes]", number: int) -> tuple[bytes, bytes]:
    """What a process writes until it ends by a signal, which comes again where it came just before a read."""
    for _ in range(15):
        child.send_signal(number)
        try:
            return child.communicate(timeout=2)
        except subprocess.TimeoutExpired:
            continue
    return child.communicate(timeout=1)


def heed_signals(case: unittest.TestCase) -> None:
    """Children heed those that ask for the end, though this process may have been started in the background."""
    case.addCleanup(signal.signal, signal.SIGINT, signal.signal(signal.SIGINT, signal.default_int_handler))
    case.addCleanup(signal.signal, signal.SIGHUP, signal.signal(signal.SIGHUP, signal.SIG_DFL))


class Drawn(OnChip):
    """Inputs that are drawn."""

    def setUp(self) -> None:
        OnChip.setUp(self)
        os.mkdir(self.path("out"))

    def calls(self) -> list[tuple[str, list[str]]]:
        """Of each tool, its words; the files among them are its inputs, of which one is changed."""
        path = self.path("out")
        out, err = run(program(), "route", *SMALL[:2], "1")[1:]
        solution, report = self.put("base.solution", out), self.put("base.report", err)
        names = self.put("base.names", "names 2\nunits 100\norigin 0 0\ntile 10 10\nlayer 1 m1\nlayer 2 m2\n"
                                       "net 0 use 1 clock\n")
        panels = self.put("base.panels", run(program(), "panels", SMALL[0], solution)[1])
        guide = self.put("base.guide", "a\n(\n0 0 10 10 m1\n0 0 30 20 m2\n)\n")
        return [
            ("adjust", [SMALL[0], "--layer", "1", "0.5", "-o", f"{path}/a"]),
            ("congestion", [SMALL[0], solution, "--tracks", panels]),
            ("congestion", [SMALL[0], solution, "-o", f"{path}/c.csv"]),
            ("hotspots", [SMALL[0], solution, "--csv", f"{path}/h", "--klayout", f"{path}/k", "--names", names]),
            ("slowest", [SMALL[0], SMALL[1], solution, report]),
            ("report", [SMALL[0], solution, SMALL[1], report, "-o", f"{path}/r"]),
            ("guides", [SMALL[0], solution, f"{path}/g", "--names", names]),
            ("to_solution", [SMALL[0], guide, f"{path}/t", "--names", names]),
            ("where", [SMALL[0], "3"]),
            ("liberty", [SKY[3]]),
            ("def_to_ispd", [*SKY[:2], f"{path}/d", f"{path}/l", "--lef", SKY[2], "--liberty", SKY[3], "--layers",
                             "met1-met5"]),
            ("carry", [SMALL[0], solution, SMALL[0], f"{path}/s"]),
            ("differ", [SMALL[0], solution, solution]),
        ]

    def calls_of_timing(self) -> list[tuple[str, list[str]]]:
        """The same of the tools of timing, on a small chip."""
        self.design(placed(8, 4, CELLS, PORTS, NETS))
        self.spef()
        out, (a_def, design, library, netlist, parasitics) = self.path("out"), (
            self.path(f"a.{kind}") for kind in ("def", "ispd", "library", "v", "spef"))
        solution, report = self.put("b.solution", SOLUTION), self.put("b.report", REPORT)
        slacks = self.put("slacks", "slacks 1\nslack 1 -5000\nslack 3 -5000\nfree 5\nclock 4\nend\n")
        sdc = self.put("sdc", "create_clock -name c -period 2 [get_ports ck]\n")
        cells, liberty = ["--lef", self.lef], ["--liberty", self.lib]
        beside = ["--pins", f"{design}.pins", "--names", f"{design}.names"]
        constraints = ["--period", "2"], ["--sdc", sdc]
        return [
            ("netlist", [a_def, *cells, *liberty, "-o", f"{out}/v"]),
            ("spef", [design, library, self.path("a.solution"), "-o", f"{out}/s", "--verilog", netlist, *beside[:2]]),
            ("insert", [a_def, design, solution, report, "-o", f"{out}/d", *cells, *liberty, "--verilog", netlist,
                        f"{out}/v", "--eco", f"{out}/e", *beside]),
            ("insert", [a_def, design, solution, report, "-o", f"{out}/d", *cells, *liberty, *beside, "--slack", slacks,
                        "--below", "3", "--keep", self.put("keep", "pair\n")]),
            *(("required", [design, library, self.path("a.solution"), netlist, parasitics, *liberty, *words, *beside,
                            "-o", f"{out}/t", "--library", f"{out}/l", "--figures", f"{out}/f"])
              for words in constraints),
        ]

    def changed(self, rng: random.Random, path: str) -> str:
        """A copy of a text with something wrong in it."""
        with open(path, "rb") as file:
            data = file.read()
        kind = rng.randrange(10)
        if kind == 0:
            data = rng.choice([b"", b"\0", b"\xff\xfe" + data, b"\xef\xbb\xbf" + data, data.decode().encode("utf-16")])
        elif kind == 1:
            packed = gzip.compress(data) if rng.randrange(2) else lzma.compress(data)
            data = packed[:rng.randrange(len(packed) + 1)]
        elif kind == 2:
            data = data[:rng.randrange(len(data) + 1)]
        elif kind == 3:
            at = rng.randrange(len(data) + 1)
            data = data[:at] + bytes(rng.randrange(256) for _ in range(rng.randrange(1, 9))) + data[at:]
        else:
            words = data.decode().split(" ")
            for _ in range(rng.randrange(1, 4)):
                at = rng.randrange(len(words))
                words[at] = rng.choice([*WORDS, rng.choice(words), words[at] + "\n" + words[at]])
            data = " ".join(words).encode("utf-8", "surrogateescape")
        copy = self.path("changed")
        with open(copy, "wb") as file:
            file.write(data)
        return copy

    def in_folder_of_its_own(self) -> str:
        """Goes to a folder, in which a word that was drawn for an output's name may be written."""
        folder, before = self.path("here"), os.getcwd()
        os.mkdir(folder)
        os.chdir(folder)
        self.addCleanup(os.chdir, before)
        return folder

    def draw(self, calls: list[tuple[str, list[str]]], seed: int) -> None:
        """Whatever comes, a tool ends soon with a status of its own, in lines that can be shown; one that fails leaves
        no file."""
        rng = random.Random(seed)
        folders = [self.folder.name, self.path("out"), self.in_folder_of_its_own()]
        self.changed(rng, SMALL[0])
        before = sorted(os.listdir(self.folder.name))
        begun = time.monotonic()
        for number in range(INPUTS):
            name, words = calls[number % len(calls)]
            given = list(words)
            at = rng.choice([at for at, word in enumerate(words) if os.path.isfile(word)])
            given[at] = self.changed(rng, words[at])
            if rng.randrange(8) == 0:
                given[rng.randrange(len(given))] = rng.choice([word for word in WORDS if "\0" not in word])
            status, _, err = in_process(name, given)
            self.assertIn(status, (0, 1, 2, 3), (name, given))
            self.assertNotIn("an error of this tool", err, (name, given))
            self.assertNotIn("Traceback", err)
            if status == 3:
                self.assertNotEqual(err, "", (name, given))
            for line in err.splitlines():
                self.assertLessEqual(len(line), MOST_LETTERS, (name, line))
            left = [os.path.join(folder, file) for folder in folders[1:] for file in os.listdir(folder)]
            self.assertEqual([path for path in left if status not in (0, 1) or path.endswith(".part")], [], given)
            for path in left:
                os.unlink(path)
            self.assertEqual(sorted(os.listdir(self.folder.name)), before)
        self.assertLess(time.monotonic() - begun, 60 if os.getloadavg()[0] < (os.cpu_count() or 1) else 240)

    def test_tools(self) -> None:
        self.draw(self.calls(), 75)

    def test_tools_of_timing(self) -> None:
        self.draw(self.calls_of_timing(), 73)


def ordered(name: str, words: list[str], options: list[str], paths: list[str]) -> list[str]:
    """The words of a call, with those for what it writes, where they are due."""
    written = [word for pair in zip(options, paths) for word in pair if word]
    firsts = 2 if name == "def_to_ispd" else len(words)
    return [*words[:firsts], *written, *words[firsts:]]


class Written(OnChip):
    """Outputs that are inputs, or the same file."""

    def calls(self) -> list[tuple[str, list[str], list[str], list[str]]]:
        """Of each tool that writes: words, the words for what it writes, and what it reads beside."""
        self.design(placed(8, 4, CELLS, PORTS, NETS))
        self.spef()
        a_def, design, library, solution, report, netlist, spef = (self.path(f"a.{kind}") for kind in (
            "def", "ispd", "library", "solution", "report", "v", "spef"))
        slacks = self.put("slacks", "slacks 1\nslack 1 -5000\nend\n")
        cells, liberty, beside = ["--lef", self.lef], ["--liberty", self.lib], [f"{design}.names", f"{design}.pins"]
        guide, names = self.put("guide", "in\n(\n)\n"), self.put("more.names", self.text("a.ispd.names"))
        found: list[tuple[str, list[str], list[str], list[str]]] = [
            ("netlist", [a_def, *cells, *liberty], ["-o"], []),
            ("spef", [design, library, solution, "--verilog", netlist], ["-o"], beside),
            ("insert", [a_def, design, solution, report, *cells, *liberty, "--slack", slacks], ["-o", "--eco"], beside),
            ("guides", [design, solution, "--names", names], [""], []),
            ("guides", [design, solution], [""], beside[:1]),
            ("to_solution", [design, guide], [""], beside[:1]),
            ("carry", [design, solution, design], [""], []),
            ("congestion", [design, solution], ["-o"], []),
            ("def_to_ispd", [a_def, self.lef, *liberty], ["", ""], [])]
        if PICTURES:
            found += [("adjust", [design, "--layer", "all", "0.5"], ["-o"], beside[:1]),
                      ("hotspots", [design, solution], ["--csv", "--klayout", "--openroad"], beside[:1]),
                      ("report", [design, solution, library, report, "--slack", slacks], ["-o"], beside[:1])]
        if STA:
            found.append(("required", [design, library, solution, netlist, spef, *liberty, "--period", "1"],
                          ["-o", "--library", "--figures"], beside))
        return found

    def test_libraries(self) -> None:
        """What is wrong in a library is told with its line by each tool that reads one."""
        calls = [call for call in self.calls() if self.path("a.library") in call[1]]
        self.assertEqual({name for name, *_ in calls}, {"spef"} | ({"required"} if STA else set())
                         | ({"report"} if PICTURES else set()))
        lines = self.text("a.library").splitlines()
        at = {line.split()[0]: number for number, line in enumerate(lines)}
        for word, new, says in (("wire", None, "before it wire 2 is due: end"), ("via", None, "before it via is due"),
                                ("wire", "wire 2 x 5", "a whole number is due: x"),
                                ("wire", "wire 2 -1 5", "a number from 0 to 1000000 is due: -1"),
                                ("wire", "wire 1 1 5", "a second wire 1 ends here"),
                                ("driver", "driver 1.5", "a whole number is due: 1.5"),
                                ("sink", "sink 1 9999999999999999", "to 1125899906842624 is due: 9999999999999999"),
                                ("sink", "sink 1 1 2", "an item of a library is due: 2"),
                                ("kind", "kind B 1 2 -3", "a number from 0 to 1125899906842624 is due: -3")):
            changed = [*lines]
            changed[at[word]:at[word] + 1] = [new] if new else []
            self.put("a.library", "".join(f"{line}\n" for line in changed))
            line = at[word] + 1 if new else len(changed)
            for name, words, options, _ in calls:
                if new or name != "report":     # which wants kinds alone
                    written = [word for at, option in enumerate(options) for word in (option, self.path(f"new{at}"))]
                    status, _, err = in_process(name, [*words, *written])
                    self.assertEqual(status, 3, err)
                    self.assertIn(f"{name}: {self.path('a.library')}:{line}: token ", err)
                    self.assertIn(says, err)

    def test_packed(self) -> None:
        """A packed text is told as one by each tool that reads it."""
        calls = self.calls()
        calls.append(("insert", [*calls[2][1], "--keep", self.put("keep", "in\n")], ["-o", "--eco"], []))
        if PICTURES:
            routes = [self.path("a.ispd"), self.path("a.solution")]
            calls.append(("report", [*routes, "--bound", self.put("bounds", BOUNDS)], ["-o"], []))
        for kind in ("names", "pins"):
            self.put(f"packed.{kind}", self.text(f"a.ispd.{kind}"))
        for name, words, options, _ in calls:
            for at, path in enumerate(words):
                if not os.path.isfile(path):
                    continue
                with open(path, "rb") as file, open(self.path("packed"), "wb") as packed:
                    packed.write(bz2.compress(file.read()))
                given = [*words[:at], self.path("packed"), *words[at + 1:]]
                written = [self.path(f"new{number}.csv") for number in range(len(options))]
                status, _, err = in_process(name, ordered(name, given, options, written))
                self.assertEqual((status, f"{name}: {self.path('packed')}: it is compressed by bzip2" in err),
                                 (3, True), (name, path, err))

    def test_places(self) -> None:
        """What is wrong in routes, or of a buffer in a report, is told with its line by each tool that reads it."""
        calls, routes = self.calls(), [self.path("a.ispd"), self.path("a.solution")]
        calls.append(("differ", [*routes, routes[1]], [], []))
        if PICTURES:
            calls.append(("congestion", [*routes, "--buffers", self.path("a.report")], ["-o"], []))
        given = {"a.solution": self.text("a.solution"), "a.report": REPORT[REPORT.index("buffers"):]}
        at = given["a.solution"].splitlines().index(next(re.finditer(r"(?m)^\(.*", given["a.solution"])).group())
        changes = [("a.solution", at, "(500,500,1)-(x,500,1)", "has not the form of a segment"),
                   ("a.solution", at, "(500,500,1)-(99999,500,1)", "(99999,500,1) lies outside the chip"),
                   ("a.solution", at, "(500,500,1)-(1500,1500,1)", "is not straight"),
                   ("a.report", 2, "(x,500,1) BUF", "(x,500,1) is no place of a buffer"),
                   ("a.report", 2, "(3500,500,9) BUF", "(3500,500,9) lies outside the chip")]
        for changed, line, new, says in changes:
            for name, text in given.items():
                lines = text.splitlines()
                lines[line] = new if name == changed else lines[line]
                self.put(name, "".join(f"{some}\n" for some in lines))
            for name, words, options, _ in calls:
                if self.path(changed) not in words or name == "carry":
                    continue
                written = [self.path(f"new{at}.png") for at in range(len(options))]
                status, _, err = in_process(name, ordered(name, words, options, written))
                self.assertEqual(status, 3, err)
                self.assertRegex(err, rf"{name}: .*{changed}:{line + 1}: token [0-9]+: .*{re.escape(says)}\n")

    def test_signals(self) -> None:
        """A signal that comes while files are written ends a tool by it, and leaves what was there."""
        heed_signals(self)
        calls = self.calls()
        pipe, out = self.path("pipe"), self.put("out", "before")
        os.mkfifo(pipe)
        before = sorted(os.listdir(self.folder.name))
        for number in (signal.SIGINT, signal.SIGTERM, signal.SIGHUP):
            for name, words, options, _ in calls:
                written = [out, *(f"{out}{at}" for at in range(len(options) - 2)), pipe][:len(options)]
                solution = self.path("a.solution")
                if len(options) == 1 and name in ("guides", "spef"):
                    words = [pipe if word == solution else word for word in words]
                elif len(options) == 1:
                    continue
                called = [f"{TOOLS}/{name}.py", *ordered(name, words, options, written)]
                child = subprocess.Popen([sys.executable, *called],
                                         stdout=subprocess.PIPE, stderr=subprocess.PIPE)
                while not any(file.endswith(".part") for file in os.listdir(self.folder.name)) and child.poll() is None:
                    time.sleep(0.01)
                _, err = interrupted(child, number)
                self.assertEqual((child.returncode, b"Traceback" in err), (-number, False), (name, err))
                self.assertEqual((sorted(os.listdir(self.folder.name)), self.text("out")), (before, "before"), name)

    def test_inputs(self) -> None:
        """An output that is read, in whatever way it is called, is refused, and so are two of one name."""
        calls = self.calls()
        os.symlink(self.folder.name, self.path("link"))
        before = {name: self.text(name) for name in os.listdir(self.folder.name) if name != "link"}
        for name, words, options, beside in calls:
            read = sorted({word for word in words if os.path.isfile(word)} | set(beside))
            for number in range(len(options)):
                paths = [self.path(f"new{at}") for at in range(len(options))]
                for path in [*read, os.path.join(self.path("link"), os.path.basename(read[0]))]:
                    if name == "congestion":
                        os.symlink(path, self.path("link.csv"))
                        path = self.path("link.csv")
                    paths[number] = path
                    self.refused(name, words, options, paths, "would be written over")
                    if name == "congestion":
                        os.unlink(path)
            if len(options) > 1:
                paths = [self.path("new")] * (len(options) - 1) + [self.path("./new")]
                self.refused(name, words, options, paths, "new would be written twice")
        self.refused("def_to_ispd", calls[8][1], ["", ""], [self.path("new"), self.path("new.pins")], "written twice")
        self.assertEqual({name: self.text(name) for name in os.listdir(self.folder.name) if name != "link"}, before)

    def refused(self, name: str, words: list[str], options: list[str], paths: list[str], says: str) -> None:
        """That a tool refuses what it should write."""
        with self.subTest(tool=name, paths=paths):
            status, _, err = in_process(name, ordered(name, words, options, paths))
            self.assertEqual(status, 3, err)
            self.assertIn(says, err)


class BadInputs(InFolder):
    """Inputs that were once found."""

    def assert_told(self, found: tuple[int, str, str], *says: str) -> None:
        """That a tool ended with a fault's line that says this."""
        status, _, err = found
        self.assertEqual(status, 3, err)
        self.assertEqual(len(err.splitlines()), 1, err)
        self.assertLessEqual(len(err), MOST_LETTERS + 1)
        self.assertTrue(err.rstrip("\n").isprintable(), err)
        for word in says:
            self.assertIn(word, err)

    def test_numbers(self) -> None:
        for name, texts in (("congestion", [f"grid {DIGITS} 2 1"]), ("adjust", ["grid 3 3 2\nvertical capacity 0 x"]),
                            ("congestion", [GRID]), ("guides", [GRID]), ("hotspots", [GRID])):
            design = self.put("design", texts[0])
            self.put("design.names", "units 1\norigin 0 0\ntile 1 1\nlayer 1 a\nlayer 2 b\n")
            words = [design] if name == "adjust" else [design, SMALL[2]]
            begun = time.monotonic()
            self.assert_told(tool(f"{name}.py", *words, *(["out"] if name == "guides" else [])), f"{design}:", "token")
            self.assertLess(time.monotonic() - begun, 20)
        figures = self.put("figures", "figures 1\npath -1 -3 0\nend\n")
        self.assertRaisesRegex(Fault, f"{figures}:2: token 5: how many nets", read_figures, figures)
        report = self.put("report", "buffers 0\nnet a 0 required soon buffers 0\n")
        if importlib.util.find_spec("numpy"):
            self.assert_told(tool("slowest.py", *SMALL[:2], SMALL[2], report), f"{report}:2:", "net NAME ID required")

    def made(self, *words: str, placed: str = SKY[0], lib: str | None = None) -> tuple[int, str, str]:
        """What def_to_ispd.py did, with what it tells of skipped statements left out."""
        status, out, err = tool("def_to_ispd.py", placed, SKY[1], os.path.join(self.folder.name, "made"),
                                os.path.join(self.folder.name, "library"), "--lef", SKY[2], "--layers", "met1-met5",
                                *(["--liberty", lib] if lib else []), *words)
        said = ("is skipped\n", "isn't placed\n", "TRACKS Y, and so no room for wires\n", "in a place\n")
        err = "".join(line for line in err.splitlines(keepends=True) if not line.endswith(said))
        return status, out, err

    def test_kinds(self) -> None:
        self.assertEqual(self.made("--kind", "B", "1.5", "912", "191012")[0], 0)
        for words, says in ((("-1", "912", "1"), "the load of --kind B is -1"), (("1", "x", "1"), "the resistance"),
                            (("1", "1", DIGITS), "the delay of --kind B")):
            self.assert_told(self.made("--kind", "B", *words), says)
        self.assert_told(self.made(*("--kind", "B", "1", "2", "3") * 2), "two kinds are called B")

    def test_units(self) -> None:
        with open(SKY[3], encoding="utf-8") as file:
            text = file.read()
        wanted = tool("liberty.py", SKY[3])[1]
        load = 'capacitive_load_unit(1.0000000000, "pf")'
        for old, new in (('"1ns"', '"ns"'), ('"1ns"', '"1.0e-9s"'), ('"1ns"', '"1000ps"'),
                         (load, "capacitive_load_unit (1e3,ff)"), (load, "capacitive_load_unit (1.0,pf)"),
                         (load, "capacitive_load_unit (1e-3,nf)")):
            self.assertIn(old, text)
            self.assertEqual(tool("liberty.py", self.put("lib", text.replace(old, new)))[:2], (0, wanted), new)
        # A thousandth of a load has the same delay by a thousand times the resistance.
        found = tool("liberty.py", self.put("lib", text.replace(load, "capacitive_load_unit (1e-3,pf)")))
        self.assertEqual(found[0], 0)
        ohms = [[int(line.split()[3]) for line in out.splitlines() if re.fullmatch(r"\S+ \S+ \S+ [0-9]+ .*", line)]
                for out in (wanted, found[1])]
        self.assertEqual(len(ohms[0]), len(ohms[1]))
        self.assertTrue(all(abs(1000 * one - other) <= 500 for one, other in zip(*ohms)))
        for new in ('""', '"1parsec"', '"0ns"', f'"{DIGITS}ns"'):
            path = self.put("lib", text.replace('"1ns"', new))
            self.assert_told(tool("liberty.py", path), f"{path}:", "time_unit")

    def test_packed(self) -> None:
        """DEF, LEF and liberty are read from .gz and .xz; what is cut or of UTF-16 is told, and so is what is packed
        elsewhere."""
        self.assertEqual(self.made(lib=SKY[3])[0], 0)
        with open(os.path.join(self.folder.name, "made"), "rb") as file:
            wanted = file.read()
        paths = []
        for at, path in enumerate(SKY):
            with open(path, "rb") as file:
                data = file.read()
            paths.append(os.path.join(self.folder.name, os.path.basename(path)))
            with open(paths[-1], "wb") as file:
                data = b"\xef\xbb\xbf" + data
                file.write(lzma.compress(data) if at % 2 else gzip.compress(data))
        made = os.path.join(self.folder.name, "packed")
        self.assertEqual(tool("def_to_ispd.py", *paths[:2], made, "--lef", paths[2], "--liberty", paths[3], "--layers",
                              "met1-met5")[0], 0)
        with open(made, "rb") as file:
            self.assertEqual(file.read(), wanted)
        with open(paths[0], "rb") as file:
            data = file.read()
        bad = os.path.join(self.folder.name, "bad")
        for text, says in ((data[:-100], "cut off or damaged"), ("VERSION 5.8 ;".encode("utf-16"), "UTF-16"),
                           (b"BZh9" + data, "bzip2"), (b"\x28\xb5\x2f\xfd", "zstd")):
            with open(bad, "wb") as file:
                file.write(text)
            self.assert_told(self.made(placed=bad), bad, says)
        self.assert_told(tool("congestion.py", paths[0], SMALL[2]), "compressed by gzip")

    def test_outputs(self) -> None:
        """What is read, or begins like a text of a chip, is never written over; what fails leaves what was there."""
        lef = self.put("copy.lef", f"# a comment\n\n{open(SKY[2], encoding='utf-8').read()}")
        with open(lef, encoding="utf-8") as file:
            text = file.read()
        status, _, err = tool("def_to_ispd.py", SKY[0], SKY[1], lef)
        self.assertEqual((status, "begins like LEF" in err), (3, True))
        design = self.put("design", open(SMALL[0], encoding="utf-8").read())
        if PICTURES:
            self.assert_told(tool("adjust.py", design, "-o", design), "is read, and would be written over")
        self.assert_told(tool("to_solution.py", design, SMALL[2], f"{self.folder.name}/none/a", "--names", self.put(
            "names", "units 1\norigin 0 0\ntile 1 1\nlayer 1 a\nlayer 2 b\n")))
        before = {name: open(os.path.join(self.folder.name, name), "rb").read() for name in ("copy.lef", "design")}
        # The library fails, so that neither design nor names are written.
        status, _, err = tool("def_to_ispd.py", SKY[0], SKY[1], os.path.join(self.folder.name, "new"),
                              os.path.join(self.folder.name, "lib"), "--lef", SKY[2], "--driver", "99999999")
        self.assertEqual(status, 3, err)
        self.assertEqual(sorted(os.listdir(self.folder.name)), ["copy.lef", "design", "names"])
        self.assertEqual(before["copy.lef"].decode(), text)
        self.assertEqual({name: open(os.path.join(self.folder.name, name), "rb").read() for name in before}, before)

    def test_no_net(self) -> None:
        with open(SKY[0], encoding="utf-8") as file:
            text = file.read()
        begin, end = text.index("\nNETS "), text.index("END NETS")
        placed = self.put("none.def", f"{text[:begin]}\nNETS 1 ;\n- alone ;\n{text[end:]}")
        self.assert_told(self.made(placed=placed), "no net of NETS has a pin")

    def test_full_device(self) -> None:
        for words in (["where.py", SMALL[0], "1"], ["congestion.py", SMALL[0], SMALL[2]], ["liberty.py", SKY[3]]):
            called = shlex.join([sys.executable, os.path.join(TOOLS, words[0]), *words[1:]])
            found = run("sh", "-c", f"{called} > /dev/full")
            self.assert_told(found, "No space left on device")

    def test_memory(self) -> None:
        called = shlex.join([sys.executable, os.path.join(TOOLS, "where.py"), "/dev/zero", "1"])
        self.assert_told(run("sh", "-c", f"ulimit -v 300000; exec {called}"), "where: there isn't enough memory")

    def test_closed_streams(self) -> None:
        """Where standard output is closed, what is written there is told; nothing else ends in another way."""
        answers = ["where.py", SMALL[0], "1"], ["congestion.py", *SMALL[::2]], ["congestion.py", "--help"]
        others = ["where.py"], ["carry.py", "/none", "b", "c", "d"], ["guides.py", *SMALL[::2], SKY[1], "/none/a"]
        in_words = ["in_words.py", program(), "evaluate", *SMALL[::2]]
        for words in (*answers, *others, in_words, ["netlist.py", SKY[0], "--lef", SKY[1], "--lef", SKY[2], "-o",
                                                    f"{self.folder.name}/v"]):
            called = shlex.join([sys.executable, os.path.join(TOOLS, words[0]), *words[1:]])
            status, out, err = run("sh", "-c", called)
            self.assertEqual(run("sh", "-c", f"{called} <&-"), (status, out, err))
            self.assertEqual(run("sh", "-c", f"{called} 2>&-"), (status, out, ""))
            wanted = 3 if words in answers else 7 if words is in_words else status
            for closed in (">&-", ">&- 2>&-", "<&- >&- 2>&-", ">/dev/full"):
                found = run("sh", "-c", f"{called} {closed}")
                self.assertEqual((found[:2]), (wanted, ""), (words, closed))
                if wanted == status:
                    self.assertEqual(found[2], "" if "2>" in closed else err)
                elif words in answers:
                    self.assertRegex(found[2], "^$" if "2>" in closed else
                                     r"^\w+: (Bad file descriptor|No space left on device)\n$")

    def test_signals(self) -> None:
        """An interrupt ends a tool by the signal, without a word, and leaves no part of a file."""
        heed_signals(self)
        pipe = os.path.join(self.folder.name, "pipe")
        os.mkfifo(pipe)
        for number in (signal.SIGINT, signal.SIGTERM):
            for words in (["congestion.py", pipe, SMALL[2]], ["def_to_ispd.py", pipe, SKY[1], f"{self.folder.name}/d"],
                          ["where.py", pipe, "1"], ["adjust.py", pipe, "-o", f"{self.folder.name}/a"]):
                child = subprocess.Popen([sys.executable, os.path.join(TOOLS, words[0]), *words[1:]],
                                         stdout=subprocess.PIPE, stderr=subprocess.PIPE)
                with open(pipe, "wb"):      # waits until the tool opens it
                    out, err = interrupted(child, number)
                self.assertEqual((child.returncode, out, err), (-number, b"", b""), words)
        self.assertEqual(os.listdir(self.folder.name), ["pipe"])

    def test_signals_at_start(self) -> None:
        """An interrupt is silent too while modules are read, here one that takes long."""
        heed_signals(self)
        seen = os.path.join(self.folder.name, "seen")
        self.put("argparse.py", f"import time\nopen({seen!r}, 'w').close()\ntime.sleep(60)\n")
        child = subprocess.Popen([sys.executable, f"{TOOLS}/where.py", SMALL[0], "1"], stdout=subprocess.PIPE,
                                 stderr=subprocess.PIPE, env={**os.environ, "PYTHONPATH": self.folder.name})
        while not os.path.exists(seen) and child.poll() is None:
            time.sleep(0.01)
        self.assertEqual((interrupted(child, signal.SIGINT), child.returncode), ((b"", b""), -signal.SIGINT))

    @unittest.skipUnless(os.path.exists("/usr/bin/sleep"), "sleep is not there")
    def test_signals_of_children(self) -> None:
        """What flow.py runs ends with it."""
        heed_signals(self)
        seen = os.path.join(self.folder.name, "seen")
        groute = self.put("groute", f"#!/bin/sh\n[ $# -gt 0 ] || exit 2\necho $$ > {seen}\nexec sleep 600\n")
        os.chmod(groute, 0o755)
        words = [SKY[0], "--lef", SKY[1], "--lef", SKY[2], "--layers", "met1-met5", "--program", groute]
        child = subprocess.Popen([sys.executable, os.path.join(TOOLS, "flow.py"), *words, "-o",
                                  f"{self.folder.name}/out"], stdout=subprocess.PIPE, stderr=subprocess.PIPE)
        for _ in range(600):
            if os.path.exists(seen) and os.path.getsize(seen):
                break
            time.sleep(0.1)
        with open(seen, encoding="ascii") as file:
            inner = int(file.read())
        child.send_signal(signal.SIGINT)
        child.communicate(timeout=30)
        self.assertEqual(child.returncode, -signal.SIGINT)
        self.assertFalse(runs_on(inner))
        self.assertEqual([name for name in os.listdir(f"{self.folder.name}/out") if name.endswith(".part")], [])
