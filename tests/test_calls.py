"""Tests of `import groute`: the programs, called from Python."""
import os
import shutil
import subprocess
import sys
import time
import unittest
from typing import Callable
from unittest import mock

import groute
from groute import calls
from testing import ROOT, TOOLS, InFolder, bounds, program, run, text_of

DESIGN, LIBRARY, SOLUTION = (f"{ROOT}/examples/small.{kind}" for kind in ("ispd", "library", "solution"))
OPEN = f"{ROOT}/examples/open.solution"


class Calls(InFolder):
    """What calls answer and raise."""

    def test_route(self) -> None:
        found = groute.route(DESIGN, LIBRARY, 3, workers=2, batch=5, rule="steep", program=program())
        self.assertEqual(found.report, groute.Report(1, 0, 0, 5, 2))
        self.assertEqual(found.solution, text_of("examples/small.solution").encode())
        self.assertEqual(found.nets, (groute.Net("a", 0, -158000, ()),))
        self.assertEqual((found.kept, found.rounds), (None, (groute.Round(0, 1, 0),)))
        crowd = [f"{ROOT}/examples/crowd.{kind}" for kind in ("ispd", "library")]
        first = groute.route(crowd[0], crowd[1], 0, program=program())
        begun = self.put("begun", first.solution.decode())
        found = groute.route(crowd[0], crowd[1], 1, given=begun, program=program())
        self.assertEqual((found.kept, found.rounds), (2, (groute.Round(4, 2, 0), groute.Round(0, 2, 0))))
        found = groute.route(DESIGN, LIBRARY, 3, stop="still", via_cost=7, program=program())
        self.assertEqual(found.report.wirelength, 17)

    def test_buffer(self) -> None:
        design, library, routes = (f"{ROOT}/examples/line.{kind}" for kind in ("ispd", "library", "solution"))
        status, out, _ = run(program(), "buffer", design, library, routes)
        nets = groute.buffer(design, library, routes, program=program())
        lines = out.splitlines()
        self.assertEqual((status, f"buffers {sum(len(net.buffers) for net in nets)}"), (0, lines[0]))
        told = [line for net in nets for line in (
            f"net {net.name} {net.id} required {net.required} buffers {len(net.buffers)}",
            *(f"({some.x},{some.y},{some.layer}) {some.kind}" for some in net.buffers))]
        self.assertEqual(told, lines[1:])
        with self.assertRaisesRegex(groute.SolutionFault, "is not a tree") as raised:
            groute.buffer(DESIGN, LIBRARY, OPEN, program=program())
        self.assertEqual((raised.exception.status, raised.exception.net, raised.exception.token), (5, 0, None))

    def test_no_legal_placement(self) -> None:
        lines = iter("buffers 0\nnet a 0 has no legal placement\nnet b 7 required 3 buffers 0\n".split("\n"))
        self.assertEqual(list(calls.nets_in(lines)), [groute.Net("a", 0, None, ()), groute.Net("b", 7, 3, ())])

    def test_evaluate(self) -> None:
        """Status 1 is an answer."""
        found = groute.evaluate(DESIGN, OPEN, program=program())
        self.assertEqual(found.unjoined, (("a", 0),))
        self.assertEqual(groute.evaluate(DESIGN, SOLUTION, program=program()).unjoined, ())

    @unittest.skipUnless(bounds(), "grbound is not named")
    def test_bound(self) -> None:
        given: tuple[dict[str, int], ...] = ({}, {"steps": 3, "via_cost": 2})
        for options in given:
            words = [f"--{name.replace('_', '-')}={value}" for name, value in options.items()]
            lines = run(str(bounds()), DESIGN, *words)[1].splitlines()
            found = groute.bound(DESIGN, program=bounds(), **options)
            figures = [found.overflow, found.wirelength, found.usable_wirelength]
            figures += [*vars(found.prices).values()] if found.prices else []
            walls = [" ".join(map(str, [wall.kind, *wall.numbers, "needs", wall.needs, "holds", wall.holds]))
                     for wall in found.walls]
            self.assertEqual([int(line.split()[-1]) for line in lines[:len(figures)]], figures)
            self.assertEqual((len(figures), lines[len(figures) + 3:]), (6 if options else 3, walls))

    def test_faults(self) -> None:
        design = self.put("-design", "grid 3 2\nx")
        library = self.put("library", "library 1\nwire 1 x")
        none = None, None, None, None
        trials: list[tuple[type[groute.Failed], int, tuple[int | None, ...], Callable[[], object]]] = [
                (groute.DesignFault, 3, (3, 4, 2, 1), lambda: groute.evaluate(design, "none", program=program())),
                (groute.LibraryFault, 4, (3, 5, 2, 8), lambda: groute.route(DESIGN, library, 0, program=program())),
                (groute.SolutionFault, 5, (4, 2, 1, 6), lambda: groute.evaluate(DESIGN, design, program=program())),
                (groute.ReadFailed, 6, none, lambda: groute.evaluate("none", "none", program=program())),
                (groute.Usage, 2, none, lambda: groute.route(DESIGN, LIBRARY, 65, program=program())),
                (groute.NoMemory, 8, none, lambda: groute.bound("a", program=self.script("exit 8"))),
                (groute.WriteFailed, 7, none, lambda: groute.bound("a", program=self.script("exit 7"))),
                (groute.Failed, 99, none, lambda: groute.bound("a", program=self.script("exit 99"))),
                (groute.Failed, -9, none, lambda: groute.bound("a", program=self.script("kill -KILL $$")))]
        for kind, status, said, call in trials:
            with self.assertRaises(kind) as raised:
                call()
            fault = raised.exception
            self.assertEqual((fault.status, fault.number, fault.token, fault.line, fault.column), (status, *said))
        with self.assertRaisesRegex(groute.Usage, "65: ROUNDS is 0 to 64"):
            groute.route(DESIGN, LIBRARY, 65, program=program())
        os.chdir(self.folder.name)
        self.addCleanup(os.chdir, ROOT)
        with self.assertRaises(groute.DesignFault):     # a name that begins with `-`
            groute.evaluate("-design", "none", program=program())

    def script(self, line: str) -> str:
        """The path of a program that does this."""
        path = self.put("script", f"#!/bin/sh\n{line}\n")
        os.chmod(path, 0o755)
        return path

    def test_timeout(self) -> None:
        """What takes too long is ended, and so is what was interrupted."""
        path = self.script(f"echo $$ >{self.folder.name}/pid\nexec sleep 60")
        begun = time.monotonic()
        with self.assertRaises(subprocess.TimeoutExpired):
            groute.bound("a", program=path, timeout=0.5)
        with mock.patch("subprocess.Popen.communicate", side_effect=KeyboardInterrupt):
            with self.assertRaises(KeyboardInterrupt):
                groute.bound("a", program=path)
        self.assertLess(time.monotonic() - begun, 30)
        with open(f"{self.folder.name}/pid", encoding="ascii") as file:
            self.assertFalse(os.path.exists(f"/proc/{file.read().strip()}"))

    def test_which_program(self) -> None:
        self.assertEqual(calls.found("groute"), f"{ROOT}/groute")
        with mock.patch.object(calls, "TOOLS", "/none/tools"), mock.patch.dict(os.environ, {"PATH": self.folder.name}):
            with self.assertRaises(FileNotFoundError):
                groute.bound("a")
            shutil.move(self.script("exit 0"), f"{self.folder.name}/grbound")
            self.assertEqual(calls.found("grbound"), f"{self.folder.name}/grbound")

    def test_no_numpy(self) -> None:
        """The package begins without the calls, and these without numpy."""
        lines = (f"import sys; sys.path.insert(0, {TOOLS!r}); import groute; print('subprocess' in sys.modules)\n"
                 "groute.route; print('numpy' in sys.modules, sorted(set(groute.__all__) - set(vars(groute.calls))))\n")
        self.assertEqual(run(sys.executable, "-S", "-c", lines), (0, "False\nFalse []\n", ""))
        with self.assertRaises(AttributeError):
            getattr(groute, "no_such_name")
