"""Tests of flow.py --sta: runs until timing no longer improves."""
import base64
import json
import os
import re
import shlex
import struct
import tempfile
import unittest
import zlib
from typing import Any

from chips import STA, OnChip, placed
from groute.texts.figures import Figures
from groute.timing import closing
from testing import PICTURES, found, program, tool

CELLS = {"a": ("BUF", 0, 0), "b": ("BUF", 236, 0), "c": ("DFF", 5, 1)}
PORTS = {"in": ("INPUT", 0, 1), "ck": ("INPUT", 1, 1), "out": (None, 47, 1)}
NETS = {"in": ["in", "a/A"], "ck": ["ck", "c/CLK"],
        "long": ["a/Y", "b/A"], "back": ["b/Y", "c/D"], "out": ["c/Q", "out"]}


def head_of(page: str) -> dict[str, Any]:
    """What a page says besides its arrays."""
    data = zlib.decompress(base64.b64decode(found('<template id="data">(.*)</template>', page).group(1)))
    head: dict[str, Any] = json.loads(data[4:4 + struct.unpack("<I", data[:4])[0]])
    return head


class Runs(unittest.TestCase):
    """Which run is kept, by steps that are made up."""

    def kept(self, *totals: int) -> tuple[int, int]:
        """The total negative slack of the run that is kept, and how many runs there were."""
        made = list(totals)

        class Made(closing.Steps):
            """Steps whose figures are given."""

            def time(self, run: closing.Run) -> None:
                run.figures = Figures(0, made.pop(0), 0, 0, 0)

            def next(self, run: closing.Run, folder: str) -> closing.Run | None:
                if not made:
                    return None
                new = closing.Run(folder, "", "", run.buffers + 1)
                os.makedirs(folder)
                self.time(new)
                return new

        with tempfile.TemporaryDirectory() as folder:
            steps = Made(lambda *_: "", lambda *_: None, lambda _: None, [], [], [], 1)
            best = closing.closed(closing.Run(folder, "", ""), steps)
            self.assertEqual(os.listdir(folder), ["timed"] if best.buffers else [])
            return closing.total(best), len(totals) - len(made)

    def test_best(self) -> None:
        for totals, best, runs in (((0, 5), 0, 1), ((-9, -9), -9, 2), ((-9, -10), -9, 2), ((-9,), -9, 1),
                                   ((-9, -5, -6), -5, 3), ((-9, -5, 0, 3), 0, 3), ((-9, -5, -4, -3, -2), -3, 4)):
            with self.subTest(totals=totals):
                self.assertEqual(self.kept(*totals), (best, runs))


class Words(OnChip):
    """Words that don't stand together."""

    def test_words(self) -> None:
        for words in (("--period", "1"), ("--sta", "--liberty", self.lib), ("--sta", "--period", "1"),
                      ("--sta", "--liberty", self.lib, "--sdc", "a", "--clock", "b"),
                      ("--sta", "--liberty", self.lib, "--sdc", "a", "--period", "1")):
            status, _, err = tool("flow.py", "a", "--lef", "b", "-o", self.path("c"), *words)
            self.assertEqual(status, 2)
            self.assertRegex(err, "error: .*--sta wants|error: .*want --sta")


@unittest.skipUnless(STA, "sta is not there")
class Flow(OnChip):
    """A chip with one long net."""

    def made(self, *words: str) -> tuple[int, str, str]:
        """What the flow did."""
        groute = self.put("groute", f'#!/bin/sh\nexec {shlex.quote(program())} "$@"\n')
        os.chmod(groute, 0o755)
        self.put("a.def", placed(48, 2, CELLS, PORTS, NETS))
        return tool("flow.py", self.path("a.def"), "--lef", self.lef, "--liberty", self.lib, "--program", groute, "-o",
                    self.path("out"), "--sta", *words)

    def test_flow(self) -> None:
        status, out, err = self.made("--period", "3.5")
        self.assertEqual(status, 0, err)
        self.assertRegex(out, r"^a: .*; worst slack -0\.\d+ to 0\.\d+ ns, total negative slack -0\.\d+ to 0\.000 ns, "
                              r"worst hold slack \S+ to \S+ ns; [1-9] buffers?\n$")
        text = self.text("out/timing.txt")
        self.assertRegex(text, r"(?m)^buffers +0 +[1-9]$")
        self.assertRegex(text, r"(?m)^path of slack 0\.\d+ ns: in, long, long_buf1_net, .*back_buf1_net$")
        self.assertIn("long_buf1", self.text("out/timed/placed.def"))
        self.assertIn("design.ispd.pins", os.listdir(self.path("out/timed")))
        self.assertRegex(self.text("out/timed/report.txt"), r"(?m)^kept [3-9]$")     # the routes before are begun from
        if PICTURES:
            head = head_of(self.text("out/index.html"))
            self.assertEqual(head["timing"][5], ["buffers", "0", re.findall(r"(?m)^buffers +0 +(\d)$", text)[0]])
            self.assertEqual((head["bySlack"], len(head["paths"][0][1])), (True, 5))
        netlist = self.put("a.v", self.text("out/netlist.v").replace("long", "far"))
        status, other, err = self.made("--period", "3.5", "--verilog", netlist)
        self.assertEqual((status, other), (0, out), err)
        self.assertIn("far", self.text("out/timed/netlist.v"))

    def test_nothing_to_do(self) -> None:
        sdc = self.put("sdc", "create_clock -name c -period 9 [get_ports ck]\n"
                              "set_input_delay 0 -clock c [get_ports in]\n")
        status, out, err = self.made("--sdc", sdc)
        self.assertEqual(status, 0, err)
        self.assertRegex(out, r"total negative slack 0\.000 to 0\.000 ns, .*; 0 buffers\n$")
        self.assertNotIn("timed", os.listdir(self.path("out")))

    def test_unjoined(self) -> None:
        """Routes that leave a net unjoined are timed, and get no buffers."""
        real, all_ = shlex.quote(program()), self.path("all")
        groute = self.put("less", f'#!/bin/sh\n[ "$1" = route ] || exec {real} "$@"\n{real} "$@" > {all_} 2> {all_}.r\n'
                                  f'sed "1,/^!/d" {all_} | tee {all_}.less\n'
                                  f'{{ {real} evaluate "$2" {all_}.less | head -n 5; sed 1,5d {all_}.r; }} >&2')
        os.chmod(groute, 0o755)
        status, out, err = self.made("--period", "3.5", "--program", groute)
        self.assertEqual(status, 1, err)
        self.assertRegex(out, "^a: 1 net unjoined; overflow" if PICTURES else "^a: unjoined 1, ")
        self.assertRegex(out, r"total negative slack (-0\.\d+) to \1 ns, .*; 0 buffers\n$")
        self.assertNotIn("timed", os.listdir(self.path("out")))

    def test_a_step_that_fails(self) -> None:
        status, _, err = self.made("--period", "2", "--clock", "no")
        self.assertEqual(status, 3)
        self.assertTrue(err.endswith("required: there is no port no\nflow: required.py ended with status 3\n"), err)
