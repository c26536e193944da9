"""Tests of required.py, where OpenSTA is there: slacks of nets, and libraries whose required times they are."""
import bz2
import gzip
import lzma
import os
import re
import unittest
from unittest import mock

from chips import LOAD, STA, OnChip, liberty, placed
from groute.texts.figures import read_figures
from groute.texts.slacks import read_slacks
from groute.timing import sta
from test_insertion import CELLS, NETS, PORTS
from testing import PICTURES, ROOT, program, run, tool

OSU = "/usr/share/qflow/tech/osu035/osu035_stdcells"


class WithoutSta(OnChip):
    """What is told where sta isn't there, and of words."""

    def test_words(self) -> None:
        for words in (("--period", "0"), ("--period", "1", "--sdc", "a"), (), ("--sdc", "a", "--clock", "b")):
            status, _, err = tool("required.py", *"abcde", "--liberty", "f", "-o", "g", *words)
            self.assertEqual(status, 2)
            self.assertIn("error: ", err)

    def test_no_sta(self) -> None:
        with mock.patch.dict(os.environ, {"PATH": self.folder.name}):
            self.assertRaisesRegex(Exception, "apt-get install opensta", sta.answer, [])


@unittest.skipUnless(STA, "sta is not there")
class Slacks(OnChip):
    """A small chip, and a processor."""

    def required(self, *words: str) -> tuple[int, str, str]:
        """What the tool did."""
        paths = [self.path(f"a.{kind}") for kind in ("ispd", "library", "solution", "v", "spef")]
        return tool("required.py", *paths, "--liberty", self.lib, "-o", self.path("a.slacks"), "--library",
                    self.path("b.library"), "--scale", "100", *words)

    def times(self) -> dict[int, float]:
        """groute's required times by the new library without kinds, in picoseconds."""
        self.put("c.library", re.sub(r"(?m)^(kind|inverter) .*\n", "", self.text("b.library")))
        paths = [self.path(name) for name in ("a.ispd", "c.library", "a.solution")]
        status, out, err = run(program(), "buffer", *paths)
        self.assertEqual(status, 0, err)
        return {int(id_): int(time) / 2e7 for id_, time in re.findall(r"(?m)^net \S+ (\d+) required (-?\d+)", out)}

    def check(self, free: set[int], clocks: set[int]) -> None:
        """Each required time is the slack of the table, to 1 ps."""
        slacks, times = read_slacks(self.path("a.slacks")), self.times()
        self.assertEqual((slacks.free, slacks.clocks), (free, clocks))
        self.assertEqual(set(slacks.times), set(times) - free)
        for id_, time in slacks.times.items():
            self.assertAlmostEqual(times[id_], time / 1000, delta=1)
        for id_ in free:
            self.assertTrue(times[id_] > 1e7 or times[id_] == 0)    # with sinks, and without

    def test_small(self) -> None:
        cells = {**CELLS, "o": ("BUF", 30, 0)}
        self.design(placed(8, 4, cells, PORTS, {**NETS, "loose": ["o/Y"]}))
        self.spef()
        status, out, err = self.required("--period", "1.5")
        self.assertEqual((status, err), (0, ""))
        said = dict(line.rsplit(" ", 1) for line in out.splitlines())
        ids = {name: at for at, name in enumerate([*NETS, "loose"])}
        self.check({ids["back"], ids["loose"]}, {ids["ck"]})
        # From the port through three cells to the flip-flop, by hand: 200, 60 and 200 ps, their resistances of 1,000,
        # 2,000 and 1,000 ohms times some 100 fF of wires and pins, and 100 ps of setup.
        slacks = read_slacks(self.path("a.slacks"))
        self.assertEqual(len({slacks.times[ids[name]] // 1000 for name in ("in", "two", "branch", "series")}), 1)
        self.assertTrue(300 < slacks.times[ids["in"]] / 1000 < 1500 - 200 - 60 - 200 - 100)
        self.assertAlmostEqual(float(said["worst slack, ns"]), min(slacks.times.values()) / 1e6, delta=0.001)
        self.put("sdc", "create_clock -name groute_clock -period 1.5 [get_ports ck]\n"
                        "set_input_delay 0 -clock groute_clock [get_ports in]\n"
                        "set_output_delay 0 -clock groute_clock [get_ports out]\n")
        table = self.text("a.slacks")
        for words in (("--sdc", self.path("sdc")), ("--period", "1.5", "--clock", "ck")):
            self.assertEqual(self.required(*words)[:2], (0, out))
            self.assertEqual(self.text("a.slacks"), table)
        self.put("sdc", "create_clock -name c -period 1 [get_ports none]\n")
        for words, says in ((("--sdc", self.path("sdc")), "sta: Warning: "), (("--period", "1", "--clock", "no"),
                                                                              "there is no port no")):
            status, _, err = self.required(*words)
            self.assertEqual(status, 3)
            self.assertIn(says, err)
        self.put("a.spef", self.text("a.spef").replace("*D_NET two ", "*D_NET three "))
        status, _, err = self.required("--period", "1.5")
        self.assertEqual(status, 3)
        self.assertIn("net three not found", err)

    def test_packed(self) -> None:
        """Texts that are packed, or begin with a mark, come to sta as it reads them, and are told by their names."""
        self.design(placed(8, 4, CELLS, PORTS, NETS))
        self.spef()
        sdc = self.put("sdc", "create_clock -name c -period 1.5 [get_ports ck]\n"
                              "set_output_delay 0 -clock c [get_ports out]\n")
        wanted = self.required("--sdc", sdc)
        self.assertEqual(wanted[::2], (0, ""))
        names = "cells.lib", "sdc", "a.v", "a.spef"
        plain = {name: self.text(name).encode() for name in names}
        for at in range(3):
            for name, data in plain.items():
                self.write(name, (gzip.compress(data), lzma.compress(data), b"\xef\xbb\xbf" + data)[at])
            self.assertEqual(self.required("--sdc", sdc), wanted)
        self.write("a.spef", gzip.compress(plain["a.spef"].replace(b"*D_NET two ", b"*D_NET three ")))
        self.assertEqual(self.required("--sdc", sdc)[2].split(",")[0], f"required: sta: Warning: {self.path('a.spef')}")
        for name in names:
            self.write("a.spef", plain["a.spef"])
            self.write(name, bz2.compress(plain[name]))
            self.assertIn(f"{self.path(name)}: it is compressed by bzip2", self.required("--sdc", sdc)[2])
            self.write(name, plain[name])

    def test_odd_paths(self) -> None:
        """Files and folders of any name are read, and told by it."""
        self.design(placed(8, 4, CELLS, PORTS, NETS))
        self.spef()
        sdc = self.put("sdc", "create_clock -name c -period 1.5 [get_ports ck]\n"
                              "set_output_delay 0 -clock c [get_ports out]\n")
        wanted = self.required("--sdc", sdc)
        self.assertEqual(wanted[::2], (0, ""))
        odd = self.path("a b $c;\"d'[1]{")
        os.mkdir(odd)
        for name in os.listdir(self.folder.name):
            if os.path.isfile(self.path(name)):
                os.rename(self.path(name), f"{odd}/{name}")
        words = [f"{odd}/a.{kind}" for kind in ("ispd", "library", "solution", "v", "spef")]
        words += ["--liberty", f"{odd}/cells.lib", "--sdc", f"{odd}/sdc", "-o", f"{odd}/slacks", "--scale", "100"]
        with mock.patch.dict(os.environ, {"TMPDIR": odd}):
            self.assertEqual(tool("required.py", *words), wanted)
            with open(f"{odd}/sdc", "a", encoding="ascii") as file:
                file.write("set_output_delay 0 -clock d [get_ports out]\n")
            status, _, err = tool("required.py", *words)
        self.assertEqual(status, 3)
        self.assertIn(f"sta: Warning: {odd}/sdc", err)

    def write(self, name: str, data: bytes) -> None:
        """Writes a file of the folder."""
        with open(self.path(name), "wb") as file:
            file.write(data)

    def test_unjoined(self) -> None:
        """Nets that routes leave unjoined are counted, as `evaluate` does."""
        self.design(placed(8, 4, CELLS, PORTS, NETS))
        self.spef()
        records = self.text("a.solution").split("!\n")
        self.put("a.solution", "!\n".join(record for record in records if not record.startswith(("two ", "back "))))
        says = "2 nets unjoined: two, back"
        status, out, err = self.required("--period", "1.5")
        self.assertEqual((status, out.splitlines()[0], err), (1, "unjoined 2", f"required: {says}\n"))
        judged = run(program(), "evaluate", self.path("a.ispd"), self.path("a.solution"))[1]
        self.assertEqual(judged.splitlines()[5:], ["unjoined 2", "two 1", "back 8"])
        self.assertEqual(len(read_slacks(self.path("a.slacks")).times), 8)

    def test_limits(self) -> None:
        """Nets over max_capacitance, by their wires and pins, and over max_transition."""
        self.design(placed(8, 4, CELLS, PORTS, NETS))
        text = self.spef()
        farads = {net: float(wires) + LOAD * inputs.count(" I\n") for net, wires, inputs in
                  re.findall(r"(?s)\*D_NET (\S+) (\S+)\n\*CONN\n(.*?)\*CAP", text) if "O\n" in inputs}
        most = sorted(farads.values())[len(farads) // 2]
        found = []
        for limit in (most - 1, most + 1):
            self.put("cells.lib", liberty().replace("max_capacitance : 0.5", f"max_capacitance : {limit / 1000}"))
            status, out, err = self.required("--period", "1.5", "--figures", self.path("a.figures"))
            self.assertEqual(status, 0, err)
            found.append(read_figures(self.path("a.figures")).capacitance)
            self.assertEqual(found[-1], sum(load > limit for load in farads.values()))
        self.assertGreater(found[0], found[1])
        self.put("cells.lib", liberty().replace("max_capacitance : 0.5", "max_transition : 0.25"))
        self.required("--period", "1.5", "--figures", self.path("a.figures"))
        self.assertGreater(read_figures(self.path("a.figures")).transition, 0)

    def test_virtual_clock(self) -> None:
        """Without registers a virtual clock constrains the ports."""
        nets = {"in": ["in", "a/A"], "two": ["a/Y", "b/A"], "out": ["b/Y", "out"]}
        ports = {name: PORTS[name] for name in ("in", "out")}
        self.design(placed(8, 4, {name: CELLS[name] for name in "ab"}, ports, nets))
        self.spef()
        status, out, err = self.required("--period", "2")
        self.assertEqual((status, err), (0, ""))
        self.check(set(), set())

    @unittest.skipUnless(PICTURES, "numpy and matplotlib are not there")
    def test_ranking(self) -> None:
        self.design(placed(8, 4, CELLS, PORTS, NETS))
        self.spef()
        self.required("--period", "1.5")
        paths = [self.path(f"a.{kind}") for kind in ("ispd", "library", "solution", "report")]
        status, out, err = tool("slowest.py", *paths, "--scale", "100", "--slack", self.path("a.slacks"), "--nets",
                                "signals")
        self.assertEqual(status, 0, err)
        lines = out.splitlines()
        self.assertEqual(lines[0], f"nets are ranked by the slack of {self.path('a.slacks')}")
        self.assertRegex(lines[2], "^net +slack, ps +required, ps ")
        rows = [line.split()[:2] for line in lines[3:11]]
        self.assertEqual(rows[-1], ["back", "free"])
        self.assertEqual([row[1] for row in rows[:-1]], sorted((row[1] for row in rows[:-1]), key=float))

    @unittest.skipUnless(os.path.exists(f"{OSU}.lib"), "qflow-tech-osu035 is not there")
    def test_grom(self) -> None:
        self.lef, self.lib = f"{OSU}.lef", f"{OSU}.lib"
        with lzma.open(f"{ROOT}/examples/grom_osu035.def.xz", "rt") as file:
            self.design(file.read())
        self.spef()
        status, out, err = self.required("--period", "5")
        self.assertEqual((status, err), (0, ""))
        self.check({1998}, set(range(13)))
        self.assertRegex(out, r"(?m)^nets late [1-9]")
