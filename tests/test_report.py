"""Tests of report.py's page, in a browser."""
import base64
import importlib
import json
import os
import re
import struct
import unittest
import zlib
from unittest import mock

import browser
import testing
from typing import Any
from groute.commands import report
from groute.loads import edges_plain
from groute.texts import reports
from groute.texts.designs import Netlist
from groute.texts.files import Fault
from groute.texts.solutions import records
from groute.texts.tokens import Tokens
from test_answers import random_designs
from testing import PICTURES, ROOT, InFolder, run, tool

GROM = "grom_osu035"
HARD = "</script><script>alert(1)</script>"    # a net may be called so


@unittest.skipUnless(PICTURES, "numpy and matplotlib are not there")
class Report(InFolder):
    """What report.py writes and prints."""

    def page(self, *words: str) -> tuple[str, str]:
        """What the tool prints, and the page."""
        path = os.path.join(self.folder.name, "report.html")
        status, out, err = tool("report.py", *words, "-o", path)
        self.assertEqual((status, err), (0, ""))
        with open(path, encoding="utf-8") as file:
            return out, file.read()

    def test_verdict(self) -> None:
        crowd, library = f"{ROOT}/examples/crowd.ispd", f"{ROOT}/examples/crowd.library"
        reports = []
        for rounds in "01":
            _, out, err = run(testing.program(), "route", crowd, library, rounds)
            reports.append(self.put(f"report{rounds}", err))
            solution = self.put(f"solution{rounds}", out)
        out, _ = self.page(crowd, solution, library, reports[1], "--before", reports[0])
        self.assertEqual(out, "overflow 0 after 1 round (4, 0); fullest tile 100 %; worst net delay 125 ps\n")
        out, _ = self.page(crowd, solution)
        self.assertEqual(out, "overflow 0; fullest tile 100 %\n")
        status, _, err = tool("report.py", crowd, solution, library, reports[0], "-o", self.put("page", ""))
        says = "it is of other routes: it tells overflow 4, the solution has 0"
        self.assertEqual((status, err), (3, f"report: {reports[0]}: {says}\n"))

    def test_nothing_from_a_network(self) -> None:
        """One script and one style, by their hashes, and no address."""
        _, page = self.page(f"{ROOT}/examples/small.ispd", f"{ROOT}/examples/small.solution")
        self.assertRegex(page, r"default-src 'none'; script-src 'sha256-\S+'; style-src 'sha256-\S+'; base-uri 'none'; "
                               "form-action 'none'")
        self.assertEqual((len(re.findall("<script", page)), len(re.findall("<style", page))), (1, 1))
        self.assertEqual(re.findall(r"https?:|\bsrc=|\bhref=|@import|url\(|\bfetch\(|innerHTML", page), [])

    def data(self, page: str) -> tuple[dict[str, Any], dict[str, Any]]:
        """What is packed in a page: its head, and the arrays by their names."""
        data = zlib.decompress(base64.b64decode(testing.found('<template id="data">(.*)</template>', page).group(1)))
        numpy, (length,) = importlib.import_module("numpy"), struct.unpack("<I", data[:4])
        head = json.loads(data[4:4 + length])
        return head, {name: numpy.frombuffer(data, f"<{kind}", count, 4 + length + at)
                      for name, (kind, at, count) in head["arrays"].items()}

    def test_what_is_packed(self) -> None:
        """Overflow, wires, vias, pins, buffers and required times are those of the texts."""
        for seed, text in random_designs(10):
            design = self.put("design", text)
            library = self.put("library", testing.LIBRARY.replace("end", "kind b 1 10 10\nend") % "".join(
                f"wire {layer + 1} 100 100\n" for layer in range(int(text.split()[3]))))
            _, solution, report = run(testing.program(), "route", design, library, "0")
            _, page = self.page(design, self.put("solution", solution), library, self.put("report", report))
            head, arrays = self.data(page)
            totals = report.split()
            with self.subTest(seed=seed):
                over = sum(int((arrays[f"demand{at}"].astype(int) - arrays[f"capacity{at}"]).clip(0).sum())
                           for at in range(len(head["planes"])))
                wires, vias = (int(arrays[name].sum()) for name in ("wires", "vias"))
                self.assertEqual([over, wires + vias, vias], [int(totals[at]) for at in (3, 7, 9)])
                lengths = arrays["runLength"].astype(int)
                is_via = arrays["runWay"] == 2
                self.assertEqual([lengths[~is_via].sum(), lengths[is_via].sum()], [wires, vias])
                nets = [line.split() for line in report.splitlines() if line.startswith("net ")]
                names = bytes(arrays["names"]).decode().split("\n")
                required = dict(zip(names, arrays["required"]))
                self.assertTrue(all(required[net[1]] == int(net[4]) / 2000 for net in nets))
                self.assertEqual(int(arrays["buffers"].sum()), int(totals[11]))
                self.assertEqual(int(arrays["pins"].sum()), len(arrays["pinValues"]))
                self.assertEqual(head["allNets"], len(names))

    def test_bound(self) -> None:
        """What grbound wrote is in the data, and nothing of it where it isn't given."""
        words = f"{ROOT}/examples/small.ispd", f"{ROOT}/examples/small.solution"
        head, _ = self.data(self.page(*words, "--bound", self.put("bounds", testing.BOUNDS))[1])
        self.assertEqual([list(wall.values()) for wall in head["walls"]],
                         [["box", [0, 0, 0, 0], 3, 2], ["column", [1], 2, 8]])
        head, _ = self.data(self.page(*words)[1])
        self.assertEqual(head["walls"], [])
        status, _, err = tool("report.py", *words, "--bound", words[0], "-o", self.put("page", ""))
        self.assertEqual((status, err), (3, f"report: {words[0]}: it isn't what grbound writes\n"))

    def test_rounds(self) -> None:
        """What each round did is read from the report, or from those of earlier rounds; the first of the least overflow
        is the one that is written."""
        words = f"{ROOT}/examples/crowd.ispd", f"{ROOT}/examples/crowd.library"
        _, solution, traced = run(testing.program(), "route", *words, "2", "--trace")
        given = words[0], self.put("solution", solution), words[1], self.put("report", traced)
        head, _ = self.data(self.page(*given)[1])
        self.assertEqual((head["rounds"], head["written"]), (
            [{"overflow": 4, "nets": 2, "full": 0}, {"overflow": 0, "nets": 2, "full": 0}], 1))
        _, _, before = run(testing.program(), "route", *words, "0")
        _, _, plain = run(testing.program(), "route", *words, "2")
        given = *given[:3], self.put("report", plain)
        head, _ = self.data(self.page(*given, "--before", self.put("before", before))[1])
        self.assertEqual((head["rounds"], head["written"]), (
            [{"overflow": 4, "nets": None, "full": None}, {"overflow": 0, "nets": None, "full": None}], 1))
        head, _ = self.data(self.page(*given)[1])
        self.assertEqual((head["rounds"], head["written"]), ([], None))
        lines = (*traced.splitlines()[:5], "rounds 2", "round 0 overflow 7 nets 9 full 0",
                 "round 1 overflow 3 nets 5 full 2", "round 2 overflow 3 nets 4 full 1")
        found = reports.rounds_of(self.put("trial", "".join(f"{line}\n" for line in lines)))
        self.assertEqual(found, [reports.Round(7, 9, 0), reports.Round(3, 5, 2), reports.Round(3, 4, 1)])
        self.assertEqual(reports.written(found), 1)
        with self.assertRaisesRegex(Fault, "round 1 is due"):
            reports.rounds_of(self.put("odd", "routed 1\nround 0 overflow 7 nets 9 full 0\nround 2"))

    def test_most_nets(self) -> None:
        """Of a larger design, and where the page is too large, the nets of regions and the slowest alone are there."""
        pages = importlib.import_module("groute.show.pages")
        design = self.put("design", run(testing.program(), "make", "11", "24", "20", "4", "2000")[1])
        solution, path = self.routed(design, 4), os.path.join(self.folder.name, "page")
        _, page = self.page(design, solution)
        head, arrays = self.data(page)
        some = {net for region in head["regions"] for net in region["nets"]}
        self.assertTrue(0 < len(some) < len(arrays["pins"]) == 2000)
        for name, most in (("MOST_NETS", 1999), ("MOST_BYTES", len(page) - 1)):
            with mock.patch.object(pages, name, most), mock.patch("builtins.print"):
                report.main([design, solution, "-o", path])
            with open(path, encoding="utf-8") as file:
                head, arrays = self.data(file.read())
            self.assertEqual((len(arrays["pins"]), head["allNets"]), (len(some), 2000))
        with mock.patch.object(pages, "MOST_BYTES", 1000):
            self.assertRaisesRegex(Fault, "1,000 are", report.main, [design, solution, "-o", path])


@unittest.skipUnless(PICTURES and browser.is_there(), "numpy, matplotlib or chromium is not there")
class Page(InFolder):
    """The page in a browser. Each test ends within a minute, as the browser is ended then."""

    def grom(self, *words: str) -> tuple[str, str]:
        """The address of a page of a real chip, without rounds, made with these words too, and its report."""
        data = run("xz", "-dc", f"{ROOT}/examples/{GROM}.ispd.xz")[1]
        design, library = self.put("grom.ispd", data), f"{ROOT}/examples/osu035.library"
        _, solution, report = run(testing.program(), "route", design, library, "0")
        page = os.path.join(self.folder.name, "grom.html")
        done = tool("report.py", design, self.put("solution", solution), library, self.put("report", report), "--names",
                    f"{ROOT}/examples/{GROM}.names", *words, "-o", page)
        self.assertEqual(done[::2], (0, ""))
        return f"file://{page}", report

    def opened(self, page: browser.Browser, address: str) -> Any:
        """A page whose first picture is painted."""
        page.open(address)
        page.wait("document.documentElement?.dataset.picture !== undefined")

    def changed(self, page: browser.Browser, before: Any) -> Any:
        """How many pixels of the map differ from those of a screenshot, and the screenshot of now."""
        image = importlib.import_module("matplotlib.image")
        path = os.path.join(self.folder.name, "screen.png")
        page.screenshot(path)
        left, top, wide, high = map(int, page.value("(({x, y, width, height}) => [x, y, width, height])"
                                                    "(document.getElementById('map').getBoundingClientRect())"))
        pixels = (image.imread(path)[top:top + high, left:left + wide, :3] * 255).round().astype(int)
        return None if before is None else int((pixels != before).any(axis=2).sum()), pixels

    def test_timing(self) -> None:
        """Slacks rank nets; a timer's figures and its worst paths' nets are listed, and a click goes to a net."""
        slacks = self.put("slacks", "slacks 1\nslack 5 -2500\nslack 7 100\nfree 9\nend\n")
        text = "figures 1 worst -2500 total {} hold 1 transition 0 capacitance 2 buffers {} area 0 {} end"
        figures = [self.put("before", text.format(-5000000, 0, "")),
                   self.put("after", text.format(-2500000, 3, "path -2500 2 7 9"))]
        address, _ = self.grom("--slack", slacks, "--timing", *figures)
        with browser.Browser() as page:
            self.opened(page, address)
            self.assertEqual(page.text("#timing tbody tr:nth-child(2)"), "total negative slack, ns-5.000-2.500")
            self.assertEqual(page.text("#nets tbody tr:nth-child(1) td:nth-child(2)"), "-2.5")
            for row, says in ((1, "slack 0.1 ps"), (2, "slack free, ")):
                button = f"#paths tbody tr:nth-child({row}) button"
                name = page.text(button)
                page.click(*page.middle(button))
                self.assertEqual(page.value("new URLSearchParams(location.hash.slice(1)).get('net')"), name)
                self.assertIn(says, page.text("#shown"))

    def test_a_real_chip(self) -> None:
        """A click on a region and on a net; Escape goes back; the address shows the same again."""
        address, report = self.grom()
        with browser.Browser() as page:
            self.opened(page, address)
            self.assertTrue(page.text("h1").startswith("overflow 348; fullest "))
            self.assertEqual(page.value("document.querySelectorAll('#regions tbody tr').length"), 4)
            whole = self.changed(page, None)[1]
            page.click(*page.middle("#regions tbody tr:nth-child(1) button"))
            self.assertRegex(page.value("location.hash"), r"^#region=1&view=[\d.%C]+$")
            count, region = self.changed(page, whole)
            self.assertGreater(count, region.size // 3 // 4)
            self.assertIn("region 1", page.text("#nets caption"))
            self.assertEqual(page.text("#found"), "177 of 177")
            first = "#nets tbody tr:nth-child(1) button"
            name = page.text(first)
            page.click(*page.middle(first))
            self.assertEqual(page.value("new URLSearchParams(location.hash.slice(1)).get('net')"), name)
            number = next(line for line in report.splitlines() if line.startswith(f"net {name} ")).split()[4]
            self.assertIn(f"required {int(number) / 2000:.1f} ps", page.text("#shown"))
            with_net = self.changed(page, region)[1]
            self.assertEqual(self.wire_colours(page, with_net), self.wire_layers(page))
            link = page.value("location.href")
            page.press("Escape")
            self.assertEqual(page.value("location.hash").split("&")[0], "#region=1")
            self.assertEqual(self.changed(page, region)[0], 0)
            page.press("Escape")
            self.assertEqual(page.value("location.hash"), "")
            page.open("about:blank")
            self.opened(page, link)
            page.settle()
            self.assertLess(self.changed(page, with_net)[0], 20)
            page.open("about:blank")
            self.opened(page, address + "#net=none&region=9&layer=x&view=1,2&way=")
            self.assertEqual(page.text("#shown"), "net none is not on this page")
            self.assertEqual(page.complaints(), [])

    def wire_colours(self, page: browser.Browser, pixels: Any) -> set[int]:
        """The layers whose wire colour is on the map."""
        colours = page.value("WIRES")
        return {layer for layer, colour in enumerate(colours) if (pixels == [int(colour[at:at + 2], 16) for at in (
            1, 3, 5)]).all(axis=2).sum() > 20}

    def wire_layers(self, page: browser.Browser) -> set[int]:
        """The layers on which the shown net has wires."""
        return set(page.value("[...runsOf(shown.net)].filter((run) => !run[3]).map((run) => run[2])"))

    def test_walls(self) -> None:
        """The fullest walls are listed, and the first line says what is proved; a click shows a wall."""
        address, _ = self.grom("--bound", self.put("bounds", testing.BOUNDS))
        with browser.Browser() as page:
            self.opened(page, address)
            says = "overflow 348, at least 1 by proof: within 34,700.0 %; wirelength and overflow "
            self.assertTrue(page.text("h1").startswith(says))
            first = "#walls tbody tr:nth-child(1) button"
            self.assertEqual(page.text(first), "box 0 0 0 0")
            whole = self.changed(page, None)[1]
            page.click(*page.middle(first))
            self.assertRegex(page.value("location.hash"), r"^#wall=1&view=[\d.%C]+$")
            with_wall = self.changed(page, whole)[1]
            colour = "getComputedStyle(document.querySelector('#walls tbody tr')).backgroundColor"
            self.assertEqual(page.value(colour), "rgb(221, 244, 255)")     # though the pointer is there
            link = page.value("location.href")
            page.press("Escape")
            self.assertEqual(page.value("location.hash"), "")
            page.open("about:blank")
            self.opened(page, link)
            page.settle()
            self.assertLess(self.changed(page, with_wall)[0], 20)
            self.opened(page, address + "#wall=2&view=2,12,40")
            self.assertEqual(page.value("endsOf(data.walls[1])"), [[2, 0], [2, 24]])
            self.assertEqual(page.value(colour.replace("tr'", "tr:nth-child(2)'")), "rgb(221, 244, 255)")
            self.assertEqual(page.complaints(), [])

    def test_six_rows(self) -> None:
        """On a screen of 1366 by 768 each table shows six rows, walls among them, and none covers another."""
        bounds = self.put("bounds", testing.BOUNDS + "".join(f"row {at} needs 2 holds 9\n" for at in range(12)))
        address, _ = self.grom("--bound", bounds)
        many = self.put("many", run(testing.program(), "make", "5", "40", "30", "9", "6000")[1])
        other = os.path.join(self.folder.name, "many.html")
        self.assertEqual(tool("report.py", many, self.routed(many, 9), "--bound", bounds, "-o", other)[::2], (0, ""))
        for link, names in ((address, ["layers", "regions", "walls", "closed", "nets"]),
                            (f"file://{other}", ["layers", "regions", "walls", "nets"])):
            with browser.Browser(1366, 768) as page:
                self.opened(page, link)
                for name in names:
                    count, seen = page.value(f"""(() => {{
                        const place = document.getElementById("{name}"), box = place.getBoundingClientRect();
                        const head = place.querySelector("thead").getBoundingClientRect().bottom;
                        const rows = [...place.querySelectorAll("tbody tr:not(.space), tfoot tr")];
                        return [rows.length, rows.filter((row) => {{
                            const side = row.getBoundingClientRect();
                            const [x, y] = [side.left + 60, side.bottom - 2];
                            return side.top >= head - 1 && side.bottom <= Math.min(box.bottom, innerHeight) + 1
                                && row.contains(document.elementFromPoint(x, y));
                        }}).length];
                    }})()""")
                    self.assertGreaterEqual(seen, min(6, count), name)
                page.open("about:blank")
                self.opened(page, f"{link}#wall=14")     # a row that is reached by scrolling
                low, here, high = page.value("""(() => {
                    const box = (words) => document.querySelector(words).getBoundingClientRect();
                    return [box("#walls thead").bottom, box("#walls tr.here").bottom, box("#walls").bottom];
                })()""")
                self.assertTrue(low < here < high)
                self.assertEqual(page.complaints(), [])

    def test_edges(self) -> None:
        """Overflow at capacity 0 is listed; a click on it, or on an edge, tells whose nets cross it."""
        address, _ = self.grom()
        design = Netlist(Tokens(os.path.join(self.folder.name, "grom.ispd")))
        plain = edges_plain.Edges(design, os.path.join(self.folder.name, "solution"))
        closed = sorted((demand for _, _, capacity, demand in plain.used() if not capacity), reverse=True)
        with browser.Browser() as page:
            self.opened(page, address)
            self.assertEqual(page.value("+document.querySelector('#closed table').ariaRowCount") - 1, len(closed))
            row = "[...document.querySelector('#closed tbody tr').cells].map((cell) => cell.textContent)"
            place, layer, direction, overflow = page.value(row)
            self.assertEqual(int(overflow), closed[0])
            page.click(*page.middle("#closed tbody tr:nth-child(1) button"))
            self.assertEqual(page.value("location.hash").split("&")[0], f"#layer={layer[-1]}")
            column, line = map(int, place.split())
            way = 0 if direction == "horizontal" else 1
            number = design.number(way, column, line, int(layer[-1]) - 1)
            wanted = {design.names[id_] for id_, segments in records(design, f"{self.folder.name}/solution")
                      if any((way, number) in plain.covered(*design.run(segment)) for segment in segments)}
            said = page.text("#told")
            self.assertEqual(set(said.split(f"nets on {layer}: ")[1].split(" and ")[0].split(", ")), wanted)
            self.assertEqual(page.complaints(), [])

    def test_summed(self) -> None:
        """Colours by sums over layers are those of the summed demand and capacity."""
        address, _ = self.grom()
        numpy, edges_numpy = importlib.import_module("numpy"), importlib.import_module("groute.loads.edges_numpy")
        design = Netlist(Tokens(os.path.join(self.folder.name, "grom.ispd")))
        edges = edges_numpy.Edges(design, os.path.join(self.folder.name, "solution"))
        wanted = numpy.full((design.rows, design.columns), -1.0)
        for way in (0, 1):
            demand, capacity = (edges_numpy.by_layer(design, way, some[way]).sum(axis=0)
                                for some in (edges.demand, edges.capacity))
            use = numpy.where(capacity > 0, demand / numpy.maximum(capacity, 1), -1)
            low, high = (wanted[:, :-1], wanted[:, 1:]) if way == 0 else (wanted[:-1], wanted[1:])
            mine = use[:, :-1] if way == 0 else use[:-1]
            for side in (low, high):
                numpy.maximum(side, mine, out=side)
        with browser.Browser() as page:
            self.opened(page, address + "#colours=sum")
            found = numpy.array(page.value("[...picture.full]")).reshape(design.rows, design.columns)
            self.assertLess(abs(found - wanted).max(), 1e-6)
            page.value("document.getElementById('colours').value = ''")
            page.value("document.getElementById('colours').onchange({ target: { value: '' } })")
            self.assertEqual(page.value("location.hash"), "")
            self.assertEqual(page.complaints(), [])

    def test_unjoined(self) -> None:
        """Nets that aren't joined come first, and can be listed alone."""
        address, _ = self.grom()
        design, solution = (os.path.join(self.folder.name, name) for name in ("grom.ispd", "solution"))
        with open(solution, encoding="utf-8") as file:
            kept = file.read().split("!\n")[:-4]
        path, less = os.path.join(self.folder.name, "less.html"), self.put("less", "!\n".join([*kept, ""]))
        count = int(run(testing.program(), "evaluate", design, less)[1].split()[11])
        self.assertGreater(count, 1)
        status, out, err = tool("report.py", design, less, "-o", path)
        self.assertEqual((status, out.split(";")[0]), (1, f"{count} nets unjoined"))
        self.assertTrue(err.startswith(f"report: {count} nets unjoined: "))
        with browser.Browser() as page:
            self.opened(page, f"file://{path}#nets=unjoined")
            self.assertTrue(page.text("#verdict").startswith(f"{count} nets unjoined; overflow "))
            self.assertEqual(page.text("#found"), f"{count} of {count}")
            self.assertEqual(page.complaints(), [])

    def test_what_is_heard(self) -> None:
        """The accessibility tree holds the tables; arrows tell the place that they come to."""
        address, _ = self.grom()
        with browser.Browser() as page:
            self.opened(page, address)
            nodes = page.call("Accessibility.getFullAXTree")["nodes"]
            roles = [(node["role"]["value"], node.get("name", {}).get("value")) for node in nodes
                     if not node["ignored"]]
            for name in ("Layers", "Worst regions", "Nets"):
                self.assertIn(("table", name), roles)
            self.assertIn(("columnheader", "required, ps"), roles)
            self.assertEqual(page.value("document.querySelector('#nets table').ariaRowCount"), "2000")
            self.assertLess(page.value("document.querySelectorAll('#nets tbody tr').length"), 80)
            page.value("document.getElementById('map').focus()")
            page.press("ArrowRight")
            said = page.text("#live")
            self.assertRegex(said, r"^Tile 13 12, \(\d.* microns\nfullest edge: metal\d \w+: capacity \d+, demand \d+")
            page.press("ArrowRight")
            said = page.text("#live")
            self.assertRegex(said, r"^Edge of tiles 13 12 and 14 12, .*\nmetal1 horizontal: capacity 0, .*; metal3 hor")
            page.press("PageUp")
            self.assertEqual(page.text("#live"), "metal1")
            page.press("PageDown")
            self.assertEqual(page.text("#live"), "all layers")
            page.call("Input.dispatchMouseEvent", type="mouseMoved", x=200, y=400)
            page.settle()
            self.assertRegex(page.text("#told"), r"^(Tile|Edge) .* microns\n.*metal\d")
            self.assertEqual(page.complaints(), [])

    def test_sort_and_search(self) -> None:
        address, _ = self.grom()
        with browser.Browser() as page:
            self.opened(page, address)
            head = "#nets th:nth-child({})"
            self.assertEqual(page.value(f"document.querySelector('{head.format(2)}').ariaSort"), "ascending")
            page.click(*page.middle(head.format(3) + " button"))
            self.assertEqual(page.value(f"document.querySelector('{head.format(3)}').ariaSort"), "descending")
            pins = "[...document.querySelectorAll('#nets tbody tr td:nth-child(3)')].map((cell) => +cell.textContent)"
            found = page.value(pins)
            self.assertEqual(found, sorted(found, reverse=True))
            page.value("document.getElementById('search').focus()")
            page.call("Input.insertText", text="clk_bf")
            page.settle()
            names = page.value("[...document.querySelectorAll('#nets tbody button')].map((cell) => cell.textContent)")
            self.assertGreater(len(names), 5)
            self.assertTrue(all(name.startswith("clk_bF") for name in names))
            self.assertEqual(page.complaints(), [])

    def test_tiles_and_runs(self) -> None:
        """What the page paints is what the other tools count: each tile, and the runs of each net."""
        address, _ = self.grom()
        loads, edges_numpy = map(importlib.import_module, ("groute.loads.regions", "groute.loads.edges_numpy"))
        folder = self.folder.name
        design = Netlist(Tokens(f"{folder}/grom.ispd"))
        edges = edges_numpy.Edges(design, f"{folder}/solution")
        with browser.Browser() as page:
            for words, layers, ways in (("", slice(None), (0, 1)), ("#layer=3", slice(2, 3), (0, 1)),
                                        ("#way=v", slice(None), (1,))):
                page.open("about:blank")
                self.opened(page, address + words)
                found = page.value("[[...picture.full].map((use) => use < 0 ? -1 : Math.round(1000 * use)), "
                                   "[...picture.over], [...picture.closed]]")
                full, over, closed = loads.Loads(edges).by_tile(layers, ways)
                full[full != full] = -0.001
                self.assertEqual(found, [(1000 * full).round().ravel().tolist(), over.ravel().tolist(),
                                         closed.ravel().tolist()])
            runs = page.value("data.names.map((name, net) => [...runsOf(net)].map((run) => run.slice(0, 2)))")
            for id_, mine in zip(design.ids, runs):
                wanted = [[(cell[2] * design.rows + cell[1]) * design.columns + cell[0] for cell in run]
                          for run in edges.runs_of(id_)]
                self.assertEqual(sorted(mine), sorted(wanted))
            self.assertEqual(page.complaints(), [])

    def test_zoom_and_pan(self) -> None:
        """The wheel keeps what is under the pointer, a drag moves it along, and the browser's way back leads back."""
        address, _ = self.grom()
        with browser.Browser() as page:
            self.opened(page, address)
            left, top = page.value("(({x, y}) => [x, y])(document.getElementById('map').getBoundingClientRect())")

            def assert_under(x: float, y: float, tile: Any) -> None:
                for one, other in zip(page.value(f"picture.toTiles({x}, {y})"), tile):
                    self.assertAlmostEqual(one, other, delta=0.2)

            before = page.value("picture.toTiles(150, 120)")
            page.call("Input.dispatchMouseEvent", type="mouseWheel", x=left + 150, y=top + 120, deltaX=0, deltaY=-300)
            page.settle()
            assert_under(150, 120, before)
            self.assertRegex(page.value("location.hash"), "^#view=")
            page.call("Input.dispatchMouseEvent", type="mousePressed", x=left + 150, y=top + 120, button="left")
            page.call("Input.dispatchMouseEvent", type="mouseMoved", x=left + 190, y=top + 90, button="left")
            page.call("Input.dispatchMouseEvent", type="mouseReleased", x=left + 190, y=top + 90, button="left")
            page.settle()
            assert_under(190, 90, before)
            page.click(*page.middle("#regions tbody tr:nth-child(2) button"))
            self.assertIn("region=2", page.value("location.hash"))
            page.value("history.back()")
            page.wait("!location.hash.includes('region')")
            self.assertEqual(page.text("#found"), "1,999 of 1,999")
            self.assertEqual(page.complaints(), [])

    def test_a_part_of_the_nets(self) -> None:
        """Where not all nets are there, the page says how many are not, and the others are shown."""
        pages = importlib.import_module("groute.show.pages")
        design = self.put("design", run(testing.program(), "make", "11", "24", "20", "4", "2000")[1])
        path = os.path.join(self.folder.name, "part.html")
        with mock.patch.object(pages, "MOST_NETS", 1999), mock.patch("builtins.print"):
            report.main([design, self.routed(design, 4), "-o", path])
        with browser.Browser() as page:
            self.opened(page, f"file://{path}")
            count = page.value("data.names.length")
            self.assertEqual(page.text("#found"), f"{count:,} of {count:,}; {2000 - count:,} nets that are in no "
                                                  "region and not slow are not on this page")
            page.click(*page.middle("#regions tbody tr:nth-child(1) button"))
            page.click(*page.middle("#nets tbody tr:nth-child(1) button"))
            self.assertTrue(page.text("#shown").startswith("net n"))
            self.assertEqual(page.complaints(), [])

    def test_a_hard_name(self) -> None:
        """A net's name is text, whatever it looks like."""
        with open(f"{ROOT}/examples/small.ispd", encoding="ascii") as file:
            design = self.put("design", file.read().replace("\na 0", f"\n{HARD} 0"))
        with open(f"{ROOT}/examples/small.solution", encoding="ascii") as file:
            solution = self.put("solution", file.read().replace("a 0", f"{HARD} 0"))
        path = os.path.join(self.folder.name, "</script>&report.html")
        os.mkdir(os.path.dirname(path))
        self.assertEqual(tool("report.py", design, solution, "-o", path)[::2], (0, ""))
        with browser.Browser() as page:
            self.opened(page, "file://" + importlib.import_module("urllib.parse").quote(path))
            self.assertEqual(page.text("#nets tbody button"), HARD)
            page.click(*page.middle("#nets tbody button"))
            self.assertIn(HARD, page.text("#shown"))
            self.assertEqual(page.value("document.scripts.length"), 1)
            self.assertEqual(page.complaints(), [])

    def test_colours(self) -> None:
        """Light and dark differ, and so does what the colour-blind see; grades of overflow differ for all in light."""
        address, _ = self.grom()
        image = importlib.import_module("matplotlib.image")
        with browser.Browser() as page:
            self.opened(page, address)
            back = "getComputedStyle(document.body).backgroundColor"
            light, light_map = page.value(back), self.changed(page, None)[1]
            page.call("Emulation.setEmulatedMedia", features=[{"name": "prefers-color-scheme", "value": "dark"}])
            page.settle()
            self.assertNotEqual(page.value(back), light)
            self.assertGreater(self.changed(page, light_map)[0], light_map.size // 6)
            page.call("Emulation.setEmulatedMedia", features=[])
            for kind in ("deuteranopia", "protanopia", "tritanopia"):
                page.call("Emulation.setEmulatedVisionDeficiency", type=kind)
                page.settle()
                path = os.path.join(self.folder.name, "legend.png")
                page.screenshot(path)
                pixels = image.imread(path)
                seen = []
                for x, y in page.value("[...document.querySelectorAll('#legend canvas')].slice(0, 5)"
                                       ".map((item) => item.getBoundingClientRect()).map(({x, y}) => [x, y])"):
                    box = pixels[int(y) + 2:int(y) + 12, int(x) + 2:int(x) + 24, :3]
                    seen.append(box.reshape(-1, 3).mean(axis=0))
                for at, one in enumerate(seen):
                    for other in seen[at + 1:]:
                        self.assertGreater(abs(one - other).sum(), 0.25, (kind, at))

    def test_a_browser_that_hangs(self) -> None:
        """It is ended."""
        most, browser.MOST_SECONDS = browser.MOST_SECONDS, 5
        self.addCleanup(setattr, browser, "MOST_SECONDS", most)
        with browser.Browser() as page:
            with self.assertRaises((RuntimeError, BrokenPipeError)):
                page.value("(() => { for (;;) {} })()")


@unittest.skipUnless(PICTURES and browser.is_there(), "numpy, matplotlib or chromium is not there")
class FirstPicture(InFolder):
    """How long a page of 14,000 nets takes to its first picture."""

    def test_within_a_second(self) -> None:
        design = self.put("design", run(testing.program(), "make", "5", "110", "110", "6", "14000")[1])
        path = os.path.join(self.folder.name, "page.html")
        self.assertEqual(tool("report.py", design, self.routed(design, 6), "-o", path)[0], 0)
        times: list[Any] = []
        while len(times) < 10 and min(times, default=1000) >= 1000:     # the machine may have other work
            with browser.Browser() as page:
                page.open(f"file://{path}")
                page.wait("document.documentElement?.dataset.picture !== undefined")
                times.append(int(page.value("document.documentElement.dataset.picture")))
        self.assertLess(min(times), 1000, times)
