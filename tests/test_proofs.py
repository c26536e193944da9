"""Tests of what is said of routes by what grbound proves."""
import json
import os
import unittest

from groute.commands import flow
from groute.loads import edges_plain, proofs
from groute.loads.edges import counted
from groute.texts.bounds import Bounds, Prices, Wall, bounds_in, bounds_of
from groute.texts.designs import Netlist
from groute.texts.files import Fault
from groute.texts.tokens import Tokens
from testing import BOUNDS, PICTURES, ROOT, InFolder, bounds, program, run, tool

# A net across three tiles of layer 1, where rows go east; layer 2 goes north, and what it holds east is given.
DESIGN = """grid 3 2 2
vertical capacity 0 4
horizontal capacity 4 {east}
minimum width 1 1
minimum spacing 1 1
via spacing 1 1
0 0 10 10
num net 1
a 0 2 1
5 5 1
25 5 1
"""
STRAIGHT = "a 0\n(5,5,1)-(25,5,1)\n!\n"
BY_PRICES = """overflow by prices at least {}
usable wirelength without overflow at least {}
usable wirelength and overflow at least {}
"""
NONE = Bounds(0, 0, 0, None, ())


class Proofs(InFolder):
    """When something is said, and what."""

    def said(self, some: Bounds, solution: str, via_cost: int = 1, told: int | None = None, east: int = 0,
             more: str = "") -> list[str]:
        """What is said of routes, whose report tells a wirelength or not."""
        design = self.put("design", DESIGN.format(east=east) + more)
        edges = counted(Netlist(Tokens(design)), self.put("solution", solution))
        plain = edges_plain.Edges(edges.design, self.put("solution", solution))
        self.assertEqual(plain.are_usable(), edges.are_usable())
        found = proofs.proofs(some, edges, proofs.wirelength_of(edges, via_cost, told))
        return [f"{proof.figure} {proof.reached}, {proof.words()}" for proof in found]

    def test_without_overflow(self) -> None:
        """The bound by prices, else the one along usable edges; nothing where that is 0 or is another design's."""
        prices = Prices(0, 2, 1)
        says = ["wirelength 2, at least 2 by proof: within 0.0 %"]
        self.assertEqual(self.said(Bounds(0, 1, 1, prices, ()), STRAIGHT), says)
        self.assertEqual(self.said(Bounds(0, 2, 2, None, ()), STRAIGHT), says)
        self.assertEqual(self.said(NONE, STRAIGHT), [])
        self.assertEqual(self.said(Bounds(0, 3, 3, None, ()), STRAIGHT), [])

    def test_unjoined(self) -> None:
        """Bounds speak of routes that join each net."""
        some = Bounds(0, 1, 1, Prices(0, 1, 1), ())
        self.assertEqual(self.said(some, "a 0\n(5,5,1)-(15,5,1)\n!\n"), [])
        self.assertEqual(self.said(some, ""), [])
        self.assertEqual(len(self.said(some, STRAIGHT)), 1)

    def test_unusable(self) -> None:
        """Wirelength is bounded along usable edges, as the layers state them; overflow along any."""
        above = "a 0\n(5,5,1)-(5,5,2)\n(5,5,2)-(25,5,2)\n(25,5,2)-(25,5,1)\n!\n"
        some = Bounds(0, 2, 2, Prices(0, 3, 3), ())
        self.assertEqual(self.said(some, above, east=4), ["wirelength 4, at least 3 by proof: within 33.4 %"])
        adjusted = "2\n0 0 2 1 0 2 9\n1 0 2 2 0 2 9\n"
        self.assertEqual(self.said(some, above, more=adjusted), [])
        self.assertEqual(self.said(Bounds(1, 2, 2, Prices(2, 3, 3), ()), above),
                         ["overflow 4, at least 2 by proof: within 100.0 %"])

    def test_closed(self) -> None:
        """An edge that is adjusted to 0 stays usable."""
        some = Bounds(0, 2, 2, Prices(0, 2, 3), ())
        self.assertEqual(self.said(some, STRAIGHT, more="1\n0 0 1 1 0 1 0\n"),
                         ["wirelength and overflow 4, at least 3 by proof: within 33.4 %"])

    def test_via_cost(self) -> None:
        """Vias count as they do for the bounds; routes whose report counts them otherwise have no such wirelength."""
        above = "a 0\n(5,5,1)-(5,5,2)\n(5,5,2)-(25,5,2)\n(25,5,2)-(25,5,1)\n!\n"
        some = Bounds(0, 2, 2, Prices(0, 7, 7), ())
        says = ["wirelength 8, at least 7 by proof: within 14.3 %"]
        self.assertEqual(self.said(some, above, 3, east=4), says)
        self.assertEqual(self.said(some, above, 3, 8, east=4), says)
        self.assertEqual(self.said(some, above, 3, 4, east=4), [])

    def test_with_overflow(self) -> None:
        """Overflow is set beside its bound where there is one, and wirelength only together with it."""
        closed = "1\n0 0 1 1 0 1 1\n"
        together = "wirelength and overflow 3, at least 2 by proof: within 50.0 %"
        self.assertEqual(self.said(Bounds(0, 2, 2, Prices(0, 2, 2), ()), STRAIGHT, more=closed), [together])
        self.assertEqual(self.said(Bounds(0, 2, 2, Prices(1, 9, 2), ()), STRAIGHT, more=closed),
                         ["overflow 1, at least 1 by proof: within 0.0 %", together])
        self.assertEqual(self.said(Bounds(1, 2, 2, None, ()), STRAIGHT, more=closed)[1],
                         "wirelength and overflow 3, at least 3 by proof: within 0.0 %")
        self.assertEqual(self.said(Bounds(0, 2, 2, Prices(1, 2, 2), ()), STRAIGHT), [])    # of another design

    def test_rounded_up(self) -> None:
        """So that a share is never less than it is."""
        for reached, least, words in ((18002, 16968, "6.1"), (10001, 10000, "0.1"), (10010, 10000, "0.1"),
                                      (10011, 10000, "0.2"), (4000000, 1000, "399,900.0")):
            self.assertEqual(proofs.Proof("wirelength", reached, least).words(),
                             f"at least {least:,} by proof: within {words} %")

    @unittest.skipUnless(bounds(), "grbound is not named")
    def test_real(self) -> None:
        """What is proved of crowded routes, with rounds and without."""
        path = f"{ROOT}/examples/crowd.ispd"
        some = self.put("bounds", run(str(bounds()), path, "--steps", "20")[1])
        for rounds, figures in ((0, ["wirelength and overflow"]), (1, ["wirelength"])):
            edges = counted(Netlist(Tokens(path)), self.routed(path, 1, rounds))
            found = proofs.proofs(bounds_in(some), edges, edges.wires + edges.vias)
            self.assertEqual([proof.figure for proof in found], figures)


class Texts(InFolder):
    """What grbound writes, as it is read."""

    def test_read(self) -> None:
        walls = Wall("box", (0, 0, 0, 0), 3, 2), Wall("column", (1,), 2, 8)
        self.assertEqual(bounds_of(BOUNDS), Bounds(1, 3, 5, None, walls))
        self.assertEqual(bounds_of(BOUNDS).least(), Prices(1, 5, 6))
        lines = BOUNDS.splitlines(keepends=True)
        text = "".join([*lines[:3], BY_PRICES.format(2, 6, 9), *lines[3:]])
        self.assertEqual(bounds_of(text), Bounds(1, 3, 5, Prices(2, 6, 9), walls))
        self.assertEqual(bounds_of(text).least(), Prices(2, 6, 9))
        for wrong in ("", "".join(lines[:5]), "".join(lines[1:]), text.replace("boxes", "box"), f"{text}row\n",
                      text.replace("at least 6", "at least x"), "".join(text.splitlines(keepends=True)[:7])):
            with self.assertRaisesRegex(Fault, "it isn't what grbound writes"):
                bounds_in(self.put("wrong", wrong))


@unittest.skipUnless(PICTURES, "numpy and matplotlib are not there")
class Verdict(InFolder):
    """What report.py and flow.py print."""

    def test_report(self) -> None:
        """The verdict has it behind the overflow; not by another via cost than the report's."""
        lines = BOUNDS.splitlines(keepends=True)
        text = "".join(["overflow at least 0\n", *lines[1:3], BY_PRICES.format(0, 5, 5), *lines[3:]])
        some = self.put("bounds", text)
        page = os.path.join(self.folder.name, "page")
        for name, rounds, words, wanted in (
                ("crowd", "0", (), "4; wirelength and overflow 8, at least 5 by proof: within 60.0 %; fullest"),
                ("crowd", "1", (), "0; wirelength 6, at least 5 by proof: within 20.0 %; fullest"),
                ("small", "0", (), "0; wirelength 5, at least 5 by proof: within 0.0 %; fullest"),
                ("small", "0", ("--via-cost", "2"), "0; fullest")):
            paths = [f"{ROOT}/examples/{name}.{kind}" for kind in ("ispd", "library")]
            _, out, err = run(program(), "route", *paths, rounds)
            given = self.put("solution", out), paths[1], self.put("report", err)
            status, out, err = tool("report.py", paths[0], *given, "--bound", some, *words, "-o", page)
            self.assertEqual((status, out.partition(" tile")[0]), (0, f"overflow {wanted}"), err)

    def test_overfull(self) -> None:
        """Overflow is set beside its bound, in words and as an object."""
        design = self.put("design", DESIGN.format(east=0) + "1\n0 0 1 1 0 1 1\n")
        some = self.put("bounds", BOUNDS.replace("at least 3", "at least 2").replace("at least 5", "at least 2"))
        words = [design, self.put("solution", STRAIGHT), "--bound", some, "-o", f"{self.folder.name}/page"]
        says = ("overflow 1, at least 1 by proof: within 0.0 %; wirelength and overflow 3, at least 3 by proof: within "
                "0.0 %; fullest tile 200 %")
        self.assertEqual(tool("report.py", *words), (0, f"{says}\n", ""))
        found = json.loads(tool("report.py", *words, "--json")[1])
        self.assertEqual((found["verdict"], found["proved"]), (says, {
            "overflow_units": {"reached": 1, "at_least": 1, "within_percent": 0.0}, "wirelength_edges": None,
            "wirelength_and_overflow": {"reached": 3, "at_least": 3, "within_percent": 0.0}}))


class Steps(InFolder):
    """How many steps flow.py has grbound take."""

    def test_steps(self) -> None:
        for nets, words, wanted in ((1, "", 100), (200, "", 100), (2000, "", 10), (20001, "", 0), (9, "--steps 7", 7),
                                    (9, "--steps 0", 0)):
            design = self.put("design", f"grid 2 2 2\nnum net {nets}\n")
            asked = flow.asked_of(["a.def", "--lef", "a.lef", "-o", "out", *words.split()])
            self.assertEqual(flow.price_steps(asked, design), wanted)
