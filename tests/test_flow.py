"""Tests of flow.py: all steps in one command."""
import os
import shlex

from groute import start
from groute.commands import flow
from chips import STA
from testing import BOUNDS, PICTURES, ROOT, InFolder, program, run, text_of, tool

SKY = [f"{ROOT}/examples/sky/{name}" for name in ("adder.def", "tech.lef", "cells.lef", "cells.lib")]
FILES = ["design.ispd", "design.ispd.names", "design.ispd.pins", "design.library", "report.txt", "routes.guide",
         "routes.solution"]


class Flow(InFolder):
    """flow.py on a small placement."""

    def script(self, name: str, line: str) -> str:
        """The path of a program that does this."""
        path = self.put(name, f"#!/bin/sh\n{line}\n")
        os.chmod(path, 0o755)
        return path

    def made(self, placed: str, *words: str) -> tuple[int, str, str, str]:
        """Status, what was printed, what was told, and the folder."""
        folder = os.path.join(self.folder.name, "out")
        groute = self.script("groute", f'exec {shlex.quote(program())} "$@"')
        status, out, err = tool("flow.py", placed, "--lef", SKY[1], "--lef", SKY[2], "--program", groute, "-o", folder,
                                *words)
        return status, out, err, folder

    def test_all_steps(self) -> None:
        words = ("--layers", "met1-met5", "--rounds", "2", "--workers", "2", "--driver", "sk_inv")
        status, out, err, folder = self.made(SKY[0], "--liberty", SKY[3], *words, "--kind", "own", "1", "900", "50000")
        self.assertEqual(status, 0, err)
        shown = ["hotspots.txt", "index.html"] if PICTURES else ["congestion.csv"]
        self.assertEqual(sorted(os.listdir(folder)), sorted([*FILES, *shown]))
        verdict = r"^adder: overflow 0; fullest tile [0-9]+ %; worst net delay [0-9]+ ps\n$"
        self.assertRegex(out, verdict if PICTURES else
                         r"^adder: routed 44, overflow 0, maximum 0, wirelength [0-9]+, vias [0-9]+\n$")
        paths = [os.path.join(folder, name) for name in ("design.ispd", "routes.solution")]
        self.assertEqual(run(program(), "evaluate", *paths)[0], 0)
        for name, says in (("hotspots.txt", "met5   horizontal"), ("index.html", "<!doctype html")):
            if PICTURES:
                with open(os.path.join(folder, name), encoding="utf-8") as file:
                    self.assertIn(says.lower(), file.read().lower())

    def test_bound(self) -> None:
        """What grbound writes, where it stands beside groute, comes to the page."""
        self.script("grbound", f"[ $# -gt 0 ] || exit 2\ncat <<E\n{BOUNDS}E")
        status, _, err, folder = self.made(SKY[0], "--layers", "met1-met5", "--rounds", "0")
        self.assertEqual((status, "bounds.txt" in os.listdir(folder)), (0, True), err)

    def test_options(self) -> None:
        """What routes are asked for, by the words and by what grbound proves."""
        for words, least, wanted in (
                ("", 0, "64 --workers 1 --rule near --stop 0"), ("", 3, "16 --workers 1 --rule near"),
                ("--rule flat", 0, "64 --workers 1 --rule flat --stop 0"),
                ("--rule flat", 3, "16 --workers 1 --rule flat"),
                ("--stop still", 0, "64 --workers 1 --rule near --stop still"),
                ("--stop 5", 3, "16 --workers 1 --rule near --stop 5"),
                ("--batch 9", 0, "8 --workers 1 --rule near --batch 9"),
                ("--batch 9", 3, "8 --workers 1 --rule near --batch 9"), ("--rounds 8", 3, "8 --workers 1 --rule near"),
                ("--rounds 0 --workers 4 --rule steep --batch 64", 0, "0 --workers 4 --rule steep --batch 64")):
            asked = flow.asked_of(["a.def", "--lef", "a.lef", "-o", "out", *words.split()])
            self.assertEqual(" ".join(flow.order(asked, least)), wanted, words)
        for words, says in (("--batch 1 --stop 0", "exclude each other"), ("--rule other", "--rule"),
                            ("--batch 0", "from 1 to 65536"), ("--stop x", "--stop"), ("--workers 17", "1 to 16"),
                            ("--rounds 99", "from 0 to 64"), ("--sink x", "--sink: x is no number"),
                            ("--tile 0 9", "--tile: 0 is no number"), ("--adjust a=2", "no LAYER=SHARE"),
                            ("--kinds a", "want --liberty"), ("--driver a", "want --liberty"),
                            (f"--sta --liberty {SKY[3]} --period 0", "no number of nanoseconds")):
            status, out, err, folder = self.made(SKY[0], *words.split())
            self.assertEqual((status, out, os.path.exists(folder)), (2, "", False), words)
            self.assertIn(says, err.splitlines()[-1])

    def test_what_is_passed_on(self) -> None:
        """groute takes the options; a rule and an end come to it by the words that it has."""
        noted = os.path.join(self.folder.name, "noted")
        groute = self.script("noting", f'[ $# -gt 0 ] && echo "$*" >> {noted}\nexec {shlex.quote(program())} "$@"')
        self.script("grbound", f"[ $# -gt 0 ] || exit 2\ncat <<E\n{BOUNDS}E")
        given = ("--layers", "met1-met5", "--program", groute)
        for words, wanted in ((("--rule", "flat", "--stop", "3"), "16 --workers 1 --rule flat --stop 3 --trace"),
                              (("--rounds", "3", "--batch", "7"), "3 --workers 1 --rule near --batch 7 --trace"),
                              ((), "16 --workers 1 --rule near --trace")):
            status, _, err, _ = self.made(SKY[0], *given, *words)
            with open(noted, encoding="utf-8") as file:
                line = file.readlines()[-1].split(" ", 3)
            self.assertEqual((status, line[0], line[3]), (0, "route", f"{wanted}\n"), err)

    def test_from(self) -> None:
        """What an earlier run routed is kept, by the names of nets; of the same placement, all of it."""
        words = ("--layers", "met1-met5", "--rounds", "1")
        self.assertEqual(self.made(SKY[0], *words)[0], 0)
        first = os.path.join(self.folder.name, "out")
        earlier = os.path.join(self.folder.name, "earlier")
        os.rename(first, earlier)
        status, out, err, folder = self.made(SKY[0], *words, "--from", earlier)
        self.assertEqual(status, 0, err)
        self.assertIn("; 44 nets kept", out)
        for name in ("routes.solution", "given.solution"):
            with open(f"{earlier}/routes.solution", "rb") as before, open(f"{folder}/{name}", "rb") as after:
                self.assertEqual(before.read(), after.read())
        with open(f"{folder}/report.txt", encoding="utf-8") as file:
            self.assertEqual([line.split()[0] for line in file][5:8], ["kept", "rounds", "round"])
        os.rename(folder, f"{folder}.second")
        self.assertEqual(self.made(SKY[0], *words, "--from", "/none")[0], 3)
        status, _, err, _ = self.made(SKY[0], "--layers", "met2-met5", "--rounds", "1", "--from", earlier)
        self.assertEqual((status, "its grid is another one" in err), (3, True), err)
        self.assertEqual(self.made(SKY[0], *words, "--from", folder)[0], 3)      # it would be written over

    def test_programs_first(self) -> None:
        """Both programs are called once before the first step: what a build says is told and not in the report, and one
        that can't run is told."""
        for name, line in (("groute", "groute: usage"), ("grbound", "grbound: usage")):
            self.script(name, f'[ $# -gt 0 ] || {{ echo "{name} is built" >&2; echo "{line}" >&2; exit 2; }}\n'
                              + (f'exec {shlex.quote(program())} "$@"' if name == "groute" else f"cat <<E\n{BOUNDS}E"))
        given = ("--layers", "met1-met5", "--program", os.path.join(self.folder.name, "groute"))
        folder = os.path.join(self.folder.name, "out")

        def called(*words: str) -> tuple[int, list[str]]:
            status, _, err = tool("flow.py", SKY[0], "--lef", SKY[1], "--lef", SKY[2], "-o", folder, *given, *words)
            return status, [line for line in err.splitlines() if not line.startswith("def_to_ispd: ")]

        lacking = "" if PICTURES else f"flow: {start.lacks('numpy')}: a table takes the place of hot spots and page"
        rest = [lacking] if lacking else []
        self.assertEqual(called(), (0, ["groute is built", "grbound is built", *rest]))
        with open(os.path.join(folder, "report.txt"), encoding="utf-8") as file:
            self.assertEqual(file.readline(), "routed 44\n")
        bounds = self.script("grbound", "exit 126")
        says = [f"flow: {bounds} isn't there or can't run: the page has no bounds", *rest]
        self.assertEqual(called(), (0, ["groute is built", *says]))
        os.chmod(bounds, 0o644)
        self.assertEqual(called(), (0, ["groute is built", *says]))
        self.put("grbound", "no program")
        os.chmod(bounds, 0o755)
        self.assertEqual(called(), (0, ["groute is built", *says]))
        os.unlink(bounds)
        self.assertEqual(called(), (0, ["groute is built", *says]))
        self.script("groute", "echo no >&2; exit 1")
        self.assertEqual(called(), (3, ["no", f"flow: {given[-1]} can't run"]))

    def test_what_is_removed(self) -> None:
        """What an earlier run wrote goes, once words and inputs are right, and nothing else."""
        given = ("--layers", "met1-met5", "--rounds", "0")
        folder = os.path.join(self.folder.name, "out")
        os.mkdir(folder)
        for name in ("timed", "run2"):
            os.mkdir(os.path.join(folder, name))
        for name in ("mine.txt", "index.htm", "bounds.txt", "timed/mine.txt", "timed/placed.def", "run2/routes.spef"):
            self.put(f"out/{name}", "mine")
        self.assertEqual(self.made(SKY[0], *given)[0], 0)
        names = sorted(os.listdir(folder))
        self.assertTrue({"mine.txt", "index.htm", "timed"} < set(names))
        self.assertFalse("run2" in names)
        self.assertEqual(os.listdir(os.path.join(folder, "timed")), ["mine.txt"])
        self.assertFalse({"bounds.txt"} & set(names))
        self.assertEqual(self.made(SKY[0], *given, "--rounds", "99")[0], 2)
        self.assertEqual(self.made(SKY[0] + ".none", *given)[0], 3)
        self.assertEqual(self.made(SKY[0], *given, "--liberty", "/none")[0], 3)
        self.assertEqual(sorted(os.listdir(folder)), names)
        self.put("out/timed/placed.def", text_of("examples/sky/adder.def"))
        for name in (*FILES, "timed/placed.def"):      # an input that would be written over
            self.assertEqual(self.made(os.path.join(folder, name), *given)[0], 3)
        self.assertEqual(sorted(os.listdir(folder)), names)
        os.unlink(os.path.join(folder, "timed", "placed.def"))
        status, _, err, _ = self.made(SKY[0], *given, "--liberty", SKY[3], "--sta", "--period", "1")
        self.assertEqual((status, ("timed has what no run wrote" if STA else "sta isn't on PATH") in err), (3, True))
        self.assertEqual(sorted(os.listdir(folder)), names)
        self.assertEqual(self.made(SKY[0], "--layers", "met9-met5")[0], 3)
        self.assertEqual(sorted(os.listdir(folder)), ["index.htm", "mine.txt", "timed"])

    def test_unjoined(self) -> None:
        """The status is the verdict's where routes leave nets unjoined."""
        real, all_ = shlex.quote(program()), f"{self.folder.name}/all"
        groute = self.script("less", f'[ $# -gt 0 ] || exec {real}\n{real} "$@" > {all_} 2> {all_}.report\n'
                                     f'sed "1,/^!/d" {all_} | tee {all_}.less\n'
                                     f'{{ {real} evaluate "$2" {all_}.less | head -n 5; sed 1,5d {all_}.report; }} >&2')
        status, out, err, folder = self.made(SKY[0], "--layers", "met1-met5", "--program", groute)
        self.assertEqual((status, os.path.exists(f"{folder}/{'index.html' if PICTURES else 'congestion.csv'}")),
                         (1, True), err)
        self.assertRegex(out, r"^adder: 1 net unjoined; overflow" if PICTURES else r"^adder: unjoined 1, ")

    def test_overflow(self) -> None:
        status, out, _, _ = self.made(SKY[0], "--layers", "met1-met5", "--rounds", "0",
                                      *(f"--adjust=met{at}=0.9" for at in range(1, 5)))
        self.assertEqual(status, 0)
        self.assertRegex(out, r"^adder: .*overflow [1-9]")

    def test_first_failure(self) -> None:
        with open(SKY[0], encoding="utf-8") as file:
            placed = self.put("bad.def", file.read().replace("END NETS", "END NET"))
        status, out, err, folder = self.made(placed)
        self.assertEqual((status, out, os.listdir(folder)), (3, "", []))
        self.assertRegex(err, r"def_to_ispd: \S+bad.def:[0-9]+: END NETS is due: .*\n"
                              r"flow: def_to_ispd.py ended with status 3\n$")
        status, _, err, folder = self.made(SKY[0], "--layers", "met1-met5", "--rounds", "65")
        self.assertEqual(status, 2)
        self.assertTrue(err.endswith("error: argument --rounds: 65 is no number from 0 to 64\n"))
        self.assertFalse(os.path.exists(os.path.join(folder, "routes.guide")))
        self.assertEqual(self.made(SKY[0], "--program", "/none")[0], 3)
