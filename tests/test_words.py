"""Tests of what terminals are told and of what shells complete."""
import concurrent.futures
import fcntl
import os
import pty
import random
import re
import shlex
import shutil
import signal
import struct
import subprocess
import sys
import termios
import time
import tty
import unittest
from typing import Any

from dev import answers, completion
from groute import explained, words as of_words
from groute.options import FAULTS, MEANS, RANGES, rows
from testing import ROOT, TOOLS, InFolder, bounds, found, program, run


class Tables(unittest.TestCase):
    """The words are those of word_reader, the faults those of the documents."""

    def test_commands(self) -> None:
        with open(f"{ROOT}/crates/word_reader/src/form.rt", encoding="utf-8") as file:
            form = file.read()
        options = dict(re.findall(r'OptionKind::(\w+) => OptionRow \{\s*word: "([^"]+)"', form))
        options.update((name, word) for word, name in re.findall(r'"(--[a-z-]+)" => Some\(OptionKind::(\w+)\)', form))
        found = re.findall(r'(?:word: )?"([a-z]+)"(?:,| => Some\(Form \{\s*command: [\w:]+,)\s*positionals: ([0-9]+),'
                           r'\s*options: &\[([^\]]*)\]', form)
        found = [(word, int(count), [options[name] for name in re.findall(r"OptionKind::(\w+)", names)])
                 for word, count, names in found]
        self.assertEqual([(row.word, len(row.positionals), [option for option, _ in row.options]) for row in rows()],
                         found)

    def test_faults(self) -> None:
        with open(f"{ROOT}/docs/FORMATS.md", encoding="utf-8") as file:
            text = file.read()
        for kind, faults in FAULTS.items():
            table = text.split(f"| of a {kind} |\n")[1].split("\n\n")[0]
            self.assertEqual(re.findall(r"^\| [0-9]+ \| (.+) \|$", table, re.MULTILINE), faults)

    def test_answers(self) -> None:
        """What the launchers answer by themselves is in the table."""
        with open(f"{ROOT}/tools/answers.sh", encoding="utf-8") as file:
            self.assertEqual(file.read(), answers.script())

    def test_what_words_mean(self) -> None:
        """Each word and option is told of in docs/FORMATS.md; the tests of drawn words hold their ranges."""
        with open(f"{ROOT}/docs/FORMATS.md", encoding="utf-8") as file:
            text = file.read()
        for name in {*MEANS, *RANGES}:
            self.assertIn(name, text)

    def test_completions(self) -> None:
        for name, made in (("groute.bash", completion.bash), ("_groute", completion.zsh)):
            with open(f"{ROOT}/completion/{name}", encoding="utf-8") as file:
                self.assertEqual(file.read(), made())

    def completed(self, *words: str) -> list[str]:
        """What bash completes of the last word."""
        quoted = " ".join(f"'{word}'" for word in words)
        script = f"cd {shlex.quote(ROOT)}; source completion/groute.bash; cd examples; COMP_WORDS=({quoted}); " \
                 f"COMP_CWORD={len(words) - 1}; _groute; printf '%s\\n' \"${{COMPREPLY[@]}}\""
        return run("bash", "-c", script)[1].split()

    @unittest.skipUnless(shutil.which("bash"), "bash is not there")
    def test_bash(self) -> None:
        self.assertEqual(self.completed("groute", ""), ["route", "evaluate", "buffer", "make", "trial", "panels"])
        self.assertEqual(self.completed("groute", "e"), ["evaluate"])
        self.assertEqual(self.completed("groute", "--"), ["--help", "--version"])
        self.assertEqual(self.completed("groute", "route", "--"),
                         ["--workers", "--via-cost", "--batch", "--rule", "--stop", "--from", "--trace", "--help"])
        self.assertEqual(self.completed("groute", "make", "--"), ["--help"])
        for words in (("--rule", ""), ("--rule", "=", ""), ("--rule", "=")):
            self.assertEqual(self.completed("groute", "route", *words), ["first", "steep", "flat", "near"])
        self.assertEqual(self.completed("groute", "trial", "--rule", "st"), ["steep"])
        self.assertEqual(self.completed("grbound", "--"), ["--steps", "--workers", "--via-cost", "--help", "--version"])
        self.assertEqual(self.completed("/usr/bin/groute-slowest", "--w"), ["--worst"])
        self.assertEqual(self.completed("groute-flow", "--rule", "f"), ["first", "flat"])
        self.assertEqual(self.completed("groute-slowest", "--nets", ""), ["clocks", "signals"])
        self.assertEqual(self.completed("groute-where", "crowd.i"), ["crowd.ispd"])
        self.assertEqual(sorted(self.completed("groute", "buffer", "small")),
                         ["small.ispd", "small.library", "small.solution"])

    @unittest.skipUnless(shutil.which("zsh"), "zsh is not there")
    def test_zsh(self) -> None:
        stub = "_describe() { print -l -- ${(P)2} }; _arguments() { print -l -- \"$@\" }; _files() { }; "
        for words, wanted in (("CURRENT=2; words=(groute '')", "route:routes a design"),
                              ("CURRENT=3; words=(groute evaluate '')", "3:SOLUTION:_files")):
            script = f"{stub}f() {{ {words}; source {shlex.quote(ROOT)}/completion/_groute }}; f"
            status, out, err = run("zsh", "-fc", script)
            self.assertEqual((status, err), (0, ""))
            self.assertIn(wanted, out.splitlines())


class Drawn(InFolder):
    """On drawn words a fault is found exactly where the program ends with status 2."""
    TAKEN = {"DESIGN": ("d",), "LIBRARY": ("l",), "SOLUTION": ("s",), "SEED": ("0", "18446744073709551615"),
             "X": ("2", "3"), "Y": ("2", "3"), "L": ("2", "16"), "NETS": ("0", "5"), "ROUNDS": ("0", "064", "64")}
    VALUES = {"--workers": ("1", "016"), "--via-cost": ("0", "1000"), "--batch": ("1", "65536"),
              "--rule": ("first", "steep", "flat", "near"), "--stop": ("still", "0", "18446744073709551615"),
              "--from": ("g", "", "--", "--trace", "--rule=x"), "--trace": ("",)}
    ODD = ["", "-", "--", "-1", "+1", " 1", "1.0", "x", "\udcff", "\u0661", "65", "1001", "65537", "0" * 19 + "1",
           "0" * 20 + "1", "18446744073709551616", "99999999999999999999", "first", "still", "--rule", "--workers",
           "--workers=", "--workers=1", "--via-cost=7=", "--help", "--version", "-h", "--stop=still", "--batch=2",
           "--rulefirst", "--from", "--from=", "--from=a", "--trace", "--trace=", "--trace=1",
           "--rules=first", "route", "panels", "2048", "2049"]

    def draw(self, random: random.Random, program: str) -> list[str]:
        """Words of a command, of which some may be changed."""
        row = random.choice(list(rows(program)))
        words = [random.choice(self.TAKEN[name]) for name in row.positionals]
        for option in random.sample(sorted(self.VALUES), random.choice((0, 0, 1, 2))):
            if random.random() < 0.2 or option in dict(row.options):
                value = random.choice(self.VALUES[option])
                at = random.randint(0, len(words))
                words[at:at] = ["--trace"] if option == "--trace" else random.choice((
                    [option, value], [f"{option}={value}"]))
        words = [*filter(None, [row.word]), *words]
        for _ in range(random.choice((0, 0, 1, 1, 2))):
            at = random.randint(0, len(words))
            words[at:at + random.choice((0, 1))] = random.choices(self.ODD, k=random.choice((0, 1, 1)))
        return words

    def test_where_the_fault_is(self) -> None:
        drawer = random.Random(1)
        lists = [("groute", program(), self.draw(drawer, "groute")) for _ in range(9000)]
        if path := bounds():
            lists += [("grbound", path, self.draw(drawer, "grbound")) for _ in range(1000)]

        def status(path: str, words: list[str]) -> int:
            return subprocess.run([path, *words], cwd=self.folder.name, stdout=subprocess.DEVNULL,
                                  stderr=subprocess.DEVNULL, check=False).returncode

        with concurrent.futures.ThreadPoolExecutor(len(os.sched_getaffinity(0))) as pool:
            ended = list(pool.map(lambda one: status(*one[1:]), lists))
        for (name, _, words), number in zip(lists, ended):
            self.assertEqual(of_words.sort(name, words).wrong is not None, number == 2, (name, words, number))
        self.assertGreater(min(ended.count(2), len(ended) - ended.count(2)), len(ended) // 4)


class Scripts(InFolder):
    """What the man page says of scripts."""

    def test_overflow(self) -> None:
        with open(f"{ROOT}/man/groute.1", encoding="utf-8") as file:
            line = found(r"^groute route DESIGN .*$", file.read(), re.MULTILINE).group()
        line = line.replace("\\-", "-").replace("\\(aq", "'")
        for rounds, status in ((0, 1), (1, 0)):
            crowd = f"{shlex.quote(ROOT)}/examples/crowd.ispd {shlex.quote(ROOT)}/examples/crowd.library {rounds}"
            line_of_it = line.replace("groute ", f"{shlex.quote(program())} ", 1).replace("DESIGN LIBRARY 8", crowd)
            self.assertEqual(run("sh", "-c", line_of_it, folder=self.folder.name)[0], status)


class Terminal(InFolder):
    """in_words.py, as the launcher calls it where standard error is a terminal."""

    def setUp(self) -> None:
        super().setUp()
        self.path = self.wrapper("groute", program())

    def wrapper(self, name: str, path: str) -> str:
        """The path of a script that runs a program as the launcher does."""
        inner = os.path.join(self.folder.name, "lib", name)
        os.makedirs(os.path.dirname(inner), exist_ok=True)
        os.symlink(path, inner)
        words = f"{shlex.quote(sys.executable)} {shlex.quote(TOOLS)}/in_words.py {shlex.quote(inner)}"
        script = self.put(name, f'#!/bin/sh\n[ ! -t 2 ] || exec {words} "$@"\nexec {shlex.quote(inner)} "$@"\n')
        os.chmod(script, 0o755)
        return script

    def started(self, *words: str, **options: Any) -> tuple[subprocess.Popen[bytes], int]:
        """The wrapper, running, and the other end of its terminal."""
        mine, theirs = pty.openpty()
        options = {"stdout": subprocess.PIPE, "cwd": ROOT, **options}
        child = subprocess.Popen([self.path, *words], stderr=theirs, **options)
        os.close(theirs)
        return child, mine

    def shown(self, *words: str, **options: Any) -> tuple[int, str, str]:
        """Status, standard output, and what the terminal shows."""
        child, terminal = self.started(*words, **options)
        out, shown = (child.communicate()[0] or b"").decode(), b""
        while True:
            try:
                piece = os.read(terminal, 1 << 16)
            except OSError:     # nobody writes any more
                piece = b""
            if not piece:
                break
            shown += piece
        os.close(terminal)
        return child.returncode, out, shown.decode().replace("\r\n", "\n")

    def test_usage(self) -> None:
        """The word at fault, the nearest right one, and the words of its command alone."""
        for words, wrong, line in (
                ((), "a command is due: route, evaluate, buffer, make, trial or panels", "groute --help says more"),
                (("rout", "a"), "rout is no command: route is the nearest", "groute --help says more"),
                (("route", "a"), "LIBRARY is due behind DESIGN (a)", "groute route DESIGN"),
                (("route", "a", "b", "65"), "65: ROUNDS is 0 to 64: 64 is the nearest", "groute route DESIGN"),
                (("evaluate", "a", "b", "--via-cots=2"),
                 "--via-cots=2: groute evaluate has no such option: --via-cost is the nearest", "groute evaluate"),
                (("trial", "1", "2", "2", "2", "1", "0", "--rule", "steeper"),
                 "steeper is no word of --rule: steep is the nearest", "groute trial"),
                (("route", "--help", "a"), "--help: groute route has no such option", "groute route DESIGN"),
        ):
            status, out, shown = self.shown(*words)
            self.assertEqual((status, out), (2, ""))
            self.assertTrue(shown.startswith(f"groute: usage\n{wrong}"), shown)
            self.assertTrue(shown.splitlines()[2].startswith(line), shown)
            self.assertNotIn("groute panels", shown)
            self.assertEqual(run(self.path, *words), (2, "", "groute: usage\n"))

    def test_reading(self) -> None:
        """The file that can't be read, and why; a pipe isn't opened again."""
        small = f"{ROOT}/examples/small.ispd"
        pipe = os.path.join(self.folder.name, "pipe")
        os.mkfifo(pipe)
        for words, says in (
                (("evaluate", small, "missing"), "missing: No such file or directory (SOLUTION)\n"),
                (("route", self.folder.name, "missing", "0"), f"{self.folder.name}: Is a directory (DESIGN)\n"),
                (("panels", "/proc/self/mem", "b"), "/proc/self/mem: Input/output error (DESIGN)\n"),
                (("buffer", small, "--", "-", ""), "-: No such file or directory (LIBRARY)\n")):
            self.assertEqual(self.shown(*words), (6, "", f"groute: a read failed\n{says}"))
        self.assertIn("is a pipe, which isn't opened again", str(explained.why_unread(pipe)))
        self.assertIsNone(explained.why_unread(small))

    def test_writing(self) -> None:
        """That standard output can't be written, and why."""
        small = [f"{ROOT}/examples/small.{kind}" for kind in ("ispd", "solution")]
        with open("/dev/full", "wb") as full:
            self.assertEqual(self.shown("evaluate", *small, stdout=full),
                             (7, "", "standard output: a write failed: No space left on device\n"))
        mine, theirs = os.pipe()
        os.close(mine)
        self.assertEqual(self.shown("evaluate", *small, stdout=theirs),
                         (7, "", "standard output: a write failed: Broken pipe\n"))
        os.close(theirs)
        with open(small[0], "rb") as unwritten:
            self.assertEqual(self.shown("evaluate", *small, stdout=unwritten),
                             (7, "", "standard output: a write failed: Bad file descriptor\n"))

    @unittest.skipUnless(bounds(), "grbound is not named")
    def test_bounds(self) -> None:
        """The same of grbound."""
        self.path = self.wrapper("grbound", str(bounds()))
        design = self.put("design", "grid 3 2\nx")
        for words, status, told, says in (
                (("a", "b"), 2, "usage",
                 "b: nothing more is due behind DESIGN\ngrbound DESIGN [--steps K] [--workers N] [--via-cost V]\n"),
                (("--via-cost", "1001", "a"), 2, "usage", "1001: --via-cost is 0 to 1000: 1000 is the nearest\n"),
                (("--", "missing"), 6, "a read failed", "missing: No such file or directory (DESIGN)\n"),
                ((design,), 3, "design fault 3 at token 4", f"{design}:2:1: a whole number in its range is due: x\n")):
            ended, out, shown = self.shown(*words)
            self.assertEqual((ended, out), (status, ""))
            self.assertTrue(shown.startswith(f"grbound: {told}\n{says}"), shown)

    def test_a_terminal_is_one(self) -> None:
        """The program sees a terminal of the same size, through which each byte goes as it is."""
        script = self.put("seen", f"#!{sys.executable}\nimport os\nprint(os.isatty(2), *os.get_terminal_size(2))\n"
                                  "os.write(2, bytes(range(256)))\n")
        os.chmod(script, 0o755)
        self.path = self.wrapper("odd", script)
        mine, theirs = pty.openpty()
        tty.setraw(theirs)
        fcntl.ioctl(theirs, termios.TIOCSWINSZ, struct.pack("HHHH", 7, 91, 0, 0))
        done = subprocess.run([self.path], stdout=subprocess.PIPE, stderr=theirs, check=True)
        self.assertEqual((done.stdout, os.read(mine, 512)), (b"True 91 7\n", bytes(range(256))))
        os.close(mine)
        os.close(theirs)

    def test_faults(self) -> None:
        with open(f"{ROOT}/examples/small.ispd", encoding="ascii") as file:
            design = self.put("design", file.read().replace("25 15 1", "25 35 1"))
        small = [f"examples/small.{kind}" for kind in ("ispd", "library", "solution")]
        library, solution = self.put("library", "library 1\nwire 1 x"), self.put("solution", "a 0\n(5,5,1)-(95,5,1)\n!")
        for words, status, told, place in (
            (("route", "--workers", "2", design, small[1], "0"), 3, "design fault 8 at token 40",
             f"{design}:11:4: the pin lies outside the chip: 35\n"),
            (("route", "--via-cost=2", "--", small[0], library, "0"), 4, "library fault 3 at token 5",
             f"{library}:2:8: a whole number in its range is due: x\n"),
            (("evaluate", small[0], solution), 5, "solution fault 7 at token 3",
             f"{solution}:2:1: an end lies outside the chip or its layers: (5,5,1)-(95,5,1)\n"),
            (("buffer", *small[:2], "examples/open.solution"), 5, "solution net 0 is not a tree",
             "examples/open.solution: the edges of the net of id 0 have a loop"),
        ):
            ended, out, shown = self.shown(*words)
            self.assertEqual((ended, out), (status, ""), words)
            self.assertTrue(shown.startswith(f"groute: {told}\n{place}"), shown)
            self.assertIn("docs/FORMATS.md", shown)
            self.assertEqual(run(self.path, *words, folder=ROOT), (status, "", f"groute: {told}\n"))

    def test_the_rest_is_as_without(self) -> None:
        words = "trial", "1", "32", "32", "6", "2000", "1"
        self.assertEqual(self.shown(*words), (*run(program(), *words)[:2], ""))
        small = [f"examples/small.{kind}" for kind in ("ispd", "library")]
        direct = run(program(), "route", *small, "3", folder=ROOT)
        self.assertEqual(self.shown("route", *small, "3"), direct)

    def inner(self, child: subprocess.Popen[bytes]) -> list[str]:
        """The processes that a process has started, once there are some, which takes at most ten seconds."""
        for _ in range(100):
            with open(f"/proc/{child.pid}/task/{child.pid}/children", encoding="ascii") as file:
                found = file.read().split()
            if found:
                return found
            time.sleep(0.1)
        return []

    def test_signals(self) -> None:
        for number in (signal.SIGTERM, signal.SIGINT):
            child, terminal = self.started("trial", "1", "1024", "1024", "8", "1000000", "64")
            inner = self.inner(child)
            time.sleep(1)
            child.send_signal(number)
            child.communicate(timeout=20)
            os.close(terminal)
            self.assertEqual(child.returncode, -number)
            self.assertEqual([pid for pid in inner if os.path.exists(f"/proc/{pid}")], [])
            self.assertEqual(len(inner), 1)
