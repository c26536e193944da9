"""Tests of the samples in the documents, and of what stands in two places."""
import doctest
import glob
import os
import re
import shlex
import shutil
import subprocess
import sys
import tempfile
import unittest
from typing import Iterator
from unittest import mock

from dev import definitions, man_page, theorem
from groute import calls, options
from testing import PICTURES, ROOT, bounds, program, text_of

DOCUMENTS = ["README.md", *(f"docs/{name}" for name in sorted(os.listdir(f"{ROOT}/docs")) if name.endswith(".md"))]
QFLOW = os.path.exists("/usr/share/qflow/tech/osu035/osu035_stdcells.lef")     # of Debian's qflow-tech-osu035
# Samples that want numpy, and what stands on a text of theirs.
WANTS_NUMPY = re.compile(r"\.png\b|tools/(hotspots|slowest|report|adjust|flow)\.py|/less\.ispd|/flow/adder")


class Samples(unittest.TestCase):
    """What the documents show is what the commands write."""

    def test_samples(self) -> None:
        path = {**os.environ, "PATH": os.path.dirname(sys.executable) + os.pathsep + os.environ["PATH"]}
        with tempfile.TemporaryDirectory() as folder:
            for name, path_of in (("groute", program()), ("grbound", bounds())):
                if path_of is None:
                    continue
                with open(f"{folder}/{name}", "w", encoding="utf-8") as file:
                    file.write(f'#!/bin/sh\nexec {shlex.quote(path_of)} "$@"\n')
                os.chmod(f"{folder}/{name}", 0o755)
            for name in ("examples", "tools", "docs"):
                os.symlink(f"{ROOT}/{name}", f"{folder}/{name}")
            for document in DOCUMENTS:
                for command, wanted in samples(document):
                    with self.subTest(document=document, command=command):
                        if re.search(r"\./grbound|tools/flow\.py", command) and not bounds():
                            self.skipTest("grbound is not named")
                        if "--sta" in command and not shutil.which("sta"):
                            self.skipTest("sta is not there")
                        if WANTS_NUMPY.search(command) and not PICTURES:
                            self.skipTest("numpy and matplotlib are not there")
                        done = subprocess.run(["sh", "-c", command], cwd=folder, check=False, text=True, env=path,
                                              stdout=subprocess.PIPE, stderr=subprocess.STDOUT)
                        self.assertEqual(done.stdout, wanted)


def samples(document: str) -> Iterator[tuple[str, str]]:
    """The commands of a document, and what they should write."""
    lines = text_of(document).split("\n")
    command, wanted = None, []
    for line in [*lines, ""]:
        if command is not None and (line[:6] == "    $ " or line[:4] != "    "):
            yield command, "".join(f"{text}\n" for text in wanted)
            command, wanted = None, []
        if line[:6] == "    $ ":
            command = line[6:]
        elif command is not None:
            wanted.append(line[4:])


class Documents(unittest.TestCase):
    """What stands in two places is the same, and what is named is there."""

    def test_definitions(self) -> None:
        self.assertEqual(text_of("docs/DEFINITIONS.md"), definitions.document())

    def test_theorem(self) -> None:
        """What docs/PROVED.md copies from the code is what stands there, and nothing in the code is assumed."""
        text = text_of("docs/PROVED.md")
        self.assertEqual(len(theorem.COPY.findall(text)), 16)
        self.assertEqual(text, theorem.document(text))
        for path in glob.glob(f"{ROOT}/crates/*/s*/**/*.*t*", recursive=True) + glob.glob(
                f"{ROOT}/crates/*/proofs/**/*.antt", recursive=True):
            if path.endswith((".rt", ".antt")):
                code = re.sub(r"(?m)(--|//).*$", "", text_of(os.path.relpath(path, ROOT)))
                self.assertIsNone(re.search(r"\b(axiom|assume)\b|(^|\s)\?(\s|$)", code), path)

    def test_times(self) -> None:
        """The rows of README's tables begin rows of bench/RESULTS.md."""
        results = text_of("bench/RESULTS.md").splitlines()
        for head in ("| run |", "| chip |"):
            table = text_of("README.md").split(head, 1)[1].split("\n\n", 1)[0].splitlines()
            self.assertGreater(len(table), 4)
            for line in [head + table[0], *table[2:]]:
                self.assertTrue(any(line == found[:len(line)] for found in results), line)

    def test_names_of_contracts(self) -> None:
        """The names in docs/PROVED.md are those of definitions or of code."""
        words = set()
        for path in glob.glob(f"{ROOT}/crates/*/s*/**/*", recursive=True):
            if path.endswith((".rt", ".antt")):
                words.update(re.findall(r"\w+", text_of(os.path.relpath(path, ROOT))))
        for name in re.findall(r"`([A-Z]\w+)`", text_of("docs/PROVED.md")):
            self.assertIn(name, words)

    def test_glossary(self) -> None:
        """The files that the glossary names are there, and each word has one row."""
        rows = re.findall(r"^\| ([^|]+) \| [^|]+ \| [^|]+ \| ([^|]+) \|$", text_of("docs/GLOSSARY.md"), re.MULTILINE)
        rows = [row for row in rows if row[0] != "word"]
        words = [word for row in rows for word in row[0].split(", ")]
        self.assertEqual(len(words), len(set(words)))
        for _, place in rows:
            path = place if "." in place else "crates/{}/specs/{}.antt".format(*place.split("/"))
            self.assertTrue(os.path.exists(f"{ROOT}/{path}"), path)

    def test_paths(self) -> None:
        """Files that the documents name are there."""
        for document in ["README.md", "examples/README.md", *DOCUMENTS]:
            for path in re.findall(r"`((?:bench|docs|examples|man|reference|tools)/[\w./]+\w)", text_of(document)):
                if not path.startswith("examples/smtbmc") and not path.endswith("/NAME"):
                    with self.subTest(document=document, path=path):
                        self.assertTrue(os.path.exists(f"{ROOT}/{path}"))

    def test_statuses(self) -> None:
        """How tools end is told as their table has it, and on their man pages."""
        table = "".join(f"| {status:d} | {comes} |\n" for status, comes in options.COMES.items())
        self.assertIn(f"| status | comes |\n|---|---|\n{table}\n", text_of("docs/PLACEMENTS.md"))
        self.assertEqual(list(options.COMES), list(options.Status))
        page = "\n".join(man_page.page("where"))
        for status, comes in options.COMES.items():
            self.assertIn(f".TP\n{status:d}\n{man_page.roff(comes)}\n", page)


class Manual(unittest.TestCase):
    """The man page says what docs/FORMATS.md says."""

    def test_faults_and_words(self) -> None:
        formats = text_of("docs/FORMATS.md")
        manual = re.sub(r"\\f[BIR]", "", text_of("man/groute.1")).replace("\\-", "-")
        faults = re.findall(r"^\| ([0-9]+) \| ([^|]+) \|$", formats, re.MULTILINE)
        self.assertEqual(len(faults), 13 + 9 + 12)
        for number, says in faults:
            says = re.sub(r"`(\w+)`", r"\\(oq\1\\(cq" if number in "67" else r"\1", says)
            self.assertIn(f"{number:>2}  {re.sub(r'(?<=[0-9]),(?=[0-9])', '', says)}\n", manual)
        words = re.findall(r"^    (groute [a-z]+ [A-Z].*)$", formats, re.MULTILINE)
        self.assertEqual(len(words), 6)
        for line in words:
            self.assertIn(f"{line}\n", manual)


class Python(unittest.TestCase):
    """README's lines of Python do what they show."""

    def test_lines(self) -> None:
        lines = [line[4:] for line in text_of("README.md").splitlines() if line.startswith("    ")]
        first = next(at for at, line in enumerate(lines) if line.startswith(">>> import groute"))
        last = max(at for at, line in enumerate(lines) if line.startswith(">>> "))
        text = "".join(f"{line}\n" for line in lines[first:last + 2])
        sample = doctest.DocTestParser().get_doctest(text, {}, "README", None, None)
        self.assertEqual(len(sample.examples), 3)
        folder = os.getcwd()
        self.addCleanup(os.chdir, folder)
        os.chdir(ROOT)
        with mock.patch.object(calls, "found", lambda name: program()):
            self.assertEqual(doctest.DocTestRunner().run(sample).failed, 0)
