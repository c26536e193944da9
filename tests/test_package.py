"""Tests of the package: which part imports which, types, form, and which python runs a script."""
import ast
import glob
import os
import shutil
import stat
import sys
import unittest
from typing import Iterator

from groute import options
from groute.texts import places
from testing import ROOT, TOOLS, InFolder, run

PACKAGE = os.path.join(TOOLS, "groute")
PARTS = ["texts", "placed", "timing", "loads", "show", "commands"]    # each imports those before it
WITH_NUMPY = {"loads", "show"}
CHECKED = ["tools/groute", "tools/dev", "tools/test.py", *(
    f"tests/{name}" for name in sorted(os.listdir(f"{ROOT}/tests")) if name.endswith(".py")
    and name not in ("klayout_cells.py", "klayout_shapes.py", "test_launcher.py"))]   # two run in klayout
FAKE = "import sys\nsys.version_info = ({})\nsys.executable = {!r}\n"


def imports(path: str) -> Iterator[str]:
    """The modules that a file names, wherever it does."""
    with open(path, encoding="utf-8") as file:
        tree = ast.parse(file.read())
    for node in ast.walk(tree):
        if isinstance(node, ast.Import):
            yield from (name.name for name in node.names)
        elif isinstance(node, ast.ImportFrom) and node.module:
            yield node.module
            yield from (f"{node.module}.{name.name}" for name in node.names)


class Package(unittest.TestCase):
    """What the parts are made of."""

    def test_layers(self) -> None:
        for at, part in enumerate(PARTS):
            for path in glob.glob(f"{PACKAGE}/{part}/*.py"):
                for name in imports(path):
                    words = name.split(".")
                    if words[0] == "groute" and len(words) > 1 and words[1] in PARTS:
                        self.assertLessEqual(PARTS.index(words[1]), at, (path, name))
                    elif words[0] == "groute" and part != "commands":
                        self.assertEqual(words[1:2], [], (path, name))
                    if words[0] in ("numpy", "matplotlib"):
                        self.assertIn(part, WITH_NUMPY, path)

    def test_a_script_for_each_command(self) -> None:
        found = {name[:-3] for name in os.listdir(f"{PACKAGE}/commands") if not name.startswith("_")}
        self.assertEqual(found, {*options.TOOLS, "in_words"})
        for name in (*options.TOOLS, "in_words"):
            path = f"{TOOLS}/{name}.py"
            self.assertTrue(os.stat(path).st_mode & stat.S_IXUSR, path)
            self.assertLess(len(open(path, encoding="utf-8").readlines()), 8)

    @unittest.skipUnless(shutil.which("mypy"), "mypy is not there")
    def test_types(self) -> None:
        found = run("mypy", "--config-file", "setup.cfg", "--cache-dir", os.devnull, *CHECKED, folder=ROOT)
        self.assertEqual(found[:2], (0, f"Success: no issues found in {self.count()} source files\n"))

    def count(self) -> int:
        """How many files are checked."""
        return sum(len(glob.glob(f"{ROOT}/{path}/**/*.py", recursive=True)) or 1 for path in CHECKED)

    @unittest.skipUnless(shutil.which("flake8"), "flake8 is not there")
    def test_form(self) -> None:
        self.assertEqual(run("flake8", "--config", "setup.cfg", *CHECKED, folder=ROOT), (0, "", ""))


class Pythons(InFolder):
    """Scripts find the package, and a python that has what is wanted."""

    def test_through_a_link(self) -> None:
        link = os.path.join(self.folder.name, "groute-where")
        os.symlink(f"{TOOLS}/where.py", link)
        small = f"{ROOT}/examples/small.ispd"
        self.assertEqual(run(sys.executable, link, small, "1"), (0, f"{small}:1:1: grid\n", ""))
        package = os.path.join(self.folder.name, "groute")
        os.symlink(PACKAGE, package)
        called = f"import sys; sys.path.insert(0, {self.folder.name!r}); from groute.texts.names import Names; print(1)"
        self.assertEqual(run(sys.executable, "-c", called), (0, "1\n", ""))
        self.assertEqual(places.line_and_column(b"a\nb", 2), (2, 1))

    def called(self, name: str, before: str, *words: str, **env: str) -> tuple[int, str, str]:
        """What a script does in a python that is made to be another one by some lines."""
        script = self.put(f"{name}.py", f"{before}sys.path.insert(0, {TOOLS!r})\nfrom groute import start\n"
                                        f"start.OTHER = {os.path.join(self.folder.name, 'other')!r}\n"
                                        f"start.run({name!r})\n")
        kept = {key: value for key, value in os.environ.items() if key != "VIRTUAL_ENV"}
        return run(sys.executable, script, *words, env={**kept, **env})

    def test_another_python(self) -> None:
        """One without numpy, or too old, runs the script again by Debian's, once, but in no virtual environment."""
        other = self.put("other", '#!/bin/sh\n[ "$1" = -c ] && exit ${OTHER_LACKS:-0}\n'
                                  'echo "again $GROUTE_AGAIN: ${1##*/} $2"\n')
        os.chmod(other, 0o755)
        none = "import sys\nsys.modules['numpy'] = sys.modules['matplotlib'] = None\n"
        old = FAKE.format("3, 7, 3", "/opt/old/python3")
        small = f"{ROOT}/examples/small.ispd"
        for before in (none, old):
            self.assertEqual(self.called("adjust", before, small), (0, f"again 1: adjust.py {small}\n", ""))
        apt = "apt-get install python3-numpy python3-matplotlib, or pip install numpy matplotlib"
        for env in ({"OTHER_LACKS": "1"}, {"VIRTUAL_ENV": "/venv"}, {"GROUTE_AGAIN": "1"}):
            status, out, err = self.called("adjust", none, small, **env)
            self.assertEqual((status, out), (3, ""))
            self.assertEqual(err, f"adjust: {sys.executable} has no numpy and no matplotlib: {apt}\n")
            status, out, err = self.called("adjust", old, small, **env)
            self.assertEqual((status, out), (3, ""))
            self.assertEqual(err, "adjust: /opt/old/python3 is too old: it is 3.7, and 3.10 or later is wanted\n")
