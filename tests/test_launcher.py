"""Tests of ./groute, ./grbound and tools/release.sh: which program runs in which state of a repository.

The repositories are small ones with the real scripts, two crates and programs that say who they are; the last tests
take a clone of this one.
"""
import os
import pty
import re
import shutil
import subprocess
import tempfile
import unittest

ROOT = os.path.dirname(os.path.dirname(os.path.abspath(__file__)))
SCRIPTS = ("groute", "grbound", "tools/launch.sh", "tools/start.sh", "tools/answers.sh",
           "tools/programs.sh", "tools/release.sh", "tools/build.py")
PROGRAMS = ("groute", "grbound")
PLAIN = "/usr/bin:/bin"     # a PATH without the toolchain
PROGRAM = '#!/bin/sh\n[ $# -gt 0 ] || exit 2\necho "$0: {says}" "$@"\n'
# An rt that proves nothing: it says its version, and builds a program of the folder that it is called in.
RT = """#!/bin/sh
case $1 in
version) echo "{kit}" ;;
run) name=$(basename "$PWD"); mkdir -p out; printf '%s' '{program}' >"out/$name"; chmod 755 "out/$name" ;;
esac
"""


def text_of(path):
    """A file's text."""
    with open(path, encoding="utf-8") as file:
        return file.read()


class Small(unittest.TestCase):
    """A small repository in a folder whose name has a blank."""

    def setUp(self) -> None:
        self.folder = tempfile.mkdtemp()
        self.addCleanup(shutil.rmtree, self.folder)
        self.root = os.path.join(self.folder, "a clone")
        self.bin = os.path.join(self.folder, "bin")
        for name in SCRIPTS:
            os.makedirs(os.path.dirname(self.path(name)), exist_ok=True)
            shutil.copy(os.path.join(ROOT, name), self.path(name))
        self.put("crates.txt", "low:\nother: low\n# programs\ngroute may_wait=1: low\ngrbound: low\n")
        self.put("HANDLES", "none\n")
        for crate in ("low", "other", *PROGRAMS):
            self.put(f"crates/{crate}/src/lib.rt", f"// {crate}\n")
            self.put(f"crates/{crate}/proofs/+a/A.antt", f"-- {crate}\n")
        self.make_rt("kit one")
        self.release("released")

    def path(self, name):
        """The path of a file of the repository."""
        return os.path.join(self.root, name)

    def put(self, name, text, mode=0o644):
        """Writes a file of the repository in place."""
        os.makedirs(os.path.dirname(self.path(name)), exist_ok=True)
        with open(self.path(name), "w", encoding="utf-8") as file:
            file.write(text)
        os.chmod(self.path(name), mode)

    def make_rt(self, kit):
        """Puts an rt of this version on the PATH that has one."""
        os.makedirs(self.bin, exist_ok=True)
        path = os.path.join(self.bin, "rt")
        with open(path, "w", encoding="utf-8") as file:
            file.write(RT.format(kit=kit, program=PROGRAM.format(says="built")))
        os.chmod(path, 0o755)

    def build(self, says):
        """Puts programs where a gate leaves them, and notes them."""
        for name in PROGRAMS:
            self.put(f"crates/{name}/out/{name}", PROGRAM.format(says=says), 0o755)
            self.assertEqual(self.told("tools/release.sh", "--note", name)[0], 0)

    def release(self, says):
        """Makes release/ of such programs, and leaves nothing built."""
        self.build(says)
        self.assertEqual(self.told("tools/release.sh", with_rt=True), (0, "", ""))
        for name in PROGRAMS:
            shutil.rmtree(self.path(f"crates/{name}/out"))

    def told(self, script, *words, with_rt=False, folder=None, **more):
        """Status, standard output and standard error of a script of the repository."""
        path = f"{self.bin}:{PLAIN}" if with_rt else PLAIN
        done = subprocess.run([self.path(script), *words], cwd=folder, check=False, text=True, capture_output=True,
                              env={"PATH": path, **more})
        return done.returncode, done.stdout, done.stderr

    def runs(self, says, name="groute", **more):
        """The launcher runs this program, and tells nothing of its own."""
        status, out, err = self.told(name, "a", "b c", **more)
        self.assertEqual((status, out.partition(": ")[2], err), (0, f"{says} a b c\n", ""))
        return out.partition(": ")[0]

    def refuses(self, *words):
        """The launcher runs nothing, and says why in these words, among others."""
        status, out, err = self.told("groute", "a")
        self.assertEqual((status, out), (125, ""), err)
        for word in words:
            self.assertIn(word, err)


class Launcher(Small):
    """Which program runs."""

    def test_the_released_one(self) -> None:
        for name in PROGRAMS:
            self.assertEqual(self.runs("released", name), self.path(f"release/{name}"))
            self.assertEqual(self.told("tools/release.sh", "--which", name), (0, f"release/{name}\n", ""))
            self.assertEqual(self.told(name), (2, "", ""))

    def test_one_that_was_built_comes_first(self) -> None:
        self.runs("released")
        self.build("built here")
        self.runs("built here")
        shutil.rmtree(self.path("crates/groute/out"))
        self.runs("released")

    def test_a_later_start_takes_no_sums(self) -> None:
        self.runs("released")
        with open(os.path.join(self.bin, "sha256sum"), "w", encoding="utf-8") as file:
            file.write("#!/bin/sh\nexit 1\n")
        os.chmod(os.path.join(self.bin, "sha256sum"), 0o755)
        self.runs("released", with_rt=True)

    def test_changed_sources(self) -> None:
        changes = {
            "a byte": lambda: self.put("crates/low/proofs/+a/A.antt", "-- lou\n"),
            "a new file": lambda: self.put("crates/groute/specs/B.antt", ""),
            "a line of crates.txt": lambda: self.put("crates.txt", "low:\ngroute: low\ngrbound: low\n"),
            "HANDLES": lambda: self.put("HANDLES", "all\n"),
            "a file that is gone": lambda: os.remove(self.path("crates/low/proofs/+a/A.antt")),
            "a folder that is gone": lambda: shutil.rmtree(self.path("crates/low/proofs")),
            "a file of another name": lambda: os.rename(self.path("crates/low/src/lib.rt"),
                                                        self.path("crates/low/src/bil.rt")),
        }
        for name, change in changes.items():
            with self.subTest(change=name):
                shutil.rmtree(self.root)
                Small.setUp(self)
                self.runs("released")
                change()
                self.refuses("rt isn't on PATH")

    def test_an_old_date_hides_no_change(self) -> None:
        self.runs("released")
        self.put("crates/low/src/lib.rt", "// lou\n")
        os.utime(self.path("crates/low/src/lib.rt"), (1, 1))
        self.refuses("rt isn't on PATH")

    def test_other_changes(self) -> None:
        self.runs("released")
        self.put("crates/other/src/lib.rt", "// another\n")
        self.put("crates/low/must-fail/an.edit", "")
        self.put("README.md", "")
        self.runs("released")

    def test_a_program_that_is_older_than_the_sources(self) -> None:
        self.build("built here")
        self.runs("built here")
        self.put("crates/low/src/lib.rt", "// lou\n")
        self.refuses("rt isn't on PATH")
        self.put("crates/low/src/lib.rt", "// low\n")
        self.runs("built here")

    def test_a_built_program_that_is_damaged(self) -> None:
        self.build("built here")
        self.runs("built here")
        self.put("crates/groute/out/groute", PROGRAM.format(says="damaged"), 0o755)
        self.runs("released")

    def test_a_damaged_release(self) -> None:
        text = text_of(self.path("release/groute"))
        for damaged in (text.replace("released", "enlarged"), text[:-1], ""):
            self.runs("released")
            self.put("release/groute", damaged, 0o755)
            self.refuses("release/groute isn't the file that release/SUMS names", "rt isn't on PATH")
            self.put("release/groute", text, 0o755)
        os.chmod(self.path("release/groute"), 0o644)
        self.refuses("run bit")
        os.remove(self.path("release/groute"))
        self.refuses("release/groute")
        shutil.rmtree(self.path("release"))
        self.refuses("rt isn't on PATH")

    def test_another_machine(self) -> None:
        """A program that the system can't start ends by another status than that for no words."""
        for says in ("exit 1\n", "kill -ILL $$\n"):
            for name in PROGRAMS:
                self.put(f"crates/{name}/out/{name}", f"#!/bin/sh\n{says}", 0o755)
                self.told("tools/release.sh", "--note", name)
            self.refuses("x86-64-v2", "glibc 2.34", "Linux")

    def test_where_nothing_can_be_noted(self) -> None:
        self.put(".seen", "")
        for _ in range(2):
            self.runs("released")
        self.put("crates/low/src/lib.rt", "// lou\n")
        self.refuses("rt isn't on PATH")

    def test_two_first_calls_at_once(self) -> None:
        words = [self.path("groute"), "a"]
        calls = [subprocess.Popen(words, env={"PATH": PLAIN}, stdout=subprocess.PIPE, stderr=subprocess.STDOUT)
                 for _ in range(8)]
        for call in calls:
            self.assertEqual(call.communicate()[0].decode().partition(": ")[2], "released a\n")
        self.runs("released")
        self.assertLessEqual(len(os.listdir(self.path(".seen"))), 9)

    def test_by_links_and_paths(self) -> None:
        os.symlink(self.path("groute"), os.path.join(self.folder, "link"))
        for words, folder in (([os.path.join(self.folder, "link")], "/"), (["./groute"], self.root),
                              (["sh", "groute"], self.root), (["../groute"], self.path("crates"))):
            done = subprocess.run([*words, "a"], cwd=folder, env={"PATH": PLAIN}, check=False, capture_output=True)
            self.assertTrue(done.stdout.endswith(b"released a\n"), (words, done))

    def test_on_a_terminal(self) -> None:
        """What is wrong is told by another script; the rest is the program's."""
        self.put("tools/in_words.py", "import sys\nprint('in words', *sys.argv[2:])\n")
        for name in PROGRAMS:
            mine, theirs = pty.openpty()
            done = subprocess.run([self.path(name), "a"], stderr=theirs, stdout=subprocess.PIPE, check=False,
                                  env={"PATH": PLAIN})
            os.close(theirs)
            os.close(mine)
            self.assertTrue(done.stdout.decode().endswith("in words a\n"), done)

    def test_answers(self) -> None:
        """What the launcher answers it answers without a program and without python, and other words are the
        program's."""
        for name in PROGRAMS:
            self.assertEqual(self.told(name, "--version"), (0, f"{name} {text_of(f'{ROOT}/VERSION')}", ""))
            self.assertIn(f"{name} ", self.told(name, "--help")[1])
        status, out, err = self.told("groute", "route", "--help")
        self.assertEqual((status, out.splitlines()[0][:20], err), (0, "groute route DESIGN ", ""))
        self.assertFalse(os.path.exists(self.path(".seen")))
        with open("/dev/full", "wb") as full:
            self.assertEqual(subprocess.run([self.path("groute"), "--help"], stdout=full, stderr=subprocess.DEVNULL,
                                            check=False).returncode, 7)
        for words in (["route --help"], ["--help", "route"], ["route", "--version"], ["--help", ""], ["", "--help"],
                      ["route", "a", "--help"], ["--", "--help"], ["rout", "--help"], ["*", "--help"]):
            status, out, err = self.told("groute", *words)
            self.assertEqual((status, out.partition(": ")[2], err), (0, f"released {' '.join(words)}\n", ""))
        self.assertEqual(self.told("grbound", "route", "--help")[1].partition(": ")[2], "released route --help\n")

    def test_a_build(self) -> None:
        self.put("crates/low/src/lib.rt", "// lou\n")
        status, out, err = self.told("groute", "a", with_rt=True)
        self.assertEqual((status, out.partition(": ")[2]), (0, "built a\n"))
        self.assertEqual(err.count("proved and built first"), 1)
        self.runs("built")
        self.refuses_bounds()

    def refuses_bounds(self):
        """The other program wasn't built."""
        status, out, _ = self.told("grbound", "a")
        self.assertEqual((status, out), (125, ""))

    def test_a_proof_that_fails(self) -> None:
        self.put("crates/low/src/lib.rt", "// lou\n")
        with open(os.path.join(self.bin, "rt"), "w", encoding="utf-8") as file:
            file.write("#!/bin/sh\necho error: no proof\nexit 1\n")
        status, out, err = self.told("groute", "a", with_rt=True)
        self.assertEqual((status, out), (125, ""))
        self.assertIn("low isn't proved: error: no proof", err)


class Check(Small):
    """tools/release.sh --check and --current."""

    def checked(self):
        """Status and words of --check with the toolchain."""
        status, out, err = self.told("tools/release.sh", "--check", with_rt=True)
        return status, out + err

    def test_the_same(self) -> None:
        self.build("released")
        self.assertEqual(self.checked()[0], 0)
        self.assertEqual(self.told("tools/release.sh", "--current"), (0, "", ""))

    def test_nothing_built(self) -> None:
        self.assertIn("isn't noted as built", self.checked()[1])
        self.assertEqual(self.checked()[0], 1)
        self.assertEqual(self.told("tools/release.sh", with_rt=True)[0], 1)

    def test_other_bytes(self) -> None:
        self.build("another")
        status, told = self.checked()
        self.assertEqual(status, 1)
        self.assertIn("tools/release.sh, and .ci/run again", told)

    def test_a_changed_byte(self) -> None:
        self.build("released")
        for name in ("release/groute", "release/grbound", "release/SUMS", "crates/low/src/lib.rt"):
            text = text_of(self.path(name))
            mode = os.stat(self.path(name)).st_mode
            for at in (len(text) // 2, len(text) - 2):
                self.put(name, text[:at] + chr(ord(text[at]) ^ 1) + text[at + 1:], mode)
                self.assertEqual(self.checked()[0], 1, name)
            self.put(name, text, mode)
        os.remove(self.path("release/grbound"))
        self.assertEqual(self.checked()[0], 1)

    def test_another_kit(self) -> None:
        self.build("another")
        self.make_rt("kit two")
        self.put("reference/rows.py", "import sys\nprint(sys.argv[1])\n")
        status, told = self.checked()
        self.assertEqual(status, 0)
        self.assertIn("another kit", told)
        self.assertIn("release/groute\n", told)
        self.put("reference/rows.py", "import sys\nsys.exit(1)\n")
        self.assertEqual(self.checked()[0], 1)


def is_released():
    """Whether this repository is one of git and has a release of its sources."""
    return os.path.isdir(os.path.join(ROOT, ".git")) and shutil.which("git") and subprocess.run(
        [os.path.join(ROOT, "tools/release.sh"), "--current"], check=False, capture_output=True).returncode == 0


@unittest.skipUnless(is_released(), "no git repository whose release is that of its sources")
class Clone(unittest.TestCase):
    """A clone of this repository, in a folder whose name has a blank, with nothing of the toolchain on PATH."""

    @classmethod
    def setUpClass(cls):
        cls.folder = tempfile.mkdtemp()
        cls.root = os.path.join(cls.folder, "a clone")
        subprocess.run(["git", "clone", "-q", ROOT, cls.root], check=True)

    @classmethod
    def tearDownClass(cls):
        shutil.rmtree(cls.folder)

    def told(self, *words):
        """Status, standard output and standard error of a program of the clone."""
        done = subprocess.run(words, cwd=self.root, check=False, capture_output=True, env={"PATH": PLAIN})
        return done.returncode, done.stdout.decode(), done.stderr.decode()

    def test_both_programs(self) -> None:
        solution = text_of(os.path.join(self.root, "examples/small.solution"))
        status, out, _ = self.told("./groute", "route", "examples/small.ispd", "examples/small.library", "3")
        self.assertEqual((status, out), (0, solution))
        status, out, _ = self.told("./grbound", "examples/small.ispd")
        self.assertEqual((status, out.splitlines()[0]), (0, "overflow at least 0"))

    def test_the_program_tells_its_version_of_libraries(self) -> None:
        """The released programs want no library but the C library, of 2.34 at most."""
        for name in PROGRAMS:
            with open(os.path.join(self.root, "release", name), "rb") as file:
                text = file.read()
            versions = re.findall(rb"GLIBC_([0-9]+)\.([0-9]+)", text)
            self.assertLessEqual(max((int(major), int(minor)) for major, minor in versions), (2, 34))
