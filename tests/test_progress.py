"""Tests of what groute tells on a terminal on its way."""
import fcntl
import os
import pty
import re
import struct
import subprocess
import tempfile
import termios
import unittest

from testing import LIBRARY, ROOT, TOOLS, program, run

COLUMNS = 80
ROUNDS = 4
# A made design whose rounds take some seconds.
NETS = "170000"
MADE = ("make", "1", "160", "160", "6", NETS)
LINE = re.compile(rb"\r([^\r\n\x1b]+)\x1b\[K")
IN_ROUND = re.compile(rf"round (\d+) of {ROUNDS}: (?:overflow \d+, (\d+) of (\d+)|(\d+)) nets begun, \d+ s")
ENDED = re.compile(rf"round {ROUNDS} of {ROUNDS} ended: overflow \d+; buffers and texts, \d+ s")


def screen(told: bytes) -> list[bytes]:
    """The lines that a terminal shows behind these bytes."""
    lines, column = [b""], 0
    for piece in re.findall(rb"\x1b\[K|\r|\n|[^\x1b\r\n]+", told):
        if piece == b"\r":
            column = 0
        elif piece == b"\n":
            lines.append(b"")
        elif piece == b"\x1b[K":
            lines[-1] = lines[-1][:column]
        else:
            lines[-1] = lines[-1][:column] + piece + lines[-1][column + len(piece):]
            column += len(piece)
    return lines


class Progress(unittest.TestCase):
    """A line of progress is rewritten on the way, and nothing is left of it."""
    folder: tempfile.TemporaryDirectory[str]
    design: str
    library: str
    batched: tuple[int, str, str]

    @classmethod
    def setUpClass(cls) -> None:
        cls.folder = tempfile.TemporaryDirectory()
        cls.design, cls.library = (os.path.join(cls.folder.name, name) for name in ("design", "library"))
        with open(cls.design, "wb") as file:
            subprocess.run([program(), *MADE], stdout=file, check=True)
        with open(cls.library, "w", encoding="ascii") as file:
            file.write(LIBRARY % "".join(f"wire {layer} 100 100\n" for layer in range(1, 7)))
        cls.batched = run(program(), *cls.words("--batch", "64", "--workers", "2"))

    @classmethod
    def tearDownClass(cls) -> None:
        cls.folder.cleanup()

    @classmethod
    def words(cls, *options: str) -> list[str]:
        """The words of the run."""
        return ["route", cls.design, cls.library, str(ROUNDS), *options]

    def told(self, *words: str, out: int | None = None, term: str = "xterm") -> tuple[int, bytes, bytes]:
        """Status, and what was written on standard output, a file where none is named, and on the terminal."""
        mine, theirs = pty.openpty()
        fcntl.ioctl(theirs, termios.TIOCSWINSZ, struct.pack("HHHH", 24, COLUMNS, 0, 0))
        with tempfile.TemporaryFile() as file:
            process = subprocess.Popen(words, stdout=file if out is None else theirs if out == 2 else out,
                                       stderr=theirs, stdin=subprocess.DEVNULL, env={**os.environ, "TERM": term})
            os.close(theirs)
            told = bytearray()
            try:
                while piece := os.read(mine, 1 << 16):
                    told += piece
            except OSError:
                pass        # the other end is closed
            os.close(mine)
            status = process.wait()
            file.seek(0)
            return status, file.read(), bytes(told)

    def check_lines(self, told: bytes) -> None:
        """The lines tell of each round, and in rounds behind the first of more and more nets."""
        lines = [line.decode() for line in LINE.findall(told)]
        self.assertLessEqual(max(map(len, lines)), 78)
        begun: dict[int, list[int]] = {}
        for line in lines:
            if match := IN_ROUND.fullmatch(line):
                begun.setdefault(int(match[1]), []).append(int(match[2] or match[4]))
                self.assertLessEqual(int(match[2] or 0), int(match[3] or 0))
            else:
                self.assertRegex(line, ENDED)
        for counts in begun.values():
            self.assertEqual(counts, sorted(counts))
        self.assertTrue(any(len(set(begun[number])) > 1 for number in begun if number > 0), lines)
        self.assertRegex(lines[-1], ENDED)

    def check_batched(self, *words: str) -> None:
        """A run in batches writes what it writes without a terminal, and its screen ends as without progress."""
        status, out, told = self.told(*words, *self.words("--batch", "64", "--workers", "2"))
        self.assertEqual((status, out.decode()), self.batched[:2])
        self.check_lines(told)
        self.assertEqual(b"\n".join(screen(told)).decode(), self.batched[2])

    def test_by_workers(self) -> None:
        """Between two lines lies a third of a second."""
        status, out, told = self.told(program(), *self.words("--workers", "2"))
        self.assertEqual(status, 0)
        self.assertIn(b"\n!\n", out)
        self.check_lines(told)
        self.assertRegex(b"\n".join(screen(told)), rf"^routed {NETS}\noverflow ".encode())
        seconds = re.findall(rb"nets begun, (\d+) s", told)
        self.assertLessEqual(max(seconds.count(second) for second in seconds), 4)

    def test_in_batches(self) -> None:
        self.check_batched(program())

    def test_by_the_launcher(self) -> None:
        """The launcher hands the program a terminal."""
        found = run(f"{ROOT}/tools/release.sh", "--find", "groute", folder=ROOT)[1].strip()
        if not found or not os.path.samefile(os.path.join(ROOT, found), program()):
            self.skipTest("./groute runs another program")
        self.check_batched(f"{ROOT}/groute")

    def test_installed(self) -> None:
        root = os.path.join(self.folder.name, "root")
        status, _, err = run(f"{TOOLS}/install.sh", root, folder=ROOT)
        self.assertEqual(status, 0, err)
        installed = os.path.join(root, "lib", "groute", "groute")
        with open(installed, "rb") as ours, open(program(), "rb") as theirs:
            if ours.read() != theirs.read():
                self.skipTest("another program is installed")
        self.check_batched(os.path.join(root, "bin", "groute"))

    def test_both_on_the_terminal(self) -> None:
        status, _, told = self.told(program(), *self.words("--batch", "64", "--workers", "2"), out=2)
        self.assertEqual(status, 0)
        self.check_lines(told)
        self.assertEqual(b"\n".join(screen(told)).decode(), self.batched[1] + self.batched[2])

    def test_a_write_that_fails(self) -> None:
        """At status 7 nothing is left of the line either."""
        with open("/dev/full", "wb") as full:
            status, _, told = self.told(program(), *self.words("--batch", "64", "--workers", "2"), out=full.fileno())
        self.assertEqual((status, screen(told)), (7, [b""]))
        self.check_lines(told)

    def test_a_terminal_that_rewrites_no_line(self) -> None:
        status, out, told = self.told(program(), *self.words("--batch", "64", "--workers", "2"), term="dumb")
        self.assertEqual((status, out.decode(), told.decode().replace("\r\n", "\n")), self.batched)
