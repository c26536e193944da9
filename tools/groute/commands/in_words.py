"""Runs groute or grbound and says in words on standard error what is wrong, where the status is 2 to 7: the launchers
do this where standard error is a terminal. Words: tools/in_words.py PROGRAM WORD ..

All else is as without it: standard input and output are the program's own, its standard error is a terminal too,
signals go on to it, and the status, or the signal by which it ended, is its own.
"""
import fcntl
import os
import signal
import subprocess
import sys
import termios
import tty
from types import FrameType
from typing import Sequence

from groute.explained import Ended, explained, program_of

PASSED = (signal.SIGINT, signal.SIGTERM, signal.SIGHUP, signal.SIGQUIT, signal.SIGUSR1, signal.SIGUSR2)
FIRST = 4096            # bytes that are kept of what is told
SIZE = bytes(8)         # of a window, as the system has it


class Child:
    """The program while it runs."""

    def __init__(self) -> None:
        self.process: subprocess.Popen[bytes] | None = None
        for number in PASSED:
            signal.signal(number, self.hand_on)

    def hand_on(self, number: int, _: FrameType | None) -> None:
        """Hands a signal on."""
        if self.process is None:
            os._exit(128 + number)
        self.process.send_signal(number)

    def run(self, words: Sequence[str]) -> tuple[int, bytes]:
        """Runs the program to its end: its status, below 0 for a signal, and the first bytes of what it told."""
        told = b""
        mine, theirs = ends()
        try:
            self.process = subprocess.Popen(words, stderr=theirs)
        finally:
            os.close(theirs)
        with self.process as process:
            while piece := read(mine):
                told = (told + piece)[:FIRST]
                write_all(piece)
        os.close(mine)
        return process.returncode, told


def ends() -> tuple[int, int]:
    """Two ends: what is written on the second is read from the first, byte by byte. The second is a terminal as this
    process's standard error is one; a pipe, where the system has no more terminals."""
    try:
        mine, theirs = os.openpty()
    except OSError:
        return os.pipe()
    tty.setraw(theirs)
    try:
        fcntl.ioctl(theirs, termios.TIOCSWINSZ, fcntl.ioctl(2, termios.TIOCGWINSZ, SIZE))
    except OSError:
        pass    # it has no size
    return mine, theirs


def read(file: int) -> bytes:
    """What was written next; nothing, where nobody writes any more."""
    try:
        return os.read(file, 1 << 16)
    except OSError:
        return b""


def write_all(piece: bytes) -> None:
    """Writes on standard error; where nobody reads it any more, nothing."""
    while piece:
        try:
            piece = piece[os.write(2, piece):]
        except OSError:
            return


def end_by(number: int) -> None:
    """Ends by a signal, as the program did."""
    if number != signal.SIGKILL:
        signal.signal(number, signal.SIG_DFL)
    os.kill(os.getpid(), number)


def main(words: Sequence[str]) -> int:
    """Runs the program; the answer is its status."""
    if not words or words[0] in ("-h", "--help"):
        print((__doc__ or "").strip())
        return 0
    name = program_of(words[0])
    try:
        status, told = Child().run(words)
    except OSError as fault:
        print(f"{name}: {fault}", file=sys.stderr)
        return 126
    if status < 0:
        end_by(-status)
    try:
        lines = explained(Ended(name, words[1:], status, told))
        write_all("".join(f"{line}\n" for line in lines).encode(errors="surrogateescape"))
    except OSError:
        pass        # a text that can't be read again
    return status
