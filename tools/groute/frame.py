"""What all commands have in common: their words, statuses, and an end that says in a line why."""
import argparse
import importlib
import io
import os
import signal
import sys
from contextlib import contextmanager
from types import FrameType
from typing import TYPE_CHECKING, Any, Callable, Iterator, NoReturn, Sequence

from groute import start
from groute.options import Status
from groute.texts.files import ENDING, MOST_LETTERS, Fault, one_line

if TYPE_CHECKING:
    from groute.texts.designs import Netlist

TOOLS = os.path.dirname(os.path.dirname(os.path.realpath(__file__)))    # the folder of the scripts
NO_MEMORY = "there isn't enough memory"
SHOWN = 5       # names of nets in a line


class Ended(BaseException):
    """That a signal asks for the end."""

    def __init__(self, number: int) -> None:
        BaseException.__init__(self, number)
        self.number = number


class Parser(argparse.ArgumentParser):
    """A parser of words that says in one line what is wrong with them, or lets another one tell it."""
    teller: "Parser | None" = None

    def error(self, message: str) -> NoReturn:
        """Ends with the usage and a line."""
        if self.teller is not None:
            self.teller.error(message)
        try:
            sys.stderr.write(f"{self.format_usage()}{one_line(f'{self.prog}: error: {message}')}\n")
            sys.stderr.flush()
        except OSError:
            pass    # nobody reads it
        sys.exit(Status.WORDS)

    def print_help(self, file: Any = None) -> None:
        """Writes the help; a fault of that is told."""
        (file or sys.stdout).write(self.format_help())


def parser(doc: str | None) -> Parser:
    """A parser of words, with a module's text as its help."""
    return Parser(description=doc, formatter_class=argparse.RawDescriptionHelpFormatter)


def add_names(words: argparse.ArgumentParser) -> None:
    """The option of tools that speak of a chip."""
    words.add_argument("--names", metavar="FILE", help="a text with names of layers and microns; else DESIGN.names")


def add_nets(words: argparse.ArgumentParser) -> None:
    """The option of tools that list nets."""
    words.add_argument("--nets", choices=("clocks", "signals"), help="list nets of this use alone, by the names text")


def add_scale(words: argparse.ArgumentParser) -> None:
    """The option of tools that tell times."""
    words.add_argument("--scale", type=number(1), default=1, metavar="N", help="of the library's numbers; else 1")


def add_json(words: argparse.ArgumentParser) -> None:
    """The option of tools whose answer programs read."""
    words.add_argument("--json", action="store_true", help="print the answer as one object of JSON")


def number(least: int, most: int = 10 ** 9) -> Callable[[str], int]:
    """The reader of a whole number in a range."""
    def read(word: str) -> int:
        if not (word.isascii() and word.isdecimal() and len(word) < 20 and least <= int(word) <= most):
            raise argparse.ArgumentTypeError(f"{word} is no number from {least} to {most}")
        return int(word)
    return read


def say(name: str, text: str) -> None:
    """A line on standard error."""
    try:
        print(one_line(f"{name}: {text}"), file=sys.stderr, flush=True)
    except OSError:
        pass    # nobody reads it


def tell_unjoined(name: str, design: "Netlist", ids: Sequence[int]) -> int:
    """Names nets that aren't joined; the answer is the status of the tool."""
    if not ids:
        return Status.DONE
    from groute.texts.solutions import unjoined_words
    names = ", ".join(design.names[id_] for id_ in ids[:SHOWN])
    say(name, f"{unjoined_words(len(ids))}: {names}{', ..' if len(ids) > SHOWN else ''}")
    return Status.UNJOINED


def done(name: str, words: Sequence[str]) -> int:
    """Does the work of a command; the answer is its status."""
    if isinstance(sys.stdout, io.TextIOWrapper):
        sys.stdout.reconfigure(encoding="utf-8", errors="surrogateescape")
    try:
        with signals():
            return ended(name, words)
    except Ended as asked:
        end_by(asked.number)
    except BrokenPipeError:
        end_by(signal.SIGPIPE)
    return Status.FAULT


def ended(name: str, words: Sequence[str]) -> int:
    """The same, but for what ends by a signal."""
    try:
        status = status_of(importlib.import_module(f"groute.commands.{name}").main, words)
        sys.stdout.flush()
        return status
    except BrokenPipeError:
        raise
    except Fault as fault:
        for line in fault.args:
            say(name, line)
    except MemoryError:
        say(name, NO_MEMORY)
    except OSError as fault:
        say(name, f"{fault.filename}: {fault.strerror}" if fault.filename else fault.strerror or str(fault))
    except ImportError as fault:
        from importlib.util import find_spec
        lacking = [module for module in start.PACKAGES if find_spec(module) is None]
        if not lacking:
            say(name, NO_MEMORY if "failed to map" in str(fault) else told(fault))
        else:
            start.again(*lacking)
            say(name, start.lacks(*lacking))
    except Exception as fault:      # an error of the tool itself
        say(name, told(fault))
    closed()
    return Status.FAULT


def status_of(main: Callable[[Sequence[str]], int | None], words: Sequence[str]) -> int:
    """How a command ends, be it by its parser of words."""
    try:
        return main(words) or Status.DONE
    except SystemExit as end:
        return end.code if isinstance(end.code, int) else Status.DONE


def told(fault: Exception) -> str:
    """An error of the tool itself, in words."""
    import traceback
    last = traceback.extract_tb(fault.__traceback__)[-1]
    place = f"{os.path.basename(last.filename)}:{last.lineno}"
    return f"an error of this tool, at {place}: {type(fault).__name__}: {str(fault)[:MOST_LETTERS]}"


def closed() -> None:
    """Nothing more is written, so that no later flush fails again."""
    try:
        sys.stdout.flush()
    except (OSError, ValueError):
        try:
            os.dup2(os.open(os.devnull, os.O_WRONLY), sys.stdout.fileno())
        except (OSError, ValueError):
            pass    # it is no file


@contextmanager
def signals() -> Iterator[None]:
    """Where signals that ask for the end do so in order, and files that are half written go."""
    def ask(number: int, _: FrameType | None) -> None:
        raise Ended(number)
    before: dict[int, Any] = {}
    for one in ENDING:
        if signal.getsignal(one) != signal.SIG_IGN:
            before[one] = signal.signal(one, ask)
    try:
        yield
    finally:
        for each, handler in before.items():
            signal.signal(each, handler)


def end_by(number: int) -> None:
    """Ends this process by a signal."""
    signal.signal(number, signal.SIG_DFL)
    os.kill(os.getpid(), number)


def run(words: Sequence[str], **options: Any) -> tuple[int, bytes]:
    """Runs a program to its end; a signal that ends this one reaches it too. The answer is its status, as a shell has
    it, and what it wrote where `stdout` is a pipe."""
    import subprocess
    with subprocess.Popen(words, **options) as process:
        try:
            written = process.communicate()[0] or b""
        except BaseException as fault:
            process.send_signal(fault.number if isinstance(fault, Ended) else signal.SIGTERM)
            try:
                process.wait(5)
            except subprocess.TimeoutExpired:
                process.kill()
            raise
    return process.returncode if process.returncode >= 0 else 128 - process.returncode, written
