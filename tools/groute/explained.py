"""What is wrong where groute or grbound ends with a status from 2 to 7, in words."""
import errno
import os
import re
import select
import stat
from dataclasses import dataclass
from typing import Iterable, Iterator, Mapping, Sequence

from groute import words as of_words
from groute.options import FAULTS, READ_ON
from groute.texts.files import one_line
from groute.texts.places import bytes_of, line_and_column, place_of

FAULT = re.compile(rb"gr[a-z]+: (design|library|solution) fault ([0-9]+) at token ([0-9]+)\n")
TREE = re.compile(rb"groute: solution net ([0-9]+) is not a tree\n")
PIECE = 1 << 20         # bytes that are read at once
# What isn't opened again, as it may wait, or give what can't be had a second time.
KINDS = {stat.S_IFIFO: "a pipe", stat.S_IFSOCK: "a socket", stat.S_IFCHR: "a device", stat.S_IFBLK: "a device"}
STREAMS = {"standard output": 1}


@dataclass
class Ended:
    """How a program ended: its name, its words, its status, and the first bytes that it told on standard error."""
    program: str
    words: Sequence[str]
    status: int
    told: bytes


@dataclass
class Fault:
    """The first fault of a text: the word that names the text, fault and token, and the place where it can be read."""
    kind: str
    path: str
    number: int
    token: int
    line: int | None = None
    column: int | None = None
    found: str = ""

    def says(self) -> str:
        """The fault in words."""
        own = FAULTS[self.kind]
        return own[self.number - 1] if self.number <= len(own) else f"fault {self.number}"

    def place(self) -> str:
        """The text, with line and column where they are known."""
        return self.path if self.line is None else f"{self.path}:{self.line}:{self.column}"


def program_of(path: str) -> str:
    """The program that a file is: grbound by its name, else groute."""
    return "grbound" if os.path.basename(path) == "grbound" else "groute"


def fault_of(ended: Ended) -> Fault | None:
    """The fault of a text that was told."""
    told = FAULT.match(ended.told)
    if told is None:
        return None
    kind, number, token = (part.decode() for part in told.groups())
    paths = of_words.sort(ended.program, ended.words).files()
    path = next((word for name, word in paths if name == kind.upper()), "")
    found = Fault(kind, path, int(number), int(token))
    if os.path.isfile(path):
        data = bytes_of(path)
        at, token_found, _ = place_of(data, found.token)
        found.line, found.column = line_and_column(data, len(data) if at is None else at)
        found.found = "the text ends here" if at is None else token_found.decode(errors="replace")
    return found


def tree_of(ended: Ended) -> int | None:
    """The id of the net that is told to be no tree."""
    told = TREE.match(ended.told)
    return int(told.group(1)) if told else None


def explained(ended: Ended, streams: Mapping[str, int] | None = None) -> Iterable[str]:
    """The lines that say what is wrong. `streams` has, by what they are called, the files on which was written."""
    if ended.status == 2:
        return of_usage(ended)
    if ended.status == 6:
        return of_reading(ended)
    if ended.status == 7:
        return of_writing(STREAMS if streams is None else streams)
    if fault := fault_of(ended):
        found = f": {fault.found}" if fault.found else ""
        return [one_line(f"{fault.place()}: {fault.says()}{found}"), read_on(ended)]
    if (id_ := tree_of(ended)) is not None:
        path = of_words.sort(ended.program, ended.words).positionals.get("SOLUTION")
        return [f"{path}: the edges of the net of id {id_} have a loop, or don't join its pins: delays are defined on "
                "trees", read_on(ended)]
    return []


def read_on(ended: Ended) -> str:
    """Where more is said."""
    return f"{READ_ON}, or man {ended.program}, has the texts, their ranges and all faults"


def of_usage(ended: Ended) -> Iterator[str]:
    """Which word is at fault, and what is due."""
    found = of_words.sort(ended.program, ended.words)
    if found.wrong:
        yield one_line(found.wrong)
    if found.row is None or not found.row.word:
        if found.row is not None:
            yield found.row.line()
        yield f"{ended.program} --help says more"
    else:
        yield found.row.line()
        yield f"{found.row.name()} --help says more"


def of_reading(ended: Ended) -> Iterator[str]:
    """Which file can't be read, and why."""
    files = list(of_words.sort(ended.program, ended.words).files())
    for name, path in files:
        if says := why_unread(path):
            yield one_line(f"{path}: {says} ({name})")
            return
    yield "a read failed, and each file can be read now: " + ", ".join(one_line(path) for _, path in files)


def why_unread(path: str) -> str | None:
    """Why a file can't be read; None where it can."""
    try:
        mode = os.stat(path).st_mode
        if not os.access(path, os.R_OK):
            return os.strerror(errno.EACCES)
        if stat.S_IFMT(mode) in KINDS:
            return f"it is {KINDS[stat.S_IFMT(mode)]}, which isn't opened again to find out why a read failed"
        with open(path, "rb", buffering=0) as file:
            while file.read(PIECE):
                pass
    except OSError as fault:
        return fault.strerror or str(fault)
    except ValueError as fault:
        return str(fault)
    return None


def of_writing(streams: Mapping[str, int]) -> Iterator[str]:
    """Which stream can't be written, and why."""
    found = {name: why_unwritten(file) for name, file in streams.items()}
    some = {name: says for name, says in found.items() if says} or found
    for name, says in some.items():
        yield one_line(f"{name}: a write failed" + (f": {says}" if says else ", and it isn't known why"))


def why_unwritten(file: int) -> str | None:
    """Why nothing can be written on an open file; None where that can't be told. Nothing is written to find out."""
    try:
        status = os.fstat(file)
        os.write(file, b"")
        if stat.S_ISFIFO(status.st_mode) or stat.S_ISSOCK(status.st_mode):
            poll = select.poll()
            poll.register(file, select.POLLOUT)
            if any(events & (select.POLLERR | select.POLLHUP) for _, events in poll.poll(0)):
                return os.strerror(errno.EPIPE)
        if stat.S_ISREG(status.st_mode) and os.fstatvfs(file).f_bavail == 0:
            return os.strerror(errno.ENOSPC)
    except OSError as fault:
        return fault.strerror or str(fault)
    return None
