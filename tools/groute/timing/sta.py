"""OpenSTA: what it is asked in Tcl, and what it answers."""
import os
import re
import shutil
import subprocess
import tempfile
from typing import Iterable, Mapping, Sequence

from groute.texts.files import Fault, is_plain, one_line, text_of

PROGRAM = "sta"
MARK, END = "groute:", "groute: end"    # how a line of the answer begins, and the last one
WRONG = re.compile(r"(Error|Warning)\b")
SIMPLE = re.compile(r"[A-Za-z0-9_./:+-]+")
SPECIAL = re.compile(r"[^A-Za-z0-9_./:+-]")
LACKS = "sta isn't on PATH: apt-get install opensta"


def word(text: str) -> str:
    """A text as one word of Tcl."""
    return text if SIMPLE.fullmatch(text) else SPECIAL.sub(r"\\\g<0>", text) or "{}"


def is_there() -> bool:
    """Whether the program is on PATH."""
    return shutil.which(PROGRAM) is not None


def reading(liberty: Sequence[str], netlist: str, module: str, spef: str | None) -> list[str]:
    """The lines that read a netlist with its cells and its parasitics."""
    lines = [f"read_liberty {word(os.path.abspath(path))}" for path in liberty]
    lines += [f"read_verilog {word(os.path.abspath(netlist))}", f"link_design {word(module)}"]
    if spef is not None:
        lines.append(f"read_spef -reduce_to pi_elmore {word(os.path.abspath(spef))}")
    return lines


def folder_for_texts() -> "tempfile.TemporaryDirectory[str]":
    """A folder that goes again, whose path sta reads."""
    return tempfile.TemporaryDirectory(dir=None if SIMPLE.fullmatch(tempfile.gettempdir()) else "/tmp")


def plain(path: str, folder: str) -> str:
    """The path of a text as sta reads it: its own, or one in a folder, where that is no word of letters and digits, or
    where the text is packed."""
    is_read = os.path.exists(path) and not os.path.isfile(path) or is_plain(path)
    if is_read and SIMPLE.fullmatch(os.path.abspath(path)):
        return path
    copy = os.path.join(folder, f"groute_text_{len(os.listdir(folder))}")
    if is_read:
        os.symlink(os.path.abspath(path), copy)
        return copy
    with open(copy, "w", encoding="utf-8", errors="surrogateescape", newline="") as file:
        file.write(text_of(path))
    return copy


def answer(lines: Iterable[str], passed: Sequence[str] = (), copies: Mapping[str, str] | None = None) -> list[str]:
    """Runs a script: the lines that it puts behind MARK. It goes on after errors, warns of names that it doesn't know,
    and ends with status 0: so each error, each warning but those of some files, and a missing end is a fault. In place
    of copies it tells of what they are of."""
    if not is_there():
        raise Fault(LACKS)
    with folder_for_texts() as folder:
        path = os.path.join(folder, "script.tcl")
        with open(path, "w", encoding="utf-8", errors="surrogateescape") as file:
            file.writelines(f"{line}\n" for line in (*lines, f'puts "{END}"'))
        done = subprocess.run([PROGRAM, "-no_init", "-no_splash", "-exit", path], stdin=subprocess.DEVNULL, check=False,
                              stdout=subprocess.PIPE, stderr=subprocess.STDOUT)
        told = done.stdout.decode("utf-8", "surrogateescape").splitlines()
    names = [os.path.abspath(name) for name in passed]
    wrong = [line for line in told if WRONG.match(line)
             and not (line.startswith("Warning") and any(name in line for name in names))]
    if wrong or END not in told:
        wrong = wrong or told[-1:] or ["it said nothing"]
        more = [f"and {len(wrong) - 5:,} lines more"] if len(wrong) > 5 else []
        for copy, name in {f"{path}, ": "line ", **(copies or {})}.items():
            wrong = [line.replace(copy, name).replace(os.path.basename(copy), name) for line in wrong]
        raise Fault(*(f"sta: {one_line(line)}" for line in wrong[:5]), *more)
    return [line.removeprefix(MARK).strip() for line in told if line.startswith(MARK) and line != END]
