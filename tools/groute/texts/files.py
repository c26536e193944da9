"""Files that are read and written: what is packed is unpacked or told, and what is written is whole or not there."""
import io
import os
import re
import signal
import stat
from contextlib import contextmanager
from types import TracebackType
from typing import IO, Iterable, Iterator

ENDING = (signal.SIGINT, signal.SIGTERM, signal.SIGHUP)     # signals that ask for the end
MOST_LETTERS = 300      # of a line that tells a fault
LOOKED_AT = 4096        # bytes of a text by which it is known
GZIP, XZ, BZIP = b"\x1f\x8b", b"\xfd7zXZ\0", b"BZh"
PACKED = {GZIP: "gzip", XZ: "xz", BZIP: "bzip2", b"\x28\xb5\x2f\xfd": "zstd", b"PK\3\4": "zip",
          b"\x1f\x9d": "compress", b"\x04\x22\x4d\x18": "lz4"}
UTF_16 = (b"\xff\xfe", b"\xfe\xff")
OWN = b"# written by groute"    # how a text of a chip begins that the tools wrote
BESIDE = ".names", ".pins"  # how the names of texts end that lie beside a design
MARK = b"\xef\xbb\xbf"  # a byte order mark of UTF-8
# How texts of chips begin, behind blanks and comments.
BEHIND_COMMENTS = re.compile(rb"(?:\s+|#[^\n]*\n|//[^\n]*\n|/\*.*?\*/)*", re.DOTALL)
OF_A_CHIP = re.compile(rb"(?:VERSION\s+[0-9.]+\s*;|(?:NAMESCASESENSITIVE|BUSBITCHARS|DIVIDERCHAR|DESIGN|TECHNOLOGY|"
                       rb"UNITS|MANUFACTURINGGRID|PROPERTYDEFINITIONS|LAYER|VIA|SITE|MACRO|ROW)\s+"
                       rb"(?![0-9]+\s+[(!])\S+\s|library\s*\()")


class Fault(Exception):
    """Why something can't be done, in words: a line for each argument."""


def one_line(text: str) -> str:
    """A text as one line that a terminal can show, of at most 300 letters."""
    text = "".join(letter if letter.isprintable() else escaped(letter) for letter in text[:4 * MOST_LETTERS])
    return text if len(text) <= MOST_LETTERS else f"{text[:MOST_LETTERS // 2 - 1]}..{text[-MOST_LETTERS // 2 + 1:]}"


def escaped(letter: str) -> str:
    """What stands for a letter that can't be shown."""
    code = ord(letter)
    if 0xdc80 <= code <= 0xdcff:
        return f"\\x{code - 0xdc00:02x}"     # a byte that is no UTF-8
    return letter.encode("unicode_escape", "surrogatepass").decode()


def refuse_packed(path: str, begin: bytes) -> None:
    """Tells of a text that begins so what keeps it from being read as it is."""
    for mark, name in PACKED.items():
        if begin.startswith(mark):
            raise Fault(f"{path}: it is compressed by {name}, which is not read here: unpack it first")
    if begin.startswith(UTF_16):
        raise Fault(f"{path}: it is a text of UTF-16, which is not read here: write it as UTF-8")


def open_text(path: str) -> IO[str]:
    """A text to read, in which names are what they were as bytes; what is packed is told."""
    file = open(path, "rb")
    try:
        refuse_packed(path, file.peek(len(XZ)))
    except BaseException:
        file.close()
        raise
    return io.TextIOWrapper(file, encoding="utf-8", errors="surrogateescape")


def is_plain(path: str) -> bool:
    """Whether a text is as `text_of` gives it. Tells of one that can't be read."""
    with open(path, "rb") as file:
        begin = file.read(len(XZ))
    if begin.startswith((GZIP, XZ, MARK)):
        return False
    refuse_packed(path, begin)
    return True


def text_of(path: str) -> str:
    """A whole text, unpacked where it is compressed by gzip or xz, and without a byte order mark."""
    with open(path, "rb") as file:
        data = file.read()
    if data.startswith((GZIP, XZ)):
        data = unpacked(path, data)
    refuse_packed(path, data)
    return data.removeprefix(MARK).decode("utf-8", "surrogateescape")


def unpacked(path: str, data: bytes) -> bytes:
    """What gzip or xz has compressed."""
    import gzip     # here, so that tools that unpack nothing start sooner
    import lzma
    import zlib
    try:
        return gzip.decompress(data) if data.startswith(GZIP) else lzma.decompress(data)
    except (EOFError, zlib.error, lzma.LZMAError, gzip.BadGzipFile):
        raise Fault(f"{path}: what is compressed here is cut off or damaged") from None


def lines_of(path: str) -> Iterator[str]:
    """The lines of such a text, with their ends."""
    return io.StringIO(text_of(path), newline=None)


def begins_like_a_chip(path: str) -> bool:
    """Whether a file begins like LEF, DEF or liberty, packed or not, and wasn't written by the tools."""
    with open(path, "rb") as file:
        begin = file.read(LOOKED_AT)
    if begin.startswith((GZIP, XZ, BZIP)):
        begin = first_unpacked(begin)
    begin = begin.removeprefix(MARK)
    if begin.startswith(OWN):
        return False
    behind = BEHIND_COMMENTS.match(begin)
    return behind is not None and OF_A_CHIP.match(begin, behind.end()) is not None


def first_unpacked(begin: bytes) -> bytes:
    """What a compressed file holds first, as far as it can be told."""
    import bz2
    import lzma
    import zlib
    try:
        if begin.startswith(GZIP):
            return zlib.decompressobj(wbits=31).decompress(begin)
        if begin.startswith(XZ):
            return lzma.LZMADecompressor().decompress(begin)
        return bz2.BZ2Decompressor().decompress(begin)
    except (zlib.error, lzma.LZMAError, OSError):
        return b""


class Outputs:
    """Files that are written together: beside their names, and renamed when all are whole. What isn't a regular file,
    as a device or a pipe, is written as it is. Inputs are read, and what lies beside them."""

    def __init__(self, inputs: Iterable[str | None] = ()) -> None:
        self.inputs = list(filter(None, inputs))
        self.files: list[IO[bytes]] = []
        self.names: list[str] = []
        self.renamed: list[tuple[str, str]] = []    # from the name beside to the name that is asked for

    def __enter__(self) -> "Outputs":
        return self

    def binary(self, path: str) -> IO[bytes]:
        """A file of bytes under this name."""
        self.check(*self.names, path)
        try:
            mode = os.stat(path).st_mode
        except FileNotFoundError:
            mode = None
        if mode is not None and not stat.S_ISREG(mode):
            file: IO[bytes] = open(path, "wb")
        else:
            path = os.path.realpath(path)
            beside = f"{path}.{os.urandom(4).hex()}.part"
            self.renamed.append((beside, path))
            file = open(beside, "xb")
            if mode is not None:
                os.chmod(beside, stat.S_IMODE(mode))
        self.files.append(file)
        self.names.append(path)
        return file

    def text(self, path: str) -> IO[str]:
        """A file of UTF-8 under this name, in which names are what they were as bytes."""
        file = io.TextIOWrapper(self.binary(path), encoding="utf-8", errors="surrogateescape", newline="")
        self.files[-1] = file       # type: ignore[assignment]
        return file

    def lines(self, path: str, lines: Iterable[str]) -> None:
        """A file of these lines."""
        if os.path.exists(path) and not os.path.isfile(path):
            lines = list(lines)     # as what is written there stays, whatever comes
        self.text(path).writelines(f"{line}\n" for line in lines)

    def check(self, *paths: str | None) -> None:
        """Refuses to write over what is read, or what begins like a text of a chip, or to write a file twice."""
        found: set[str] = set()
        for path in filter(None, paths):
            self.check_one(path)
            if os.path.realpath(path) in found:
                raise Fault(f"{path} would be written twice")
            if os.path.isfile(path) or not os.path.exists(path):
                found.add(os.path.realpath(path))

    def check_one(self, path: str) -> None:
        """The same of one file."""
        if os.path.isdir(path):
            raise Fault(f"{path} is a folder, and a file is to be written")
        if not os.path.isfile(path):
            return
        for other in (f"{given}{end}" for given in self.inputs for end in ("", *BESIDE)):
            if os.path.exists(other) and os.path.samefile(path, other):
                raise Fault(f"{path} is read, and would be written over")
        if begins_like_a_chip(path):
            raise Fault(f"{path} begins like LEF, DEF or liberty, and would be written over")

    def __exit__(self, kind: type[BaseException] | None, fault: BaseException | None,
                 trace: TracebackType | None) -> None:
        if isinstance(fault, OSError) and fault.filename is None and len(self.files) == 1:
            fault.filename = self.names[0]
        try:
            for name, file in zip(self.names, self.files):
                close(file, name)
            with held_signals():
                while self.renamed and kind is None:
                    os.replace(*self.renamed[0])
                    del self.renamed[0]
        finally:
            try:
                for file in self.files:
                    close_again(file)
            finally:
                with held_signals():
                    for beside, _ in self.renamed:
                        if os.path.exists(beside):
                            os.unlink(beside)


@contextmanager
def held_signals() -> Iterator[None]:
    """Where signals that ask for the end wait until what belongs together is done."""
    before = signal.pthread_sigmask(signal.SIG_BLOCK, ENDING)
    try:
        yield
    finally:
        signal.pthread_sigmask(signal.SIG_SETMASK, before)


def close_again(file: IO[bytes]) -> None:
    """Closes a file, of which a fault was told already."""
    try:
        file.close()
    except OSError:
        pass


def close(file: IO[bytes], name: str) -> None:
    """Closes a file; a fault of that has its name."""
    try:
        file.close()
    except OSError as fault:
        fault.filename = fault.filename or name
        raise
