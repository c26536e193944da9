"""Texts as the tools read them: plain Python, token by token.

Tokens are the maximal runs of bytes other than blank, tab, carriage return and line feed, and count from 1, as in the
faults that groute prints. What is read here is checked as far as the tools need it; `groute evaluate` is the judge of
a whole text, and says its first fault.
"""
import io
import os
import re
import stat
from typing import BinaryIO

from groute.texts.files import Fault, refuse_packed

PIECE, SMALL_PIECE = 1 << 24, 1 << 10     # bytes that are read at once, and where only the first tokens are wanted
TOKEN = re.compile(rb"[^ \t\r\n]+")
MOST_DIGITS = 18    # of a number that is taken; groute's own limits are lower


def split(data: bytes) -> list[bytes]:
    """The tokens of these bytes."""
    # Python's own split is faster, but takes two more bytes for blanks.
    return TOKEN.findall(data) if b"\v" in data or b"\f" in data else data.split()


class Tokens:
    """The tokens of a file, which is read in pieces."""

    def __init__(self, path: str, piece: int = PIECE) -> None:
        self.path, self.piece = path, piece
        self.file: BinaryIO = open(path, "rb")
        self.tokens: list[bytes] = []
        self.at = 0         # how many of those in hand were taken
        self.before = 0     # how many tokens there were before these
        self.rest = b""     # the bytes behind the last blank that was read
        self.is_begun = False

    def fill(self) -> bool:
        """Reads one more piece; false at the end of the file."""
        piece = self.file.read(self.piece)
        if not self.is_begun:
            refuse_packed(self.path, piece)
            self.is_begun = True
        if not piece:
            self.file.close()
            self.file = io.BytesIO()    # so that there is no more
        if not piece and not self.rest:
            return False
        data = self.rest + piece
        cut = 1 + max(data.rfind(blank) for blank in (b" ", b"\t", b"\r", b"\n")) if piece else len(data)
        self.rest = data[cut:]
        self.before += self.at
        self.tokens = self.tokens[self.at:] + split(data[:cut])
        self.at = 0
        return True

    def fault(self, what: str) -> Fault:
        """Of the token that was taken last."""
        number = self.before + self.at
        token = self.tokens[self.at - 1] if self.at else b""
        shown = f": {token.decode(errors='surrogateescape')}" if token else ""
        return Fault(f"{self.path}{self.line(number)}: token {number}: {what}{shown}")

    def ended(self) -> Fault:
        """That a token is due and the text has no more."""
        number = self.before + len(self.tokens)
        return Fault(f"{self.path}{self.line(number)}: the text ends after token {number}")

    def line(self, number: int) -> str:
        """Where a token stands, as `:LINE`; nothing of a pipe, which can't be read again."""
        if number < 1 or not stat.S_ISREG(os.stat(self.path).st_mode):
            return ""
        with open(self.path, "rb") as file:
            lines, tokens = 1, 0
            for line in file:
                tokens += len(split(line))
                if tokens >= number:
                    return f":{lines}"
                lines += 1
        return ""

    def is_ended(self) -> bool:
        """Whether all tokens were taken."""
        while self.at == len(self.tokens):
            if not self.fill():
                return True
        return False

    def take(self, count: int) -> list[bytes]:
        """The next so many tokens."""
        first = self.at
        end = self.at = first + count
        if end <= len(self.tokens):
            return self.tokens[first:end]
        self.at = first
        while self.at + count > len(self.tokens):
            if not self.fill():
                raise self.ended()
        self.at += count
        return self.tokens[self.at - count:self.at]

    def until(self, last: bytes) -> list[bytes]:
        """The tokens before the next one that is `last`, which is taken with them."""
        while True:
            first = self.at
            try:
                end = self.tokens.index(last, first)
            except ValueError:
                if not self.fill():
                    raise self.ended() from None
                continue
            self.at = end + 1
            return self.tokens[first:end]

    def words(self, *words: bytes) -> None:
        """These words."""
        for word in words:
            if self.take(1)[0] != word:
                raise self.fault(f"the word {word.decode()} is due")

    def numbers(self, count: int) -> list[int]:
        """So many whole numbers."""
        tokens = self.take(count)
        try:
            if max(map(len, tokens), default=0) > MOST_DIGITS:
                raise ValueError
            return list(map(int, tokens))
        except ValueError:
            raise self.wrong(count) from None

    def wrong(self, count: int) -> Fault:
        """That of the tokens that were taken last, so many, one is no whole number."""
        end = self.at
        for self.at in range(end - count + 1, end + 1):
            if whole(self.tokens[self.at - 1]) is None:
                break
        return self.fault("a whole number is due")

    def number(self) -> int:
        """One whole number."""
        return self.numbers(1)[0]


def whole(token: bytes) -> int | None:
    """The whole number of a token, or None."""
    if len(token) > MOST_DIGITS:
        return None
    try:
        return int(token)
    except ValueError:
        return None


def counted(token: bytes) -> int | None:
    """The number of a token of digits alone, or None."""
    return int(token) if token.isdigit() and len(token) <= MOST_DIGITS else None
