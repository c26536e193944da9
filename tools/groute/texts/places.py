"""Where tokens stand in a text."""
import mmap
import os
import re
import stat
from itertools import accumulate, chain

from groute.texts.tokens import TOKEN

Text = bytes | mmap.mmap


def bytes_of(path: str) -> Text:
    """What a file holds; of a regular one without a copy."""
    with open(path, "rb") as file:
        status = os.fstat(file.fileno())
        if not stat.S_ISREG(status.st_mode) or status.st_size == 0:
            return file.read()      # which can't be mapped
        return mmap.mmap(file.fileno(), 0, access=mmap.ACCESS_READ)


def place_of(data: Text, number: int) -> tuple[int | None, bytes, int]:
    """Where the token of this number begins, the token, and its number; None where there are fewer, and how many."""
    count = 0
    for match in TOKEN.finditer(data):
        count += 1
        if count == number:
            return match.start(), match.group(), count
    return None, b"", count


def words_of(form: "re.Pattern[str]", text: str) -> tuple[list[str], list[int]]:
    """The words of a text, of which the last is empty, and where each begins. The form, which matches anywhere, has two
    groups: what stands before a word, and the word, which is empty at the text's end."""
    pairs = form.findall(text)
    if len(pairs) > 1 and not pairs[-2][1]:
        del pairs[-1]       # the end is found a second time
    ends = list(accumulate(map(len, chain.from_iterable(pairs))))
    return [word for _, word in pairs], ends[::2]


def line_and_column(data: Text, at: int) -> tuple[int, int]:
    """Of a byte, both from 1."""
    begin = data.rfind(b"\n", 0, at) + 1
    return 1 + data[:begin].count(b"\n"), 1 + at - begin
