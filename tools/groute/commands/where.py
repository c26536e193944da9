"""Tells where a token stands in a text: FILE:LINE:COLUMN: TOKEN.

Faults name a token by its number: of `groute: design fault 8 at token 39` the text is DESIGN and the token 39. Lines
and columns count from 1, columns in bytes. Of the number behind the last token the place is that of the text's end.
"""
from typing import Sequence

from groute import frame
from groute.texts.files import Fault, one_line
from groute.texts.places import bytes_of, line_and_column, place_of


def parser() -> frame.Parser:
    """The reader of the words."""
    words = frame.parser(__doc__)
    words.add_argument("text", metavar="TEXT", help="a file")
    words.add_argument("token", metavar="TOKEN", type=frame.number(1, 1 << 40), help="the number of a token, from 1")
    return words


def main(words: Sequence[str]) -> None:
    """Prints the place."""
    asked = parser().parse_args(words)
    data = bytes_of(asked.text)
    at, token, count = place_of(data, asked.token)
    if at is None and asked.token != count + 1:
        raise Fault(f"{asked.text} has {count} tokens")
    line, column = line_and_column(data, len(data) if at is None else at)
    what = "the text ends here" if at is None else one_line(token.decode(errors="surrogateescape"))
    print(f"{asked.text}:{line}:{column}: {what}")
