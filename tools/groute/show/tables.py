"""Tables in text."""
import re
from typing import Iterator, Sequence

NUMBER = re.compile("-?[0-9]")


def lines(head: Sequence[str], rows: Sequence[Sequence[str | int]]) -> Iterator[str]:
    """The lines of a table. Columns in which a number stands are right-aligned, others left-aligned."""
    texts = [[cell if isinstance(cell, str) else f"{cell:,}" for cell in row] for row in rows]
    columns = list(zip(head, *texts))
    widths = [max(map(len, column)) for column in columns]
    is_right = [any(NUMBER.match(cell) for cell in column[1:]) for column in columns]
    for row in (head, *texts):
        cells = (text.rjust(width) if right else text.ljust(width)
                 for text, width, right in zip(row, widths, is_right))
        yield "  ".join(cells).rstrip()
