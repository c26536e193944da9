"""Writes a page to look at a design's routes with: one file that a browser opens from disk, without a network.

Its first screen has the verdict in a line, ACE, the table by layer, a map to zoom and pan, and the worst regions with
their nets; a net is drawn with its pins, layers and buffers. LIBRARY and REPORT add required times and buffers, and a
REPORT of `route --trace` what each round left, as reports of earlier rounds (--before) do, from round 0 on; a text of
grbound adds what it proves that these routes can't be below, and the fullest walls. --slack ranks nets by a timer's
slack, where nets that nothing constrains are free, and --timing adds its figures before and after buffers, and the nets
of the worst paths. What is shown stands in the address, so that a link shows it again. Of designs with more than
100,000 nets, or where the page would pass 20 MB, it holds only the nets of the worst regions and the slowest ones, and
says so.

Times are in picoseconds. Of a library that def_to_ispd.py made with --scale N say --scale N here too.
"""
from argparse import Namespace
from typing import Sequence

from groute import frame
from groute.options import RANGES
from groute.texts import objects
from groute.texts.files import Outputs


def parser() -> frame.Parser:
    """The reader of the words."""
    words = frame.parser(__doc__)
    words.add_argument("design", metavar="DESIGN", help="a design text")
    words.add_argument("solution", metavar="SOLUTION", help="a solution text of it")
    words.add_argument("library", metavar="LIBRARY", nargs="?", help="the library of the report")
    words.add_argument("report", metavar="REPORT", nargs="?",
                       help="what `route` wrote on standard error, or `buffer` on output")
    words.add_argument("--before", nargs="+", default=[], metavar="REPORT", help="reports of earlier rounds, from 0 on")
    words.add_argument("--bound", metavar="BOUNDS", help="what grbound wrote of the design")
    words.add_argument("--via-cost", type=frame.number(*RANGES["--via-cost"]), default=1, metavar="V",
                       help="by which it did; else 1")
    words.add_argument("--slack", metavar="TABLE", help="ranks nets by slacks that required.py wrote")
    words.add_argument("--timing", nargs=2, metavar=("BEFORE", "AFTER"), help="figures that required.py wrote")
    frame.add_scale(words)
    frame.add_json(words)
    words.add_argument("-o", "--output", metavar="FILE", required=True, help="the page, .html")
    frame.add_names(words)
    return words


def asked_of(words: Sequence[str]) -> Namespace:
    """What is asked for."""
    reader = parser()
    asked = reader.parse_args(words)
    if asked.library and not asked.report:
        reader.error("LIBRARY and REPORT come together")
    if asked.slack and not asked.report:
        reader.error("--slack wants LIBRARY and REPORT")
    return asked


def main(words: Sequence[str]) -> int:
    """Prints the verdict and writes the page."""
    asked = asked_of(words)
    from groute.show import pages
    routes = pages.Routes(asked)
    text = pages.text_of(routes, asked)
    inputs = [asked.design, asked.solution, asked.library, asked.report, asked.bound, asked.names, asked.slack,
              *(asked.timing or ()), *asked.before]
    with Outputs(inputs) as outputs:
        outputs.text(asked.output).write(text)
    before = asked.before
    print(objects.text_of("report", routes.answer(before)).rstrip() if asked.json else routes.verdict(before))
    return frame.tell_unjoined("report", routes.design, routes.edges.unjoined)
