"""Tests of where.py."""
import random
import re
import sys

from testing import ROOT, TOOLS, InFolder, program, run, tool

NAME = 32   # the token of examples/small.ispd that may be any: its net's name


class Where(InFolder):
    """where.py on the tokens that groute's faults name."""

    def test_each_token_of_a_design(self) -> None:
        with open(f"{ROOT}/examples/small.ispd", encoding="ascii") as file:
            tokens = file.read().split()
        rng = random.Random(1)
        for number in range(1, len(tokens) + 1):
            blanks = [rng.choice([" ", "\t", "\n", "\r\n", " \n\n "]) for _ in tokens]
            changed = [*tokens[:number - 1], "?", *tokens[number:]]
            text = "".join(blank + token for blank, token in zip(blanks, changed))
            design = self.put("design", text)
            status, _, err = run(program(), "route", design, f"{ROOT}/examples/small.library", "0")
            fault = re.fullmatch(r"groute: design fault [0-9]+ at token ([0-9]+)\n", err)
            if fault is None:
                self.assertEqual((status, number), (0, NAME))
                continue
            before = text[:text.index("?")]
            place = f"{1 + before.count(chr(10))}:{1 + len(before) - (before.rfind(chr(10)) + 1)}"
            self.assertEqual(tool("where.py", design, fault.group(1)), (0, f"{design}:{place}: ?\n", ""))

    def test_ends(self) -> None:
        text = self.put("text", "a bb\n c")
        self.assertEqual(tool("where.py", text, "3"), (0, f"{text}:2:2: c\n", ""))
        self.assertEqual(tool("where.py", text, "4"), (0, f"{text}:2:3: the text ends here\n", ""))
        self.assertEqual(tool("where.py", text, "5"), (3, "", f"where: {text} has 3 tokens\n"))
        empty = self.put("empty", "")
        self.assertEqual(tool("where.py", empty, "1"), (0, f"{empty}:1:1: the text ends here\n", ""))
        self.assertEqual(tool("where.py", text + ".none", "1")[0], 3)

    def test_pipe(self) -> None:
        """What can't be mapped is read."""
        found = run(sys.executable, f"{TOOLS}/where.py", "/dev/stdin", "3", input=b"a bb\n c")
        self.assertEqual(found, (0, "/dev/stdin:2:2: c\n", ""))
