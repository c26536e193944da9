"""Tests that the documents say the words, ranges and defaults of word_reader's tables."""
import re
import unittest
from typing import Any

from testing import ROOT, found


def formats() -> str:
    """The text of docs/FORMATS.md."""
    with open(f"{ROOT}/docs/FORMATS.md", encoding="utf-8") as file:
        return file.read()


def manual(program: str = "groute") -> str:
    """The text of a man page, without fonts and escapes."""
    with open(f"{ROOT}/man/{program}.1", encoding="utf-8") as file:
        return re.sub(r"\\f[BIR]", "", file.read()).replace("\\-", "-")


def parts_of(page: str) -> list[str]:
    """The paragraphs of a man page."""
    return re.split(r"^\.(?:TP|PP|SH|SS).*\n", page, flags=re.MULTILINE)


class Words(unittest.TestCase):
    """The documents say the words of the tables of commands and options, which stand in word_reader."""

    def setUp(self) -> None:
        with open(f"{ROOT}/crates/word_reader/src/form.rt", encoding="utf-8") as file:
            self.form = file.read()
        with open(f"{ROOT}/crates/gr_base/src/limits.rt", encoding="utf-8") as file:
            self.limits = file.read()
        self.options = {name: (word, takes, default) for name, word, takes, default in re.findall(
            r'OptionKind::(\w+) => OptionRow \{\s*word: "([^"]+)",\s*takes: (.*?),\s*'
            r'default: (?:None|Some\("([^"]+)"\)),\s*excludes: [^}]*\}', self.form, re.DOTALL)}
        self.rows = [(word, int(count), re.findall(r"OptionKind::(\w+)", options)) for word, count, options in
                     re.findall(r'word: "([^"]*)",\s*positionals: ([0-9]+),\s*options: &\[([^\]]*)\]', self.form)]
        self.commands = [row for row in self.rows if row[0]]

    def number(self, text: str) -> str:
        """A number of a row, as documents write it."""
        text = text.removesuffix(" as u64")
        if text == "u64::MAX":
            return "2^64 - 1"
        constant = re.search(rf"const {re.escape(text)}: u32 = ([0-9_]+);", self.form + self.limits)
        return (constant.group(1) if constant else text).replace("_", "")

    def values(self, takes: str) -> Any:
        """The words that an option takes, and the range of its numbers."""
        numbers = re.search(r"least: ([^,]+),\s*most: ([^,]+),", takes)
        return re.findall(r'"([^"]+)"', takes), numbers and [self.number(text) for text in numbers.groups()]

    def test_rows(self) -> None:
        for kind, rows in (("Command", self.rows), ("OptionKind", self.options)):
            variants = found(rf"enum {kind} \{{(.*?)\}}", self.form, re.DOTALL).group(1)
            self.assertEqual(len(rows), variants.count(","))

    def test_usage(self) -> None:
        lines = re.findall(r"^    groute ([a-z]+)((?: [A-Z]+)+)((?: \[[^\]]+\])*)$", formats(), re.MULTILINE)
        self.assertEqual([line[0] for line in lines], [command[0] for command in self.commands])
        for line, (word, count, options) in zip(lines, self.commands):
            with self.subTest(command=word):
                self.assertEqual(len(line[1].split()), count)
                given = re.findall(r"\[(--[a-z-]+)(?: ([^\]]+))?\]", line[2])
                self.assertEqual([option for option, _ in given], [self.options[name][0] for name in options])
                for (_, value), name in zip(given, options):
                    takes = self.options[name][1]
                    words, numbers = self.values(takes)
                    open_ended = ["[A-Z]+"] if numbers or takes == "ValueForm::Name" else []
                    self.assertRegex(value, "^" + "[|]".join([*words, *open_ended]) + "$")
                self.assertIn(f"groute {''.join(line)}\n", manual())

    def patterns(self, word: str, takes: str, default: str) -> Any:
        """What a document says of an option in one place."""
        words, numbers = self.values(takes)
        yield rf"{word}(?![a-z-])"
        yield from (rf"\b{value}\b" for value in words)
        if numbers:
            yield rf"\b{re.escape(' to '.join(numbers))}\b"
        if default:
            yield rf"(?:else|default:?|default is) `?{default}\b|\| *`?{default}`? *\|"

    def test_options(self) -> None:
        pages = [(f"man/{program}.1", parts_of(manual(program)), program) for program in ("groute", "grbound")]
        paragraphs = re.split(r"\n\s*\n|\n(?=\|)", formats())     # and rows of tables
        for document, places, program in [("docs/FORMATS.md", paragraphs, ""), *pages]:
            places = [re.sub(r"(?<=[0-9]),(?=[0-9])", "", place) for place in places]
            own = {name for word, _, options in self.rows for name in options
                   if program in ("", "groute" if word else "grbound")}
            for option in (self.options[name] for name in sorted(own)):
                patterns = list(self.patterns(*option))
                with self.subTest(document=document, option=option[0]):
                    self.assertTrue(any(all(re.search(pattern, place) for pattern in patterns) for place in places),
                                    f"no one place has all of {patterns}")
