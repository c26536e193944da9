"""Tokens of a text, each of which is taken and checked in turn."""
import re
import sys

ENDED, WORD, NUMBER = 1, 2, 3

if hasattr(sys, "set_int_max_str_digits"):
    sys.set_int_max_str_digits(0)


class Fault(Exception):
    """The first check that fails, with the number of its token."""

    def __init__(self, fault, token):
        Exception.__init__(self, fault, token)
        self.fault, self.token = fault, token


class Text:
    """A text's tokens; `taken` of them were taken, so it is the number of the token in hand."""

    def __init__(self, data):
        self.tokens = [t for t in re.split(rb"[ \t\r\n]+", data) if t]
        self.taken = 0

    def is_ended(self):
        return self.taken == len(self.tokens)

    def check(self, right, fault):
        """Of the token in hand."""
        if not right:
            raise Fault(fault, self.taken)

    def take(self):
        if self.is_ended():
            raise Fault(ENDED, len(self.tokens) + 1)
        self.taken += 1
        return self.tokens[self.taken - 1]

    def word(self, *words):
        """One of these words."""
        token = self.take()
        self.check(token in words, WORD)
        return token

    def number(self, low, high):
        value = whole(self.take())
        self.check(value is not None and low <= value <= high, NUMBER)
        return value

    def end(self, fault):
        """Each further token is at fault."""
        if not self.is_ended():
            self.take()
            self.check(False, fault)


def whole(token):
    """The whole number that a token spells, or None."""
    return int(token) if re.fullmatch(rb"-?[0-9]+", token) else None
