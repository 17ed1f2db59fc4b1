"""Lines of the notation and their tokens."""

import re

import format as fmt

KEYWORDS = {"table", "block", "in", "where", "and", "give", "as", "plan", "budget", "lend", *fmt.FUNCTIONS}
TOKEN = re.compile(r"\s*(-?\d+|[A-Za-z][A-Za-z0-9_]*|!=|<=|>=|[()=≠<>≤≥,.^_])")
NUMBER = re.compile(r"-?\d+$")


class NotationError(Exception):
    """What is wrong, and in which line."""

    def __init__(self, line, message):
        super().__init__(f"line {line}: {message}")


class Line:
    """The tokens of one line, taken from the left."""

    def __init__(self, number, text):
        self.number = number
        self.tokens = []
        at, text = 0, text.rstrip()
        while at < len(text):
            token = TOKEN.match(text, at)
            if token is None:
                self.fail(f"cannot read {text[at:].strip()!r}")
            self.tokens.append(token.group(1))
            at = token.end()

    def fail(self, message):
        raise NotationError(self.number, message)

    def next(self):
        return self.tokens[0] if self.tokens else None

    def take(self, what="more"):
        if not self.tokens:
            self.fail(f"{what} expected at the end of the line")
        return self.tokens.pop(0)

    def taken(self, token):
        """Takes this token if it is next."""
        if self.next() == token:
            self.tokens.pop(0)
            return True
        return False

    def expect(self, token):
        found = self.take(repr(token))
        if found != token:
            self.fail(f"{token!r} expected, not {found!r}")

    def name(self, what):
        found = self.take(what)
        if not found[0].isalpha() or found in KEYWORDS:
            self.fail(f"{what} expected, not {found!r}")
        return found

    def integer(self, what, low, high):
        found = self.take(what)
        if not NUMBER.match(found):
            self.fail(f"{what} expected, not {found!r}")
        if not low <= int(found) <= high:
            self.fail(f"{what} {found} is not from {low} to {high}")
        return int(found)

    def end(self):
        if self.tokens:
            self.fail(f"{self.tokens[0]!r} is not expected here")
