"""Lines of the notation and their tokens. A line goes on where a parenthesis is open, behind a comma or `and`, and before
`and`; each token knows the line where it stands."""

import re
from typing import NamedTuple

WORD, QUOTED, NUMBER, SIGN = "word", "quoted", "number", "sign"
TOKEN = re.compile(r"""\s*(?:(?P<word>[^\W\d]\w*)
                         | (?P<number>\d+(?:\.\d+)?)
                         | "(?P<double>(?:[^"]|"")*)"
                         | '(?P<single>(?:[^']|'')*)'
                         | “(?P<curly>[^”]*)”
                         | (?P<sign>!=|<>|<=|>=|==|=<|=>|[()=≠<>≤≥,.^+*;:-]))""", re.VERBOSE)
COMPARING = ("=", "==", "≠", "!=", "<>", "<", "<=", "=<", "≤", ">", ">=", "=>", "≥")
LINE_WORDS = ("table", "block", "where", "give", "plan", "budget", "lend")


class NotationError(Exception):
    """What is wrong, and in which line."""

    def __init__(self, line, message):
        super().__init__(f"line {line}: {message}")
        self.line, self.message = line, message


class Token(NamedTuple):
    """A word, a quoted text, a number or a sign, and its line."""
    kind: str
    text: str
    line: int

    def shown(self):
        return f'"{self.text}"' if self.kind == QUOTED else repr(self.text)


def tokens_of(number, text):
    """The tokens of one line of a file; `#` outside quotes begins a comment."""
    tokens, at = [], 0
    while True:
        rest = text[at:].lstrip()
        if not rest or rest[0] == "#":
            return tokens
        found = TOKEN.match(text, at)
        if found is None:
            if rest[0] in "\"'“":
                raise NotationError(number, f"the quote of {rest.rstrip()} is not closed")
            raise NotationError(number, f"cannot read {rest.rstrip()!r}")
        at = found.end()
        kind = found.lastgroup
        if kind in ("double", "single", "curly"):
            mark = {"double": '"', "single": "'", "curly": ""}[kind]
            tokens.append(Token(QUOTED, found[kind].replace(2 * mark, mark) if mark else found[kind], number))
        else:
            tokens.append(Token(kind, found[kind], number))


def goes_on(tokens, following):
    """Whether a line is continued by the next one's tokens."""
    first, second = following[0], following[1] if len(following) > 1 else None
    if first.kind == WORD and first.text.lower() in LINE_WORDS and (second is None or second.text not in COMPARING):
        return False
    signs = [token.text for token in tokens if token.kind == SIGN]
    last = tokens[-1]
    return (signs.count("(") > signs.count(")") or last[:2] == (SIGN, ",") or is_and(last) or is_and(first))


def is_and(token):
    return token.kind == WORD and token.text.lower() == "and"


def lines_of(text, told):
    """The lines of a text, continued ones joined; what cannot be read is told and left out."""
    current = []
    for number, written in enumerate(text.split("\n"), start=1):
        try:
            tokens = tokens_of(number, written.rstrip("\r"))
        except NotationError as error:
            told(error)
            tokens = []
        if not tokens:
            continue
        if current and not goes_on(current, tokens):
            yield Line(current)
            current = []
        current += tokens
    if current:
        yield Line(current)


class Line:
    """The tokens of one line, taken from the left."""

    def __init__(self, tokens):
        self.tokens = tokens[:-1] if len(tokens) > 1 and tokens[-1][:2] == (SIGN, ";") else tokens
        self.number = tokens[0].line
        self.last = tokens[-1].line

    def fail(self, message, line=None):
        raise NotationError(line or self.here(), message)

    def here(self):
        """The line of the file where the next token stands."""
        return self.tokens[0].line if self.tokens else self.last

    def next(self, place=0):
        """The text of a token ahead, None past the end."""
        return self.tokens[place].text if len(self.tokens) > place else None

    def kind(self, place=0):
        return self.tokens[place].kind if len(self.tokens) > place else None

    def is_word(self, *words, place=0):
        """Whether a bare word is ahead, in any case."""
        return self.kind(place) == WORD and self.next(place).lower() in words

    def is_sign(self, *signs, place=0):
        return self.kind(place) == SIGN and self.next(place) in signs

    def take(self, what="more"):
        if not self.tokens:
            self.fail(f"{what} expected at the end of the line")
        return self.tokens.pop(0)

    def taken(self, sign):
        """Takes this sign if it is next."""
        if self.is_sign(sign):
            self.tokens.pop(0)
            return True
        return False

    def taken_word(self, *words):
        if self.is_word(*words):
            self.tokens.pop(0)
            return True
        return False

    def expect(self, *signs):
        if not self.is_sign(*signs):
            wanted = " or ".join(map(repr, signs))
            self.fail(f"{wanted} expected" + (f", not {self.tokens[0].shown()}" if self.tokens
                                              else " at the end of the line"))
        return self.tokens.pop(0).text

    def name(self, what):
        """A word, or a name in quotes."""
        if self.tokens and self.kind() not in (WORD, QUOTED):
            self.fail(f"{what} expected, not {self.tokens[0].shown()}")
        return self.take(what).text

    def integer(self, what, low, high):
        minus = "-" if self.taken("-") else ""
        line = self.here()
        if self.tokens and (self.kind() != NUMBER or "." in self.next()):
            self.fail(f"{what} expected, not {self.tokens[0].shown()}")
        digits = minus + self.take(what).text
        if len(digits) > 40 or not low <= int(digits) <= high:
            self.fail(f"{what} {digits} is not from {low} to {high}", line)
        return int(digits)

    def end(self):
        if self.tokens:
            self.fail(f"{self.tokens[0].shown()} is not expected here")
