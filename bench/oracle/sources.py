"""Texts with the places of their tokens: lines and columns, both from 1, columns in bytes; and what of a text stands at tokens."""
import re
from typing import NamedTuple

from .grammar import NAME, NUMBER, Front, Grammar, Page

BLANKS = re.compile(r"(?:[ \t\r\n]|//[^\n]*)*")
IDENTIFIER = re.compile(r"[A-Za-z_]\w*", re.ASCII)
DIGITS = re.compile(r"[0-9]+")
MOST = 4294967295
MOST_BRACKETS = 64
OPENING, CLOSING = "([{", ")]}"
PAGE = Page()
SIGN = re.compile("|".join(re.escape(sign) for sign in sorted(PAGE.signs, key=len, reverse=True)))


def plain(text):
    """The text with a character for each of its bytes."""
    return text.encode("utf-8").decode("latin-1")


class Token(NamedTuple):
    text: str
    start: int

    def end(self):
        return self.start + len(self.text)

    def word(self):
        """What stands for the token in the grammar."""
        if self.text[0].isdigit():
            return NUMBER
        return NAME if IDENTIFIER.match(self.text) and self.text not in PAGE.reserved else self.text


def token_at(text, at):
    """The longest token at an offset, or None."""
    digits = DIGITS.match(text, at)
    if digits:
        fits = digits[0] == "0" or (digits[0][0] != "0" and int(digits[0]) <= MOST)
        return Token(digits[0], at) if fits else None
    found = IDENTIFIER.match(text, at) or SIGN.match(text, at)
    return Token(found[0], at) if found else None


class Source:
    """A text, its tokens up to the first byte at which none begins, and this byte, if there is one."""

    def __init__(self, text):
        self.text, self.tokens, self.no_token = plain(text), [], None
        at = BLANKS.match(self.text).end()
        while at < len(self.text):
            token = token_at(self.text, at)
            if token is None:
                self.no_token = at
                break
            self.tokens.append(token)
            at = BLANKS.match(self.text, token.end()).end()

    # ---- places

    def offset(self, number):
        """Where the token with this number begins; behind the last, the end of the text."""
        return self.tokens[number].start if number < len(self.tokens) else len(self.text)

    def place(self, offset):
        """`line:column`."""
        before = self.text[:offset]
        return f"{before.count(chr(10)) + 1}:{offset - before.rfind(chr(10))}"

    def line(self, offset):
        """The line of an offset, without its line feed."""
        return self.text[self.text.rfind("\n", 0, offset) + 1:].partition("\n")[0]

    def column(self, offset):
        return offset - self.text.rfind("\n", 0, offset)

    # ---- what stands there

    def between(self, first, last):
        """From one token on to the end of another, without what stands behind a line feed."""
        return self.text[self.tokens[first].start:self.tokens[last].end()].partition("\n")[0].removesuffix("\r")

    def head(self, first):
        """Of a statement that begins at this token: up to its first `;`, or to before its first `{`."""
        last = first
        while self.tokens[last].text not in (";", "{"):
            last += 1
        return self.between(first, last if self.tokens[last].text == ";" else last - 1)

    def first_tokens(self, first, count):
        """So many tokens from this one on."""
        return self.between(first, first + count - 1)

    # ---- items

    def items(self):
        """The tokens at which the declarations begin: these words stand nowhere else."""
        words = ("global", "init", "invariant", "action", "proc", "thread")
        return [number for number, token in enumerate(self.tokens) if token.text in words]

    def item(self, word, name):
        """The token at which the item of this name begins."""
        return next(at for at in self.items() if (self.tokens[at].text, self.tokens[at + 1].text) == (word, name))

    def items_of(self, word):
        return [at for at in self.items() if self.tokens[at].text == word]


# ---- first faults

class Fault(NamedTuple):
    """A token that can't stand where it does, or that opens too many brackets; and what may stand there."""
    code: str
    token: int
    expected: set
    may_end: bool


GRAMMARS = {is_new: Grammar(PAGE, is_new) for is_new in (False, True)}


def fault_in(source, kind):
    """The first fault of a text of this kind, a rule of the grammar, if it has one."""
    is_new = len(source.tokens) > 1 and source.tokens[1].text == "2"
    front, depth = Front(GRAMMARS[is_new], kind), 0
    for number, token in enumerate(source.tokens):
        expected = front.tokens()
        if token.word() not in expected:
            return Fault("E03", number, expected, front.is_whole())
        depth += (token.text in OPENING) - (token.text in CLOSING)
        if depth > MOST_BRACKETS:
            return Fault("E04", number, expected, front.is_whole())
        front.read(token.word())
    return None if front.is_whole() else Fault("E03", len(source.tokens), front.tokens(), False)


def in_order(expected):
    """The tokens that may stand: signs and reserved words as the page lists them, then names and numbers."""
    return [word for word in [*PAGE.signs, *PAGE.reserved, NAME, NUMBER] if word in expected]
