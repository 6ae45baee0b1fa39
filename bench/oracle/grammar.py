"""The grammar as docs/LANGUAGE.md prints it, and which tokens may stand behind others by it: those that, with the tokens before them, begin
some text. (The chart of J. Earley, 1970, of whose sets each holds exactly the rules with which the tokens so far can go on.)"""
import os
import re
from collections import defaultdict
from typing import NamedTuple

PAGE = os.path.join(os.path.dirname(os.path.abspath(__file__)), "..", "..", "docs", "LANGUAGE.md")
NAME, NUMBER = "NAME", "NUMBER"
CLASSES = {"name": NAME, "number": NUMBER}
NEW = "(version 2 alone)"
ONE_OF = "(one of these)"


class Word(NamedTuple):
    """A word of the grammar that stands for a token: a sign, a reserved word, or any name or number."""
    token: str


# ---- the page

def section(text, title):
    """What stands under a title of the page."""
    return text.partition(f"\n## {title}\n")[2].partition("\n## ")[0]


def block(text, title):
    """The lines of the first block under a title."""
    return re.search(r"^```\n(.*?)^```", section(text, title), re.DOTALL | re.MULTILINE)[1].splitlines()


def told_tokens(text, kind):
    """The tokens of a kind, in the order in which the page lists them."""
    return re.search(rf"^- a {kind}: `([^`]*)`", section(text, "Tokens"), re.MULTILINE)[1].split()


def rules_in(lines):
    """Of each rule in a block its name and its lines."""
    found = []
    for line in lines:
        head = re.match(r"(\w+) += (.*)", line)
        if head:
            found.append((head[1], [head[2]]))
        else:
            found[-1][1].append(line.strip())
    return found


class Page:
    """The signs, the reserved words, and the lines of the rules."""

    def __init__(self):
        with open(PAGE, encoding="utf-8") as file:
            text = file.read()
        self.signs, self.reserved = told_tokens(text, "sign"), told_tokens(text, "reserved word")
        self.rules = dict(rules_in([line for title in ("The grammar", "Scripts", "Outlines") for line in block(text, title)]))


# ---- rules

def alternatives(lines, is_new):
    """The alternatives in a rule's lines, each a list of words; those of version 2 alone only where they are asked for."""
    lines = [line.replace(NEW, "") for line in lines if is_new or NEW not in line]
    if ONE_OF in lines[0]:
        first, *others = lines
        return [[word] for word in [*first.replace(ONE_OF, "").split(), *(word for line in others for word in line.split()[1:])]]
    found = [[]]
    for word in " ".join(lines).split():
        if word == "|":
            found.append([])
        else:
            found[-1].append(word)
    return found


class Grammar:
    """The rules of the texts of a version. A rule has a name and its alternatives, and `X*`, `[X]` and `list(X)` are rules too."""

    def __init__(self, page, is_new):
        self.page, self.rules = page, {}
        for name, lines in page.rules.items():
            self.rules[name] = [[self.part(name, word) for word in words] for words in alternatives(lines, is_new)]
        self.empty = self.all_empty()

    def part(self, rule, word):
        """What a word in a rule stands for: a token, or the name of a rule."""
        made = re.fullmatch(r"list\((\w+)\)|(\w+)\*|\[(\w+)\]", word)
        if made:
            self.rules[word] = self.made(word, self.plain(rule, made[1] or made[2] or made[3]), made)
            return word
        return self.plain(rule, word)

    def plain(self, rule, word):
        """A word that is reserved and begins the rule of its own name is a token there."""
        if word in CLASSES:
            return Word(CLASSES[word])
        is_rule = word in self.page.rules and not (word == rule and word in self.page.reserved)
        return word if is_rule else Word(word)

    def made(self, name, part, match):
        if match[1]:
            some = f"some {name}"
            self.rules[some] = [[part], [some, Word(","), part]]
            return [[], [some]]
        return [[], [name, part]] if match[2] else [[], [part]]

    def all_empty(self):
        """The rules by which nothing may stand."""
        found, count = set(), -1
        while len(found) != count:
            count = len(found)
            found |= {name for name, ways in self.rules.items() if any(all(part in found for part in way) for way in ways)}
        return found


# ---- what may stand

class Item(NamedTuple):
    """An alternative of a rule, how many of its parts are read, and before which token it begins."""
    rule: str
    parts: tuple
    read: int
    origin: int

    def next(self):
        return self.parts[self.read] if self.read < len(self.parts) else None

    def moved(self):
        return self._replace(read=self.read + 1)


class Front:
    """The tokens that were read, and the sets of items behind each."""

    def __init__(self, grammar, rule):
        self.grammar, self.rule, self.sets = grammar, rule, []
        self.close({Item(rule, tuple(way), 0, 0) for way in grammar.rules[rule]})

    def close(self, items):
        """Adds a set of these items, and of all that comes of them without a token."""
        at, found, ahead = len(self.sets), set(), list(items)
        waiting = defaultdict(set)
        self.sets.append(waiting)
        while ahead:
            item = ahead.pop()
            if item in found:
                continue
            found.add(item)
            part = item.next()
            waiting[part].add(item)
            if part is None:
                ahead += [before.moved() for before in list(self.sets[item.origin][item.rule])]
            elif not isinstance(part, Word):
                ahead += [Item(part, tuple(way), 0, at) for way in self.grammar.rules[part]]
                ahead += [item.moved()] if part in self.grammar.empty else []

    def tokens(self):
        """The tokens that may stand next."""
        return {part.token for part in self.sets[-1] if isinstance(part, Word)}

    def is_whole(self):
        """Whether the tokens are a text."""
        return any(item.rule == self.rule and item.origin == 0 for item in self.sets[-1][None])

    def read(self, token):
        """Reads one of the tokens that may stand next."""
        self.close({item.moved() for item in self.sets[-1][Word(token)]})
