"""Reads programs and outlines from their texts, by the grammar. The texts have to spell some: at another the reader stops with an error."""
import re
from functools import partial

from .programs import (
    Action, Assert, Assign, Call, Choice, Commit, Declared, Global, If, Intro, Invariant, Loop, Note, Outline, Proc, Program, RankLoop,
    Refines, Spawn, Thread, Yield, YieldLoop, named)
from .values import GET, JOIN, ONE, PICK, SET, TWO, Applied, Constant, Name, Sort, fill, slice_bits, widen, word


TOKEN = re.compile(r"(?:[ \t\r\n]|//[^\n]*)*(?:([A-Za-z_]\w*|\d+|:=|->|<<|>>|<=|==|!=|&&|\|\||=>|[(){}\[\],;:?!~+\-*&|^<=])|\Z)", re.ASCII)


def tokens(text):
    """The tokens of a text, and behind them one that is no word."""
    found, at = [], 0
    while at < len(text):
        match = TOKEN.match(text, at)
        if match is None:
            raise ValueError(f"no token begins behind {text[:at][-40:]!r}")
        found.append(match[1] or "")
        at = match.end()
    return found + [""]


class Reader:
    """Reads by the grammar, from the tokens of a text."""

    def __init__(self, text):
        self.tokens, self.at, self.statements = tokens(text), 0, 0

    def sees(self, *words):
        return self.tokens[self.at] in words

    def take(self):
        self.at += 1
        return self.tokens[self.at - 1]

    def skip(self, *words):
        for wanted in words:
            found = self.take()
            if found != wanted:
                raise ValueError(f"token {self.at - 1} is {found!r} in place of {wanted!r}")

    def skips(self, word):
        """Whether this word stands here; then it is skipped."""
        if self.sees(word):
            self.skip(word)
            return True
        return False

    def number(self):
        return int(self.take())

    def behind(self, word, read):
        self.skip(word)
        return read()

    def while_at(self, word, read):
        found = []
        while self.sees(word):
            found.append(read())
        return found

    def listed(self, read):
        """What stands in parentheses, with commas between."""
        self.skip("(")
        found = []
        while not self.sees(")"):
            if found:
                self.skip(",")
            found.append(read())
        self.skip(")")
        return found

    def block(self, read):
        """What stands in braces."""
        self.skip("{")
        found = []
        while not self.sees("}"):
            found.append(read())
        self.skip("}")
        return found

    def header(self, name):
        return self.ended(partial(self.behind, name, self.number))

    def program(self):
        """A program, whatever stands behind it."""
        _, layers, permissions = (self.header(name) for name in ("civl", "layers", "permissions"))
        program_globals = self.while_at("global", self.declared_global)
        init = self.ended(partial(self.behind, "init", self.expr))
        stepped = self.while_at("invariant", self.invariant)
        actions, procs = self.while_at("action", self.action), self.while_at("proc", self.proc)
        threads = self.while_at("thread", self.thread)
        return Program(layers, permissions, program_globals, init, stepped, named(actions), named(procs), threads)

    def outline(self):
        """A program, and the holds and notes behind it."""
        program = self.program()
        self.skip("schedule")
        return Outline(program, self.while_at("inv", self.hold), self.while_at("assert", self.note))

    def hold(self):
        return self.ended(partial(self.behind, "inv", self.expr))

    def note(self):
        self.skip("assert")
        return Note(self.number(), self.number(), self.ended(self.expr))

    def ended(self, read):
        """What stands before a semicolon."""
        found = read()
        self.skip(";")
        return found

    def sort(self):
        kind = self.take()
        if kind == "bool":
            return Sort(kind)
        self.skip("(")
        index = self.number() if kind == "row" else 0
        if kind == "row":
            self.skip(",")
        width = self.number()
        self.skip(")")
        return Sort(kind, width, index)

    def of_sort(self):
        name = self.take()
        self.skip(":")
        return name, self.sort()

    def layers(self):
        self.skip("layers")
        first = self.number()
        self.skip("to")
        return range(first, self.number() + 1)

    def declared_global(self):
        self.skip("global")
        is_linear = self.skips("linear")
        name, sort = self.of_sort()
        return Global(name, sort, is_linear, self.ended(self.layers))

    def invariant(self):
        self.skip("invariant")
        return Invariant(self.number(), self.ended(self.expr))

    def declared(self):
        mode = self.take()
        return Declared(*self.of_sort(), mode)

    def all_declared(self):
        return self.listed(self.declared)

    def choice(self):
        name, sort = self.of_sort()
        return Choice(name, sort, self.behind("=", self.expr))

    def action(self):
        self.skip("action")
        name, params = self.take(), self.all_declared()
        outs = self.behind("->", self.all_declared)
        choices = self.behind("choose", partial(self.listed, self.choice))
        layers, mover = self.layers(), self.take()
        gate, guard = self.behind("gate", self.expr), self.behind("guard", self.expr)
        return Action(name, params, outs, choices, layers, mover, gate, guard, dict(self.block(self.update)))

    def update(self):
        target = self.take()
        return target, self.ended(partial(self.behind, ":=", self.expr))

    def proc(self):
        self.skip("proc")
        name, params = self.take(), self.all_declared()
        outs = self.behind("->", self.all_declared)
        refines = None if self.skips("root") else self.refines()
        self.skip("{")
        declared = []
        while self.sees("var", "linear"):
            declared.append(self.ended(self.declared))
        self.statements = 0
        body = []
        while not self.skips("}"):
            body.append(self.stmt())
        return Proc(name, params, outs, refines, declared, body)

    def refines(self):
        self.skip("refines")
        action = self.take()
        chosen = self.behind("with", partial(self.listed, self.expr))
        return Refines(action, chosen, self.behind("layer", self.number))

    def thread(self):
        self.skip("thread")
        return Thread(self.take(), self.ended(partial(self.listed, self.expr)))

    def body(self):
        return self.block(self.stmt)

    def stmt(self):
        number, first = self.statements, self.take()
        self.statements += 1
        if first == "if":
            test, then = self.expr(), self.body()
            return If(number, test, inner=[then, self.behind("else", self.body)])
        if first == "while":
            return self.loop(number)
        return self.ended(partial(self.simple, number, first))

    def loop(self, number):
        if self.skips("yield"):
            test, invariant = self.expr(), self.behind("inv", self.expr)
            return YieldLoop(number, test, invariant, inner=[self.body()])
        if self.skips("rank"):
            test, rank, invariant = self.expr(), self.behind("by", self.expr), self.behind("inv", self.expr)
            return RankLoop(number, test, rank, invariant, inner=[self.body()])
        test = self.expr()
        return Loop(number, test, inner=[self.body()])

    def simple(self, number, first):
        """A statement with no other in it, which begins with this word."""
        if first == "commit":
            return Commit(number)
        if first == "assert":
            return Assert(number, self.expr())
        if first == "yield":
            return Yield(number, self.expr())
        if first == "intro":
            return Intro(number, *self.update_of(self.take()))
        if first == "call":
            callee, args = self.take(), self.listed(self.expr)
            return Call(number, callee, args, self.behind("->", partial(self.listed, self.take)))
        if first == "spawn":
            return Spawn(number, self.take(), self.listed(self.expr))
        return Assign(number, *self.update_of(first))

    def update_of(self, target):
        return target, self.behind(":=", self.expr)

    def expr(self):
        first = self.take()
        if first in ("true", "false"):
            return Constant(first == "true")
        if first.isdigit():
            return Constant(word(int(first), self.behind(":", self.number)))
        if first == "(":
            return self.in_parentheses()
        if first == "old":
            self.skip("(")
            name = self.take()
            self.skip(")")
            return Name("old." + name)
        if first in FORMS:
            return self.form(first)
        return Name(first)

    def in_parentheses(self):
        if self.sees(*ONE):
            expr = Applied(ONE[self.take()], [self.expr()])
        else:
            first, sign = self.expr(), self.take()
            if sign == "?":
                second = self.expr()
                expr = Applied(PICK, [first, second, self.behind(":", self.expr)])
            else:
                expr = Applied(TWO[sign], [first, self.expr()])
        self.skip(")")
        return expr

    def form(self, first):
        """`get(..)` and the like, some of whose parts are numbers."""
        operator, kinds = FORMS[first]
        self.skip("(")
        parts, numbers = [], []
        for at, kind in enumerate(kinds):
            if at:
                self.skip(",")
            if kind == "number":
                numbers.append(self.number())
            else:
                parts.append(self.expr())
        self.skip(")")
        return Applied(operator(*numbers) if numbers else operator, parts)


FORMS = {
    "get": (GET, ["expr", "expr"]),
    "set": (SET, ["expr", "expr", "expr"]),
    "fill": (fill, ["number", "expr"]),
    "slice": (slice_bits, ["expr", "number", "number"]),
    "widen": (widen, ["expr", "number"]),
    "join": (JOIN, ["expr", "expr"]),
}


def read_program(text):
    reader = Reader(text)
    program = reader.program()
    reader.skip("")
    return program


def read_outline(text):
    reader = Reader(text)
    outline = reader.outline()
    reader.skip("")
    return outline


def read_front(text):
    """The program with which a text begins, where only a schedule may stand behind it."""
    reader = Reader(text)
    program = reader.program()
    if not reader.sees("", "schedule"):
        reader.skip("schedule")
    return program
