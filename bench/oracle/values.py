"""Sorts, values and expressions."""
from functools import partial
from typing import Any, Callable, NamedTuple


class Sort(NamedTuple):
    """A bool, a word of so many bits, or a row of 2^index such words."""
    kind: str
    width: int = 0
    index: int = 0

    @property
    def bits(self):
        if self.kind == "bool":
            return 1
        return self.width if self.kind == "word" else self.width * 2 ** self.index


BOOL = Sort("bool")


class Word(NamedTuple):
    """A word; a row is a tuple of words, and a bool is one of Python's."""
    number: int
    width: int


def word(number, width):
    return Word(number % 2 ** width, width)


def signed(a):
    """The number for which a word stands by two's complement."""
    return a.number - 2 ** a.width if a.number >> (a.width - 1) else a.number


def zero(sort):
    if sort.kind == "bool":
        return False
    return Word(0, sort.width) if sort.kind == "word" else (Word(0, sort.width),) * 2 ** sort.index


def sort_of_value(given):
    """The sort of a value."""
    if isinstance(given, bool):
        return BOOL
    if isinstance(given, Word):
        return Sort("word", given.width)
    return Sort("row", given[0].width, len(given).bit_length() - 1)


# ---- operators

class Operator(NamedTuple):
    """An operator: its value, of its operands' values; its sort and its own weight, of their sorts."""
    value: Callable
    sort: Callable
    weight: Callable


def first_sort(*sorts):
    return sorts[0]


def is_bool(*_):
    return BOOL


def one(*_):
    return 1


def times_width(factor, *sorts):
    """So many times the width of the first operand."""
    return factor * sorts[0].width


def times_square(factor, *sorts):
    """So many times the square of its width."""
    return factor * sorts[0].width ** 2


def first_bits(*sorts):
    return sorts[0].bits


def on_bools(operation):
    return Operator(operation, is_bool, one)


def on_words(factor, operation):
    """An operator from words to a word of their width, which weighs so many times this width."""
    return Operator(operation, first_sort, partial(times_width, factor))


def by_steps(factor, operation):
    """The same where it weighs so many times the square of the width."""
    return Operator(operation, first_sort, partial(times_square, factor))


def in_order(operation):
    return Operator(operation, is_bool, partial(times_width, 2))


def on_values(operation):
    """An operator that compares two values of any sort."""
    return Operator(operation, is_bool, first_bits)


ONE = {
    "!": on_bools(lambda p: not p),
    "~": on_words(1, lambda a: word(~a.number, a.width)),
    "-": on_words(2, lambda a: word(-a.number, a.width)),
}

TWO = {
    "+": on_words(2, lambda a, b: word(a.number + b.number, a.width)),
    "-": on_words(2, lambda a, b: word(a.number - b.number, a.width)),
    "*": by_steps(2, lambda a, b: word(a.number * b.number, a.width)),
    "&": on_words(1, lambda a, b: word(a.number & b.number, a.width)),
    "|": on_words(1, lambda a, b: word(a.number | b.number, a.width)),
    "^": on_words(1, lambda a, b: word(a.number ^ b.number, a.width)),
    "<<": on_words(6, lambda a, b: word(a.number << min(b.number, a.width), a.width)),
    ">>": on_words(6, lambda a, b: word(a.number >> b.number, a.width)),
    "sar": on_words(6, lambda a, b: word(signed(a) >> b.number, a.width)),
    "udiv": by_steps(4, lambda a, b: word(a.number // b.number if b.number else -1, a.width)),
    "urem": by_steps(4, lambda a, b: word(a.number % b.number if b.number else a.number, a.width)),
    "<": in_order(lambda a, b: a.number < b.number),
    "<=": in_order(lambda a, b: a.number <= b.number),
    "slt": in_order(lambda a, b: signed(a) < signed(b)),
    "sle": in_order(lambda a, b: signed(a) <= signed(b)),
    "==": on_values(lambda x, y: x == y),
    "!=": on_values(lambda x, y: x != y),
    "&&": on_bools(lambda p, q: p and q),
    "||": on_bools(lambda p, q: p or q),
    "=>": on_bools(lambda p, q: not p or q),
}

PICK = Operator(lambda p, x, y: x if p else y, lambda p, x, y: x, lambda p, x, y: x.bits)

GET = Operator(lambda row, at: row[at.number], lambda row, at: Sort("word", row.width), lambda row, at: row.bits)

SET = Operator(
    lambda row, at, cell: row[:at.number] + (cell,) + row[at.number + 1:], first_sort,
    lambda row, at, cell: (row.width + row.index) * 2 ** row.index)

JOIN = Operator(
    lambda a, b: word(a.number << b.width | b.number, a.width + b.width), lambda a, b: Sort("word", a.width + b.width), one)


def fill(index):
    return Operator(lambda cell: (cell,) * 2 ** index, lambda cell: Sort("row", cell.width, index), one)


def slice_bits(high, low):
    return Operator(lambda a: word(a.number >> low, high - low + 1), lambda a: Sort("word", high - low + 1), one)


def widen(width):
    return Operator(lambda a: word(a.number, width), lambda a: Sort("word", width), one)


# ---- expressions

class Constant(NamedTuple):
    value: Any


class Name(NamedTuple):
    """A name, `done`, or `old.` before one of these."""
    name: str


class Applied(NamedTuple):
    operator: Operator
    parts: list


def value(expr, scope):
    """The value of an expression, where the scope says for what the names stand."""
    if isinstance(expr, Name):
        return scope[expr.name]
    if isinstance(expr, Constant):
        return expr.value
    return expr.operator.value(*(value(part, scope) for part in expr.parts))
