#!/usr/bin/env python3
"""The results of the operations of expressions at all values of their operands, worked out without the program.

Usage: operations.py     (prints what crates/civl_operation_tests has to write: its file `stdout`)

What each operation is, oracle.py has from docs/LANGUAGE.md; the operations of a line are read from its text. How a line is to be read, the
first lines of that crate's src/main.rt say.
"""
import itertools

from oracle import Reader, Word, tokens, value

OF_BOOLS = ["(! p)", "(p && q)", "(p || q)", "(p => q)", "(p == q)", "(p != q)", "(p ? q : o)"]

# Beside each text the widths of the words over which it is tried.
OF_WORDS = {
    **dict.fromkeys(["(~ a)", "(- a)"], (1, 3)),
    **dict.fromkeys([f"(a {sign} b)" for sign in "+ - * udiv urem & | ^ << >> sar < <= slt sle == !=".split()], (1, 3)),
    "(p ? a : b)": (1, 3),
    "slice(a, 0, 0)": (1, 3),
    **dict.fromkeys(["slice(a, 1, 0)", "slice(a, 2, 0)", "slice(a, 1, 1)", "slice(a, 2, 1)", "slice(a, 2, 2)"], (3,)),
    **dict.fromkeys(["widen(a, 3)", "widen(a, 5)", "widen(a, 32)", "join(a, b)"], (1, 3)),
    **dict.fromkeys(["get(r, i)", "set(r, i, a)", "fill(1, a)", "fill(2, a)", "(r == s)", "(r != s)"], (1, 3)),
    "(p ? r : s)": (1,),
}

MOST = 200


def words(width):
    return [Word(number, width) for number in range(2 ** width)]


def values(name, width):
    """The values of an operand in the order of their numbers."""
    if name in "pqo":
        return [False, True]
    if name == "i":
        return words(1)
    if name in "ab":
        return words(width)
    return [tuple(reversed(cells)) for cells in itertools.product(words(width), repeat=2)]


def number_and_bits(result):
    """The number of a value, and how many bits the values of its sort have."""
    if isinstance(result, bool):
        return int(result), 1
    if isinstance(result, Word):
        return result
    width = result[0].width
    return sum(cell.number << width * at for at, cell in enumerate(result)), width * len(result)


def results(text, width):
    """The results at all values of the operands, which are the names of the text in their order."""
    expr = Reader(text).expr()
    names = [token for token in tokens(text) if token in set("pqoabirs")]
    lists = itertools.product(*(values(name, width) for name in reversed(names)))
    return [number_and_bits(value(expr, dict(zip(names, reversed(chosen))))) for chosen in lists]


def line(head, text, width):
    found = results(text, width)
    digits = -(-found[0][1] // 3)
    if len(found) * digits > MOST:
        total = sum(place * number for place, (number, _) in enumerate(found, 1))
        return f"{head}: {len(found)} results, sum {total} same"
    return f"{head}: {''.join(f'{number:0{digits}o}' for number, _ in found)} same"


def main():
    for text in OF_BOOLS:
        print(line(text, text, 1))
    for width in (1, 3):
        for text, widths in OF_WORDS.items():
            if width in widths:
                print(line(f"{text} at {width}", text, width))


if __name__ == "__main__":
    main()
