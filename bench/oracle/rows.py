"""Rows: what is found of the formulas of a text whose names begin so. Those of the gate's tests stand in crates/civl_term_tests."""
import itertools
import math
import os
import re

from .conditions import formulas
from .goals import goals
from .reading import read_program
from .values import Word

TESTS = os.path.join(os.path.dirname(os.path.abspath(__file__)), "..", "..", "crates", "civl_term_tests", "src", "kinds.rt")
MOST_BITS = 4
MOST_LISTS = 4096


def all_values(sort):
    """The values of a sort in their order, or None where they aren't few."""
    if sort.kind == "bool":
        return [False, True]
    return [Word(number, sort.width) for number in range(2 ** sort.width)] if sort.kind == "word" and sort.width <= MOST_BITS else None


def lists_of(formula):
    """A value for each variable in all ways, in their order, or None where the lists aren't few."""
    values = [all_values(sort) for _, sort in formula.variables]
    if None in values or math.prod(map(len, values)) > MOST_LISTS:
        return None
    names = [name for name, _ in formula.variables]
    return [dict(zip(names, reversed(chosen))) for chosen in itertools.product(*reversed(values))]


def row(program, front):
    """What is found of the formulas whose names begin so."""
    count, tried, true, weights = 0, 0, [], []
    for formula in formulas(program):
        if not formula.name.startswith(front):
            continue
        weights.append(formula.weight())
        lists = lists_of(formula)
        if lists is not None:
            count, tried = count + 1, tried + len(lists)
            true += [number for number, given in enumerate(lists) if formula.is_true(given)]
    weighing = "".join(f" {weight}" for weight in weights)
    return f"{front}: {count} formulas, {len(true)} of {tried} values, sum {sum(true)}, weights{weighing}"


def weight_lines(program):
    """The name of each formula and what it weighs, in the order of the list."""
    return [f"{formula.name} {formula.weight()}" for formula in formulas(program)]


def goal_lines(outline):
    """The name of each goal and its variables, in the order of the list."""
    return [f"{goal.name}: {', '.join(name for name, _ in goal.variables)}" for goal in goals(outline)]


# ---- the rows of the tests

def tests():
    """Of each test the name of its program, the program's text, and its rows."""
    with open(TESTS, encoding="utf-8") as file:
        text = file.read()
    texts = dict(re.findall(r'const (\w+): &str = "([^"]*)";', text))
    for program, rows in re.findall(r"found_in\(rt\.alloc\(\), (\w+), (\w+)\)", text):
        yield program, texts[program], texts[rows].split("\n")[1:]


def try_tests():
    """Prints the rows of the tests that differ, and says whether there are rows and none does."""
    count, wrong = 0, 0
    for name, text, rows in tests():
        program = read_program(text)
        for wanted in rows:
            found = row(program, wanted.partition(":")[0])
            count, wrong = count + 1, wrong + (found != wanted)
            if found != wanted:
                print(f"{name}: the tests have '{wanted}', worked out is '{found}'")
    print(f"{count} rows, {wrong} differ")
    return count > 0 and wrong == 0
