#!/usr/bin/env python3
"""Works out, without the program and its proofs, at which values the formulas of conditions and goals are true, what they weigh, and what
stories have to tell.

Usage: oracle.py TEXT ROW ..        (a file with a program, and beginnings of the names of formulas, as "K9 gate" or "initial")
       oracle.py --weights TEXT
       oracle.py --goals TEXT       (a file with an outline)
       oracle.py --report TEXT      (a program or an outline, and on standard input a report on it)
       oracle.py --tests
       oracle.py --reports
       oracle.py --stories

What a program does, what its conditions and an outline's goals ask, and what their formulas weigh is taken from docs/CONDITIONS.md and
docs/LANGUAGE.md: actions are fired in stores, and bodies are walked statement by statement, at one list of values after the other. The
formula of a condition or goal is true at the values that violate it, and the formula `initial` where a store is initial. For each ROW one
line: how many formulas with few values have a name that begins so, at how many of the lists of values of their variables they are true, the
sum of the numbers of these lists, and the weights of all formulas with such a name. The variables stand in the order that
docs/CONDITIONS.md tells ("When a condition fails"), and the lists are numbered from 0, the first variable changing the fastest. A formula
with more than 4,096 lists of values, or with a variable that is neither a bool nor a word of at most 4 bits, isn't counted.

--weights prints the name and the weight of each formula, --goals the name and the variables of each goal, in the order of the lists.

With --tests the programs and the rows are those of crates/civl_term_tests/src/kinds.rt, with which the gate compares the terms and the
weights of the formulas. It prints each row that differs from what is worked out, and then how many rows there are and how many differ. The
exit code is 1 where one differs, or where there is no row.

With --report and --reports values that violate a condition or a goal, as a report tells them, are tried; what a report says to hold, or to
be violated at values that it doesn't tell, is tried at all lists of values, where there are no more than 4,096; and the names are compared
where a report tells all, and their number where it tells that. With --reports the texts and the reports are the rows of the files of cases
of crates/civl_tests. It prints what differs, and then how much was tried, how much of it differs, and how many violations can't be tried.
The exit code is 1 where something differs, where a report tells nothing of conditions, or no report of the files any values, and where a
row can't be read.

With --stories the texts, the words and the reports are the rows of the program civl_explain in these files. Of each report it works out
what stands beside that of `civl`: where a text can't be read, by the grammar as docs/LANGUAGE.md prints it, with all tokens that may stand
there; the place of a static rule that is broken; what a formula is about that weighs too much, which entry or move of a script doesn't fit,
and which part of a rule of outlines is broken; the moves of a run, and the whole report of it; of a condition that is violated which of
its values may be others, the statements that a path passes, or what the actions do in both orders, what is lost, and the innermost false
parts of the formula, with what the condition assumes where the words ask for that (--assumed); and of a goal what is assumed, what the
statement does, and what is false then. It compares this with the row, byte
for byte, and prints the first line in which they differ. Then it prints how many stories are confirmed whole and how many in part, what of
these isn't worked out, how many differ, and how many rows want no report, or a line of one. The values that violate a condition or a goal
are those of the row: they are tried, not found. Which static rule is broken first isn't worked out, nor which goal weighs too much. The
exit code is 1 where a story differs, where none is confirmed whole, and where a row can't be read.

The text has to be a program or an outline that keeps the static rules, E90 and E91, for these aren't tried.
"""
import sys

from oracle.cases import Unreadable
from oracle.reading import read_outline, read_program
from oracle.reports import try_report, try_reports
from oracle.rows import goal_lines, row, try_tests, weight_lines
from oracle.stories import try_stories


def text_of(path):
    with open(path, encoding="utf-8") as file:
        return file.read()


def put(lines):
    """Prints these lines, and says so."""
    print(*lines, sep="\n")
    return True


WITHOUT_TEXT = {
    "--tests": try_tests,
    "--reports": try_reports,
    "--stories": try_stories,
}

ON_TEXT = {
    "--weights": lambda text: put(weight_lines(read_program(text))),
    "--goals": lambda text: put(goal_lines(read_outline(text))),
    "--report": lambda text: try_report(text, sys.stdin.read()),
}


def put_rows(text, fronts):
    program = read_program(text)
    return put(row(program, front) for front in fronts)


def is_right(words):
    """Does what the words say, and says whether nothing differs; None where they say nothing."""
    if len(words) == 1 and words[0] in WITHOUT_TEXT:
        return WITHOUT_TEXT[words[0]]()
    if len(words) == 2 and words[0] in ON_TEXT:
        return ON_TEXT[words[0]](text_of(words[1]))
    if len(words) < 2 or words[0].startswith("-"):
        return None
    return put_rows(text_of(words[0]), words[1:])


def main(words):
    try:
        right = is_right(words)
    except Unreadable as fault:
        print(fault)
        return 1
    if right is None:
        print(__doc__)
        return 2
    return 0 if right else 1


if __name__ == "__main__":
    sys.exit(main(sys.argv[1:]))
