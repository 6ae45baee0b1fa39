"""Entries and moves of a script that don't fit: the number of the first, its place, and what is wrong there."""
from .lines import fault_lines


def literals(reader):
    """What stands in a value: the literals, each as a bool or as its number and width; and whether it is a row."""
    if not reader.skips("["):
        return [literal(reader)], False
    found = []
    while not reader.skips("]"):
        found.append(literal(reader))
        reader.skips(",")
    return found, True


def literal(reader):
    first = reader.take()
    if first in ("true", "false"):
        return first == "true"
    reader.skip(":")
    return int(first), reader.number()


def is_word(given):
    return given not in (True, False) and 1 <= given[1] <= 32 and given[0] < 2 ** given[1]


def sort_written(given, is_row):
    """The sort of a value that is written so, as a text; None where it is none."""
    if not is_row:
        return "bool" if isinstance(given[0], bool) else f"word({given[0][1]})" if is_word(given[0]) else None
    if len(given) not in (2, 4, 8, 16, 32, 64) or not all(not isinstance(cell, bool) and is_word(cell) for cell in given):
        return None
    widths = {cell[1] for cell in given}
    return f"row({len(given).bit_length() - 1}, {widths.pop()})" if len(widths) == 1 else None


def sort_text(sort):
    return {"bool": "bool", "word": f"word({sort.width})", "row": f"row({sort.index}, {sort.width})"}[sort.kind]


def entries(reader):
    """The token, the name and the sort of each entry."""
    found = []
    while not reader.sees("move", ""):
        at, name = reader.at, reader.take()
        reader.skip("=")
        found.append((at, name, reader.ended(lambda: sort_written(*literals(reader)))))
    return found


def steps(reader):
    """The token of each move, and whether all its choices are values."""
    found = []
    while reader.sees("move"):
        at = reader.at
        reader.skip("move")
        reader.number()
        choices = reader.ended(lambda: reader.listed(lambda: sort_written(*literals(reader))))
        found.append((at, None not in choices))
    return found


def first_misfit(reader, program):
    """The number of the first entry or move behind the program that doesn't fit, its token, and what is wrong; None where all fit."""
    reader.skip("schedule")
    store, moves = entries(reader), steps(reader)
    for number, declared in enumerate(program.globals):
        is_there = number < len(store)
        if not is_there or store[number][1:] != (declared.name, sort_text(declared.sort)):
            at = store[number][0] if is_there else moves[0][0] if moves else reader.at
            return number, at, f"the value of {declared.name} is due here, a {sort_text(declared.sort)}"
    if len(store) > len(program.globals):
        number = len(program.globals)
        return number, store[number][0], "all globals have their values before this"
    for place, (at, is_right) in enumerate(moves):
        if not is_right:
            return len(program.globals) + place, at, "a choice here is no value"
    return None


def misfit(source, reader, program, is_by_lines):
    """The report on a script that doesn't fit."""
    number, at, text = first_misfit(reader, program)
    return [f"refused E80 at entry {number}", *fault_lines(source, source.offset(at), text, is_by_lines)]
