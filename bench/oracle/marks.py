"""Which values of a violation may be others: tried one by one in their order, each kept where the condition is violated too."""
from .lines import equation
from .values import Word, sort_of_value, zero


def other(given):
    """The other truth value; 1 in place of the word 0, or else 0; a row of ones in place of one of zeros, or else zeros."""
    if isinstance(given, bool):
        return not given
    nothing = zero(sort_of_value(given))
    if given != nothing:
        return nothing
    return Word(1, given.width) if isinstance(given, Word) else tuple(Word(1, cell.width) for cell in given)


def marks(formula, given):
    """The line that tells them, if there are any."""
    kept, found = dict(given), []
    for name, _ in formula.variables:
        tried = {**kept, name: other(kept[name])}
        if formula.is_true(tried):
            kept = tried
            found.append(equation(name, tried[name]))
    return [f"  violated too with {', '.join(found)}"] if found else []
