"""Formulas: what conditions and goals are decided by."""
from typing import Callable, NamedTuple, Optional

from .actions import are_apart, of_globals, of_words
from .values import value


class Formula(NamedTuple):
    """A formula with its variables, each a name and a sort; whether it is true is asked with a value for each name. What it weighs
    beside its variables is worked out where it is asked for."""
    name: str
    variables: list
    is_true: Callable
    own_weight: Optional[Callable] = None

    def weight(self):
        return sum(sort.bits for _, sort in self.variables) + self.own_weight()


def variables(front, declared):
    return [(front + part.name, part.sort) for part in declared]


def of_instance(front, action):
    return variables(front, action.params) + variables(front, action.choices)


def is_initial(program, store):
    """Whether `init` is true and no permission is carried twice by the linear globals and the linear arguments of the threads."""
    carried = of_globals(program, store)
    for thread in program.threads:
        args = [value(arg, store) for arg in thread.args]
        carried += of_words(program.procs[thread.callee].params, args, ["lend", "take"])
    return value(program.init, store) and are_apart(carried)
