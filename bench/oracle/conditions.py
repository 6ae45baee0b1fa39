"""The list of conditions."""
from functools import partial
from typing import Callable, NamedTuple

from . import weights
from .actions import Instance, are_apart, held_before, instance, of_globals, of_words, store_of, values_of
from .formulas import Formula, is_initial, of_instance, variables
from .paths import Paths, parts_at
from .programs import DONE, Yield, YieldLoop, cuts, globals_at, invariants, lower_globals, near_globals, procs
from .values import value


# ---- actions

def loses(program, store, x):
    """K2."""
    before = of_globals(program, store) + x.carried()
    if not are_apart(before) or not x.has_gate(store):
        return False
    fired = x.fire(store)
    if fired is None:
        return False
    left = of_globals(program, fired.store) + x.carried(["lend"]) + of_words(x.action.outs, fired.outs, ["give"])
    return not are_apart(left) or not set().union(*left) <= set().union(*before)


def clashes(store, x, y):
    """K3, and K5 with the two exchanged: x and then y come to an end to which y and then x don't."""
    if not x.has_gate(store) or not y.has_gate(store):
        return False
    first = x.fire(store)
    second = y.fire(first.store) if first and y.has_gate(first.store) else None
    if second is None:
        return False
    early = y.fire(store)
    late = x.fire(early.store) if early else None
    return late is None or (late.store, late.outs, early.outs) != (second.store, first.outs, second.outs)


def spoils(store, x, y):
    """K4, and K6 with the two exchanged: x makes y's gate false."""
    if not x.has_gate(store) or not y.has_gate(store):
        return False
    fired = x.fire(store)
    return fired is not None and not y.has_gate(fired.store)


def reveals(store, x, y):
    """K7: x makes y's gate true."""
    if not x.has_gate(store) or y.has_gate(store):
        return False
    fired = x.fire(store)
    return fired is not None and y.has_gate(fired.store)


def waits(store, x):
    """K8."""
    return x.has_gate(store) and x.offers(store).fire(store) is None


RIGHT_PAIRS = {"K3": clashes, "K4": spoils}
LEFT_PAIRS = {"K5": lambda store, x, y: clashes(store, y, x), "K6": lambda store, x, y: spoils(store, y, x), "K7": reveals}


# ---- initial stores and actions

def initial(program):
    return Formula("initial", variables("", program.globals), partial(is_initial, program), partial(weights.initial, program))


def starts(program, step):
    """K1."""
    for number, invariant in enumerate(invariants(program, step)):
        yield Formula(
            f"K1 step {step} invariant {number}", variables("", program.globals),
            lambda store, invariant=invariant: is_initial(program, store) and not value(invariant, store),
            partial(weights.start, program, invariant))


def keeps(name, program, layer, action):
    """A formula with this name that asks what K2 does of an action, in the plain program of a layer."""
    there = globals_at(program, layer)
    return Formula(
        name, variables("", there) + of_instance("X.", action),
        lambda given: loses(program, store_of(there, given), instance(action, "X.", given)), partial(weights.keep, program, action))


def of_actions(program, step):
    """K2."""
    for action in program.actions.values():
        if action.layers[0] == step - 1:
            yield keeps(f"K2 step {step} {action.name}", program, step - 1, action)


def of_pair(program, step, number, fails, first, second):
    """One of K3 to K7 of two actions."""
    below = lower_globals(program, step)

    def is_true(given):
        store, x, y = store_of(below, given), instance(first, "X.", given), instance(second, "Y.", given)
        return are_apart(of_globals(program, store) + x.carried() + y.carried()) and fails(store, x, y)

    return Formula(
        f"{number} step {step} {first.name} {second.name}",
        variables("", below) + of_instance("X.", first) + of_instance("Y.", second), is_true,
        partial(weights.pair, program, step, first, second))


def of_offers(program, step, action):
    """K8 of an action."""
    below = lower_globals(program, step)
    return Formula(
        f"K8 step {step} {action.name}", variables("", below) + variables("X.", action.params),
        lambda given: waits(store_of(below, given), Instance(action, values_of("X.", action.params, given), [])),
        partial(weights.fire, program, action))


def meet_below(step, x, y):
    """The lower program of the step is the first in which both exist."""
    both = [layer for layer in x.layers if layer in y.layers]
    return bool(both) and both[0] == step - 1


def movers(program, step):
    """K3 to K8."""
    for x in program.actions.values():
        pairs = {**(RIGHT_PAIRS if x.mover in ("right", "both") else {}), **(LEFT_PAIRS if x.mover in ("left", "both") else {})}
        for y in program.actions.values():
            if meet_below(step, x, y):
                for number, fails in pairs.items():
                    yield of_pair(program, step, number, fails, x, y)
        if x.mover in ("left", "both") and x.layers[0] == step - 1:
            yield of_offers(program, step, x)


# ---- paths

def part_fails(paths, fails, given):
    """Whether these values violate a part of K9."""
    path = paths.walk(given)
    return path is not None and fails(paths, path)


def from_cuts(program, step):
    """The procedures of the step's layer with each of their cuts and its number."""
    for proc in procs(program, step):
        for number, cut in enumerate(cuts(proc)):
            yield proc, number, cut


def paths_of(program, step):
    """K9."""
    for proc, number, cut in from_cuts(program, step):
        paths = Paths(program, step, proc, cut)
        for part, fails in parts_at(cut).items():
            yield Formula(
                f"K9 {part} step {step} {proc.name} from {number}", paths.variables(), partial(part_fails, paths, fails),
                partial(weights.path, program, step, proc, cut, part))


# ---- what stays true

class Target(NamedTuple):
    """What blocks and actions have to keep: its variables, the names that are held there, whether it is lost between two stores, what it
    weighs, and whether it is that of a yield."""
    name: str
    variables: list
    held: set
    is_lost: Callable
    weight: int
    is_yield: bool

    def carried(self, given):
        return [{given["other." + name].number} for name in self.held]


def of_invariant(program, number, invariant):
    weight = weights.of_invariant(program, invariant)
    return Target(f"invariant {number}", [], set(), lambda given, before, after: not value(invariant, after), weight, False)


def of_yield(program, proc, number, cut):
    """The invariant of another thread's yield."""
    frame = proc.names() + DONE

    def holds(given, store):
        return value(cut.invariant, {**store, **{part.name: given["other." + part.name] for part in frame}})

    return Target(
        f"yield {proc.name} {number}", variables("other.", frame), held_before(program, proc)[cut],
        lambda given, before, after: holds(given, before) and not holds(given, after), weights.of_note(program, proc, cut.invariant), True)


def targets(program, step):
    for number, invariant in enumerate(invariants(program, step)):
        yield of_invariant(program, number, invariant)
    for proc, number, cut in from_cuts(program, step):
        if isinstance(cut, (Yield, YieldLoop)):
            yield of_yield(program, proc, number, cut)


def block_loses(paths, target, given):
    """Whether these values violate K10."""
    path = paths.walk(given)
    if path is None or not are_apart(paths.owned(path.begun) + target.carried(given)):
        return False
    return path.ends_block() and target.is_lost(given, path.old.store, path.now.store)


def blocks(program, step):
    """K10."""
    for proc, number, cut in from_cuts(program, step):
        paths = Paths(program, step, proc, cut)
        for target in targets(program, step):
            yield Formula(
                f"K10 step {step} {proc.name} from {number} {target.name}", paths.variables() + target.variables,
                partial(block_loses, paths, target), partial(weights.block, program, step, proc, cut, target))


def action_loses(program, step, action, target, given):
    """Whether these values violate K11."""
    store, x = store_of(near_globals(program, step), given), instance(action, "X.", given)
    if not all(value(invariant, store) for invariant in invariants(program, step)) or not x.has_gate(store):
        return False
    if not are_apart(of_globals(program, store) + x.carried() + target.carried(given)):
        return False
    fired = x.fire(store)
    return fired is not None and target.is_lost(given, store, fired.store)


def acts(program, step):
    """K11."""
    near = variables("", near_globals(program, step))
    for action in program.actions.values():
        if step - 1 in action.layers and step in action.layers:
            for target in targets(program, step):
                yield Formula(
                    f"K11 step {step} {action.name} {target.name}", near + of_instance("X.", action) + target.variables,
                    partial(action_loses, program, step, action, target), partial(weights.act, program, step, action, target))


def formulas(program):
    """The formula of an initial store, and those of the conditions in the order of the list."""
    yield initial(program)
    for step in range(1, program.layers + 1):
        yield from starts(program, step)
        yield from of_actions(program, step)
        yield from movers(program, step)
        yield from paths_of(program, step)
        yield from blocks(program, step)
        yield from acts(program, step)
