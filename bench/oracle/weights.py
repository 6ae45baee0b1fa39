"""What formulas weigh, beside the bits of their variables."""
from .actions import held_before
from .paths import met
from .programs import (
    DONE, Assert, Assign, Call, If, Intro, Loop, RankLoop, invariants, lower_globals, meant, statements, upper_globals)
from .values import Applied, Constant, sort_of_value


# ---- expressions

def sorts_of(*lists):
    """The sorts of the names that are declared in these lists."""
    return {part.name: part.sort for declared in lists for part in declared}


def weighed(expr, sorts):
    """The sort of an expression, and its weight: its own, and that of its parts."""
    if isinstance(expr, Constant):
        return sort_of_value(expr.value), 1
    if not isinstance(expr, Applied):
        return sorts[expr.name.removeprefix("old.")], 1
    parts = [weighed(part, sorts) for part in expr.parts]
    operands = [sort for sort, _ in parts]
    return expr.operator.sort(*operands), expr.operator.weight(*operands) + sum(weight for _, weight in parts)


def weight_of(expr, sorts):
    return weighed(expr, sorts)[1]


def weights_of(exprs, sorts):
    return sum(weight_of(expr, sorts) for expr in exprs)


def of_invariant(program, invariant):
    """An invariant of a step."""
    return weight_of(invariant, sorts_of(program.globals))


def of_invariants(program, step):
    return sum(of_invariant(program, invariant) for invariant in invariants(program, step))


def of_note(program, proc, invariant):
    """What speaks of globals and of a procedure's names."""
    return weight_of(invariant, sorts_of(program.globals, proc.names(), DONE))


def bits(declared):
    return sum(part.sort.bits for part in declared)


# ---- permissions

def linear(program, items):
    """What so many items weigh that are asked to be apart."""
    values = 2 ** program.permissions
    return items * (program.permissions + 1) * values + items * (items - 1) // 2 * values


def linear_globals(program):
    return sum(g.is_linear for g in program.globals)


def of_modes(declared, *modes):
    """How many parameters or outputs have one of these modes."""
    return sum(part.mode in modes for part in declared)


def inputs(declared):
    return of_modes(declared, "lend", "take")


# ---- actions

def of_gate(program, action):
    return weight_of(action.gate, sorts_of(program.globals, action.params))


def of_guard(program, action):
    return weight_of(action.guard, sorts_of(program.globals, action.params, action.choices))


def of_offers(program, action):
    return weights_of([choice.offer for choice in action.choices], sorts_of(program.globals, action.params))


def of_updates(program, action):
    return weights_of(action.updates.values(), sorts_of(program.globals, action.params, action.choices))


def of_action(program, action):
    """Its gate, guard and updates."""
    return of_gate(program, action) + of_guard(program, action) + of_updates(program, action)


# ---- conditions on stores and actions

def initial(program):
    sorts = sorts_of(program.globals)
    args = [arg for thread in program.threads for arg in thread.args]
    items = linear_globals(program) + sum(inputs(program.procs[thread.callee].params) for thread in program.threads)
    return weight_of(program.init, sorts) + weights_of(args, sorts) + linear(program, items)


def start(program, invariant):
    """K1."""
    return initial(program) + of_invariant(program, invariant)


def keep(program, action):
    """K2."""
    coming = linear_globals(program) + inputs(action.params)
    going = linear_globals(program) + of_modes(action.params, "lend") + of_modes(action.outs, "give")
    return of_action(program, action) + linear(program, coming) + linear(program, going) + going * 2 ** program.permissions


def pair(program, step, first, second):
    """K3 to K7."""
    items = linear_globals(program) + inputs(first.params) + inputs(second.params)
    compared = bits(lower_globals(program, step)) + bits(first.outs) + bits(second.outs)
    return 2 * (of_action(program, first) + of_action(program, second)) + compared + linear(program, items)


def fire(program, action):
    """K8."""
    return of_gate(program, action) + of_guard(program, action) + of_offers(program, action)


# ---- paths

def body_sorts(proc):
    return sorts_of(proc.names())


def written(program, stmt):
    """The names that a statement by itself may write."""
    if isinstance(stmt, (Assign, Intro)):
        return {stmt.target}
    if isinstance(stmt, Call):
        action = meant(program, stmt.callee)
        return set(stmt.results) | action.updates.keys() - {out.name for out in action.outs}
    return set()


def join(program, proc, stmt):
    """What it takes to join the states behind the branches of an `if`."""
    names = set().union(*(written(program, inner) for branch in stmt.inner for inner in statements(branch)))
    return bits(part for part in program.globals + proc.outs + proc.locals if part.name in names) + 1


def of_stmt(program, proc, stmt):
    """What is counted of a statement that a path passes."""
    if isinstance(stmt, Assign):
        return 1 + weight_of(stmt.expr, body_sorts(proc))
    if isinstance(stmt, (Assert, Loop)):
        return 1 + weight_of(stmt.test, body_sorts(proc))
    if isinstance(stmt, Intro):
        return 1 + of_note(program, proc, stmt.expr)
    if isinstance(stmt, If):
        return 1 + weight_of(stmt.test, body_sorts(proc)) + 2 + join(program, proc, stmt)
    if isinstance(stmt, Call):
        return 1 + weights_of(stmt.args, body_sorts(proc)) + of_action(program, meant(program, stmt.callee))
    return 1


def assumed(program, step, proc, cut):
    """What is assumed at a cut."""
    gate = of_gate(program, program.actions[proc.refines.action])
    invariant = of_note(program, proc, cut.invariant) if cut else 0
    return of_invariants(program, step) + invariant + gate + linear(program, items_at(program, proc, cut))


def items_at(program, proc, cut):
    return len(held_before(program, proc)[cut]) + linear_globals(program)


def passed(program, proc, cut):
    """The statements that some path from a cut passes, each once; of a loop at which it begins also its condition."""
    head = [cut] if isinstance(cut, Loop) else []
    return sum(of_stmt(program, proc, stmt) for stmt in head + met(proc, cut)[0])


def at_end(program, step, proc, cut, part, end):
    """What a part weighs at one end: a cut, or the exit, which is None."""
    compared = bits(upper_globals(program, step)) + bits(proc.outs)
    if part == "invariant":
        return 1 + (of_note(program, proc, end.invariant) if end else 0)
    if part == "stutter":
        return 1 + compared
    if part == "perform":
        action = program.actions[proc.refines.action]
        chosen = sum(of_note(program, proc, expr) for expr in proc.refines.chosen)
        return 1 + compared + chosen + of_guard(program, action) + of_updates(program, action)
    if part == "rank":
        sort, weight = weighed(cut.rank, sorts_of(program.globals, proc.names()))
        return 1 + 3 * weight + 2 * sort.width
    return 1


def path(program, step, proc, cut, part):
    """K9."""
    ends = sum(at_end(program, step, proc, cut, part, end) for end in met(proc, cut)[1])
    return assumed(program, step, proc, cut) + passed(program, proc, cut) + ends


# ---- what stays true

def block(program, step, proc, cut, target):
    """K10."""
    ends = [end for end in met(proc, cut)[1] if not isinstance(end, RankLoop)]
    both = linear(program, items_at(program, proc, cut) + len(target.held)) if target.is_yield else 0
    return assumed(program, step, proc, cut) + passed(program, proc, cut) + len(ends) * (target.weight + 1) + target.weight + both


def act(program, step, action, target):
    """K11."""
    items = linear_globals(program) + inputs(action.params) + len(target.held)
    return of_action(program, action) + of_invariants(program, step) + 2 * target.weight + linear(program, items)
