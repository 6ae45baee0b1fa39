"""Permissions, what actions do, and what is held where."""
from typing import NamedTuple

from .programs import Action, Call, If, Loop, Spawn, meant
from .values import value


# ---- permissions

def of_globals(program, store):
    """What each linear global carries: the permissions of its set bits."""
    return [{bit for bit in range(g.sort.width) if store[g.name].number >> bit & 1} for g in program.globals if g.is_linear]


def of_words(declared, values, modes):
    """What the words of these modes carry, each the one permission of its number."""
    return [{given.number} for part, given in zip(declared, values) if part.mode in modes]


def are_apart(carried):
    """No permission is carried twice."""
    return sum(map(len, carried)) == len(set().union(*carried))


# ---- actions

class Fired(NamedTuple):
    store: dict
    outs: list


class Instance(NamedTuple):
    """An action with values for its parameters and its choices."""
    action: Action
    inputs: list
    chosen: list

    def scope(self, store):
        return {**store, **dict(zip((p.name for p in self.action.params), self.inputs))}

    def has_gate(self, store):
        return value(self.action.gate, self.scope(store))

    def offers(self, store):
        """The same with the choices that are offered."""
        return self._replace(chosen=[value(choice.offer, self.scope(store)) for choice in self.action.choices])

    def fire(self, store):
        """The store afterwards and the outputs, or None where the guard is false."""
        scope = {**self.scope(store), **dict(zip((c.name for c in self.action.choices), self.chosen))}
        if not value(self.action.guard, scope):
            return None
        changed = {target: value(expr, scope) for target, expr in self.action.updates.items()}
        outs = [changed.pop(out.name) for out in self.action.outs]
        return Fired({**store, **changed}, outs)

    def carried(self, modes=("lend", "take")):
        """What the linear inputs carry."""
        return of_words(self.action.params, self.inputs, modes)


def values_of(front, declared, given):
    return [given[front + part.name] for part in declared]


def instance(action, front, given):
    """An action with the values of the variables that have this before their names."""
    return Instance(action, values_of(front, action.params, given), values_of(front, action.choices, given))


def store_of(program_globals, given):
    return {g.name: given[g.name] for g in program_globals}


# ---- what is held

def behind_call(program, call, held):
    """The names that are held behind a call, where these are held before it."""
    action = meant(program, call.callee)
    taken = {arg.name for param, arg in zip(action.params, call.args) if param.mode == "take"}
    return held - taken | {name for out, name in zip(action.outs, call.results) if out.mode == "give"}


def behind_spawn(program, spawn, held):
    """The same of a spawn, which keeps what it is lent."""
    params = program.procs[spawn.callee].params
    return held - {arg.name for param, arg in zip(params, spawn.args) if param.mode in ("lend", "take")}


def held_behind(program, body, held, before):
    """The names held behind a body, where these are held before it; those held before each statement in it are put under the statement."""
    for stmt in body:
        before[stmt] = held
        if isinstance(stmt, Call):
            held = behind_call(program, stmt, held)
        elif isinstance(stmt, Spawn):
            held = behind_spawn(program, stmt, held)
        elif isinstance(stmt, If):
            first, second = (held_behind(program, branch, held, before) for branch in stmt.inner)
            held = first & second
        elif isinstance(stmt, Loop):
            held_behind(program, stmt.inner[0], held, before)
    return held


def held_before(program, proc):
    """The names that are held before each statement of a procedure, and under None those that are at its entry."""
    entry = {param.name for param in proc.params if param.mode in ("lend", "take")}
    before = {None: entry}
    held_behind(program, proc.body, entry, before)
    return before
