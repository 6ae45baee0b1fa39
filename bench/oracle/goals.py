"""The goals of an outline, in their order."""
from functools import partial
from typing import Any, NamedTuple

from .actions import Instance, are_apart, held_before, of_globals, store_of, values_of
from .conditions import keeps
from .formulas import Formula, is_initial, variables
from .programs import Assert, Assign, Call, If, Loop, Outline, Proc, Spawn, Stmt, behind, globals_at, meant, roots, statements
from .values import value, zero


class Place(NamedTuple):
    """A root that stands before one of its statements, the note there, None where none is written, and the names that are held there."""
    root: Proc
    stmt: Stmt
    note: Any
    held: set

    def is_noted(self, store, names):
        return self.note is None or value(self.note, {**store, **names})

    def names(self, front, given):
        return {part.name: given[front + part.name] for part in self.root.names()}

    def carried(self, names):
        return [{names[name].number} for name in self.held]


class Goals:
    """An outline, and all places of its roots."""

    def __init__(self, outline: Outline):
        self.program, self.holds = outline.program, outline.holds
        self.globals = globals_at(self.program, self.program.layers)
        written = {(note.item, note.statement): note.expr for note in outline.notes}
        self.places = {}
        for item, root in roots(self.program):
            before = held_before(self.program, root)
            for stmt in statements(root.body):
                self.places[stmt] = Place(root, stmt, written.get((item, stmt.number)), before[stmt])

    def is_met(self, store):
        """Whether a store meets the invariant, which is all holds together."""
        return all(value(hold, store) for hold in self.holds)

    def first(self, proc):
        """The place before statement 0 of a procedure, if it has one."""
        return self.places[proc.body[0]] if proc.body else None

    def is_begun(self, proc, args, store):
        """Whether the note before statement 0 holds with these arguments, and with zeros for the outputs and locals."""
        names = {part.name: given for part, given in zip(proc.params, args)}
        return self.first(proc).is_noted(store, {**names, **{part.name: zero(part.sort) for part in proc.outs + proc.locals}})

    # ---- O1

    def invariant(self):
        everything = variables("", self.program.globals)
        yield Formula("O1 invariant", everything, lambda store: is_initial(self.program, store) and not self.is_met(store))

    def threads(self):
        for number, thread in enumerate(self.program.threads):
            root = self.program.procs[thread.callee]
            if self.first(root):
                everything = variables("", self.program.globals)
                yield Formula(f"O1 thread {number}", everything, partial(self.thread_fails, thread, root))

    def thread_fails(self, thread, root, store):
        args = [value(arg, store) for arg in thread.args]
        return is_initial(self.program, store) and not self.is_begun(root, args, store)

    def linear(self):
        linear_names = {g.name for g in self.program.globals if g.is_linear}
        for action in self.program.actions.values():
            moves = [part for part in action.params + action.outs if part.mode != "val"] or linear_names & action.updates.keys()
            if action.layers[0] == self.program.layers and moves:
                yield keeps(f"O1 linear {action.name}", self.program, self.program.layers, action)

    # ---- O2 and O3

    def action_of(self, stmt):
        """The action of a call; other statements have none."""
        return meant(self.program, stmt.callee) if isinstance(stmt, Call) else None

    def variables(self, place):
        """The globals, the names of the root, and the choices of the call."""
        action = self.action_of(place.stmt)
        choices = variables(f"call{place.stmt.number}.", action.choices) if action else []
        return variables("", self.globals) + variables("", place.root.names()) + choices

    def begun(self, place, given):
        """The store and the names before the statement, or None where what is assumed there isn't so."""
        store, names = store_of(self.globals, given), place.names("", given)
        is_assumed = (
            self.is_met(store) and place.is_noted(store, names) and are_apart(of_globals(self.program, store) + place.carried(names)))
        return (store, names) if is_assumed else None

    def instance(self, place, names, given):
        """The action of the place's call, with its arguments and choices."""
        action, stmt = self.action_of(place.stmt), place.stmt
        return Instance(action, [value(arg, names) for arg in stmt.args], values_of(f"call{stmt.number}.", action.choices, given))

    # Whether what is asked of a statement isn't so, where these are the store and the names before it.

    def safe_fails(self, place, store, names, given):
        if isinstance(place.stmt, Assert):
            return not value(place.stmt.test, names)
        return not self.instance(place, names, given).has_gate(store)

    def invariant_fails(self, place, store, names, given):
        fired = self.instance(place, names, given).fire(store)
        return fired is not None and not self.is_met(fired.store)

    def spawn_fails(self, place, store, names, given):
        args = [value(arg, names) for arg in place.stmt.args]
        return not self.is_begun(self.program.procs[place.stmt.callee], args, store)

    def step(self, place, store, names, given):
        """The store and the names behind the statement, or None where it fails or waits."""
        stmt = place.stmt
        if isinstance(stmt, Assign):
            return store, {**names, stmt.target: value(stmt.expr, names)}
        if isinstance(stmt, Assert) and not value(stmt.test, names):
            return None
        if isinstance(stmt, Call):
            called = self.instance(place, names, given)
            fired = called.fire(store) if called.has_gate(store) else None
            return (fired.store, {**names, **dict(zip(stmt.results, fired.outs))}) if fired else None
        return store, names

    def reached(self, place, names):
        """The place to which the statement leads, or None at the end of the root."""
        stmt, rest = place.stmt, behind(place.root.body, place.stmt)
        if isinstance(stmt, If):
            rest = stmt.inner[0 if value(stmt.test, names) else 1] + rest
        elif isinstance(stmt, Loop) and value(stmt.test, names):
            rest = stmt.inner[0] + [stmt]
        return self.places[rest[0]] if rest else None

    def next_fails(self, place, store, names, given):
        stepped, reached = self.step(place, store, names, given), self.reached(place, names)
        return stepped is not None and reached is not None and not reached.is_noted(*stepped)

    def other_fails(self, other, place, store, names, given):
        other_names = other.names("other.", given)
        carried = of_globals(self.program, store) + place.carried(names) + other.carried(other_names)
        fired = self.instance(place, names, given).fire(store)
        return (
            are_apart(carried) and other.is_noted(store, other_names)
            and fired is not None and not other.is_noted(fired.store, other_names))

    def goal(self, place, kind, fails, behind_name="", others=()):
        """A goal on a statement, which has this kind in its name."""
        name = f"{kind} {place.root.name} at {place.stmt.number}{behind_name}"

        def is_true(given):
            begun = self.begun(place, given)
            return begun is not None and fails(place, *begun, given)

        return Formula(name, self.variables(place) + list(others), is_true)

    def others(self, place):
        """O3: each written note of each root."""
        for other in self.places.values():
            if other.note is not None:
                yield self.goal(
                    place, "O3", partial(self.other_fails, other), f" keeps {other.root.name} at {other.stmt.number}",
                    variables("other.", other.root.names()))

    def of_place(self, place):
        if isinstance(place.stmt, (Call, Assert)):
            yield self.goal(place, "O2 safe", self.safe_fails)
        if isinstance(place.stmt, Call):
            yield self.goal(place, "O2 invariant", self.invariant_fails)
        if isinstance(place.stmt, Spawn) and self.first(self.program.procs[place.stmt.callee]):
            yield self.goal(place, "O2 spawn", self.spawn_fails)
        yield self.goal(place, "O2 next", self.next_fails)
        if isinstance(place.stmt, Call):
            yield from self.others(place)


def goals(outline):
    """The goals of an outline in their order."""
    found = Goals(outline)
    yield from found.invariant()
    yield from found.threads()
    yield from found.linear()
    for place in found.places.values():
        yield from found.of_place(place)
