"""Bodies of procedures that refine an action, on the way from a cut."""
from dataclasses import dataclass, replace
from typing import Any, NamedTuple

from .actions import Instance, are_apart, held_before, of_globals, store_of, values_of
from .formulas import variables
from .programs import (
    CUTS, DONE, Assert, Assign, Call, Commit, If, Intro, Loop, RankLoop, behind, invariants, meant, near_globals, upper_globals)
from .values import value, zero


# ---- by the text

def ways_from(proc, cut):
    """The statements that come from a cut on; from a loop first its body, and then what is behind it."""
    if cut is None:
        return [proc.body]
    after = behind(proc.body, cut)
    return [[*cut.inner[0], cut], after] if isinstance(cut, Loop) else [after]


def along(rest):
    """The statements that some path along these passes, the cuts at which one ends, and whether one passes them all."""
    passed, ends = [], []
    for stmt in rest:
        if isinstance(stmt, CUTS):
            return passed, ends + [stmt], False
        passed.append(stmt)
        if isinstance(stmt, If):
            branches = [along(branch) for branch in stmt.inner]
            passed += [inner for branch, _, _ in branches for inner in branch]
            ends += [end for _, branch, _ in branches for end in branch]
            if not any(goes_on for _, _, goes_on in branches):
                return passed, ends, False
    return passed, ends, True


def met(proc, cut):
    """The statements that some path from a cut passes, and the ends that some path reaches: cuts, and None, which is the exit."""
    passed, ends = [], []
    for way in ways_from(proc, cut):
        stmts, at, goes_on = along(way)
        passed += stmts
        ends += at + ([None] if goes_on else [])
    return passed, ends


# ---- by values

@dataclass
class Moment:
    """The globals, the procedure's own names, whether a `commit` was passed, and whether one was passed behind another."""
    store: dict
    names: dict
    done: bool
    again: bool = False


def note_scope(now, old):
    """What the names in an invariant stand for."""
    before = {**old.store, **old.names, "done": old.done}
    return {**now.store, **now.names, "done": now.done, **{"old." + name: given for name, given in before.items()}}


# How a path ends, where it doesn't come to a cut: at the exit; before a gate or an assert that is false; before a guard that is false.
EXIT, FAILS, WAITS = "exit", "fails", "waits"


class Walked(NamedTuple):
    """A path: the present and the old values at its beginning, how it ends, and what has become of the present ones there."""
    begun: Moment
    old: Moment
    end: Any
    now: Moment

    def ends_block(self):
        return self.end not in (FAILS, WAITS) and not isinstance(self.end, RankLoop)


class Paths:
    """The paths from a cut of a procedure, in the lower program of a step."""

    def __init__(self, program, step, proc, cut):
        self.program, self.step, self.proc, self.cut = program, step, proc, cut
        self.action = program.actions[proc.refines.action]
        self.held = held_before(program, proc)[cut]
        self.ways = ways_from(proc, cut)

    def variables(self):
        """The globals, the names of the procedure and `done`, at a rank loop the old ones too, and the choices of the calls."""
        near, proc = near_globals(self.program, self.step), self.proc
        calls = [
            variable for stmt in met(proc, self.cut)[0] if isinstance(stmt, Call)
            for variable in variables(f"call{stmt.number}.", meant(self.program, stmt.callee).choices)]
        if self.cut is None:
            return variables("", near + proc.params) + calls
        present = variables("", proc.params + proc.outs + proc.locals)
        if not isinstance(self.cut, RankLoop):
            return variables("", near) + present + variables("", DONE) + calls
        old = variables("old.", proc.outs) + variables("", DONE) + variables("old.", DONE)
        return variables("", near) + variables("old.", near) + present + old + calls

    def beginning(self, given):
        """The present and the old values at the cut; where there are no old ones these are the present."""
        store = store_of(near_globals(self.program, self.step), given)
        names = {part.name: given.get(part.name, zero(part.sort)) for part in self.proc.names()}
        now = Moment(store, names, given.get("done", False))
        old_store = {name: given.get("old." + name, store[name]) for name in store}
        old_outs = {out.name: given.get("old." + out.name, names[out.name]) for out in self.proc.outs}
        return now, Moment(old_store, old_outs, given.get("old.done", now.done))

    def inputs(self, now):
        """The parameters, which are the inputs of the refined action."""
        return [now.names[param.name] for param in self.proc.params]

    def owned(self, now):
        """What the linear globals and the names held at the cut carry."""
        return of_globals(self.program, now.store) + [{now.names[name].number} for name in self.held]

    def is_assumed(self, now, old):
        """Whether what is assumed at the cut is so."""
        return (
            all(value(invariant, old.store) for invariant in invariants(self.program, self.step))
            and (self.cut is None or value(self.cut.invariant, note_scope(now, old)))
            and (now.done if old.done else Instance(self.action, self.inputs(now), []).has_gate(old.store))
            and are_apart(self.owned(now)))

    def walk(self, given):
        """The path on which these values lead, or None where they aren't what is assumed at the cut."""
        begun, old = self.beginning(given)
        if not self.is_assumed(begun, old):
            return None
        now = replace(begun, store=dict(begun.store), names=dict(begun.names))
        return Walked(begun, old, self.go_on(now, given), now)

    def go_on(self, now, given):
        """Goes over statements up to where the path ends, and says how."""
        goes_in = not isinstance(self.cut, Loop) or value(self.cut.test, now.names)
        rest = self.ways[0] if goes_in else self.ways[1]
        while rest:
            stmt, *rest = rest
            if isinstance(stmt, CUTS):
                return stmt
            if isinstance(stmt, If):
                rest = stmt.inner[0 if value(stmt.test, now.names) else 1] + rest
            elif stopped := self.pass_over(stmt, now, given):
                return stopped
        return EXIT

    def pass_over(self, stmt, now, given):
        """One statement is done; the answer is why it isn't, where it can't be."""
        if isinstance(stmt, Commit):
            now.again, now.done = now.again or now.done, True
        elif isinstance(stmt, Intro):
            now.store[stmt.target] = value(stmt.expr, {**now.store, **now.names})
        elif isinstance(stmt, Assign):
            now.names[stmt.target] = value(stmt.expr, now.names)
        elif isinstance(stmt, Assert):
            return None if value(stmt.test, now.names) else FAILS
        elif isinstance(stmt, Call):
            return self.call(stmt, now, given)
        else:
            raise ValueError(f"statement {stmt.number} of {self.proc.name} can't stand in a procedure that refines an action")
        return None

    def call(self, stmt, now, given):
        action = meant(self.program, stmt.callee)
        args = [value(arg, now.names) for arg in stmt.args]
        called = Instance(action, args, values_of(f"call{stmt.number}.", action.choices, given))
        if not called.has_gate(now.store):
            return FAILS
        fired = called.fire(now.store)
        if fired is None:
            return WAITS
        now.store = fired.store
        now.names.update(zip(stmt.results, fired.outs))
        return None

    def outs(self, moment):
        return [moment.names[out.name] for out in self.proc.outs]

    def same_above(self, first, second):
        """Whether the globals of the upper program have the same values in both stores."""
        return all(first[g.name] == second[g.name] for g in upper_globals(self.program, self.step))

    # ---- the parts of K9: whether a path violates them

    def gate_fails(self, path):
        return path.end == FAILS

    def invariant_fails(self, path):
        if not isinstance(path.end, CUTS):
            return False
        return not value(path.end.invariant, note_scope(path.now, path.now if path.ends_block() else path.old))

    def once_fails(self, path):
        return path.now.again or (path.end == EXIT and not path.now.done)

    def stutter_fails(self, path):
        if not path.ends_block() or path.now.done != path.old.done:
            return False
        return not self.same_above(path.now.store, path.old.store) or (path.old.done and self.outs(path.now) != self.outs(path.old))

    def perform_fails(self, path):
        if not path.ends_block() or not path.now.done or path.old.done:
            return False
        chosen = [value(expr, {**path.now.store, **path.now.names}) for expr in self.proc.refines.chosen]
        fired = Instance(self.action, self.inputs(path.now), chosen).fire(path.old.store)
        return fired is None or not self.same_above(path.now.store, fired.store) or self.outs(path.now) != fired.outs

    def rank_fails(self, path):
        before, after = (value(self.cut.rank, {**moment.store, **moment.names}).number for moment in (path.begun, path.now))
        return path.end is self.cut and after >= before


PARTS = {
    "gate": Paths.gate_fails,
    "invariant": Paths.invariant_fails,
    "once": Paths.once_fails,
    "stutter": Paths.stutter_fails,
    "perform": Paths.perform_fails,
}


def parts_at(cut):
    """The parts of K9 at a cut."""
    return {**PARTS, "rank": Paths.rank_fails} if isinstance(cut, RankLoop) else PARTS
