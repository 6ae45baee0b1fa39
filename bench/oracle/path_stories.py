"""Stories of K9 and K10: from a cut on the statements that the path passes, with what each changes, and what is lost where it ends."""
from dataclasses import replace
from typing import Any, NamedTuple

from .actions import Instance
from .lines import HEAD, NOTHING, Line, changes, equation, of_another, part_lines, shown
from .paths import EXIT, FAILS, WAITS, Paths, note_scope
from .programs import CUTS, Assert, Commit, If, Loop, RankLoop, around, cuts, invariants, meant, upper_globals
from .values import value


# ---- the path, statement by statement

class Passage(NamedTuple):
    """A statement that is passed: whether its condition was true, where it has one, and what there was before it and is behind it."""
    stmt: Any
    took: Any
    before: Any
    behind: Any


def copied(moment):
    return replace(moment, store=dict(moment.store), names=dict(moment.names))


class Told(Paths):
    """A path from a cut that keeps what it passes, and the statement before which it ends."""

    def __init__(self, program, step, proc, cut):
        super().__init__(program, step, proc, cut)
        self.passed, self.stopped = [], None

    def decided(self, stmt, now):
        """Whether the condition of a statement is true, which is passed by it."""
        took = value(stmt.test, now.names)
        self.passed.append(Passage(stmt, took, copied(now), copied(now)))
        return took

    def go_on(self, now, given):
        """As a path goes, which here keeps each statement."""
        rest = self.ways[0 if not isinstance(self.cut, Loop) or self.decided(self.cut, now) else 1]
        while rest:
            self.stopped, *rest = rest
            if isinstance(self.stopped, CUTS):
                return self.stopped
            if isinstance(self.stopped, If):
                rest = self.stopped.inner[0 if self.decided(self.stopped, now) else 1] + rest
                continue
            before = copied(now)
            end = self.pass_over(self.stopped, now, given)
            if end:
                return end
            self.passed.append(Passage(self.stopped, None, before, copied(now)))
        self.stopped = None
        return EXIT


# ---- lines

BRANCHES, IN_BODY = ("around it, where it is true", "around it, where it is false"), "around it, in its body"


class PathStory:
    """The story of a path that these values begin, of a condition on this part of it."""

    def __init__(self, placed, program, step, proc, cut, given, is_once):
        self.placed, self.program, self.step, self.proc, self.cut, self.given = placed, program, step, proc, cut, given
        self.is_once = is_once
        self.paths = Told(program, step, proc, cut)
        self.path = self.paths.walk(given)
        self.scope = {**self.path.now.store, **self.path.now.names, "done": self.path.now.done}

    def again(self):
        """The passage of a second commit, where the condition is on commits and there is one."""
        seconds = (passage for passage in self.paths.passed if isinstance(passage.stmt, Commit) and passage.before.done)
        return next(seconds, None) if self.is_once else None

    def names(self):
        """The globals that there are, and the procedure's own names."""
        return [*self.path.now.store, *(part.name for part in self.proc.names())]

    def changed(self, passage):
        before, behind = passage.before, passage.behind
        return ", ".join(changes(self.names(), {**before.store, **before.names}, {**behind.store, **behind.names}))

    def begin(self, item):
        """Where the path begins: at the procedure, or at the cut."""
        if self.cut is None:
            return Line(item, 2, "begins here")
        return Line(self.placed.begins[self.cut], HEAD, "begins here")

    def around(self):
        """The statements around the cut, with the part of each in which it stands."""
        found = around(self.proc.body, self.cut) if self.cut else []
        return [Line(self.placed.begins[stmt], HEAD, BRANCHES[part] if isinstance(stmt, If) else IN_BODY) for stmt, part in found]

    def told(self):
        """What is passed, but of a second commit only what is passed before it."""
        again = self.again()
        return self.paths.passed if again is None else self.paths.passed[:self.paths.passed.index(again)]

    def passage(self, passage):
        text = self.changed(passage) if passage.took is None else shown(passage.took)
        return Line(self.placed.begins[passage.stmt], HEAD, text)

    def lost_at(self, stmt, text):
        return Line(self.placed.begins[stmt], HEAD, text, True)

    def lost_at_exit(self, text):
        return Line(self.placed.exit(self.proc), NOTHING, text, True)

    def lost_at_end(self, text):
        """At the exit, or before the statement at which the path ends."""
        return self.lost_at_exit(f"the exit: {text}") if self.path.end == EXIT else self.lost_at(self.paths.stopped, text)

    def parts(self, expr, scope, **naming):
        return part_lines(self.placed, expr, scope, **naming)

    # ---- what is lost, by the parts of K9

    def gate(self):
        stmt, now = self.paths.stopped, self.path.now
        if isinstance(stmt, Assert):
            return [self.lost_at(stmt, "this is false"), *self.parts(stmt.test, now.names)]
        action = meant(self.program, stmt.callee)
        called = Instance(action, [value(arg, now.names) for arg in stmt.args], [])
        said = "".join(f", {equation(param.name, given)}" for param, given in zip(action.params, called.inputs))
        return [self.lost_at(stmt, f"its gate is false: {action.name}{said}"), *self.parts(action.gate, called.scope(now.store))]

    def invariant(self):
        end, path = self.path.end, self.path
        scope = note_scope(path.now, path.now if path.ends_block() else path.old)
        return [self.lost_at(end, "what it says is false"), *self.parts(end.invariant, scope)]

    def once(self):
        again = self.again()
        return [self.lost_at(again.stmt, "a second commit") if again else self.lost_at_exit("the exit, without a commit")]

    def above(self):
        return [g.name for g in upper_globals(self.program, self.step)]

    def outs(self):
        return [out.name for out in self.proc.outs]

    def stutter(self):
        old, now = self.path.old, self.path.now
        lost = changes(self.above(), old.store, now.store) + (changes(self.outs(), old.names, now.names) if old.done else [])
        return [self.lost_at_end(f"a block without a commit changes {', '.join(lost)}")]

    def perform(self):
        path, action = self.path, self.paths.action
        chosen = [value(expr, {**path.now.store, **path.now.names}) for expr in self.proc.refines.chosen]
        instance = Instance(action, self.paths.inputs(path.now), chosen)
        fired = instance.fire(path.old.store)
        return [self.lost_at_end(self.gives(fired))] if fired else self.waits(instance)

    def waits(self, instance):
        action, choices = instance.action, {c.name: given for c, given in zip(instance.action.choices, instance.chosen)}
        said = "".join(f", {equation(name, given)}" for name, given in choices.items())
        text = f"{action.name} waits: its guard is false where the block begins{said}"
        return [self.lost_at_end(text), *self.parts(action.guard, {**instance.scope(self.path.old.store), **choices})]

    def gives(self, fired):
        """What the refined action gives that the block doesn't."""
        now = self.path.now
        pairs = [(name, fired.store[name], now.store[name]) for name in self.above()]
        pairs += [(name, given, now.names[name]) for name, given in zip(self.outs(), fired.outs)]
        said = (f", {equation(name, given)} where the block has {shown(has)}" for name, given, has in pairs if given != has)
        return f"{self.paths.action.name} gives other values{''.join(said)}"

    def rank(self):
        before, after = (value(self.cut.rank, {**moment.store, **moment.names}) for moment in (self.path.begun, self.path.now))
        return [self.lost_at(self.cut, f"the rank was {shown(before)} and is {shown(after)}")]

    # ---- what is lost of K10

    def invariant_of_step(self, number):
        expr = invariants(self.program, self.step)[number]
        return [self.lost_at_end("an invariant is lost here"), *self.parts(expr, self.path.now.store)]

    def yield_of(self, other, cut):
        """What another thread's yield says."""
        names = {part.name: self.given["other." + part.name] for part in other.names()}
        scope = {**self.path.now.store, **names, "done": self.given["other.done"]}
        lost = self.lost_at_end("what another thread's yield says is lost here")
        return [lost, *self.parts(cut.invariant, scope, naming=of_another(self.program))]


LOST = {
    "gate": PathStory.gate,
    "invariant": PathStory.invariant,
    "once": PathStory.once,
    "stutter": PathStory.stutter,
    "perform": PathStory.perform,
    "rank": PathStory.rank,
}


def lost(story, words):
    """What is lost, by the words of the condition's name."""
    if words[0] == "K9":
        return LOST[words[1]](story)
    kind, *which = words[6:]
    if kind == "invariant":
        return story.invariant_of_step(int(which[0]))
    other = story.program.procs[which[0]]
    return story.yield_of(other, cuts(other)[int(which[1])])


def path_story(source, placed, program, name, given):
    """The lines on a condition K9 or K10 that these values violate."""
    words = name.split()
    at = words.index("step")
    step, proc, cut = int(words[at + 1]), program.procs[words[at + 2]], int(words[at + 4])
    story = PathStory(placed, program, step, proc, cuts(proc)[cut], given, words[:2] == ["K9", "once"])
    return [story.begin(source.item("proc", proc.name)), *story.around(), *map(story.passage, story.told()), *lost(story, words)]
