"""Stories of goals: what is assumed before a statement, what it does, and the gate, the invariant or the note that is false then."""
from .actions import instance, store_of
from .action_stories import ActionStory
from .assumptions import Assumptions
from .goals import Goals
from .lines import HEAD, NOTHING, Line, changes, equation, part_lines, shown
from .programs import Assert, If, Loop, globals_at, roots
from .values import value, zero


class GoalStory:
    """The story of a goal of an outline, at these values."""

    def __init__(self, source, placed, outline, given):
        self.source, self.placed, self.outline, self.program, self.given = source, placed, outline, outline.program, given
        self.goals = Goals(outline)
        self.places = {(place.root.name, place.stmt.number): place for place in self.goals.places.values()}

    # ---- lines

    def parts(self, expr, scope):
        return part_lines(self.placed, expr, scope)

    def at_stmt(self, place, text, is_error=False, what=HEAD):
        return Line(self.placed.begins[place.stmt], what, text, is_error)

    def note_of(self, place):
        """The token at which the note before a statement is written, or None."""
        items = {root.name: item for item, root in roots(self.program)}
        for note, token in zip(self.outline.notes, self.placed.notes):
            if (note.item, note.statement) == (items[place.root.name], place.stmt.number):
                return token
        return None

    def assumed(self, place):
        token = self.note_of(place)
        if token is None:
            return self.at_stmt(place, "no note is written here", what=NOTHING)
        return Line(token, HEAD, "is assumed")

    def frame(self, word, place, names):
        """A frame of a root, with its values."""
        said = ", ".join(equation(part.name, names[part.name]) for part in place.root.names())
        return Line(self.source.item("proc", place.root.name), 2, f"{word} with {said}" if said else word)

    def false_note(self, place, text, store, names):
        return [self.at_stmt(place, text, True), *self.parts(place.note, {**store, **names})]

    def false_holds(self, store):
        return [line for hold in self.outline.holds for line in self.parts(hold, store)]

    # ---- what is assumed beside the note before a statement

    def holds_assumed(self):
        return [Line(self.placed.span(hold)[0] - 1, HEAD, "is assumed") for hold in self.outline.holds]

    def assumed_elsewhere(self, place):
        token = self.note_of(place)
        return [] if token is None else [Line(token, HEAD, "is assumed of another thread")]

    # ---- O1

    def initial_invariant(self):
        init = self.source.items_of("init")[0]
        return [Line(init, 1, "an initial store without the invariant", True), *self.false_holds(self.given)]

    def begins(self, first, callee, args, store):
        """A first frame, of which the note is false."""
        root = self.program.procs[callee]
        names = {part.name: given for part, given in zip(root.params, args)}
        names |= {part.name: zero(part.sort) for part in root.outs + root.locals}
        place = self.places[callee, 0]
        return [*first, self.frame("begins", place, names), *self.false_note(place, "the note here is false", store, names)]

    def thread(self, number):
        thread = self.program.threads[number]
        first = Line(self.source.items_of("thread")[number], HEAD, "in this initial store")
        return self.begins([first], thread.callee, [value(arg, self.given) for arg in thread.args], self.given)

    def linear(self, name):
        store = store_of(globals_at(self.program, self.program.layers), self.given)
        story = ActionStory(self.source, self.placed, self.program, self.program.layers + 1, self.given)
        return story.keep(instance(self.program.actions[name], "X.", self.given), store)

    # ---- O2 and O3

    def here(self, place):
        return store_of(self.goals.globals, self.given), place.names("", self.given)

    def spawn(self, place):
        store, names = self.here(place)
        args = [value(arg, names) for arg in place.stmt.args]
        return self.begins([self.assumed(place), self.at_stmt(place, "")], place.stmt.callee, args, store)

    def safe(self, place):
        store, names = self.here(place)
        if isinstance(place.stmt, Assert):
            return [self.assumed(place), self.at_stmt(place, "this is false", True), *self.parts(place.stmt.test, names)]
        called = self.goals.instance(place, names, self.given)
        said = "".join(f", {equation(param.name, one)}" for param, one in zip(called.action.params, called.inputs))
        told = self.at_stmt(place, f"its gate is false: {called.action.name}{said}", True)
        return [self.assumed(place), told, *self.parts(called.action.gate, called.scope(store))]

    def step(self, place):
        """What is assumed and what the statement does; and the store and the names behind it."""
        store, names = self.here(place)
        if isinstance(place.stmt, (If, Loop, Assert)):
            return [self.assumed(place), self.at_stmt(place, shown(value(place.stmt.test, names)))], store, names
        there, after = self.goals.step(place, store, names, self.given)
        said = changes([*store, *names], {**store, **names}, {**there, **after})
        return [self.assumed(place), self.at_stmt(place, ", ".join(said))], there, after

    def invariant(self, place):
        lines, store, _ = self.step(place)
        return [*lines, self.at_stmt(place, "the invariant is false behind it", True, NOTHING), *self.false_holds(store)]

    def next(self, place):
        lines, store, names = self.step(place)
        reached = self.goals.reached(place, self.here(place)[1])
        return [*lines, *self.false_note(reached, "the note here is false", store, names)]

    def keeps(self, place, other):
        lines, store, _ = self.step(place)
        names = other.names("other.", self.given)
        return [*lines, self.frame("another thread", other, names), *self.false_note(other, "the note here is false for it", store, names)]


O1 = {
    "invariant": lambda story, *_: story.initial_invariant(),
    "thread": lambda story, number: story.thread(int(number)),
    "linear": lambda story, name: story.linear(name),
}

O2 = {
    "safe": GoalStory.safe,
    "invariant": GoalStory.invariant,
    "spawn": GoalStory.spawn,
    "next": GoalStory.next,
}


def goal_assumed(source, placed, outline, name, given):
    """The lines on what a goal assumes: of the beginning and of permissions as K1 and K2, and of a statement the holds, and another's note."""
    story, (kind, *rest) = GoalStory(source, placed, outline, given), name.split()
    program = outline.program
    if kind == "O1" and rest[0] == "linear":
        return Assumptions(source, placed, program, program.layers + 1).keep(program.actions[rest[1]])
    if kind == "O1":
        return Assumptions(source, placed, program, 1).start()
    elsewhere = story.assumed_elsewhere(story.places[rest[4], int(rest[6])]) if kind == "O3" else []
    return [*story.holds_assumed(), *elsewhere]


def goal_story(source, placed, outline, name, given):
    """The lines on a goal that these values violate."""
    story, (kind, *rest) = GoalStory(source, placed, outline, given), name.split()
    if kind == "O1":
        return O1[rest[0]](story, *rest[1:])
    if kind == "O2":
        return O2[rest[0]](story, story.places[rest[1], int(rest[3])])
    return story.keeps(story.places[rest[0], int(rest[2])], story.places[rest[4], int(rest[6])])
