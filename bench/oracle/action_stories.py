"""Stories of K1 to K8 and of K11: what actions do in the order that is kept and in the other one, and what is lost by them."""
from .actions import Fired, Instance, instance, of_globals, store_of, values_of
from .lines import HEAD, Line, changes, equation, of_another, part_lines, shown
from .programs import cuts, invariants, lower_globals, near_globals


class ActionStory:
    """The story of a condition on actions, at these values."""

    def __init__(self, source, placed, program, step, given):
        self.source, self.placed, self.program, self.step, self.given = source, placed, program, step, given

    # ---- lines

    def at_action(self, action, text, is_error=False):
        return Line(self.source.item("action", action.name), 2, text, is_error)

    def parts(self, expr, scope, **naming):
        return part_lines(self.placed, expr, scope, **naming)

    def called(self, x):
        """The action and the values of its parameters and choices."""
        action, given = x.action, [*x.inputs, *x.chosen]
        said = [equation(part.name, one) for part, one in zip([*action.params, *action.choices], given)]
        return f"{action.name} with {', '.join(said)}" if said else action.name

    def effect(self, x, before, fired):
        """The globals that changed, and the outputs."""
        outs = [equation(out.name, given) for out, given in zip(x.action.outs, fired.outs)]
        return ", ".join(changes(before, before, fired.store) + outs) or "changes nothing"

    def makes(self, word, x, before, fired):
        return self.at_action(x.action, f"{word}{self.called(x)}: {self.effect(x, before, fired)}")

    def remakes(self, word, x, before, fired):
        """The same where its values are told already."""
        return self.at_action(x.action, f"{word}{x.action.name}: {self.effect(x, before, fired)}")

    def gate_parts(self, x, store):
        return self.parts(x.action.gate, x.scope(store))

    def guard_parts(self, x, store):
        choices = dict(zip((choice.name for choice in x.action.choices), x.chosen))
        return self.parts(x.action.guard, {**x.scope(store), **choices})

    # ---- K1

    def invariant_line(self, number, text):
        """At an invariant of the step."""
        items = self.source.items_of("invariant")
        places = [place for place, invariant in enumerate(self.program.invariants) if invariant.step == self.step]
        return Line(items[places[number]], 2, text, True)

    def lost_invariant(self, number, text, store):
        return [self.invariant_line(number, text), *self.parts(invariants(self.program, self.step)[number], store)]

    # ---- K2

    def carriers(self, x, fired):
        """What comes out: each name with the permissions that it carries."""
        linear = [g.name for g in self.program.globals if g.is_linear]
        found = list(zip(linear, of_globals(self.program, fired.store)))
        found += [(part.name, {given.number}) for part, given in zip(x.action.params, x.inputs) if part.mode == "lend"]
        return found + [(part.name, {given.number}) for part, given in zip(x.action.outs, fired.outs) if part.mode == "give"]

    def lost_permission(self, x, store, fired):
        """The first permission that two carry, and else the first that didn't come in."""
        out = self.carriers(x, fired)
        for at, (name, carried) in enumerate(out):
            for permission in sorted(carried):
                others = [other for other, more in out[at + 1:] if permission in more]
                if others:
                    return f"permission {permission} comes out twice: {name} and {others[0]}"
        came = set().union(*of_globals(self.program, store), *x.carried())
        name, permission = next((name, p) for name, carried in out for p in sorted(carried) if p not in came)
        return f"permission {permission} comes out from nowhere: {name}"

    def keep(self, x, store):
        fired = x.fire(store)
        return [self.makes("", x, store, fired), self.at_action(x.action, self.lost_permission(x, store, fired), True)]

    # ---- K3 and K5

    def clash(self, store, x, y, letters):
        """x and then y, and the exchanged order, which doesn't come to the same; reports begin the names of their values with these."""
        first = x.fire(store)
        second = y.fire(first.store)
        kept = [self.makes("first ", x, store, first), self.makes("then ", y, first.store, second)]
        early = y.fire(store)
        if early is None:
            return [*kept, self.at_action(y.action, f"exchanged, {y.action.name} waits at once", True), *self.guard_parts(y, store)]
        exchanged = [*kept, self.remakes("exchanged, ", y, store, early)]
        late = x.fire(early.store)
        if late is None:
            return [*exchanged, self.at_action(x.action, f"then {x.action.name} waits", True), *self.guard_parts(x, early.store)]
        ends = Fired(second.store, [first.outs, second.outs]), Fired(late.store, [late.outs, early.outs])
        differing = self.differences(x, y, letters, *ends)
        return [*exchanged, self.remakes("then ", x, early.store, late), self.at_action(y.action, ", ".join(differing), True)]

    def differences(self, x, y, letters, kept, other):
        """The globals and the outputs of x and y that differ."""
        pairs = [(g.name, kept.store[g.name], other.store[g.name]) for g in lower_globals(self.program, self.step)]
        for letter, action, first, second in zip(letters, (x.action, y.action), kept.outs, other.outs):
            pairs += [(letter + out.name, one, two) for out, one, two in zip(action.outs, first, second)]
        return [f"{name} is {shown(one)}, and {shown(two)} in the exchanged order" for name, one, two in pairs if one != two]

    # ---- K4, K6, K7 and K8

    def spoil(self, store, x, y):
        """x makes the gate of y false."""
        fired = x.fire(store)
        told = self.at_action(y.action, f"then the gate of {self.called(y)} is false", True)
        return [self.makes("first ", x, store, fired), told, *self.gate_parts(y, fired.store)]

    def reveal(self, store, x, y):
        """x makes it true."""
        told = self.at_action(y.action, f"the gate of {self.called(y)} is true only then", True)
        return [self.makes("first ", x, store, x.fire(store)), told, *self.gate_parts(y, store)]

    def wait(self, store, x):
        offered = x.offers(store)
        told = self.at_action(x.action, f"{self.called(offered)} waits: its guard is false at the offered choices", True)
        return [told, *self.guard_parts(offered, store)]

    # ---- K11

    def lost_yield(self, other, cut, store):
        names = {part.name: self.given["other." + part.name] for part in other.names()}
        scope = {**store, **names, "done": self.given["other.done"]}
        lost = Line(self.placed.begins[cut], HEAD, "what it says is lost", True)
        return [lost, *self.parts(cut.invariant, scope, naming=of_another(self.program))]

    def act(self, x, store, kind, *which):
        fired = x.fire(store)
        first = self.makes("", x, store, fired)
        if kind == "invariant":
            return [first, *self.lost_invariant(int(which[0]), "is lost", fired.store)]
        other = self.program.procs[which[0]]
        return [first, *self.lost_yield(other, cuts(other)[int(which[1])], fired.store)]


PAIRS = {
    "K3": lambda story, store, x, y: story.clash(store, x, y, ["X.", "Y."]),
    "K4": lambda story, store, x, y: story.spoil(store, x, y),
    "K5": lambda story, store, x, y: story.clash(store, y, x, ["Y.", "X."]),
    "K6": lambda story, store, x, y: story.spoil(store, y, x),
    "K7": lambda story, store, x, y: story.reveal(store, x, y),
}


def action_story(source, placed, program, name, given):
    """The lines on a condition K1 to K8 or K11 that these values violate."""
    number, _, step, *rest = name.split()
    step = int(step)
    story = ActionStory(source, placed, program, step, given)
    if number == "K1":
        return story.lost_invariant(int(rest[1]), "is false in this initial store", store_of(program.globals, given))
    x, near = program.actions[rest[0]], near_globals(program, step)
    if number == "K11":
        return story.act(instance(x, "X.", given), store_of(near, given), *rest[1:])
    store = store_of(lower_globals(program, step), given)
    if number == "K2":
        return story.keep(instance(x, "X.", given), store)
    if number == "K8":
        return story.wait(store, Instance(x, values_of("X.", x.params, given), []))
    return PAIRS[number](story, store, instance(x, "X.", given), instance(program.actions[rest[1]], "Y.", given))
