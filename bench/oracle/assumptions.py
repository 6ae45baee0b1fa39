"""What a condition assumes with the values that violate it, line by line: the invariants of the step, what the cut says, the gates of
actions, whose permissions are apart, and what another thread's yield says before."""
from .actions import held_before
from .lines import HEAD, Line
from .paths import Paths
from .programs import cuts, lower_globals, near_globals

ASSUMED = "is assumed"


def linear_globals(globals_there):
    return [g.name for g in globals_there if g.is_linear]


def linear_params(word, params):
    """The names of the linear parameters, each behind a word."""
    return [word + param.name for param in params if param.mode in ("lend", "take")]


def held_names(word, program, proc, cut):
    """Those that are held at a cut, in the order in which the procedure declares them."""
    held = held_before(program, proc)[cut]
    return [word + part.name for part in proc.names() if part.name in held]


class Assumptions:
    """What conditions of a step assume."""

    def __init__(self, source, placed, program, step):
        self.source, self.placed, self.program, self.step = source, placed, program, step

    # ---- lines

    def gate(self, action, text=ASSUMED):
        token, count = self.placed.span(action.gate)
        return Line(token, count, text)

    def said(self, cut, text=ASSUMED):
        """What a cut says; the entry says nothing."""
        return [] if cut is None else [Line(self.placed.begins[cut], HEAD, text)]

    def apart(self, token, words, names):
        """Nothing is said of less than two names."""
        return [Line(token, words, f"{ASSUMED}: no permission is carried twice by {', '.join(names)}")] if len(names) > 1 else []

    def invariants(self):
        items = self.source.items_of("invariant")
        return [Line(token, HEAD, ASSUMED) for token, invariant in zip(items, self.program.invariants) if invariant.step == self.step]

    # ---- targets

    def target(self, kind, *which):
        """The names of what another thread holds at a yield, and the line of what this says."""
        if kind == "invariant":
            return [], []
        other = self.program.procs[which[0]]
        cut = cuts(other)[int(which[1])]
        return held_names("other.", self.program, other, cut), self.said(cut, f"{ASSUMED} of another thread")

    # ---- conditions

    def start(self):
        """K1."""
        init, names = self.source.items_of("init")[0], linear_globals(self.program.globals)
        for thread in self.program.threads:
            names += linear_params(f"{thread.callee}.", self.program.procs[thread.callee].params)
        return [Line(init, HEAD, ASSUMED), *self.apart(init, 1, names)]

    def at_action(self, x, globals_there, names):
        return self.apart(self.source.item("action", x.name), 2, linear_globals(globals_there) + linear_params("X.", x.params) + names)

    def keep(self, x):
        """K2."""
        return [*self.at_action(x, lower_globals(self.program, self.step), []), self.gate(x)]

    def pair(self, number, x, y):
        """K3 to K7."""
        second = self.gate(y, f"{ASSUMED} to be false" if number == "K7" else ASSUMED)
        return [self.gate(x), second, *self.at_action(x, lower_globals(self.program, self.step), linear_params("Y.", y.params))]

    def act(self, x, *target):
        """K11."""
        names, said = self.target(*target)
        return [*self.invariants(), self.gate(x), *self.at_action(x, near_globals(self.program, self.step), names), *said]

    def path(self, proc, cut, given, *target):
        """K9, and K10 with its target."""
        names, said = self.target(*target) if target else ([], [])
        paths = Paths(self.program, self.step, proc, cut)
        owned = linear_globals(near_globals(self.program, self.step)) + held_names("", self.program, proc, cut)
        gate = [] if paths.beginning(given)[1].done else [self.gate(paths.action)]
        return [
            *self.invariants(), *self.said(cut), *gate,
            *self.apart(self.source.item("proc", proc.name), 2, owned + names), *said]


def assumed_lines(source, placed, program, name, given):
    """The lines on what a condition of this name assumes with these values."""
    number, *words = name.split()
    at = words.index("step")
    found = Assumptions(source, placed, program, int(words[at + 1]))
    rest = words[at + 2:]
    if number == "K1":
        return found.start()
    if number in ("K9", "K10"):
        proc = program.procs[rest[0]]
        return found.path(proc, cuts(proc)[int(rest[2])], given, *rest[3:])
    x = program.actions[rest[0]]
    if number == "K2":
        return found.keep(x)
    if number == "K8":
        return [found.gate(x)]
    return found.act(x, *rest[1:]) if number == "K11" else found.pair(number, x, program.actions[rest[1]])
