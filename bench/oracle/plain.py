"""Plain programs on their way, by docs/LANGUAGE.md ("What it means"): frames, threads, and the moves of a schedule."""
from typing import Any, NamedTuple

from .actions import Instance
from .programs import Assert, Assign, Call, Commit, If, Intro, Loop, Spawn, Yield
from .values import sort_of_value, value, zero

MOVED, BLOCKED, NO_THREAD, ENDED, FAILING, BAD_CHOICES = "moved", "blocked", "nothread", "ended", "failing", "badchoices"


class Frame(NamedTuple):
    """A procedure, what is left of its body, and the values of its names."""
    proc: str
    rest: tuple
    names: dict


class Thread(NamedTuple):
    """A call and its arguments, and its frames: None before the call, and none when the thread has ended."""
    callee: str
    args: list
    frames: Any


class Config(NamedTuple):
    store: dict
    threads: list


class Move(NamedTuple):
    """A move: its thread, the choices, and the number of the token at which it begins."""
    thread: int
    chosen: list
    token: int


class Made(NamedTuple):
    """What comes of a move: why it isn't made, or `moved`; the configuration behind it; and what the step does."""
    answer: str
    config: Config
    does: str = ""


def is_nothing(stmt):
    return isinstance(stmt, (Yield, Commit, Intro))


def shown(rest):
    """Without the statements in front that are nothing in a plain program."""
    while rest and is_nothing(rest[0]):
        rest = rest[1:]
    return tuple(rest)


def goes_on(frame, names, rest):
    return Frame(frame.proc, shown(rest), names)


class Plain:
    """The lowest program, or the topmost one, in which a call of a procedure that refines an action means this action."""

    def __init__(self, program, is_top=False):
        self.program, self.is_top = program, is_top

    def start(self, store):
        threads = [Thread(thread.callee, [value(arg, store) for arg in thread.args], None) for thread in self.program.threads]
        return Config(store, threads)

    def action_of(self, callee):
        """The action that a call means, if it means one."""
        if callee in self.program.actions:
            return self.program.actions[callee]
        refines = self.program.procs[callee].refines
        return self.program.actions[refines.action] if self.is_top and refines else None

    def entered(self, callee, args):
        proc = self.program.procs[callee]
        names = {part.name: zero(part.sort) for part in proc.names()} | {param.name: arg for param, arg in zip(proc.params, args)}
        return Frame(callee, shown(proc.body), names)

    # ---- failing

    def called(self, thread):
        """The action before whose call a thread stands, with its arguments, if it stands before one."""
        if thread.frames is None:
            callee, args = thread.callee, thread.args
        elif thread.frames and thread.frames[-1].rest and isinstance(thread.frames[-1].rest[0], Call):
            frame = thread.frames[-1]
            callee, args = frame.rest[0].callee, [value(arg, frame.names) for arg in frame.rest[0].args]
        else:
            return None
        action = self.action_of(callee)
        return Instance(action, args, []) if action else None

    def fails(self, store, thread):
        """Whether the thread stands before an assert that is false, or an action whose gate is."""
        if thread.frames and thread.frames[-1].rest and isinstance(thread.frames[-1].rest[0], Assert):
            return not value(thread.frames[-1].rest[0].test, thread.frames[-1].names)
        instance = self.called(thread)
        return instance is not None and not instance.has_gate(store)

    def failing(self, config):
        """The least thread that fails, if one does."""
        return next((number for number, thread in enumerate(config.threads) if self.fails(config.store, thread)), None)

    # ---- moves

    def move(self, config, move):
        """What comes of a move; one that isn't made changes nothing."""
        if move.thread >= len(config.threads):
            return Made(NO_THREAD, config)
        thread = config.threads[move.thread]
        if thread.frames == []:
            return Made(ENDED, config)
        if self.fails(config.store, thread):
            return Made(FAILING, config)
        instance = self.called(thread)
        made = self.fires(config, thread, instance, move.chosen) if instance else self.steps(config, thread)
        if isinstance(made, str):
            return Made(made, config)
        store, frames, started, does = made
        threads = [*config.threads, *started]
        threads[move.thread] = thread._replace(frames=frames)
        return Made(MOVED, Config(store, threads), does)

    def fires(self, config, thread, instance, chosen):
        """The whole action runs, or why it doesn't."""
        if [choice.sort for choice in instance.action.choices] != [sort_of_value(given) for given in chosen]:
            return BAD_CHOICES
        fired = instance._replace(chosen=chosen).fire(config.store)
        if fired is None:
            return BLOCKED
        if thread.frames is None:
            return fired.store, [], [], ", ends"
        *below, frame = thread.frames
        names = frame.names | dict(zip(frame.rest[0].results, fired.outs))
        return fired.store, [*below, goes_on(frame, names, frame.rest[1:])], [], ""

    def steps(self, config, thread):
        """A step without an action: the store, the frames, the threads that are started, and what is done."""
        if thread.frames is None:
            return config.store, [self.entered(thread.callee, thread.args)], [], f", enters {thread.callee}"
        *below, frame = thread.frames
        if not frame.rest:
            return self.leaves(config.store, thread.frames)
        stmt, rest, names = frame.rest[0], frame.rest[1:], frame.names
        if isinstance(stmt, Call):
            entered = self.entered(stmt.callee, [value(arg, names) for arg in stmt.args])
            return config.store, [*thread.frames, entered], [], f", enters {stmt.callee}"
        if isinstance(stmt, Spawn):
            started = Thread(stmt.callee, [value(arg, names) for arg in stmt.args], None)
            return config.store, [*below, goes_on(frame, names, rest)], [started], f", spawns thread {len(config.threads)}"
        return config.store, [*below, self.passed(frame, stmt, rest, names)], [], ""

    def passed(self, frame, stmt, rest, names):
        """The frame behind a statement that is passed within it."""
        if isinstance(stmt, Assign):
            return goes_on(frame, names | {stmt.target: value(stmt.expr, names)}, rest)
        if isinstance(stmt, If):
            return goes_on(frame, names, (*stmt.inner[0 if value(stmt.test, names) else 1], *rest))
        if isinstance(stmt, Loop) and value(stmt.test, names):
            return goes_on(frame, names, (*stmt.inner[0], *frame.rest))
        return goes_on(frame, names, rest)

    def leaves(self, store, frames):
        """The topmost frame has come to its end."""
        *below, top = frames
        if not below:
            return store, [], [], ", ends"
        *deeper, frame = below
        outs = [top.names[out.name] for out in self.program.procs[top.proc].outs]
        caller = goes_on(frame, frame.names | dict(zip(frame.rest[0].results, outs)), frame.rest[1:])
        return store, [*deeper, caller], [], f", returns to {frame.proc}"
