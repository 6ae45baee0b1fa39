"""What a text is read as: programs, with their statements, and outlines."""
from dataclasses import dataclass, field
from typing import Any, NamedTuple, Optional

from .values import BOOL, Sort


class Global(NamedTuple):
    name: str
    sort: Sort
    is_linear: bool
    layers: range


class Declared(NamedTuple):
    """A parameter, output or local; its mode is val, lend, take or give, and that of a local var or linear."""
    name: str
    sort: Sort
    mode: str


class Choice(NamedTuple):
    name: str
    sort: Sort
    offer: Any


class Invariant(NamedTuple):
    step: int
    expr: Any


class Action(NamedTuple):
    name: str
    params: list
    outs: list
    choices: list
    layers: range
    mover: str
    gate: Any
    guard: Any
    updates: dict


class Refines(NamedTuple):
    action: str
    chosen: list
    layer: int


class Proc(NamedTuple):
    name: str
    params: list
    outs: list
    refines: Optional[Refines]
    locals: list
    body: list

    def names(self):
        return self.params + self.outs + self.locals


class Thread(NamedTuple):
    callee: str
    args: list


class Program(NamedTuple):
    layers: int
    permissions: int
    globals: list
    init: Any
    invariants: list
    actions: dict
    procs: dict
    threads: list


class Note(NamedTuple):
    item: int
    statement: int
    expr: Any


class Outline(NamedTuple):
    program: Program
    holds: list
    notes: list


@dataclass(eq=False)
class Stmt:
    """A statement with its number in the procedure, and the bodies that stand in it."""
    number: int
    inner: list = field(default_factory=list, kw_only=True)


@dataclass(eq=False)
class Assign(Stmt):
    target: str
    expr: Any


@dataclass(eq=False)
class Assert(Stmt):
    test: Any


@dataclass(eq=False)
class Commit(Stmt):
    pass


@dataclass(eq=False)
class Yield(Stmt):
    invariant: Any


@dataclass(eq=False)
class Intro(Stmt):
    target: str
    expr: Any


@dataclass(eq=False)
class If(Stmt):
    test: Any


@dataclass(eq=False)
class Loop(Stmt):
    test: Any


@dataclass(eq=False)
class YieldLoop(Loop):
    invariant: Any


@dataclass(eq=False)
class RankLoop(Loop):
    rank: Any
    invariant: Any


@dataclass(eq=False)
class Call(Stmt):
    callee: str
    args: list
    results: list


@dataclass(eq=False)
class Spawn(Stmt):
    callee: str
    args: list


CUTS = (Yield, YieldLoop, RankLoop)
DONE = [Declared("done", BOOL, "var")]


def named(parts):
    return {part.name: part for part in parts}


def statements(body):
    """All statements of a body, in the order of the text."""
    for stmt in body:
        yield stmt
        for inner in stmt.inner:
            yield from statements(inner)


def cuts(proc):
    """The cuts of a procedure: its entry, which is None, and the statements that are cuts."""
    return [None] + [stmt for stmt in statements(proc.body) if isinstance(stmt, CUTS)]


def behind(body, wanted, then=()):
    """What is still to run behind a statement of a body, where this is to run behind the body; None where it isn't in it."""
    for at, stmt in enumerate(body):
        rest = [*body[at + 1:], *then]
        if stmt is wanted:
            return rest
        for inner in stmt.inner:
            found = behind(inner, wanted, [stmt, *rest] if isinstance(stmt, Loop) else rest)
            if found is not None:
                return found
    return None


def around(body, wanted):
    """The statements of a body in which a statement of it stands, each with the number of the part in which it does; None where it isn't in
    the body."""
    for stmt in body:
        if stmt is wanted:
            return []
        for part, inner in enumerate(stmt.inner):
            found = around(inner, wanted)
            if found is not None:
                return [(stmt, part), *found]
    return None


def meant(program, callee):
    """The action that a call means, where it calls an action or a procedure that means the one that it refines."""
    if callee in program.actions:
        return program.actions[callee]
    return program.actions[program.procs[callee].refines.action]


def roots(program):
    """The procedures that refine nothing, each with the number of its item."""
    first = len(program.globals) + 1 + len(program.invariants) + len(program.actions)
    return [(first + at, proc) for at, proc in enumerate(program.procs.values()) if proc.refines is None]


# ---- what there is at a step

def globals_at(program, layer):
    """Those that exist in the plain program of a layer."""
    return [g for g in program.globals if layer in g.layers]


def lower_globals(program, step):
    return globals_at(program, step - 1)


def upper_globals(program, step):
    return globals_at(program, step)


def near_globals(program, step):
    """Those of the lower or the upper program."""
    return [g for g in program.globals if step - 1 in g.layers or step in g.layers]


def invariants(program, step):
    return [invariant.expr for invariant in program.invariants if invariant.step == step]


def procs(program, step):
    return [proc for proc in program.procs.values() if proc.refines and proc.refines.layer == step]
