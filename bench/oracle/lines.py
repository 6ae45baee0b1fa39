"""Lines of stories: each points to a token of the text, shows what stands there, and says something of it. And what lines say of values,
and why a formula is false: its innermost false parts under `&&`, `||` and `=>`, with the values of the names that they read."""
from typing import NamedTuple

from .programs import statements
from .reading import Reader
from .values import TWO, Applied, Constant, Name, Word, value

HEAD, NOTHING = "head", "nothing"
JOINING = [TWO[sign] for sign in ("&&", "||", "=>")]


# ---- places

class Placed(Reader):
    """Reads as a reader does, and keeps at which token each statement and each note begins, and between which each expression stands."""

    def __init__(self, text):
        super().__init__(text)
        self.begins, self.procs, self.notes, self.spans, self.kept = {}, [], [], {}, []

    def stmt(self):
        first = self.at
        found = super().stmt()
        self.begins[found] = first
        return found

    def proc(self):
        found = super().proc()
        self.procs.append((found, self.at - 1))
        return found

    def note(self):
        self.notes.append(self.at)
        return super().note()

    def expr(self):
        first = self.at
        found = super().expr()
        self.spans[id(found)] = (first, self.at - first)
        self.kept.append(found)
        return found

    def exit(self, proc):
        """The brace that closes a procedure."""
        return next(at for found, at in self.procs if found is proc)

    def statement(self, number, statement):
        """The token of a statement of the procedure with this number, or of its exit, where it has so many statements."""
        proc, end = self.procs[number]
        return {stmt.number: self.begins[stmt] for stmt in statements(proc.body)}.get(statement, end)

    def span(self, expr):
        """The token at which an expression that was read begins, and how many it has."""
        return self.spans[id(expr)]


# ---- values

def shown(given):
    """A value as reports write it."""
    if isinstance(given, bool):
        return "true" if given else "false"
    if isinstance(given, Word):
        return f"{given.number}:{given.width}"
    return f"[{', '.join(map(shown, given))}]"


def equation(name, given):
    return f"{name} = {shown(given)}"


def changes(names, before, after):
    """`name: before -> after` of each of these names that changes."""
    return [f"{name}: {shown(before[name])} -> {shown(after[name])}" for name in names if before[name] != after[name]]


# ---- why a formula is false

def false_parts(expr, scope):
    """The innermost parts that are false, in the order of the text."""
    if value(expr, scope):
        return []
    if isinstance(expr, Applied) and expr.operator in JOINING:
        return [part for side in expr.parts for part in false_parts(side, scope)]
    return [expr]


def reads(expr):
    """The names that an expression reads, each once, in the order of the text; `done` is none."""
    if isinstance(expr, Constant):
        return []
    if isinstance(expr, Name):
        return [] if expr.name in ("done", "old.done") else [expr.name]
    return list(dict.fromkeys(name for part in expr.parts for name in reads(part)))


def as_written(name):
    return name


def of_another(program):
    """How the names in what another thread's yield says are told: the globals as they are, and all others as that thread's."""
    plain = {g.name for g in program.globals}
    return lambda name: name if name in plain else f"other.{name}"


def read_text(name, scope, naming):
    said = f"old({naming(name.removeprefix('old.'))})" if name.startswith("old.") else naming(name)
    return f", {equation(said, scope[name])}"


# ---- lines

class Line(NamedTuple):
    """At a token: what is shown there, the head of a statement, so many tokens or nothing; what is said; and whether it is what is lost."""
    token: int
    shown: object
    text: str
    is_error: bool = False


def part_lines(placed, expr, scope, naming=as_written):
    """The lines on the false parts of an expression, whose names are told so."""
    found = []
    for part in false_parts(expr, scope):
        token, count = placed.span(part)
        found.append(Line(token, count, "is false" + "".join(read_text(name, scope, naming) for name in reads(part))))
    return found


def stands_at(source, line):
    """What of the text a line shows."""
    if line.shown == NOTHING:
        return ""
    return source.head(line.token) if line.shown == HEAD else source.first_tokens(line.token, line.shown)


def written(source, line, is_by_lines):
    """A line as it is written: for people, or as one finding a line."""
    said = "    ".join(part for part in (stands_at(source, line), line.text) if part)
    place = source.place(source.offset(line.token))
    return f"{place}: {'error' if line.is_error else 'info'}: {said}" if is_by_lines else f"  {place}  {said}"


def fault_lines(source, offset, text, is_by_lines):
    """The lines on a place where something is wrong: with the line itself and a caret, or as one finding."""
    place = source.place(offset)
    if is_by_lines:
        return [f"{place}: error: {text}"]
    line = source.line(offset)
    margin = "".join("\t" if sign == "\t" else " " for sign in line[:source.column(offset) - 1])
    return [f"  {place}  {text}", "    " + line.removesuffix("\r"), f"    {margin}^"]
