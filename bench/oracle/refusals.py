"""Stories of texts that are refused: the place, the line with a caret, and what is wrong there."""
import re

from .grammar import NAME, NUMBER
from .lines import Line, fault_lines, written
from .programs import Call, Spawn, cuts, roots, statements
from .sources import fault_in, in_order

BROKEN = re.compile(r"refused E(?P<code>[1-5]\d) at item (?P<item>\d+) statement (?P<statement>\d+)")

# What the static rules forbid, by their codes.
RULES = {
    10: "a name is declared or named twice",
    11: "a name isn't in scope as what is needed here",
    12: "a count or a number of the header is out of its range",
    20: "a width, a literal or a range of bits doesn't fit",
    21: "an expression hasn't the sort that its place needs",
    22: "a row's index isn't 1 to 6 bits wide",
    23: "there are too few or too many arguments, results or updates",
    24: "the globals up to here have more than 4096 bits",
    30: "a range of layers, a layer or a step is out of place",
    31: "a global is used where it doesn't exist",
    32: "a call goes to the procedure's own layer, to one above, or to a root",
    33: "an action doesn't exist where it is called or refined",
    34: "the parameters or outputs differ from those of the refined action",
    35: "the target of an intro or a linear global doesn't exist where it has to",
    40: "an argument for a linear parameter isn't a linear name that is held",
    41: "one name stands for two permissions",
    42: "a linear name isn't held that has to be",
    43: "a result or a value goes to a name that may not take it",
    50: "a right or atomic call may stand behind the block's turning point",
    51: "a yield or a loop stands in a rank loop",
    52: "this statement may not stand in this procedure",
    53: "done or old(..) stands where it means nothing",
}


def expected_text(fault):
    """All that may stand at a fault, and the end, where the text may end there."""
    words = [word if word in (NAME, NUMBER) else f"`{word}`" for word in in_order(fault.expected)]
    return " ".join(["expected", *words, *(["the end"] if fault.may_end else [])])


def unread(source, kind, is_by_lines):
    """The report on a text that is none of this kind; None where it is one."""
    if source.no_token is not None:
        at = source.no_token
        return [f"refused E02 at byte {at}", *fault_lines(source, at, "no token begins here", is_by_lines)]
    fault = fault_in(source, kind)
    if fault is None:
        return None
    text = expected_text(fault) if fault.code == "E03" else "this opens the 65th bracket"
    return [f"refused {fault.code} at token {fault.token}", *fault_lines(source, source.offset(fault.token), text, is_by_lines)]


def item_lines(source, item, text, is_by_lines):
    """The lines on an item where something is wrong."""
    return fault_lines(source, source.offset(item), text, is_by_lines)


def inside_lines(source, item, at, text, is_by_lines):
    """The lines on a place in an item where something is wrong."""
    return [written(source, Line(item, 2, ""), is_by_lines), *fault_lines(source, source.offset(at), text, is_by_lines)]


def statement_lines(source, placed, proc, statement, text, is_by_lines):
    """The lines on a statement of the procedure with this number, or on its exit."""
    item = source.items_of("proc")[proc]
    return inside_lines(source, item, placed.statement(proc, statement), text, is_by_lines)


def place_lines(source, placed, item, statement, text, is_by_lines):
    """The lines on an item by its number, and in a procedure on a statement."""
    at, procs = source.items()[item], source.items_of("proc")
    if at not in procs:
        return item_lines(source, at, text, is_by_lines)
    return statement_lines(source, placed, procs.index(at), statement, text, is_by_lines)


def broken(source, placed, match, is_by_lines):
    """The lines on the place of a static rule that is broken: of a procedure also its statement."""
    return place_lines(source, placed, int(match["item"]), int(match["statement"]), RULES[int(match["code"])], is_by_lines)


def without_initial_store(source, is_by_lines):
    return item_lines(source, source.items_of("init")[0], "no store is initial", is_by_lines)


# ---- formulas that weigh too much

def invariant_item(source, program, step, number):
    """The item of an invariant by its number among those of its step."""
    places = [place for place, invariant in enumerate(program.invariants) if invariant.step == step]
    return source.items_of("invariant")[places[number]]


def cut_lines(source, placed, program, name, number, text, is_by_lines):
    """The lines on a cut: the procedure at its entry, or a statement."""
    proc = list(program.procs).index(name)
    cut = cuts(program.procs[name])[number]
    if cut is None:
        return item_lines(source, source.items_of("proc")[proc], text, is_by_lines)
    return statement_lines(source, placed, proc, cut.number, text, is_by_lines)


def heavy(source, placed, program, name, is_by_lines):
    """The lines on what a condition or a goal is about whose formula weighs too much."""
    text, words = "its formula weighs too much", name.split()
    if words[0] in ("K9", "K10"):
        proc = words[words.index("from") - 1]
        return cut_lines(source, placed, program, proc, int(words[words.index("from") + 1]), text, is_by_lines)
    if words[0] == "O3" or words[0] == "O2":
        proc, statement = words[words.index("at") - 1], int(words[words.index("at") + 1])
        return statement_lines(source, placed, list(program.procs).index(proc), statement, text, is_by_lines)
    if words[0] == "K1":
        item = invariant_item(source, program, int(words[2]), int(words[4]))
    elif words[0].startswith("K"):
        item = source.item("action", words[3])
    elif words[:2] == ["O1", "linear"]:
        item = source.item("action", words[2])
    elif words[:2] == ["O1", "thread"]:
        item = source.items_of("thread")[int(words[2])]
    else:
        item = source.items_of("init")[0]
    return item_lines(source, item, text, is_by_lines)


# ---- outlines

HOLD = "a hold is a bool over the globals of the topmost program, in range, without done and old(..)"
NOTE = "a note is a bool over the globals of the topmost program and the names of its root, in range, without done and old(..)"


def unfit_text(program, outline, place):
    """What is wrong with the note at this place among the notes; None where nothing is but, it may be, what it says."""
    note = outline.notes[place]
    root = dict(roots(program)).get(note.item)
    if root is None:
        return "the item isn't a root"
    if note.statement >= sum(1 for _ in statements(root.body)):
        return "the root has no statement with this number"
    if (note.item, note.statement) in [(earlier.item, earlier.statement) for earlier in outline.notes[:place]]:
        return "an earlier note stands before the same statement"
    return None


def unfit(source, placed, outline, number, is_by_lines):
    """The lines on a hold or a note, these being numbered together; and whether it is sure that a rule is broken there."""
    if number < len(outline.holds):
        at, _ = placed.span(outline.holds[number])
        return fault_lines(source, source.offset(at - 1), HOLD, is_by_lines), False
    place = number - len(outline.holds)
    text = unfit_text(outline.program, outline, place)
    return fault_lines(source, source.offset(placed.notes[place]), text or NOTE, is_by_lines), text is not None


def descends(program, stmt):
    """Whether this statement of a root calls a root, or spawns a procedure that refines an action."""
    if isinstance(stmt, Call):
        return stmt.callee not in program.actions and program.procs[stmt.callee].refines is None
    return isinstance(stmt, Spawn) and program.procs[stmt.callee].refines is not None


def first_descending(program):
    """The first item and statement at which that is so, or a thread calls such a procedure; and what is wrong there."""
    for item, root in roots(program):
        for stmt in statements(root.body):
            if descends(program, stmt):
                is_call = isinstance(stmt, Call)
                return item, stmt.number, "a root calls a root" if is_call else "a thread or a spawn goes to a procedure that refines an action"
    first = len(program.globals) + 1 + len(program.invariants) + len(program.actions) + len(program.procs)
    for place, thread in enumerate(program.threads):
        if program.procs[thread.callee].refines is not None:
            return first + place, 0, "a thread or a spawn goes to a procedure that refines an action"
    return None


def descending(source, placed, program, is_by_lines):
    item, statement, text = first_descending(program)
    lines = place_lines(source, placed, item, statement, text, is_by_lines)
    return [f"refused E91 at item {item} statement {statement}", *lines]
