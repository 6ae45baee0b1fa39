"""Stories of reports, as civl_explain tells them: what a row of a file of cases has to say, worked out from its text, its words and the
values that it tells; and what of it isn't worked out."""
import re
from collections import Counter
from typing import NamedTuple

from .action_stories import action_story
from .assumptions import assumed_lines
from .cases import all_cases
from .conditions import formulas, initial
from .formulas import is_initial
from .goal_stories import goal_assumed, goal_story
from .goals import goals
from .lines import Placed, written
from .marks import marks
from .path_stories import path_story
from .misfits import misfit
from .refusals import BROKEN, broken, descending, heavy, unfit, unread, without_initial_store
from .reports import told_in, unlike
from .rows import lists_of
from .run_stories import RunStory, script_behind
from .sources import Source, plain

PROGRAM = "civl_explain"
USAGE = "usage: civl_explain check|conditions|run|prove [--lines] [--assumed]"
KINDS = {"check": "program", "conditions": "program", "prove": "outline", "run": "script"}
FLAGS = ("--lines", "--assumed")
SUM = re.compile(r"\d+ hold, \d+ fail, \d+ undecided")
HEAVY = re.compile(r"refused E61 at (?P<name>.+) over 400000")
UNFIT = re.compile(r"refused E90 at note (?P<number>\d+)")
MOST_WEIGHT, MOST_BUDGET = 400000, 10000000


class Told(NamedTuple):
    """The lines of a report, and what of it isn't worked out."""
    lines: list
    open: tuple = ()


# ---- words

def is_option(words):
    """Whether a word or two say a budget that there is."""
    number = re.fullmatch(r"--budget[= ]([+-]?\d+)", " ".join(words))
    return number is not None and 0 <= int(number[1]) <= MOST_BUDGET


def are_options(words):
    """Whether these are `--lines`, `--assumed` and a budget, each at most once."""
    if any(words.count(flag) > 1 for flag in FLAGS) or " ".join(words).count("--budget") > 1:
        return False
    rest = [word for word in words if word not in FLAGS]
    return not rest or is_option(rest)


def is_command(words):
    if words[:1] == ["run"]:
        return sorted(words[1:]) in (["low"], ["top"], ["--lines", "low"], ["--lines", "top"])
    return words[:1] != [] and words[0] in KINDS and are_options(words[1:])


# ---- texts that are read

class Case(NamedTuple):
    """A text that is read, its program, its outline where it is one, whether lines are asked for and what is assumed, and the lines that
    are wanted."""
    source: Source
    placed: Placed
    program: object
    outline: object
    is_by_lines: bool
    is_assumed: bool
    wanted: list

    def lines(self, found):
        return [written(self.source, line, self.is_by_lines) for line in found]

    def story(self, formula, given):
        """The values that may be others, what is assumed where that is asked for, and the lines on a condition that these values violate."""
        tell = path_story if formula.name.split()[0] in ("K9", "K10") else action_story
        of_this = self.source, self.placed, self.program, formula.name, given
        assumed = assumed_lines(*of_this) if self.is_assumed else []
        return marks(formula, given) + self.lines([*assumed, *tell(*of_this)])


def violated(case):
    """Each condition that the report tells to be violated, with its values, which have to violate it."""
    found = {formula.name: formula for formula in formulas(case.program)}
    for told in told_in(case.wanted):
        difference = unlike(found.get(told.name), told)
        if difference:
            raise ValueError(f"{told.name}: {difference}")
        yield found[told.name], dict(told.values)


def of_goal(case):
    """A goal that isn't proved, whose values have to violate it."""
    told = told_in(case.wanted)[0]
    formula = next((goal for goal in goals(case.outline) if goal.name == told.name), None)
    lost = unlike(formula, told)
    if lost:
        raise ValueError(f"{told.name}: {lost}")
    of_this = case.source, case.placed, case.outline, told.name, dict(told.values)
    assumed = goal_assumed(*of_this) if case.is_assumed else []
    return Told([*report_lines(case), *case.lines([*assumed, *goal_story(*of_this)])])


def report_lines(case):
    """The lines of `civl`'s own report, as they are wanted."""
    end = next((at for at, line in enumerate(case.wanted, 1) if SUM.fullmatch(line)), None)
    if end is None:
        end = next((at for at, line in enumerate(case.wanted[1:], 1) if not re.match(r"[\w.]+ = ", line)), len(case.wanted))
    return case.wanted[:end]


def of_survey(case):
    stories = [line for formula, given in violated(case) for line in [formula.name, *case.story(formula, given)]]
    return Told([*report_lines(case), *stories])


def of_rejection(case):
    stories = [line for formula, given in violated(case) for line in case.story(formula, given)]
    return Told([*report_lines(case), *stories])


def with_subject(line, wanted):
    """The line that says which rule is broken, with what it is about, where the row tells that."""
    return next((told for told in wanted if told.startswith(f"{line}: ")), line)


def of_broken_rule(case):
    """Which rule is broken first, and where, is what the row says."""
    match = BROKEN.fullmatch(case.wanted[0])
    lines = [with_subject(line, case.wanted) for line in broken(case.source, case.placed, match, case.is_by_lines)]
    return Told([case.wanted[0], *lines], ("which static rule is broken first, where, and by what",))


def of_no_initial_store(case):
    """That no store is initial is tried where the stores are few."""
    item = case.source.items().index(case.source.items_of("init")[0])
    lists = lists_of(initial(case.program))
    if lists is not None and any(is_initial(case.program, store) for store in lists):
        raise ValueError("some store is initial")
    lines = [f"refused E70 at item {item}", *without_initial_store(case.source, case.is_by_lines)]
    return Told(lines, () if lists is not None else ("that no store is initial",))


def of_heavy_formula(case):
    """The weights of goals aren't worked out: such a name is the row's."""
    wanted = HEAVY.fullmatch(case.wanted[0])["name"]
    first = next((formula.name for formula in formulas(case.program) if formula.weight() > MOST_WEIGHT), None)
    is_goal = first is None and wanted.startswith("O")
    name = wanted if is_goal else str(first)
    lines = heavy(case.source, case.placed, case.program, name, case.is_by_lines)
    return Told([f"refused E61 at {name} over {MOST_WEIGHT}", *lines], ("which goal weighs too much",) if is_goal else ())


def of_unfit_note(case):
    number = int(UNFIT.fullmatch(case.wanted[0])["number"])
    lines, is_sure = unfit(case.source, case.placed, case.outline, number, case.is_by_lines)
    return Told([case.wanted[0], *lines], () if is_sure else ("that a hold or a note says nothing of its place",))


def of_misfit(case):
    return Told(misfit(case.source, case.placed, case.program, case.is_by_lines))


def of_acceptance(case):
    return Told([f"accepted {sum(1 for _ in formulas(case.program)) - 1} conditions"], ("that conditions hold which have many values",))


def of_run(case, is_top):
    story = RunStory(case.source, case.placed, script_behind(case.placed, case.program), is_top)
    return Told([*case.lines(story.run()), *story.report()])


def of_program(case):
    """What is told of a program that is read, by what the report says that is wanted."""
    first = case.wanted[0]
    if BROKEN.fullmatch(first):
        return of_broken_rule(case)
    if first.startswith("refused E70"):
        return of_no_initial_store(case)
    if HEAVY.fullmatch(first):
        return of_heavy_formula(case)
    if UNFIT.fullmatch(first):
        return of_unfit_note(case)
    if first.startswith("refused E91"):
        return Told(descending(case.source, case.placed, case.program, case.is_by_lines))
    if first.startswith("refused E80"):
        return of_misfit(case)
    if first.startswith("accepted "):
        return of_acceptance(case)
    if any(map(SUM.fullmatch, case.wanted)):
        return of_survey(case)
    if first.startswith("unproved "):
        return of_goal(case)
    return of_rejection(case) if first.startswith("rejected ") else Told(case.wanted, ("what civl reports, which has no story",))


# ---- rows

def told(text, words, wanted):
    """What has to be told of a text by these words, where these lines are wanted."""
    if not is_command(words):
        return Told([USAGE])
    source, is_by_lines = Source(text), "--lines" in words
    fault = unread(source, KINDS[words[0]], is_by_lines)
    if fault:
        return Told(fault)
    placed = Placed(text)
    outline = placed.outline() if words[0] == "prove" else None
    program = outline.program if outline else placed.program()
    case = Case(source, placed, program, outline, is_by_lines, "--assumed" in words, wanted)
    is_run = words[0] == "run" and not wanted[0].startswith("refused ")
    return of_run(case, "top" in words) if is_run else of_program(case)


def difference(lines, wanted):
    """The first line in which these differ, or None where none does."""
    for number, (one, other) in enumerate(zip([*lines, "the end"], [*wanted, "the end"]), 1):
        if one != other:
            return f"line {number} is to be '{one}', and the row has '{other}'"
    return None


def wanted_of(case):
    """The lines of the report that is wanted, or of the beginning of one; None where there is neither, or where a device fails first."""
    report = case.value("report") or case.value("begins")
    return plain(("  " if case.value("indented") else "") + report).split("\n") if report else None


def held_against(case, wanted):
    """What has to be told in a row, and in what the row differs from it; of a beginning the first lines are held against it."""
    try:
        found = told(case.text(), case.text_at("words").split(), wanted)
    except (ValueError, KeyError, IndexError) as fault:
        return Told([]), f"it can't be worked out: {fault!r}"
    if case.value("report") is not None:
        return found, difference(found.lines, wanted)
    return found._replace(open=(*found.open, "how the report goes on")), difference(found.lines[:len(wanted)], wanted)


class Tally:
    """What came of the rows: how many are confirmed whole, in part or not at all, and how many differ."""

    def __init__(self):
        self.whole, self.partly, self.differing, self.silent, self.open = 0, 0, 0, 0, Counter()

    def add(self, case):
        wanted = wanted_of(case)
        if wanted is None:
            self.silent += 1
            return
        found, differs = held_against(case, wanted)
        if differs:
            self.differing += 1
            print(f"{case.file}: row {case.number}: {differs}")
        elif found.open:
            self.partly += 1
            self.open.update(found.open)
        else:
            self.whole += 1

    def put(self):
        print(f"{self.whole} stories are confirmed whole, {self.partly} in part, {self.differing} differ")
        for part, count in sorted(self.open.items()):
            print(f"of {count} this isn't worked out: {part}")
        print(f"{self.silent} rows want no report, or a line of one")
        return self.differing == 0 and self.whole > 0


def try_stories():
    """Works out the stories of all rows of civl_explain, and says whether none differs."""
    tally = Tally()
    for case in all_cases():
        if case.value("program") == PROGRAM:
            case.be_read()
            tally.add(case)
    return tally.put()
