"""Reports on texts: whether the conditions and goals that they name are violated at the values that are told, or hold at all values."""
import re
from dataclasses import dataclass
from typing import NamedTuple

from .cases import all_cases
from .conditions import formulas
from .goals import goals
from .reading import read_front, read_outline, tokens
from .rows import lists_of
from .values import Word, sort_of_value

NUMBER = r"\d+:\d+"
VALUE = rf"true|false|{NUMBER}|\[{NUMBER}(?:, {NUMBER})*\]"
LINE = re.compile(rf"(?P<indent> *)(?P<name>[\w.]+) = (?P<value>{VALUE})")
FIRST = re.compile(r"(?:rejected|unproved) (?P<name>.+)")
COUNT = re.compile(r"(?:accepted|safe) (?P<count>\d+) conditions")
FAILS = re.compile(r"(?P<name>.+): fails")
HOLDS = re.compile(r"(?P<name>K.+): holds")
SURVEYED = re.compile(r"(?P<name>K.+): (?:holds|fails|undecided after \d+)")
SUM = re.compile(r"\d+ hold, \d+ fail, \d+ undecided")


# ---- what reports tell

class Told(NamedTuple):
    """A condition or goal that is violated, by a report, and values that violate it, in their order."""
    name: str
    values: list


def value_of(text):
    """The value that is written so."""
    if text in ("true", "false"):
        return text == "true"
    words = tuple(Word(*map(int, word.split(":"))) for word in re.findall(NUMBER, text))
    return words if text.startswith("[") else words[0]


def values_in(lines, indent):
    """The values that the first of these lines tell, each behind such an indent."""
    found = []
    for line in lines:
        match = LINE.fullmatch(line)
        if match is None or match["indent"] != indent:
            break
        found.append((match["name"], value_of(match["value"])))
    return found


def told_in(lines):
    """What a report tells of conditions and goals that are violated."""
    first = FIRST.fullmatch(lines[0])
    if first:
        return [Told(first["name"], values_in(lines[1:], ""))]
    fails = ((FAILS.fullmatch(line), at) for at, line in enumerate(lines, 1))
    return [Told(match["name"], values_in(lines[at:], "  ")) for match, at in fails if match]


def holding_in(lines, names):
    """The names of those that hold, by a report: those before the first that doesn't, all, or those of a survey of which it says so."""
    first = FIRST.fullmatch(lines[0])
    if first:
        return names[:names.index(first["name"])] if first["name"] in names else []
    if COUNT.fullmatch(lines[0]):
        return names
    return [match["name"] for match in map(HOLDS.fullmatch, lines) if match]


# ---- what is worked out

def listed(text, is_outline):
    """The conditions of a text by their names, in their order, and behind them, where it is an outline, the goals."""
    if is_outline:
        outline = read_outline(text)
        found = [*formulas(outline.program), *goals(outline)]
    else:
        found = formulas(read_front(text))
    return {formula.name: formula for formula in found if formula.name != "initial"}


def unlike(formula, told):
    """Why it isn't so that these values violate the condition or goal, or None where it is."""
    if formula is None:
        return "there is none"
    if [(name, sort_of_value(given)) for name, given in told.values] != formula.variables:
        wanted = ", ".join(name for name, _ in formula.variables)
        return f"the values aren't those of its variables, which are {wanted}"
    return None if formula.is_true(dict(told.values)) else "the values don't violate it"


def never(formula, lists):
    """Why it isn't so that some of these lists of values violate the condition or goal, or None where some do."""
    return None if any(map(formula.is_true, lists)) else "no values violate it"


def sometimes(formula, lists):
    """Why it isn't so that none of them does, or None where none does."""
    return next((f"it is violated at {given}" for given in lists if formula.is_true(given)), None)


def other_names(lines, names):
    """Why these aren't the names that a report tells, as far as it tells all of them or how many there are, or None where they are."""
    count = COUNT.fullmatch(lines[0])
    if count and int(count["count"]) != len(names):
        return f"there are {len(names)}"
    surveyed = [match["name"] for match in map(SURVEYED.fullmatch, lines) if match]
    return f"the list is {names}" if any(map(SUM.fullmatch, lines)) and surveyed != names else None


@dataclass
class Tally:
    """How many lists of values were tried, how many formulas at all their lists, and what differs; and of how many formulas that are
    violated neither values are told nor all can be tried. What differs is printed behind the place of the report."""
    place: str = ""
    values: int = 0
    whole: int = 0
    wrong: int = 0
    bare: int = 0

    def add(self, name, difference):
        if difference is not None:
            self.wrong += 1
            print(f"{self.place}: {name}: {difference}")

    def add_whole(self, formula, difference):
        """Adds what is asked of a formula at all its lists of values, where these are few; whether they are."""
        lists = lists_of(formula)
        if lists is None:
            return False
        self.whole += 1
        self.add(formula.name, difference(formula, lists))
        return True

    def put(self):
        """Prints what was tried, and says whether nothing differs."""
        print(f"{self.values} lists of values and {self.whole} formulas at all values, {self.wrong} differ; {self.bare} aren't tried")
        return self.wrong == 0


def try_violations(lines, is_whole, found, tally):
    """Tries those that are violated: at the values that are told, or, where a report isn't told whole, at all."""
    for told in told_in(lines):
        if told.values or told.name not in found or is_whole:
            tally.values += 1
            tally.add(told.name, unlike(found.get(told.name), told))
        elif not tally.add_whole(found[told.name], never):
            tally.bare += 1


def try_others(lines, found, tally):
    """Tries those that hold, as far as they have few lists of values."""
    for name in holding_in(lines, list(found)):
        if name in found:
            tally.add_whole(found[name], sometimes)


def tells(lines):
    """Whether a report tells what is found of conditions."""
    return bool(told_in(lines) or COUNT.fullmatch(lines[0]) or any(map(HOLDS.fullmatch, lines)))


def try_lines(lines, is_whole, found, tally):
    tally.add(lines[0], other_names(lines, list(found)))
    try_violations(lines, is_whole, found, tally)
    try_others(lines, found, tally)


# ---- cases

def is_of_text(case):
    """Whether the report is on the text of the case, and on the whole."""
    return all(case.value(name) is None for name in ("then", "next", "from", "threads"))


def wanted_of(case):
    """The lines of the report that is wanted of a case, or of the beginning or the one line of it that is."""
    wanted = (case.value(name) for name in ("report", "begins", "line"))
    return next((report for report in wanted if report is not None), "").split("\n")


def try_reports():
    """Tries what the cases of the tests want, and says whether values are told and nothing differs."""
    tally = Tally()
    for case in all_cases():
        case.be_read()
        lines = wanted_of(case)
        if is_of_text(case) and tells(lines):
            tally.place = f"{case.file}: row {case.number}"
            found = listed(case.text(), case.text_at("words").split()[:1] == ["prove"])
            try_lines(lines, case.value("report") is not None, found, tally)
    return tally.put() and tally.values > 0


def try_report(text, report):
    """Tries a report on a text, an outline where `schedule` stands in it; says whether conditions are told of and nothing differs."""
    tally = Tally("the report")
    lines = report.strip().split("\n")
    if tells(lines):
        try_lines(lines, True, listed(text, "schedule" in tokens(text)), tally)
    return tally.put() and tells(lines)
