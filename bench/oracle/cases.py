"""Files of cases, as crates/civl_tests reads them: a head, and behind each blank line a row."""
import glob
import os
from typing import NamedTuple

CASES = os.path.join(os.path.dirname(os.path.abspath(__file__)), "..", "..", "crates", "civl_tests", "data", "cases")
SIGNS = str.maketrans({"/": "\n", "~": "\t", "^": "\r", "_": " "})


class Unreadable(Exception):
    """A row that isn't one of its file's head, or whose base can't be read."""


class Case(NamedTuple):
    """A row with its number in its file, from 1, and the line of the file at which it begins."""
    file: str
    head: str
    row: str
    number: int
    line: int

    def in_head(self, name):
        lines = (line.partition(":") for line in self.head.split("\n"))
        return next((value.strip() for key, colon, value in lines if colon and key == name), None)

    def parts(self):
        """What each name of the head's line `row` stands for."""
        names, parts = (self.in_head("row") or "").split("@@"), self.row.split("@@")
        if len(names) != len(parts):
            raise Unreadable(f"{self.file}: line {self.line}: the row has {len(parts)} parts, and the head names {len(names)}")
        return {name.strip(): part.strip() for name, part in zip(names, parts)}

    def value(self, name):
        """The value of a name, in the head or else in the row; None where there is none."""
        value = self.in_head(name)
        return self.parts().get(name) if value is None else value

    def text_at(self, name):
        return self.value(name) or ""

    def plain(self, name):
        """The value of a name, with what signs stand for where the case has signs."""
        said = self.text_at(name)
        return said if self.value("signs") is None else said.translate(SIGNS)

    def base(self):
        """The text of the file that comes first, if one is named."""
        name = self.text_at("base")
        if not name:
            return ""
        try:
            with open(os.path.join(CASES, name), encoding="utf-8", newline="") as file:
                return file.read()
        except OSError as fault:
            raise Unreadable(f"{self.file}: line {self.line}: {name} can't be read: {fault.strerror}") from fault

    def be_read(self):
        """Stops with an error where the row isn't one of its file's head, or where its base can't be read."""
        self.parts()
        self.base()

    def text(self):
        """The base with the edits, and behind it a text, or lines, which have their ends."""
        lines = self.text_at("lines")
        return edited(self.base(), self.text_at("edits")) + repeated(self.plain("text")) + (lines + "\n" if lines else "")


def edited(text, edits):
    """The text with each edit made in turn, at the first place where its old text stands."""
    for edit in edits.split("@and"):
        old, sign, new = edit.partition("@")
        if sign:
            text = text.replace(old.strip(), new.strip(), 1)
    return text


def repeated(text):
    """The text, where a number and a text between two backquotes are the text so many times."""
    parts = text.split("`")
    return "".join(often(part) if at % 2 else part for at, part in enumerate(parts))


def often(said):
    number, _, part = said.partition(" ")
    return part * int(number) if number.isdecimal() else ""


def cases_of(path):
    """The rows of a file."""
    name = os.path.basename(path)
    with open(path, encoding="utf-8", newline="") as file:
        head, _, rows = file.read().partition("\n\n")
    line = head.count("\n") + 3
    for number, row in enumerate(rows.split("\n\n"), 1):
        yield Case(name, head, row, number, line)
        line += row.count("\n") + 2


def all_cases():
    """The rows of all files, file by file."""
    for path in sorted(glob.glob(os.path.join(CASES, "*.cases"))):
        yield from cases_of(path)
