"""Stories of runs: each move with the thread, where it stood, what its step did and what that changed; and where the run stops or fails."""
from typing import NamedTuple

from .lines import HEAD, Line, changes, equation
from .plain import MOVED, Move, Plain
from .reports import value_of

# ---- scripts

class Script(NamedTuple):
    program: object
    store: dict
    moves: list


def literal(reader):
    """A value up to its end, as it is written."""
    if reader.skips("["):
        found = []
        while not reader.skips("]"):
            found.append(literal(reader))
            reader.skips(",")
        return tuple(found)
    first = reader.take()
    return value_of(first if first in ("true", "false") else f"{first}:{reader.behind(':', reader.number)}")


def entry(reader):
    name = reader.take()
    reader.skip("=")
    return name, reader.ended(lambda: literal(reader))


def step(reader):
    begins = reader.at
    reader.skip("move")
    thread = reader.number()
    return Move(thread, reader.ended(lambda: reader.listed(lambda: literal(reader))), begins)


def script_behind(reader, program):
    """The store and the moves behind a program, which fit it."""
    reader.skip("schedule")
    entries = []
    while not reader.sees("move", ""):
        entries.append(entry(reader))
    return Script(program, dict(entries), reader.while_at("move", lambda: step(reader)))


# ---- lines

class RunStory:
    """The story of a script's moves in its lowest program, or in the topmost one."""

    def __init__(self, source, placed, script, is_top):
        self.source, self.placed, self.program, self.moves = source, placed, script.program, script.moves
        self.plain = Plain(script.program, is_top)
        self.config = self.plain.start(script.store)
        self.lines, self.made, self.stopped = [], 0, None

    def at_proc(self, name, text, is_error):
        return Line(self.source.item("proc", name), 2, text, is_error)

    def at_thread(self, number, text, is_error=False):
        """A line where a thread stands."""
        thread = self.config.threads[number]
        if thread.frames is None:
            return self.at_proc(thread.callee, text, is_error)
        if not thread.frames:
            return self.at_proc(thread.callee, text, is_error)
        frame = thread.frames[-1]
        return Line(self.placed.begins[frame.rest[0]], HEAD, text, is_error) if frame.rest else self.at_proc(frame.proc, text, is_error)

    def changed(self, number, behind):
        """What a move of this thread changes: globals, and names of the topmost frame that it has before and behind."""
        found = changes(self.config.store, self.config.store, behind.store)
        before, after = (config.threads[number].frames or [] for config in (self.config, behind))
        count = min(len(before), len(after))
        if count:
            found += changes(before[count - 1].names, before[count - 1].names, after[count - 1].names)
        return "".join(f", {text}" for text in found)

    def make(self, move):
        """Makes a move, and says whether it is made."""
        made = self.plain.move(self.config, move)
        if made.answer != MOVED:
            self.stopped = made.answer
            return False
        text = f"thread {move.thread}{made.does}{self.changed(move.thread, made.config)}"
        self.lines.append(self.at_thread(move.thread, text))
        self.config, self.made = made.config, self.made + 1
        return True

    def run(self):
        """Makes the moves up to the first that isn't made, and tells where the run ends."""
        for move in self.moves:
            if not self.make(move):
                text = f"thread {move.thread}: {self.stopped}"
                is_there = move.thread < len(self.config.threads)
                self.lines.append(self.at_thread(move.thread, text) if is_there else Line(move.token, HEAD, text))
                break
        failing = self.plain.failing(self.config)
        if failing is not None:
            self.lines.append(self.at_thread(failing, f"thread {failing} fails", True))
        return self.lines

    def report(self):
        """What `run` reports."""
        failing = self.plain.failing(self.config)
        return [
            f"moved {self.made}", *([f"stopped {self.stopped}"] if self.stopped else []),
            "not failing" if failing is None else f"failing {failing}",
            *(equation(name, given) for name, given in self.config.store.items())]
