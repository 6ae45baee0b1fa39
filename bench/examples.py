#!/usr/bin/env python3
"""Runs what the documents show on the built programs: each block with commands, the tables of examples/README.md, each step and mistake of
docs/TUTORIAL.md, and each change of docs/CONDITIONS.md that violates a condition.

Usage: examples.py BINARY [LIFT [EXPLAIN]]     (crates/civl/out/civl after `rt run` in crates/civl, crates/civl_lift/out/civl_lift, and
crates/civl_explain/out/civl_explain; without the second and the third, their rows and commands are left out)

A block of a document is run where it has lines `$ COMMAND`: each of them at the top of the repository, with the programs on the PATH, and what
it writes has to be the lines below it, where `..` stands for any. Commands of the kit (`rt ..`) are left out.

In docs/TUTORIAL.md a block without commands is a part of the text of which the next command in a block speaks: its lines stand in that
text, in their order. One that begins with `rejected` is what `check` prints of the next of STEPS.

It prints a line for each part, text or command whose report is another than the documents say, and at last how many were tried. The exit code is 1
where some report was another.
"""
import glob
import os
import re
import subprocess
import sys
import tempfile

TOP = os.path.abspath(os.path.join(os.path.dirname(os.path.abspath(__file__)), ".."))
FOLDER = os.path.join(TOP, "examples")


def example(name):
    with open(os.path.join(FOLDER, name)) as file:
        return file.read()


def tables():
    """Of each row of the tables: the file, the words of the command, and the first lines of the report."""
    words, rows = None, []
    for line in example("README.md").splitlines():
        cells = [cell.strip() for cell in line.strip("|").split(" | ")]
        if line.startswith("| File"):
            words = re.search("`(.*)` prints", cells[2])[1].split()
        elif line.startswith("|") and ".civl" in cells[0]:
            rows.append((cells[0], words, re.findall("`(.*?)`", cells[2].split(" values of ")[0])))
    return rows


SPINLOCK, TICKET, TICKETS = "spinlock.civl", "ticket.civl", "tickets.civl"
ACQUIRED = "call Acquire(t) -> (); call Read(t)"
FREE_GATE = "gate ((t != 0:2) && (lock == t)) guard true { v := x; }"
RANK_INVARIANT = " ((serving == old(serving)) && (owner == old(owner)))))"
NO_ONE_HAS_TWO = re.search(r"// No thread owns two.*?(?=// Between)", example(TICKET), re.DOTALL)[0]
INVARIANT_2 = re.search(r"invariant 2.*\n", example(TICKETS))[0]
DRAWN, ALONE = re.findall(r"// [^\n]*\n((?:invariant 1.*\n(?:  .*\n)*)+)", example(TICKETS))
OTHER_THAN_DONE = ("inv (turn == done)", "inv true")
NO_ONE_WAITS = re.search(r"// Between.*?(?=action)", example(TICKET), re.DOTALL)[0]

# What is put in the place of what, and lines of the report of `conditions`, which follow one another from each name on.
MISTAKES = [
    (SPINLOCK, [("invariant 1 (b == (lock != 0:2));\n", "")],
     "K9 perform step 1 Acquire from 1: fails;  b = false;  lock = 2:2;  x = 0:8;  t = 2:2;  ok = false;  done = false"),
    (SPINLOCK, [(" intro lock := t;", "")],
     "K9 perform step 1 Acquire from 1: fails;  b = false;  lock = 0:2;  x = 0:8;  t = 1:2;  ok = false;  done = false;"
     "K10 step 1 Acquire from 1 invariant 0: fails;  b = false;  lock = 0:2;  x = 0:8;  t = 1:2;  ok = false;  done = false"),
    (SPINLOCK, [("gate (t != 0:2) guard (lock == 0:2)", "gate true guard (lock == 0:2)")],
     "K10 step 1 Acquire from 1 invariant 0: fails;K3 step 2 AtomAcquire AtomAcquire: fails"),
    (SPINLOCK, [("thread Main(2:2)", "thread Main(1:2)")], "refused E70 at item 3"),
    (SPINLOCK, [(f" {mover}\n", " atomic\n") for mover in ("right", "left", "both")], "refused E50 at item 18 statement 1"),
    (SPINLOCK, [("1 to 1 left", "1 to 1 right")],
     "K3 step 2 AtomRelease AtomAcquire: fails;  lock = 2:2;  x = 0:8;  X.t = 2:2;  Y.t = 1:2;106 hold, 1 fail, 0 undecided"),
    (SPINLOCK, [("1 to 1 right", "1 to 1 left")],
     "K5 step 2 AtomAcquire AtomRelease: fails;K8 step 2 AtomAcquire: fails;  lock = 1:2;  x = 0:8;  X.t = 1:2"),
    (SPINLOCK, [(FREE_GATE, "gate (t != 0:2) guard true { v := x; }")],
     "K3 step 2 AtomRead AtomWrite: fails;  lock = 2:2;  x = 0:8;  X.t = 1:2;  Y.t = 2:2;  Y.v = 128:8;108 hold, 4 fail, 0 undecided"),
    (SPINLOCK, [("lend t : word(2)", "val t : word(2)")],
     "K3 step 2 AtomWrite AtomWrite: fails;  lock = 2:2;  x = 0:8;  X.t = 2:2;  X.v = 0:8;  Y.t = 2:2;  Y.v = 128:8;103 hold, 9 fail, 0 undecided"),
    (SPINLOCK, [("x := (x + 1:8);", "x := (x + 2:8);")],
     "K9 perform step 2 Incr from 0: fails;  lock = 0:2;  x = 0:8;  t = 2:2;111 hold, 1 fail, 0 undecided"),
    (SPINLOCK, [("call Release(t) -> (); commit;", "call Release(t) -> ();")],
     "K9 once step 2 Incr from 0: fails;K9 stutter step 2 Incr from 0: fails;110 hold, 2 fail, 0 undecided"),
    (SPINLOCK, [(ACQUIRED, ACQUIRED.replace(" call", " yield true; call"))],
     "K9 gate step 2 Incr from 1: fails;  lock = 0:2;  x = 0:8;  t = 1:2;  v = 0:8;  done = false;"
     "K9 once step 2 Incr from 1: fails;K9 stutter step 2 Incr from 1: fails"),
    (SPINLOCK, [(ACQUIRED, ACQUIRED.replace(" call", " yield ((lock == t) && (!done)); call"))],
     "K10 step 2 Incr from 0 yield Incr 1: fails;  lock = 0:2;  x = 0:8;  t = 1:2;  other.t = 0:2;  other.v = 0:8;  other.done = false;"
     "118 hold, 1 fail, 0 undecided"),
    (SPINLOCK, [(ACQUIRED, ACQUIRED.replace(" call", " yield (((t != 0:2) && (lock == t)) && (!done)); call"))], "119 hold, 0 fail, 0 undecided"),
    (SPINLOCK, [("call Read(t) -> (v);", "call Read(t) -> (v); yield ((((t != 0:2) && (lock == t)) && (!done)) && (v == x));")],
     "119 hold, 0 fail, 0 undecided"),
    (SPINLOCK, [(" call Release(t) -> ();", "")], "112 hold, 0 fail, 0 undecided"),
    (TICKET, [("by s\n", "by m\n")], "K9 rank step 1 Wait from 2: fails;  m = 2:2;  s = 2:2;97 hold, 1 fail, 0 undecided"),
    (TICKET, [("s := (s - 1:2);", "s := (s - 2:2);")], "K9 rank step 1 Wait from 2: fails;  s = 1:2;97 hold, 1 fail, 0 undecided"),
    (TICKET, [(RANK_INVARIANT, " (serving == old(serving))))")],
     "K9 stutter step 1 Wait from 2: fails;  owner = [0:2, 0:2, 0:2, 0:2];  old.owner = [0:2, 0:2, 2:2, 1:2];90 hold, 8 fail, 0 undecided"),
    (TICKET, [("with (m)", "with (0:2)")],
     "K9 perform step 1 Take from 0: fails;  next = 2:2;  serving = 0:2;  owner = [1:2, 3:2, 0:2, 0:2];  t = 2:2;97 hold, 1 fail, 0 undecided"),
    (TICKET, [("intro owner := set(owner, serving, 0:2); call Bump() -> (); commit;",
               "call Bump() -> (); commit; intro owner := set(owner, serving, 0:2);")],
     "K9 perform step 1 Pass from 0: fails;  next = 0:2;  serving = 2:2;  owner = [0:2, 0:2, 2:2, 1:2];  t = 2:2;93 hold, 5 fail, 0 undecided"),
    (TICKET, [(NO_ONE_HAS_TWO, "")],
     "K10 step 1 Take from 0 invariant 0: fails;  next = 0:2;  serving = 1:2;  owner = [0:2, 1:2, 1:2, 1:2];  t = 2:2;76 hold, 4 fail, 0 undecided"),
    (TICKET, [("layers 1 to 1 right", "layers 1 to 1 atomic")], "refused E50 at item 24 statement 1"),
    (TICKET, [("layers 1 to 1 right", "layers 1 to 1 both")],
     "K5 step 2 AtomTake AtomPass: fails;K8 step 2 AtomTake: fails;  serving = 0:2;  owner = [2:2, 2:2, 2:2, 2:2];  X.t = 3:2;106 hold, 2 fail, 0 undecided"),
    (TICKET, [("action AtomPass(lend t : word(2)) -> () choose () layers 1 to 1 atomic",
               "action AtomPass(lend t : word(2)) -> () choose () layers 1 to 1 left")],
     "K7 step 2 AtomPass AtomPass: fails;  serving = 0:2;  owner = [2:2, 1:2, 0:2, 0:2];  X.t = 2:2;  Y.t = 1:2;107 hold, 1 fail, 0 undecided"),
    (TICKET, [(NO_ONE_WAITS, "")],
     "K9 gate step 2 Acquire from 0: fails;  serving = 0:2;  owner = [0:2, 0:2, 0:2, 2:2];  lock = 0:2;  t = 2:2;  call0.free = 0:2;92 hold, 3 fail, 0 undecided"),
    (TICKETS, [(DRAWN, ""), (ALONE, "")],
     "K9 perform step 1 Take from 0: fails;  next = 0:2;  serving = 0:2;  owner = [1:2, 0:2, 0:2, 0:2];  t = 2:2"),
    (TICKETS, [(ALONE, "")],
     "K10 step 1 Take from 0 invariant 0: fails;  next = 0:2;  serving = 1:2;  owner = [0:2, 1:2, 1:2, 1:2];  t = 2:2"),
    (TICKETS, [(INVARIANT_2, "")],
     "K9 gate step 2 Acquire from 0: fails;  serving = 0:2;  owner = [0:2, 0:2, 0:2, 2:2];  lock = 0:2;  t = 2:2;  call0.free = 0:2"),
    (TICKETS, [(INVARIANT_2, ""), ("  layers 1 to 1 right", "  layers 1 to 1 atomic")], "refused E50 at item 23 statement 1"),
]

# The same of the steps of the tutorial whose reports `check` prints, in the order of docs/TUTORIAL.md.
STEPS = [
    ("tickets_3.civl", [(ALONE, "")]),
    ("tickets_4.civl", [OTHER_THAN_DONE]),
    (TICKETS, [(INVARIANT_2, "")]),
]

# What is put in the place of what in the frame of docs/CONDITIONS.md, for each row of "What violates each", in its order.
ADD, GET = "action Add(val d : word(2)) -> () choose () layers 0 to 0", "action Get() -> (val v : word(2)) choose () layers 0 to 0"
BEHIND_INIT, BEHIND_COMMIT = "init true;\n", "commit; }"
SET = ("action Step", "action Set() -> () choose () layers 0 to 1 atomic gate true guard true { x := 1:2; }\naction Step")
AT_ZERO = (BEHIND_INIT, "init (x == 0:2);\ninvariant 1 (x == 0:2);\n")
VIOLATING = [
    [(BEHIND_INIT, "init true;\ninvariant 1 (x == 0:2);\n")],
    [(BEHIND_INIT, "global linear pool : word(4) layers 0 to 1;\n" + BEHIND_INIT),
     ("action Step", "action Lose(lend t : word(2)) -> () choose () layers 0 to 0 atomic gate true guard true "
      "{ pool := (1:4 << widen(t, 4)); }\naction Step")],
    [(f"{ADD} atomic", f"{ADD} right")],
    [(f"{ADD} atomic", f"{ADD} right"), (f"{GET} atomic gate true", f"{GET} atomic gate (x == 0:2)")],
    [(f"{GET} atomic", f"{GET} left")],
    [(f"{GET} atomic gate true", f"{GET} left gate (x == 0:2)")],
    [(f"{ADD} atomic", f"{ADD} left"), (f"{GET} atomic gate true", f"{GET} atomic gate (x == 1:2)")],
    [(f"{GET} atomic gate true guard true", f"{GET} left gate true guard (x == 0:2)")],
    [(f"{ADD} atomic gate true", f"{ADD} atomic gate (x == 0:2)")],
    [(BEHIND_COMMIT, "commit; yield (x == 0:2); }")],
    [(BEHIND_COMMIT, "}")],
    [("{ call Add(1:2)", "{ call Add(1:2) -> (); yield true; call Add(1:2)")],
    [("call Add(1:2)", "call Add(2:2)")],
    [("{ call", "{ var b : bool; var r : word(2); call"), (BEHIND_COMMIT, "commit; while rank b by r inv done { } }")],
    [AT_ZERO],
    [(BEHIND_COMMIT, "commit; yield (x == 1:2); }")],
    [AT_ZERO, SET],
    [SET, (BEHIND_COMMIT, "commit; yield (x == 0:2); }")],
]

# The same of outlines, and lines of the report of `prove`.
OUTLINE = "lock_outline.civl"
HELD = "((t != 0:2) && (lock == t))"
UNPROVED = [
    ([(f"assert 17 1 {HELD};\n", "")], "unproved O2 safe Add at 1;lock = 0:2;x = 0:8;t = 1:2;v = 0:8"),
    ([(f"assert 18 3 ({HELD} && (v == w));", "assert 18 3 (v == w);")],
     "unproved O2 next Audit at 3;lock = 0:2;x = 0:8;t = 0:2;v = 0:8;w = 0:8"),
    ([(f"assert 18 2 ({HELD} && (v == x));", f"assert 18 2 ({HELD.replace('lock == t', 'lock == 2:2')} && (v == x));")],
     "unproved O3 Add at 2 keeps Audit at 2;lock = 2:2;x = 0:8;t = 2:2;v = 0:8;other.t = 1:2;other.v = 0:8;other.w = 0:8"),
    ([("assert 18 4", "assert 18 5")], "refused E90 at note 8"),
    ([("proc Read(", "proc Idle() -> () root { }\nproc Read(")], "refused E90 at note 0"),
    ([("thread Audit(2:2)", "thread Acquire(2:2)")], "refused E91 at item 20 statement 0"),
]


def run(binary, words, text):
    done = subprocess.run([binary, *words], input=text.encode(), capture_output=True)
    return done.stdout.decode().splitlines()


def with_changes(text, changes):
    for old, new in changes:
        assert old in text, old
        text = text.replace(old, new)
    return text


def has(lines, wanted):
    """Whether the lines that are wanted stand among these, in their order."""
    rest = iter(lines)
    return all(line in rest for line in wanted)


def documents():
    return sorted(glob.glob(f"{TOP}/*.md") + glob.glob(f"{TOP}/*/*.md") + glob.glob(f"{TOP}/crates/*/README.md"))


def document(name):
    with open(os.path.join(TOP, name)) as file:
        return file.read()


def blocks(text):
    return re.findall(r"^```[^\n]*\n(.*?)^```", text, re.DOTALL | re.MULTILINE)


def commands(text):
    """Of each block in a document the commands, each with the lines below it."""
    for block in blocks(text):
        found = re.split(r"^\$ ", block, flags=re.MULTILINE)[1:]
        if found:
            yield [one.partition("\n")[::2] for one in found]


def is_written(lines, wanted):
    """Whether these are the lines that are wanted, where `..` stands for any."""
    if not wanted:
        return not lines
    if wanted[0] == "..":
        return any(is_written(lines[at:], wanted[1:]) for at in range(len(lines) + 1))
    return bool(lines) and lines[0] == wanted[0] and is_written(lines[1:], wanted[1:])


def is_tried(command, programs):
    """Whether a command is one of these programs and not of the kit."""
    named = set(re.findall(r"\bcivl(?:_lift|_explain)?\b", re.sub(r"\S+/\S+", "", command)))
    return not command.startswith("rt ") and all(programs[name] for name in named)


def other_commands(programs):
    """For each command in a block of a document, what is told where it writes something else, and else None."""
    with tempfile.TemporaryDirectory() as room:
        for name in os.listdir(TOP):
            os.symlink(f"{TOP}/{name}", f"{room}/{name}")
        os.mkdir(f"{room}/bin")
        for name, program in programs.items():
            if program:
                os.symlink(os.path.abspath(program), f"{room}/bin/{name}")
        how = {"cwd": room, "env": {**os.environ, "PATH": f"{room}/bin:{os.environ['PATH']}"}, "capture_output": True, "text": True}
        for path in documents():
            for block in commands(document(path)):
                for command, wanted in block:
                    if not is_tried(command, programs):
                        continue
                    lines = subprocess.run(["bash", "-c", command], **how).stdout.splitlines()
                    is_right = is_written(lines, wanted.splitlines())
                    yield None if is_right else f"{os.path.relpath(path, TOP)}: {command} writes {lines}"


def plain_lines(text):
    """The lines without comments and what blanks stand around them."""
    return [line.partition("//")[0].strip() for line in text.splitlines()]


def other_parts():
    """For each part of a text in the tutorial, what is told of it where its lines aren't those of the text, and else None."""
    ahead = []
    for block in blocks(document("docs/TUTORIAL.md")):
        named = re.search(r"^\$ .*<.*?examples/(\S+)", block, re.MULTILINE)
        if named:
            lines = plain_lines(example(named[1]))
            yield from (None if has(lines, plain_lines(part)) else f"{named[1]}: this isn't in it: {part}" for part in ahead)
            ahead = []
        elif not re.match("rejected |K", block):
            ahead.append(block)
    yield f"docs/TUTORIAL.md: behind the last command stands {ahead}" if ahead else None


def other_steps(binary):
    """The same of the steps of the tutorial."""
    shown = [block for block in blocks(document("docs/TUTORIAL.md")) if block.startswith("rejected ")]
    assert len(shown) == len(STEPS)
    for block, (name, changes) in zip(shown, STEPS):
        lines = run(binary, ["check"], with_changes(example(name), changes))
        yield None if lines == block.splitlines() else f"{name} with {changes}: check prints {lines}"


def other_conditions(binary):
    """The same of the changes by which a condition is violated."""
    text = document("docs/CONDITIONS.md").partition("## What violates each\n")[2]
    names = re.findall(r"^\| `(K.*?)`", text.partition("\n## ")[0], re.MULTILINE)
    frame = blocks(text)[0]
    assert len(names) == len(VIOLATING)
    lines = run(binary, ["conditions"], frame)
    yield None if lines[-1].endswith(" hold, 0 fail, 0 undecided") else f"docs/CONDITIONS.md: the frame: {lines}"
    for name, changes in zip(names, VIOLATING):
        lines = run(binary, ["conditions"], with_changes(frame, changes))
        yield None if f"{name}: fails" in lines else f"docs/CONDITIONS.md: {name}: {lines}"


def other_reports(programs):
    """For each text, what is told of its report where it is another, and else None."""
    binary = programs["civl"]
    yield from other_parts()
    yield from other_commands(programs)
    yield from other_steps(binary)
    yield from other_conditions(binary)
    for name, words, wanted in tables():
        program = programs["civl_lift"] if words == ["lift"] else binary
        if not program:
            continue
        found = run(program, words, example(name))[:len(wanted)]
        yield None if found == wanted else f"{name}: {' '.join(words)} prints {found}"
    for name, changes, wanted in MISTAKES:
        lines = run(binary, ["conditions"], with_changes(example(name), changes))
        yield None if has(lines, wanted.split(";")) else f"{name} with {changes}: {[line for line in lines if not line.endswith(': holds')]}"
    for changes, wanted in UNPROVED:
        lines = run(binary, ["prove"], with_changes(example(OUTLINE), changes))
        yield None if lines == wanted.split(";") else f"{OUTLINE} with {changes}: {lines}"


def main():
    if len(sys.argv) not in (2, 3, 4):
        sys.exit(__doc__)
    told = list(other_reports(dict(zip(("civl", "civl_lift", "civl_explain"), (*sys.argv[1:], None, None)))))
    wrong = [line for line in told if line]
    print(*wrong, f"{len(told)} texts tried, {len(wrong)} with another report", sep="\n")
    sys.exit(bool(wrong))


if __name__ == "__main__":
    main()
