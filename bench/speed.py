#!/usr/bin/env python3
"""Times the built program on texts of a megabyte.

Usage: speed.py BINARY        (crates/civl/out/civl after `rt run` in crates/civl)

Each line: what the text is, its bytes, the seconds of `fmt` and of `check`, and the first line of what `check` prints.
Then scripts: the seconds of `run low`, and the first line of what it prints.
"""
import subprocess
import sys
import time

from texts import LIMIT, at_all_limits

HEADER = "civl 1; layers 1; permissions 1;\n"
FLAG = """global f : bool layers 0 to 1;
init true;
action Set() -> () choose () layers 0 to 0 atomic
  gate true guard true { f := true; }
action AtomSet() -> () choose () layers 1 to 1 atomic
  gate true guard true { f := true; }
proc DoSet() -> () refines AtomSet with () layer 1
  { call Set() -> (); commit; }
"""


def filled(before, piece, after):
    """The piece as often as it fits within the limit, between the two others; %d is its number."""
    parts, size, number = [], len(before) + len(after), 0
    while True:
        text = piece % number if "%d" in piece else piece
        if size + len(text) > LIMIT:
            return before + "".join(parts) + after
        parts.append(text)
        size += len(text)
        number += 1


def wide(depth):
    """An expression in which the depth of brackets is at most this, as long as it may be."""
    return "f" if depth == 0 else "(%s && %s)" % (wide(depth - 1), wide(depth - 1))


def many_of_one(front, between, declared, behind):
    """30,000 names of one declaration, and as many assigns of the last hundred of them as a megabyte holds."""
    start = HEADER + "init true;\n" + front + between.join(declared % number for number in range(30_000)) + behind
    uses = ["p%d := p%d;\n" % (number, number) for number in range(29_900, 30_000)]
    return start + "".join(uses) * ((LIMIT - len(start) - 2) // len("".join(uses))) + "}\n"


TEXTS = {
    "flag program, threads": filled(HEADER + FLAG, "thread DoSet();\n", ""),
    "globals of many names": filled(HEADER, "global g%d : bool layers 0 to 1;\n", "init true;\n"),
    "one expression": HEADER + FLAG.replace("init true", "init " + wide(17)),
    "statements": filled(HEADER + FLAG + "proc Main() -> () root {\n", "call DoSet() -> ();\n", "}\n"),
    "many parameters, used late": many_of_one("proc Main(", ", ", "val p%d : bool", ") -> () root {\n"),
    "many outputs, used late": many_of_one("proc Main() -> (", ", ", "val p%d : bool", ") root {\n"),
    "many locals, used late": many_of_one("proc Main() -> () root {\n", "", "var p%d : bool;\n", ""),
    "comments": filled(HEADER, "// a comment\n", FLAG),
    "blanks": " " * LIMIT,
}


def bracketed(names):
    """One conjunction of the names, in balanced brackets."""
    if len(names) == 1:
        return names[0]
    half = len(names) // 2
    return "(%s && %s)" % (bracketed(names[:half]), bracketed(names[half:]))


def many_names():
    """15,000 globals, and an expression of 40,000 of the last hundred of them: a name is looked up from the first on."""
    globals_ = "".join("global g%d : bool layers 0 to 1;\n" % number for number in range(15_000))
    return HEADER + globals_ + "init " + bracketed(["g%d" % (14_999 - number % 100) for number in range(40_000)]) + ";\nschedule\n"


def many_calls():
    """9,000 procedures, and 30,000 calls of the last fifty of them."""
    procs = "".join("proc P%d() -> () root { }\n" % number for number in range(9_000))
    calls = "".join("call P%d() -> ();\n" % (8_999 - number % 50) for number in range(30_000))
    return HEADER + "init true;\n" + procs + "proc Main() -> () root {\n" + calls + "}\nschedule\n"


def long_body(before, piece, after):
    """A body with half a megabyte of such statements, and half a megabyte of moves in it."""
    front = HEADER + FLAG + "proc Main() -> () root { var x : bool;\n" + before
    back = after + "}\nthread Main();\nschedule f = false; "
    move = "move 0 ();\n"
    return front + piece * (LIMIT // 2 // len(piece)) + back + move * ((LIMIT // 2 - len(front) - len(back)) // len(move))


SCHEDULE = "schedule\n" + "".join("g%d = 0:32;\n" % number for number in range(64))

SCRIPTS = {
    "a program at all limits": at_all_limits("word(32)", True, SCHEDULE),
    "many names, looked up late": many_names(),
    "many procedures, called late": many_calls(),
    "moves": filled(HEADER + FLAG + "thread DoSet();\nschedule f = false; ", "move 0 ();\n", ""),
    "moves in a long body": long_body("", "x := true;\n", ""),
    "moves past a long branch": long_body("while true { if x {\n", "x := true;\n", "} else { x := false; } }\n"),
    "moves of a loop": filled(HEADER + FLAG + "proc Main() -> () root { while true { call DoSet() -> (); } }\nthread Main();\nschedule f = false; ", "move 0 ();\n", ""),
}


def timed(binary, words, text):
    start = time.perf_counter()
    done = subprocess.run([binary, *words], input=text.encode(), capture_output=True)
    return time.perf_counter() - start, done.stdout.decode().split("\n")[0]


def main():
    if len(sys.argv) != 2:
        sys.exit(__doc__)
    for name, text in TEXTS.items():
        printing, _ = timed(sys.argv[1], ["fmt"], text)
        checking, line = timed(sys.argv[1], ["check"], text)
        print(f"{name}: {len(text)} bytes, fmt {printing:.2f} s, check {checking:.2f} s, {line}")
    for name, text in SCRIPTS.items():
        running, line = timed(sys.argv[1], ["run", "low"], text)
        print(f"{name}: {len(text)} bytes, run low {running:.2f} s, {line}")


if __name__ == "__main__":
    main()
