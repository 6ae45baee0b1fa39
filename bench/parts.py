#!/usr/bin/env python3
"""Tells what the parts of a run of `conditions` cost: parsing, the static rules, the list with its weights, terms, blasting, the two boxes, the search, and the replay of logs.

Usage: parts.py BINARY [TEXT ..]        (crates/civl/out/civl after `rt run` in crates/civl; `callgrind` of valgrind counts the instructions)

The texts are those of checks.py, where none is named. Of each text the first line has the seconds of the processor of the quickest of five runs, the instructions, and the last line of the report; then there is a line for each part: its instructions, its share of them all, and this share of the seconds. A function of a part's crates counts for that part, and what it calls of the crates that parts share (clauses, propagation, graphs' keys, std, memory) counts for it too. What lies in no part is reading, writing and the start of the program.
"""
import collections
import os
import re
import resource
import shutil
import subprocess
import sys
import tempfile

from texts import many_conditions

PARTS = {
    "parsing": "lex phrases expressions statements declarations parser outlines",
    "static rules": "names types layers linear yields",
    "list and weights": "conditions weighing weights bodies goals outlined",
    "terms": "terms actions states moves body movers refine maker goal_terms",
    "blasting": "blast circuits symbolic",
    "boxes": "provers",
    "search": "cdcl",
    "replay": "rup",
    "values": "firing meaning",
}
PART_OF = {crate: part for part, crates in PARTS.items() for crate in crates.split()}


def part_of(function):
    """The part of a function's crate, if it has one."""
    crate = re.match(r"\W*civl_(\w+)::", function)
    return PART_OF.get(crate[1]) if crate else None


def timed(binary, text):
    """The seconds of the processor, of the quickest of five runs, and the last line of the report."""
    best, report = None, b""
    for _ in range(5):
        before = resource.getrusage(resource.RUSAGE_CHILDREN)
        report = subprocess.run([binary, "conditions"], input=text.encode(), stdout=subprocess.PIPE).stdout
        after = resource.getrusage(resource.RUSAGE_CHILDREN)
        seconds = after.ru_utime - before.ru_utime + after.ru_stime - before.ru_stime
        best = seconds if best is None else min(best, seconds)
    return best, report.decode().splitlines()[-1]


def profile(binary, text):
    """The lines of callgrind's file on a run."""
    with tempfile.TemporaryDirectory() as folder:
        path = os.path.join(folder, "callgrind.out")
        words = ["valgrind", "-q", "--tool=callgrind", f"--callgrind-out-file={path}", binary, "conditions"]
        subprocess.run(words, input=text.encode(), stdout=subprocess.DEVNULL, check=True)
        with open(path, errors="replace") as file:
            return file.read().splitlines()


def costs(lines):
    """The instructions of each part, and of all: a function's own, and, for a function in a part, those of what it calls outside of all parts."""
    names, own, calls = {}, collections.Counter(), []
    function, callee = "", None

    def name(text):
        number, _, said = text.partition(" ")
        if said:
            names[number] = said
        return names.get(number, text)

    for line in lines:
        key, is_given, value = line.partition("=")
        if is_given and key == "fn":
            function = name(value)
        elif is_given and key == "cfn":
            callee = name(value)
        elif re.match(r"[+*\-\d]", line):
            cost = int(line.split()[1])
            if callee is None:
                own[function] += cost
            else:
                calls.append((function, callee, cost))
                callee = None
    parts = collections.Counter()
    for function, cost in own.items():
        parts[part_of(function)] += cost
    for function, callee, cost in calls:
        if part_of(function) and part_of(callee) is None:
            parts[part_of(function)] += cost
            parts[None] -= cost
    return parts, sum(own.values())


def main():
    if len(sys.argv) < 2:
        sys.exit(__doc__)
    if shutil.which("valgrind") is None:
        sys.exit("no valgrind here")
    binary = sys.argv[1]
    texts = {path: open(path).read() for path in sys.argv[2:]} or many_conditions()
    for title, text in texts.items():
        seconds, report = timed(binary, text)
        parts, whole = costs(profile(binary, text))
        print(f"{title}: {seconds:.3f} s, {whole:,} instructions, {report}")
        for part in [*PARTS, None]:
            share = parts[part] / whole
            print(f"  {part or 'the rest'}: {parts[part]:,}, {100 * share:.1f} %, {seconds * share:.4f} s", flush=True)


if __name__ == "__main__":
    main()
