#!/usr/bin/env python3
"""Times the search, the replay of its log and the provers beside minisat, on the same clause sets.

Usage: solvers.py FOLDER [CNF ..]        (a scratch folder, in which a program over the libraries is proved and built, once; files of DIMACS)

The clause sets are those of search.py, greater ones of the same kinds, those of conditions that clauses.py makes, and the files. Each line that is printed: what the clause set is, its variables and clauses, and seconds of the processor, the least of three runs where one is short: of the search, with its outcome and the clauses of its log; of the replay of that log; of minisat, where it is installed; and how often those of minisat the search and the replay together take. With files the provers that stand before the search are timed too: the probe, whose one try is that all bits are false, and the splitter of depth 8. The last lines give the mean of the ratios, and of the files the sums. A run is stopped after 60 seconds.
"""
import math
import os
import resource
import shutil
import signal
import subprocess
import sys
import time

import clauses
import program
import search

CRATES = program.closure(["civl_cdcl", "civl_rup", "civl_portfolio", "civl_provers"])
BUDGET = 1_000_000
LIMIT = 60

PROGRAM = (
    search.PROGRAM.replace(
        "//! Reads clause sets, one a line: the budget, the number of variables, and the clauses as in DIMACS. Prints the outcome of each search, with the number of clauses of its log.",
        "//! Reads clause sets, one a line: who is asked, the budget, the number of variables, and the clauses as in DIMACS. Prints what is answered, with the number of clauses of the log.",
    )
    .replace("use civl_cnf::{Clause, Cnf, Lit};", "use civl_cnf::{Bits, Clause, Cnf, Lit, Log};\nuse civl_portfolio::{Attempt, Prover};\nuse civl_provers::{Probe, Splitter};\nuse civl_rup::{Replay, replay};")
    .replace(
        "/// The outcome of a line's search, and the length of its log.",
        r'''/// What a prover answers, and the length of its log.
fn attempted(attempt: Attempt) -> Option<(&'static str, usize)> {
    match attempt {
        Attempt::Sat(_) => Some(("sat", 0)),
        Attempt::Unsat(log) => Some(("unsat", log.len())),
        Attempt::GaveUp => Some(("unknown", 0)),
        Attempt::Memory => None,
    }
}

/// A probe whose one try is that all bits are false.
fn probe(alloc: Global) -> Option<Probe> {
    let bits = Bits::new(alloc, 1000000).ok()?;
    let mut tries = Vec::new(alloc);
    tries.push(bits).ok()?;
    Some(Probe::new(tries))
}

/// Whether the log is replayed to its end.
fn replayed(alloc: Global, cnf: &Cnf, log: &Log) -> Option<(&'static str, usize)> {
    match replay(alloc, cnf, log).ok()? {
        Replay::Refutes => Some(("unsat", log.len())),
        Replay::NoEmpty => Some(("spent", log.len())),
        Replay::NotRup(at) => Some(("refused", at)),
    }
}

/// What is answered on the clause set, and the length of the log.
fn asked(alloc: Global, who: &str, cnf: &Cnf, budget: u32) -> Option<(&'static str, usize)> {
    if who == "probe" {
        return attempted(probe(alloc)?.attempt(alloc, cnf, budget));
    }
    if who == "splitter" {
        return attempted(Splitter::new(8).attempt(alloc, cnf, budget));
    }
    let outcome = solve(alloc, cnf, budget).ok()?;
    let replays = who == "replay";
    match outcome {
        Outcome::Sat(_) => Some(("sat", 0)),
        Outcome::Unsat(log) => {
            if replays {
                replayed(alloc, cnf, &log)
            } else {
                Some(("unsat", log.len()))
            }
        }
        Outcome::Spent(log) => {
            if replays {
                replayed(alloc, cnf, &log)
            } else {
                Some(("spent", log.len()))
            }
        }
    }
}

/// What is answered on the clause set of a line, and the length of the log.''',
    )
    .replace("    let budget: u32 = words.next()?.parse().ok()?;", "    let who = words.next()?;\n    let budget: u32 = words.next()?.parse().ok()?;")
    .replace(
        """    match solve(alloc, &cnf, budget).ok()? {
        Outcome::Sat(_) => Some(("sat", 0)),
        Outcome::Unsat(log) => Some(("unsat", log.len())),
        Outcome::Spent(log) => Some(("spent", log.len())),
    }
}""",
        """    asked(alloc, who, &cnf, budget)
}""",
    )
)

FILES = {
    "src/main.rt": PROGRAM,
    **{path: text.replace("civl_search", "civl_solvers") for path, text in search.FILES.items() if path != "src/main.rt"},
}


def sets(folder):
    for places in (6, 7, 8):
        yield f"{places + 1} pigeons in {places} holes", *search.pigeons(places)
    for width in (5, 6, 7, 8):
        yield f"a product of {width} bits commutes", *search.commutes(width)
    for kind, widths in clauses.KINDS.items():
        for width in widths:
            yield f"{kind.replace('_', ' ')}, {width} bits", *clauses.made(folder, kind, width)
    for variables in (100, 150, 200):
        for seed in (1, 2, 3):
            yield f"3-SAT of {variables} variables, seed {seed}", *search.random_clauses(variables, seed)


def read(path):
    """The variables and clauses of a file of DIMACS."""
    variables, clauses, clause = 0, [], []
    with open(path) as file:
        for line in file:
            if line.startswith("p"):
                variables = int(line.split()[2])
            elif not line.startswith("c"):
                for word in line.split():
                    if word == "0":
                        clauses.append(clause)
                        clause = []
                    else:
                        clause.append(int(word))
    return variables, clauses


def timed(words, text):
    """The output and the seconds of the processor, or None where it was stopped."""
    best = None
    for _ in range(3):
        before = resource.getrusage(resource.RUSAGE_CHILDREN)
        try:
            done = subprocess.run(words, input=text, capture_output=True, timeout=LIMIT)
        except subprocess.TimeoutExpired:
            return "stopped", None
        after = resource.getrusage(resource.RUSAGE_CHILDREN)
        seconds = after.ru_utime - before.ru_utime + after.ru_stime - before.ru_stime
        best = (done.stdout.decode().strip(), seconds if best is None else min(best[1], seconds))
        if seconds > 2:
            break
    return best


def line_of(who, variables, clauses):
    words = [who, BUDGET, variables]
    for clause in clauses:
        words += clause + [0]
    return (" ".join(map(str, words)) + "\n").encode()


def minisat_on(folder, variables, clauses):
    """The answer and the seconds of minisat."""
    path = os.path.join(folder, "set.cnf")
    with open(path, "w") as file:
        file.write(f"p cnf {variables} {len(clauses)}\n")
        file.writelines(" ".join(map(str, clause + [0])) + "\n" for clause in clauses)
    said, seconds = timed(["minisat", "-verb=0", path], b"")
    return ("stopped" if seconds is None else "unsat" if "UNSATISFIABLE" in said else "sat"), seconds


def shown(seconds):
    return "stopped" if seconds is None else f"{seconds:.3f} s"


def measured(binary, folder, name, variables, clauses, has_minisat):
    """Prints the line of a clause set, and answers the ratio to minisat, where both ended."""
    said, search_time = timed([binary], line_of("search", variables, clauses))
    both_said, both_time = timed([binary], line_of("replay", variables, clauses))
    read_time = timed([binary], line_of("probe", variables, clauses))[1] or 0.0
    replay_time = None if both_time is None or search_time is None else both_time - search_time
    found = search_time - read_time if search_time is not None else None
    line = f"{name}: {variables} variables, {len(clauses)} clauses; read {shown(read_time)}; search {shown(found)}, {said}; replay {shown(replay_time)}"
    if both_said != said:
        line += f" ({both_said})"
    ratio = None
    if has_minisat:
        verdict, seconds = minisat_on(folder, variables, clauses)
        line += f"; minisat {shown(seconds)}, {verdict}"
        if seconds and both_time is not None:
            ratio = both_time / seconds
            line += f"; {ratio:.2f} times"
    print(line, flush=True)
    return ratio


def boxes(binary, paths):
    """The seconds of each prover and of the search on the files, summed."""
    sums = {who: 0.0 for who in ("none", "probe", "splitter", "search", "replay")}
    answered = {who: {} for who in sums}
    for path in paths:
        variables, clauses = read(path)
        for who in sums:
            text = line_of(who, variables, clauses) if who != "none" else line_of("probe", variables, [])
            said, seconds = timed([binary], text)
            sums[who] += seconds or LIMIT
            key = said.split()[0] if said else "none"
            answered[who][key] = answered[who].get(key, 0) + 1
    for who, seconds in sums.items():
        print(f"{len(paths)} files, {who}: {seconds:.3f} s, {answered[who]}", flush=True)


def main():
    if len(sys.argv) < 2:
        sys.exit(__doc__)
    folder = sys.argv[1]
    binary = program.built(folder, "civl_solvers", CRATES, FILES)
    has_minisat = shutil.which("minisat") is not None
    if not has_minisat:
        print("no minisat here")
    if len(sys.argv) > 2:
        boxes(binary, sys.argv[2:])
    ratios = [measured(binary, folder, *it, has_minisat) for it in sets(folder)]
    found = [it for it in ratios if it]
    if found:
        print(f"mean of the ratios {math.exp(sum(map(math.log, found)) / len(found)):.2f} over {len(found)} sets, greatest {max(found):.2f}")


if __name__ == "__main__":
    main()
