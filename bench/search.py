#!/usr/bin/env python3
"""Times the search of civl_cdcl on clause sets with fixed seeds.

Usage: search.py FOLDER        (a scratch folder, in which a program over the library is proved and built, once)

The program reads a clause set a line: the budget, the number of variables, and the clauses as in DIMACS. Each line that is printed: what the clause set is, its variables and clauses, the seconds of the search, and its outcome with the number of clauses of its log.
"""
import random
import subprocess
import sys
import time

import program

CRATES = program.closure(["civl_cdcl"])
BUDGET = 1_000_000

PROGRAM = r"""//! Reads clause sets, one a line: the budget, the number of variables, and the clauses as in DIMACS. Prints the outcome of each search, with the number of clauses of its log.
#![tactic(auto)]

ghost use Rattle.std.specs.Prelude.{IsTrue};
ghost use Rattle.civl_cnf.specs.ClauseSet.{IsBelow};

use civl_cdcl::{Outcome, solve};
use civl_cnf::{Clause, Cnf, Lit};
use std::alloc::Global;
use std::io;

/// Whether each literal is of the first variables.
fn is_below(variables: u32, lits: &[Lit]) -> bool
    ensures { IsTrue result → IsBelow variables lits.now }
{
    for lit in lits {
        if lit.variable() >= variables {
            return false;
        }
    }
    true
}

/// Adds a clause, if its literals are of the set's variables.
fn add(alloc: Global, cnf: &mut Cnf, lits: &[Lit]) -> Option<()> {
    let clause = Clause::from_slice(alloc, lits).ok()?;
    let below = is_below(cnf.variables(), clause.lits());
    if !below {
        return None;
    }
    cnf.push(clause).ok()?;
    Some(())
}

/// The outcome of a line's search, and the length of its log.
fn answer(alloc: Global, text: &str) -> Option<(&'static str, usize)> {
    let mut words = text.split_whitespace();
    let budget: u32 = words.next()?.parse().ok()?;
    let variables: u32 = words.next()?.parse().ok()?;
    if variables > 1000000 {
        return None;
    }
    let mut cnf = Cnf::new(alloc, variables);
    let mut lits: Vec<Lit> = Vec::new(alloc);
    for word in words {
        let number: i32 = word.parse().ok()?;
        let variable = number.unsigned_abs();
        if variable == 0 {
            add(alloc, &mut cnf, &lits)?;
            lits.clear();
        } else {
            if variable > 1000000 {
                return None;
            }
            lits.push(Lit::new(variable - 1, number > 0)).ok()?;
        }
    }
    match solve(alloc, &cnf, budget).ok()? {
        Outcome::Sat(_) => Some(("sat", 0)),
        Outcome::Unsat(log) => Some(("unsat", log.len())),
        Outcome::Spent(log) => Some(("spent", log.len())),
    }
}

fn main(rt: HostRuntime) -> io::Result<()> {
    for line in rt.lines(rt.alloc()) {
        let line = line?;
        match answer(rt.alloc(), line.as_str()) {
            None => println!(rt; "no answer")?,
            Some((outcome, count)) => println!(rt; "{outcome} {count}")?,
        }
    }
    Ok(())
}
"""

INVARIANTS = r"""use Rattle.std.proofs.Common.{take}
use Rattle.civl_cnf.specs.ClauseSet.{IsBelow}
use Rattle.civl_search.proofs.is_below.Given as goal

abbrev pub invariant-loop-lit : goal.invariant-loop-lit
invariant-loop-lit l = IsBelow l.variables (take l.lit-index l.lits)
"""

ANSWERS = r"""use Rattle.std.proofs.Common.{◌≡◌, ◌<◌, ◌∙◌, ap, get_or, subst, arith}
use Rattle.std.proofs.lemmas.List.{take_all}
use Rattle.std.proofs.lemmas.List.Elements.{All-more}
use Rattle.civl_cnf.specs.Literal.{Literal}
use Rattle.civl_cnf.specs.ClauseSet.{IsBelow}
use Rattle.civl_search.proofs.is_below.Goals as goal

pub loop-lit-preserved : goal.loop-lit-preserved
loop-lit-preserved c =
    let lits = c.args.lits.now in
    let at = c.loop-lit.lit-index in
    let is : c.variable.result ≡ (get_or lits at c.lit-item.result).variable = c.variable.ensures.is ∙ ap (λ (l : Literal). l.variable) c.lit-item.is in
    All-more (λ (l : Literal). l.variable < c.args.variables) lits at c.lit-item.result c.loop-lit-test.true c.loop-lit.invariant (omega arith)

pub returns : goal.returns
returns c = λ t. subst (IsBelow c.args.variables) (take_all c.loop-lit.lit-index c.args.lits.now c.loop-lit-test.false) c.loop-lit.invariant
"""


FILES = {
    "src/main.rt": PROGRAM,
    "proofs/is_below/Invariants.antt": INVARIANTS,
    "proofs/is_below/Answers.antt": ANSWERS,
}


def pigeons(holes):
    """One pigeon more than there are holes."""
    at = lambda pigeon, hole: pigeon * holes + hole + 1
    clauses = [[at(pigeon, hole) for hole in range(holes)] for pigeon in range(holes + 1)]
    for hole in range(holes):
        for first in range(holes + 1):
            clauses += [[-at(first, hole), -at(second, hole)] for second in range(first + 1, holes + 1)]
    return (holes + 1) * holes, clauses


class Circuit:
    """Gates as clauses (Tseitin)."""

    def __init__(self, variables):
        self.variables, self.clauses = variables, []

    def gate(self, *clauses):
        """A new variable; 0 stands for it in the clauses."""
        self.variables += 1
        out = self.variables
        for positive, lits in clauses:
            self.clauses.append([out if positive else -out] + lits)
        return out

    def both(self, a, b):
        return self.gate((False, [a]), (False, [b]), (True, [-a, -b]))

    def odd(self, a, b):
        return self.gate((False, [a, b]), (False, [-a, -b]), (True, [-a, b]), (True, [a, -b]))

    def either(self, a, b):
        return self.gate((True, [-a]), (True, [-b]), (False, [a, b]))

    def sum(self, a, b, carry):
        half = self.odd(a, b)
        return self.odd(half, carry), self.either(self.both(a, b), self.both(half, carry))


def product(circuit, width, x, y):
    """The low bits of the product, by rows that are added one after the other."""
    total = [circuit.both(x[0], y[at]) for at in range(width)]
    for row in range(1, width):
        carry = None
        for at in range(row, width):
            bit = circuit.both(x[row], y[at - row])
            if carry is None:
                total[at], carry = circuit.odd(total[at], bit), circuit.both(total[at], bit)
            else:
                total[at], carry = circuit.sum(total[at], bit, carry)
    return total


def commutes(width):
    """x * y and y * x differ in a bit."""
    circuit = Circuit(2 * width)
    x, y = list(range(1, width + 1)), list(range(width + 1, 2 * width + 1))
    left, right = product(circuit, width, x, y), product(circuit, width, y, x)
    circuit.clauses.append([circuit.odd(a, b) for a, b in zip(left, right)])
    return circuit.variables, circuit.clauses


def random_clauses(variables, seed):
    """Clauses of three literals, 4.26 for each variable."""
    choice = random.Random(seed)
    clauses = []
    for _ in range(round(4.26 * variables)):
        lits = choice.sample(range(1, variables + 1), 3)
        clauses.append([lit if choice.random() < 0.5 else -lit for lit in lits])
    return variables, clauses


SETS = {
    **{f"{holes + 1} pigeons in {holes} holes": pigeons(holes) for holes in (3, 4, 5, 6, 7)},
    **{f"a product of {width} bits commutes": commutes(width) for width in (3, 4, 5, 6)},
    **{f"3-SAT of {variables} variables, seed {seed}": random_clauses(variables, seed) for variables in (50, 100, 150) for seed in (1, 2, 3)},
}


def main():
    if len(sys.argv) != 2:
        sys.exit(__doc__)
    binary = program.built(sys.argv[1], "civl_search", CRATES, FILES)
    for name, (variables, clauses) in SETS.items():
        words = [BUDGET, variables]
        for clause in clauses:
            words += clause + [0]
        start = time.perf_counter()
        done = subprocess.run([binary], input=(" ".join(map(str, words)) + "\n").encode(), capture_output=True)
        seconds = time.perf_counter() - start
        print(f"{name}: {variables} variables, {len(clauses)} clauses, {seconds:.2f} s, {done.stdout.decode().strip()}", flush=True)


if __name__ == "__main__":
    main()
