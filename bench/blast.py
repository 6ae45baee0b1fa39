#!/usr/bin/env python3
"""Times civl_blast on terms of about the greatest weight that a condition may have.

Usage: blast.py FOLDER        (a scratch folder, in which a program over the library is proved and built, once)

The program reads a line KIND COUNT, builds a chain of COUNT operations of this kind, blasts it and prints the graph's weight and the numbers of the variables, the clauses and the places. Each line that is printed: the kind and the count, these four numbers, the seconds by the clock and of the processor (the graph's building and weighing count too), and the greatest size of the process in megabytes.
"""
import os
import subprocess
import sys
import time

import program

CRATES = ["civl_tree", "civl_bits", "civl_firing", "civl_terms", "civl_cnf", "civl_circuits", "civl_symbolic", "civl_blast"]

# How many of each weigh about 400,000: 64 a sum of 32 bits, 2,048 a product, 4,096 a division, 192 a shift, 2,432 a write of a row of 64 words, 129 a row of 64 bits that is read once (so each of its cells is an input) and 1 a `!` or `&&`.
COUNTS = {"sums": 6_245, "products": 195, "divisions": 97, "shifts": 2_080, "rows": 162, "bits": 3_000, "deep": 399_900}

PROGRAM = r"""//! Reads a kind of term and a count a line. Builds the term, blasts it, and prints the graph's weight and the variables and the clauses.
#![tactic(auto)]

ghost use Rattle.std.specs.Prelude.{◌≡◌, ◌≤◌, length, Some, IsSome, IsTrue, IfSome};
ghost use Rattle.civl_tree.specs.declared.expr.Sort.TheVariants as sort;
ghost use Rattle.civl_tree.specs.rules.Sorts.{two_sort};
ghost use Rattle.civl_firing.specs.values.Values.{is_sort};

mod measuring;

use civl_blast::blast;
use civl_terms::{Id, Terms};
use civl_tree::{One, Sort, Two};
use crate::measuring::{has_sort, measure};
use std::alloc::Global;
use std::io;

const WORD: Sort = Sort::Word(32);

const INDEX: Sort = Sort::Word(6);

const ROW: Sort = Sort::Row(6, 32);

const BIT: Sort = Sort::Word(1);

const BITS: Sort = Sort::Row(6, 1);

fn variable(terms: &mut Terms, number: u32, sort: Sort) -> Option<Id>
    requires { IsTrue (is_sort sort) }
{
    crate::measuring::variable(terms, number, sort).ok()?
}

/// Variables of one sort, with numbers from this one on.
fn variables(alloc: Global, terms: &mut Terms, first: u32, sort: Sort) -> Option<Vec<Id>>
    requires first { first ≤ 1000 }
    requires limits { IsTrue (is_sort sort) }
    ensures { IfSome result (λ ids. length ids.items ≡ 7) }
{
    let mut ids = Vec::new(alloc);
    for more in 0..7 {
        let id = variable(terms, first + more, sort)?;
        ids.push(id).ok()?;
    }
    Some(ids)
}

fn two(terms: &mut Terms, op: Two, sort: Sort, a: Id, b: Id) -> Option<Id>
    requires { IsSome (two_sort op (Some sort) (Some sort)) }
{
    let first = has_sort(terms, a, sort);
    let second = has_sort(terms, b, sort);
    if !first || !second {
        return None;
    }
    terms.two(op, a, b).ok()
}

fn not(terms: &mut Terms, a: Id) -> Option<Id> {
    let is_bool = has_sort(terms, a, Sort::Bool);
    if !is_bool {
        return None;
    }
    terms.one(One::Not, a).ok()
}

fn set(terms: &mut Terms, row: Id, at: Id, cell: Id) -> Option<Id> {
    let is_row = has_sort(terms, row, ROW);
    let is_index = has_sort(terms, at, INDEX);
    let is_cell = has_sort(terms, cell, WORD);
    if !is_row || !is_index || !is_cell {
        return None;
    }
    terms.set(row, at, cell).ok()
}

fn get(terms: &mut Terms, width: u32, row: Id, at: Id) -> Option<Id> {
    let is_row = has_sort(terms, row, Sort::Row(6, width));
    let is_index = has_sort(terms, at, INDEX);
    if !is_row || !is_index {
        return None;
    }
    terms.get(row, at).ok()
}

/// Whether a chain of operations on words is a word.
fn chain(alloc: Global, terms: &mut Terms, op: Two, count: usize) -> Option<Id>
    requires { IsSome (two_sort op (Some (sort.Word 32)) (Some (sort.Word 32))) }
{
    let words = variables(alloc, terms, 0, WORD)?;
    let mut last = words[0];
    for at in 0..count {
        last = two(terms, op, WORD, last, words[1 + at % 6])?;
    }
    two(terms, Two::Eq, WORD, last, words[0])
}

/// Whether a chain of writes of a row has a cell.
fn rows(alloc: Global, terms: &mut Terms, count: usize) -> Option<Id> {
    let words = variables(alloc, terms, 0, WORD)?;
    let indices = variables(alloc, terms, 10, INDEX)?;
    let mut row = variable(terms, 20, ROW)?;
    for at in 0..count {
        row = set(terms, row, indices[at % 7], words[at % 6])?;
    }
    let cell = get(terms, 32, row, indices[0])?;
    two(terms, Two::Eq, WORD, cell, words[6])
}

/// Whether the odd one of the bits at an index of so many rows of bits is 1.
fn bit_rows(alloc: Global, terms: &mut Terms, count: usize) -> Option<Id> {
    let bits = variables(alloc, terms, 0, BIT)?;
    let indices = variables(alloc, terms, 10, INDEX)?;
    let mut last = bits[0];
    for at in 0..count.min(10000) {
        let row = variable(terms, 20 + at as u32, BITS)?;
        let bit = get(terms, 1, row, indices[0])?;
        last = two(terms, Two::BitXor, BIT, last, bit)?;
    }
    two(terms, Two::Eq, BIT, last, bits[1])
}

/// A deep chain of `!` and `&&`.
fn deep(alloc: Global, terms: &mut Terms, count: usize) -> Option<Id> {
    let bools = variables(alloc, terms, 0, Sort::Bool)?;
    let mut last = bools[0];
    for at in 0..count / 2 {
        last = two(terms, Two::And, Sort::Bool, last, bools[1 + at % 6])?;
        last = not(terms, last)?;
    }
    Some(last)
}

fn build(alloc: Global, terms: &mut Terms, kind: &str, count: usize) -> Option<Id> {
    match kind {
        "sums" => chain(alloc, terms, Two::Add, count),
        "products" => chain(alloc, terms, Two::Mul, count),
        "divisions" => chain(alloc, terms, Two::Udiv, count),
        "shifts" => chain(alloc, terms, Two::Shl, count),
        "rows" => rows(alloc, terms, count),
        "bits" => bit_rows(alloc, terms, count),
        "deep" => deep(alloc, terms, count),
        _ => None,
    }
}

/// The weight of the line's term, and the variables, the clauses and the places that stand for it.
fn answer(alloc: Global, text: &str) -> Option<(u32, u32, usize, usize)> {
    let mut words = text.split_whitespace();
    let kind = words.next()?;
    let count: usize = words.next()?.parse().ok()?;
    let mut terms = Terms::new(alloc);
    let id = build(alloc, &mut terms, kind, count)?;
    let weight = measure(&terms)?;
    let is_bool = has_sort(&terms, id, Sort::Bool);
    if weight > 1600000 || !is_bool {
        return None;
    }
    let blasted = blast(alloc, &mut terms, id).ok()?;
    let places = blasted.places.as_slice().len();
    Some((weight, blasted.cnf.variables(), blasted.cnf.len(), places))
}

fn main(rt: HostRuntime) -> io::Result<()> {
    for line in rt.lines(rt.alloc()) {
        let line = line?;
        match answer(rt.alloc(), line.as_str()) {
            None => println!(rt; "no answer")?,
            Some((weight, variables, clauses, places)) => {
                println!(rt; "{weight} {variables} {clauses} {places}")?
            }
        }
    }
    Ok(())
}
"""

VARIABLES_INVARIANTS = r"""use Rattle.std.proofs.Common.{◌≡◌, length}
use Rattle.civl_timing.proofs.variables.Given as goal

abbrev pub invariant-loop-more : goal.invariant-loop-more
invariant-loop-more l = length l.ids.items ≡ l.more
"""

ANSWER_ANSWERS = r"""use Rattle.std.proofs.Common.{refl, arith}
use Rattle.civl_terms.proofs.Weighing.{terms_weigh_less}
use Rattle.civl_timing.proofs.answer.Goals as goal

pub blast-requires-clause-light : goal.blast-requires-clause-light
blast-requires-clause-light c = omega (arith, terms_weigh_less c.build.new.terms c.in_ok-id.id (c.if-not-is_bool.ensures.within refl), c.in_ok-weight.ensures.weight, c.if-weight-gt1600000.false)
"""

TESTS = os.path.join(program.CRATES, "civl_clause_tests")


def shared(path):
    """A file of civl_clause_tests, as the program's own."""
    with open(os.path.join(TESTS, path)) as file:
        return file.read().replace("civl_clause_tests", "civl_timing")


FILES = {
    "src/main.rt": PROGRAM,
    "proofs/variables/Invariants.antt": VARIABLES_INVARIANTS,
    "proofs/answer/Answers.antt": ANSWER_ANSWERS,
    **{path: shared(path) for path in (
        "src/measuring.rt",
        "proofs/measuring/measure/Invariants.antt",
        "proofs/measuring/measure/Answers.antt",
        "proofs/measuring/is_free/Invariants.antt",
    )},
}


def timed(binary, line):
    """What the program prints for a line, its seconds by the clock and of the processor, and its greatest size in megabytes."""
    start = time.perf_counter()
    child = subprocess.Popen([binary], stdin=subprocess.PIPE, stdout=subprocess.PIPE)
    child.stdin.write(line.encode())
    child.stdin.close()
    text = child.stdout.read().decode().strip()
    _, status, usage = os.wait4(child.pid, 0)
    seconds = time.perf_counter() - start
    return text if status == 0 else f"status {status}", seconds, usage.ru_utime + usage.ru_stime, usage.ru_maxrss // 1024


def main():
    if len(sys.argv) != 2:
        sys.exit(__doc__)
    binary = program.built(sys.argv[1], "civl_timing", CRATES, FILES)
    for kind, count in COUNTS.items():
        text, seconds, busy, size = timed(binary, f"{kind} {count}\n")
        print(f"{kind} {count}: {text}, {seconds:.2f} s, {busy:.2f} s of the processor, {size} MB", flush=True)


if __name__ == "__main__":
    main()
