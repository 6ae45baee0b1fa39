#!/usr/bin/env python3
"""Makes the clause sets of conditions with products, shifts and divisions.

Usage: clauses.py FOLDER [KIND WIDTH]        (a scratch folder, in which a program over the library is proved and built, once)

The program reads a line KIND WIDTH, builds the term of an inequality that no values make true, blasts it, as each condition's term is, and prints the variables and the clauses as in DIMACS, in one line. With a kind and a width the clause set is printed as a file of DIMACS, and else for each set its variables and clauses.
"""
import subprocess
import sys

import blast
import program

CRATES = blast.CRATES

KINDS = {
    "times_ten": (16, 32),
    "distributes": (16, 32),
    "shift_of_sum": (16, 32),
    "shift_and_back": (16, 32),
    "division_by_10": (16, 32),
    "division_by_7": (16, 32),
}

PROGRAM = r"""//! Reads a kind of inequality and a width a line. Builds the term, blasts it, and prints the variables and the clauses as in DIMACS.
#![tactic(auto)]

ghost use Rattle.std.specs.Prelude.{◌≡◌, ◌≤◌, ℕ, Some, IsSome, IsTrue, IfSome};
ghost use Rattle.civl_tree.specs.declared.expr.Sort.TheVariants as sort;
ghost use Rattle.civl_tree.specs.rules.Sorts.{two_sort};
ghost use Rattle.civl_firing.specs.values.Values.{is_sort};

mod measuring;

use civl_bits::{Value, Word};
use civl_blast::blast;
use civl_cnf::Cnf;
use civl_terms::{Id, Terms};
use civl_tree::{Sort, Two};
use crate::measuring::{has_sort, measure};
use std::alloc::Global;
use std::io;

const SHORT: Sort = Sort::Word(16);

const LONG: Sort = Sort::Word(32);

/// Whether an operation takes two words of 16 bits, and of 32.
fn takes_words(op: Two) -> bool
    ensures short { IsTrue result → IsSome (two_sort op (Some (sort.Word 16)) (Some (sort.Word 16))) }
    ensures long { IsTrue result → IsSome (two_sort op (Some (sort.Word 32)) (Some (sort.Word 32))) }
{
    match op {
        Two::Add | Two::Mul | Two::Shl | Two::Shr | Two::Udiv | Two::Urem | Two::Ne => true,
        _ => false,
    }
}

/// An operation on two words of 16 bits, or of 32.
fn two(terms: &mut Terms, op: Two, a: Id, b: Id) -> Option<Id> {
    if !takes_words(op) {
        return None;
    }
    let first = has_sort(terms, a, SHORT);
    let second = has_sort(terms, b, SHORT);
    if first && second {
        return terms.two(op, a, b).ok();
    }
    let first = has_sort(terms, a, LONG);
    let second = has_sort(terms, b, LONG);
    if first && second {
        return terms.two(op, a, b).ok();
    }
    None
}

/// A variable that is a word of 16 bits, or of 32.
fn word(terms: &mut Terms, number: u32, width: u32) -> Option<Id> {
    if width == 16 {
        crate::measuring::variable(terms, number, SHORT).ok()?
    } else {
        crate::measuring::variable(terms, number, LONG).ok()?
    }
}

/// A number of so many bits.
fn number(terms: &mut Terms, width: u32, value: u32) -> Option<Id> {
    let word = Word::new(width, value)?;
    terms.constant(Value::Word(word)).ok()
}

/// Ten times a word isn't the sum of two shifts.
fn times_ten(terms: &mut Terms, width: u32) -> Option<Id> {
    let x = word(terms, 0, width)?;
    let ten = number(terms, width, 10)?;
    let three = number(terms, width, 3)?;
    let one = number(terms, width, 1)?;
    let product = two(terms, Two::Mul, x, ten)?;
    let high = two(terms, Two::Shl, x, three)?;
    let low = two(terms, Two::Shl, x, one)?;
    let sum = two(terms, Two::Add, high, low)?;
    two(terms, Two::Ne, product, sum)
}

/// Ten times a sum isn't the sum of the products.
fn distributes(terms: &mut Terms, width: u32) -> Option<Id> {
    let x = word(terms, 0, width)?;
    let y = word(terms, 1, width)?;
    let ten = number(terms, width, 10)?;
    let sum = two(terms, Two::Add, x, y)?;
    let whole = two(terms, Two::Mul, sum, ten)?;
    let first = two(terms, Two::Mul, x, ten)?;
    let second = two(terms, Two::Mul, y, ten)?;
    let parts = two(terms, Two::Add, first, second)?;
    two(terms, Two::Ne, whole, parts)
}

/// A shift of a sum isn't the sum of the shifts.
fn shift_of_sum(terms: &mut Terms, width: u32) -> Option<Id> {
    let x = word(terms, 0, width)?;
    let y = word(terms, 1, width)?;
    let by = word(terms, 2, width)?;
    let sum = two(terms, Two::Add, x, y)?;
    let whole = two(terms, Two::Shl, sum, by)?;
    let first = two(terms, Two::Shl, x, by)?;
    let second = two(terms, Two::Shl, y, by)?;
    let parts = two(terms, Two::Add, first, second)?;
    two(terms, Two::Ne, whole, parts)
}

/// A word that is shifted to the left, back and to the left again isn't the word that is shifted once.
fn shift_and_back(terms: &mut Terms, width: u32) -> Option<Id> {
    let x = word(terms, 0, width)?;
    let by = word(terms, 1, width)?;
    let once = two(terms, Two::Shl, x, by)?;
    let back = two(terms, Two::Shr, once, by)?;
    let again = two(terms, Two::Shl, back, by)?;
    two(terms, Two::Ne, once, again)
}

/// A quotient times the divisor and the remainder isn't the word that was divided.
fn division_by(terms: &mut Terms, width: u32, divisor: u32) -> Option<Id> {
    let x = word(terms, 0, width)?;
    let by = number(terms, width, divisor)?;
    let quotient = two(terms, Two::Udiv, x, by)?;
    let rest = two(terms, Two::Urem, x, by)?;
    let product = two(terms, Two::Mul, quotient, by)?;
    let sum = two(terms, Two::Add, product, rest)?;
    two(terms, Two::Ne, sum, x)
}

fn build(terms: &mut Terms, kind: &str, width: u32) -> Option<Id> {
    match kind {
        "times_ten" => times_ten(terms, width),
        "distributes" => distributes(terms, width),
        "shift_of_sum" => shift_of_sum(terms, width),
        "shift_and_back" => shift_and_back(terms, width),
        "division_by_10" => division_by(terms, width, 10),
        "division_by_7" => division_by(terms, width, 7),
        _ => None,
    }
}

/// The clause set of the line's term.
fn answer(alloc: Global, text: &str) -> Option<Cnf> {
    let mut words = text.split_whitespace();
    let kind = words.next()?;
    let width: u32 = words.next()?.parse().ok()?;
    let mut terms = Terms::new(alloc);
    let id = build(&mut terms, kind, width)?;
    let weight = measure(&terms)?;
    let is_bool = has_sort(&terms, id, Sort::Bool);
    if weight > 1600000 || !is_bool {
        return None;
    }
    let blasted = blast(alloc, &mut terms, id).ok()?;
    Some(blasted.cnf)
}

fn print(rt: &HostRuntime, cnf: &Cnf) -> io::Result<()> {
    let variables = cnf.variables();
    print!(rt; "{variables}")?;
    for clause in cnf.clauses() {
        for lit in clause.lits() {
            let number = u64::from(lit.variable()) + 1;
            if lit.positive() {
                print!(rt; " {number}")?;
            } else {
                print!(rt; " -{number}")?;
            }
        }
        print!(rt; " 0")?;
    }
    println!(rt; "")?;
    Ok(())
}

fn main(rt: HostRuntime) -> io::Result<()> {
    for line in rt.lines(rt.alloc()) {
        let line = line?;
        match answer(rt.alloc(), line.as_str()) {
            None => println!(rt; "no answer")?,
            Some(cnf) => print(&rt, &cnf)?,
        }
    }
    Ok(())
}
"""

FILES = {
    **{path: text.replace("civl_timing", "civl_sets") for path, text in blast.FILES.items() if path.startswith(("src/measuring", "proofs/measuring"))},
    "src/main.rt": PROGRAM,
    "proofs/answer/Answers.antt": blast.ANSWER_ANSWERS.replace("civl_timing", "civl_sets"),
}


def made(folder, kind, width):
    """The variables and the clauses of the set."""
    binary = program.built(folder, "civl_sets", CRATES, FILES)
    done = subprocess.run([binary], input=f"{kind} {width}\n".encode(), stdout=subprocess.PIPE, check=True)
    variables, *numbers = map(int, done.stdout.split())
    clauses, clause = [], []
    for number in numbers:
        if number:
            clause.append(number)
        else:
            clauses.append(clause)
            clause = []
    return variables, clauses


def main():
    if len(sys.argv) not in (2, 4):
        sys.exit(__doc__)
    if len(sys.argv) == 4:
        variables, clauses = made(sys.argv[1], sys.argv[2], int(sys.argv[3]))
        print(f"p cnf {variables} {len(clauses)}")
        for clause in clauses:
            print(*clause, 0)
        return
    for kind, widths in KINDS.items():
        for width in widths:
            variables, clauses = made(sys.argv[1], kind, width)
            print(f"{kind} {width}: {variables} variables, {len(clauses)} clauses", flush=True)


if __name__ == "__main__":
    main()
