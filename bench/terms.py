#!/usr/bin/env python3
"""Times the building of the terms of all formulas of a program.

Usage: terms.py FOLDER [TEXT ..]        (a scratch folder, in which a program over the crates is compiled by `rt try`, which proves nothing)

The texts are those of bench/texts.py that have many conditions and those of other shapes, where none is named. Of each the program tells for every kind of condition and for all together: how many conditions these are, the nodes of their graphs, the weight of their formulas and of their graphs, the seconds of the processor that building their terms takes once, and the nanoseconds for each unit of the formulas' weight. `rt try` optimizes nothing and checks each access to memory, so all takes some two hundred times as long as in the built program, and compiling and running some four minutes; what tells is how the last number differs from program to program and from kind to kind.
"""
import os
import subprocess
import sys

import program
from texts import many_conditions, other_shapes

CRATES = program.closure(["civl_maker", "civl_yields", "civl_parser", "civl_weights"])

PROGRAM = r"""//! Reads texts, each with a line `.` behind it. Makes the terms of all formulas of its program, and prints for each kind of condition how
//! many there are, the nodes, the weights of the formulas and of the graphs, and the nanoseconds for all once.
#![tactic(auto)]

mod kinds;
mod measuring;

use crate::kinds::{step_of, weigh};
use crate::measuring::measure;
use civl_bodies::bodies_of;
use civl_conditions::Condition;
use civl_verdicts::judging::{Made, Makes};
use civl_layers::{Held, Layered, layered};
use civl_lex::tokens;
use civl_maker::Maker;
use civl_parser::parse;
use civl_weights::sums::steps::{first_sums, sums_at};
use civl_weights::sums::tables::work_out;
use civl_tree::{List, Program};
use civl_types::check;
use civl_yields::verify::{Admitted, admit, locals_held, source};
use civl_weights::conditions;
use std::alloc::Global;
use std::io;
use std::time::CpuClock;

/// A kind of condition.
#[derive(Clone, Copy, PartialEq, Eq)]
enum Kind {
    Start,
    Keep,
    Pair,
    Fire,
    Path,
    Block,
    Act,
}

const KINDS: [Kind; 7] = [
    Kind::Start,
    Kind::Keep,
    Kind::Pair,
    Kind::Fire,
    Kind::Path,
    Kind::Block,
    Kind::Act,
];

fn name(kind: Kind) -> &'static str {
    match kind {
        Kind::Start => "K1",
        Kind::Keep => "K2",
        Kind::Pair => "K3-K7",
        Kind::Fire => "K8",
        Kind::Path => "K9",
        Kind::Block => "K10",
        Kind::Act => "K11",
    }
}

fn kind_of(condition: &Condition) -> Kind {
    match *condition {
        Condition::Start(_, _) => Kind::Start,
        Condition::Keep(_, _) => Kind::Keep,
        Condition::Pair(_, _, _, _) => Kind::Pair,
        Condition::Fire(_, _) => Kind::Fire,
        Condition::Path(_, _, _, _) => Kind::Path,
        Condition::Block(_, _, _, _) => Kind::Block,
        Condition::Act(_, _, _) => Kind::Act,
    }
}

/// The conditions of a kind: how many, the nodes, the weights of the formulas and of the graphs, and the nanoseconds.
#[derive(Clone, Copy)]
struct Part {
    count: u64,
    nodes: u64,
    formulas: u64,
    graphs: u64,
    nanos: u64,
}

/// The conditions of these that are of a kind.
fn of_kind(alloc: Global, kind: Kind, list: &List<Condition>) -> Option<Vec<Condition>> {
    let mut found = Vec::new(alloc);
    for condition in list.as_slice() {
        if kind_of(condition) == kind {
            found.push(*condition).ok()?;
        }
    }
    Some(found)
}

fn now(rt: &impl CpuClock) -> Option<u64> {
    let time = rt.thread_cpu_time().ok()?;
    let whole = time.as_secs().saturating_mul(1_000_000_000);
    Some(whole.saturating_add(time.subsec_nanos() as u64))
}

/// How large the terms of the conditions of a kind are, and how long it takes to make them.
fn measured(
    rt: &(impl CpuClock + AllocGlobal),
    src: &Layered,
    held: &Held,
    list: &List<Condition>,
    kind: Kind,
) -> Option<Part> {
    let found = of_kind(rt.alloc(), kind, list)?;
    let mut part = Part {
        count: found.len() as u64,
        nodes: 0,
        formulas: 0,
        graphs: 0,
        nanos: 0,
    };
    let bodies = bodies_of(rt.alloc(), src).ok()?;
    let tables = work_out(rt.alloc(), src, held).ok()?;
    let mut step = first_sums(rt.alloc(), src).ok()?;
    for condition in found.as_slice() {
        step = sums_at(rt.alloc(), src, step, step_of(condition)).ok()?;
        let weight = weigh(rt.alloc(), src, &tables, &step, condition).ok()?;
        let start = now(rt)?;
        let Made { terms, .. } = Maker.violation(rt.alloc(), src, held, &bodies, condition).ok()?;
        part.nanos += now(rt)?.saturating_sub(start);
        part.nodes += terms.len() as u64;
        part.formulas += weight.number as u64;
        part.graphs += measure(&terms)? as u64;
    }
    Some(part)
}

/// The program that a text spells.
fn spelled(alloc: Global, text: &str) -> Option<Program> {
    let tokens = tokens(alloc, text.as_bytes()).ok()?;
    let program = parse(alloc, tokens.as_slice()).ok()?;
    Some(program)
}

/// A program that keeps all static rules.
fn admitted(alloc: Global, program: Program) -> Option<Admitted> {
    let typed = check(alloc, program).ok()?;
    let src = layered(typed).ok()?;
    let admitted = admit(alloc, src).ok()?;
    Some(admitted)
}

/// The kinds of a program's conditions, in their order.
fn parts(rt: &(impl CpuClock + AllocGlobal), text: &str) -> Option<Vec<Part>> {
    let program = spelled(rt.alloc(), text)?;
    let admitted = admitted(rt.alloc(), program)?;
    let src = source(&admitted);
    let held = locals_held(&admitted);
    let list = conditions(rt.alloc(), src, held).ok()?;
    let mut parts = Vec::new(rt.alloc());
    for kind in KINDS {
        let part = measured(rt, src, held, &list, kind)?;
        parts.push(part).ok()?;
    }
    Some(parts)
}

fn show(rt: &(impl CpuClock + AllocGlobal + Print), text: &str) -> io::Result<()> {
    match parts(rt, text) {
        None => println!(rt; "no terms")?,
        Some(parts) => {
            for (at, part) in parts.as_slice().iter().enumerate() {
                let Part {
                    count,
                    nodes,
                    formulas,
                    graphs,
                    nanos,
                } = *part;
                let name = name(KINDS[at]);
                println!(rt; "{name} {count} {nodes} {formulas} {graphs} {nanos}")?;
            }
        }
    }
    println!(rt; ".")
}

fn main(rt: HostRuntime) -> io::Result<()> {
    let mut text = String::new(rt.alloc());
    for line in rt.lines(rt.alloc()) {
        let line = line?;
        if line.as_str() == "." {
            show(&rt, text.as_str())?;
            text = String::new(rt.alloc());
        } else {
            text.push_str(line.as_str())?;
            text.push_str("\n")?;
        }
    }
    Ok(())
}
"""


def source(crate, path):
    """A file of a crate, as the program's own."""
    with open(os.path.join(program.CRATES, crate, path)) as file:
        return file.read()


FILES = {
    "src/main.rt": PROGRAM,
    "src/kinds.rt": source("civl_weights", "src/kinds.rt"),
    "src/measuring.rt": source("civl_clause_tests", "src/measuring.rt"),
}


def show(name, parts, text):
    """The kinds of a text's conditions and all together, each with its numbers."""
    print(f"{name}: {len(text)} bytes")
    for kind, (count, nodes, formulas, graphs, nanos) in parts.items():
        if count:
            print(f"  {kind}: {count:,} conditions, {nodes:,} nodes, weight {formulas:,} of the formulas and {graphs:,} of the graphs, "
                  f"{nanos / 1e9:.6f} s, {nanos / formulas:.0f} ns for each unit", flush=True)


def read(answer):
    """The numbers of each kind of condition, and those of all; none where there are no terms."""
    lines = [line.split() for line in answer.splitlines()]
    parts = {kind: tuple(map(int, numbers)) for kind, *numbers in lines if len(numbers) == 5}
    parts["all"] = tuple(map(sum, zip(*parts.values()))) if parts else (0,) * 5
    return parts


def main():
    if len(sys.argv) < 2:
        sys.exit(__doc__)
    texts = {path: open(path).read() for path in sys.argv[2:]} or {**many_conditions(), **other_shapes()}
    given = "".join(text.rstrip("\n") + "\n.\n" for text in texts.values())
    answers = program.tried(sys.argv[1], "civl_timing", CRATES, FILES, given).split("\n.\n")
    for (name, text), answer in zip(texts.items(), answers):
        if "no terms" in answer:
            sys.exit(f"{name} has no terms")
        show(name, read(answer), text)


if __name__ == "__main__":
    main()
