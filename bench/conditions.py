#!/usr/bin/env python3
"""Times the list of conditions, with all weights, on long programs.

Usage: conditions.py FOLDER        (a scratch folder, in which a program over civl_weights is proved and built, once)

The program reads a text and prints how many conditions its program has, where it breaks no rule and no formula weighs too much. Each line that is printed: what the text is, its bytes, the answer, and the seconds by the clock, from the text to the answer.
"""
import subprocess
import sys
import time

import program
from texts import LIMIT, at_all_limits

CRATES = [
    "civl_bits", "civl_tree", "civl_lex", "civl_phrases", "civl_expressions", "civl_statements", "civl_declarations",
    "civl_parser", "civl_firing", "civl_meaning", "civl_names", "civl_types", "civl_layers", "civl_linear", "civl_conditions",
    "civl_script", "civl_weighing", "civl_weights",
]

PROGRAM = r"""//! Reads a text and prints how many conditions its program has, where it breaks no rule and no formula weighs too much.
#![tactic(auto)]

ghost use Rattle.std.specs.Prelude.{◌≡◌, IfSome};
ghost use Rattle.civl_linear.specs.Cuts.{all_held};
ghost use Rattle.civl_tree.specs.Numbered.{IsNumbered};

use civl_layers::{Layered, layered};
use civl_lex::tokens;
use civl_linear::held;
use civl_parser::parse;
use civl_tree::Program;
use civl_types::check;
use civl_weights::conditions;
use std::alloc::Global;
use std::io;

/// The program that a text of at most a mebibyte spells.
fn program(alloc: Global, text: &str) -> Option<Program>
    ensures { IfSome result IsNumbered }
{
    let bytes = text.as_bytes();
    if bytes.len() > 1_048_576 {
        return None;
    }
    let Ok(tokens) = tokens(alloc, bytes) else {
        return None;
    };
    let Ok(program) = parse(alloc, tokens.as_slice()) else {
        return None;
    };
    Some(program)
}

/// The layered program of a text.
fn source(alloc: Global, text: &str) -> Option<Layered> {
    let program = program(alloc, text)?;
    let typed = check(alloc, program).ok()?;
    let src = layered(typed).ok()?;
    Some(src)
}

/// How many conditions the text's program has.
fn count(alloc: Global, text: &str) -> Option<usize> {
    let src = source(alloc, text)?;
    let held = held(alloc, &src).ok()?;
    let list = conditions(alloc, &src, &held).ok()?;
    Some(list.len())
}

fn main(rt: HostRuntime) -> io::Result<()> {
    let mut text = String::new(rt.alloc());
    for line in rt.lines(rt.alloc()) {
        let line = line?;
        text.push_str(line.as_str())?;
        text.push_str("\n")?;
    }
    match count(rt.alloc(), text.as_str()) {
        None => println!(rt; "no list"),
        Some(count) => println!(rt; "{count} conditions"),
    }
}
"""

PROGRAM_ANSWERS = r"""use Rattle.std.proofs.Common.{◌≡◌, ◌≤◌, List, length, sym, ap, subst, arith}
use Rattle.civl_tree.specs.Token.{Token}
use Rattle.civl_lex.specs.Spelled.{spelled}
use Rattle.civl_lex.specs.Text.{HasTokens}
use Rattle.civl_script.proofs.Counting.{text_numbers}
use Rattle.civl_timing.proofs.program.Goals as goal

pub returns : goal.returns
returns c =
    let bytes = c.as_bytes-bytes.result.now in
    let tokens = spelled c.as_slice.result.now in
    let e : tokens ≡ spelled c.in-Ok.tokens.items = ap spelled c.as_slice.ensures.value in
    let has : HasTokens bytes tokens = subst (λ (ts : List Token). HasTokens bytes ts) (sym e) c.in-Ok.ensures.tokens in
    let read = c.in-Ok-parse.ensures.right in
    let short : length bytes ≤ 1048576 = omega (arith, c.if-bytes-gt1048576.false) in
    text_numbers bytes tokens c.in-Ok-parse.program has (read.fits, read.parts) short
"""

FILES = {"src/main.rt": PROGRAM, "proofs/program/Answers.antt": PROGRAM_ANSWERS}

def one_procedure(body):
    """One global, one action, and a procedure of this body, which refines another action."""
    return ("civl 2; layers 1; permissions 1;\nglobal x : word(8) layers 0 to 1;\ninit true;\n"
            "action A() -> () choose () layers 0 to 0 both gate true guard true { }\n"
            "action B() -> () choose (c : word(8) = 0:8) layers 1 to 1 atomic gate true guard true { x := c; }\n"
            "proc P() -> () refines B with (0:8) layer 1 {\nvar b : word(8);\n" + body + "commit; }\n")


def nested_ifs():
    """A megabyte in 58 `if`s within one another."""
    calls = "call A() -> ();\n" * (LIMIT // 58 // 17)
    return one_procedure("if (b == 0:8) {\n%s" % calls * 58 + "} else { }\n" * 58)


def yields_behind_ifs():
    """254 yields, each in an `if`, in a megabyte: each path passes the rest of the text."""
    calls = "call A() -> ();\n" * (LIMIT // 255 // 17)
    return one_procedure(("if (b == 0:8) { yield true; } else { }\n" + calls) * 254)


TEXTS = {
    "a program at all limits": at_all_limits("bool", False),
    "the same with a megabyte of calls": at_all_limits("bool", True),
    "58 nested ifs": nested_ifs(),
    "254 yields behind ifs": yields_behind_ifs(),
}


def timed(binary, text):
    start = time.perf_counter()
    done = subprocess.run([binary], input=text.encode(), capture_output=True)
    return time.perf_counter() - start, done.stdout.decode().strip()


def main():
    if len(sys.argv) != 2:
        sys.exit(__doc__)
    binary = program.built(sys.argv[1], "civl_timing", CRATES, FILES)
    for name, text in TEXTS.items():
        seconds, answer = timed(binary, text)
        print(f"{name}: {len(text)} bytes, {answer}, {seconds:.2f} s", flush=True)


if __name__ == "__main__":
    main()
