#!/usr/bin/env python3
"""Times `lift` of the built program on schedules of up to 100,000 moves.

Usage: lifting.py BINARY [N ..]           (crates/civl_lift/out/civl_lift after `rt run` in crates/civl_lift)
       lifting.py --text N [even|early]   (prints a script of about N moves, and ends)

The program has four layers over a spinlock. Threads take turns at random, a move each, with a fixed seed, until a flag has been set and a thread that has seen it stands before an assert. In a schedule that is `even` seven threads count under the lock, a short block after the other, and the eighth one sets the flag as its choices say. In one that is `early` six threads have long blocks in which they count down before their turn, and one counts under the lock. For each number of moves one line: the moves, the seconds of the processor and by the clock (of the quickest of three runs), the greatest size of the process in megabytes (at least that of this script, of which the process begins as a copy), and how often those of the first line of this kind the moves and the seconds of the processor are.
"""
import random
import sys

from checks import timed

THREADS = 8

PROGRAM = """civl 1; layers 4; permissions 4;
global b : bool layers 0 to 0;
global lock : word(4) layers 1 to 1;
global x : word(8) layers 0 to 4;
global stop : bool layers 0 to 4;
init (((!b) && (lock == 0:4)) && (!stop));
invariant 1 (b == (lock != 0:4));
action Cas() -> (val ok : bool) choose () layers 0 to 0 atomic
  gate true guard true { b := true; ok := (!b); }
action Reset() -> () choose () layers 0 to 0 atomic
  gate true guard true { b := false; }
action Load() -> (val v : word(8)) choose () layers 0 to 0 atomic
  gate true guard true { v := x; }
action Store(val v : word(8)) -> () choose () layers 0 to 0 atomic
  gate true guard true { x := v; }
action AtomAcquire(lend t : word(4)) -> () choose () layers 1 to 1 right
  gate (t != 0:4) guard (lock == 0:4) { lock := t; }
action AtomRelease(lend t : word(4)) -> () choose () layers 1 to 1 left
  gate ((t != 0:4) && (lock == t)) guard true { lock := 0:4; }
action AtomRead(lend t : word(4)) -> (val v : word(8)) choose () layers 1 to 1 both
  gate ((t != 0:4) && (lock == t)) guard true { v := x; }
action AtomWrite(lend t : word(4), val v : word(8)) -> () choose () layers 1 to 1 both
  gate ((t != 0:4) && (lock == t)) guard true { x := v; }
action AtomIncr(lend t : word(4)) -> () choose () layers 2 to 2 atomic
  gate (t != 0:4) guard true { x := (x + 1:8); }
action AtomAdd(lend t : word(4)) -> () choose () layers 3 to 3 atomic
  gate (t != 0:4) guard true { x := (x + 1:8); }
action AtomBump(lend t : word(4)) -> () choose () layers 4 to 4 atomic
  gate (t != 0:4) guard true { x := (x + 1:8); }
action AtomIdle() -> () choose () layers 1 to 4 atomic gate true guard true { }
action Flip() -> () choose (c : bool = false) layers 0 to 4 atomic
  gate true guard true { stop := c; }
action Look() -> (val s : bool) choose () layers 0 to 4 atomic
  gate true guard true { s := stop; }
proc Acquire(lend t : word(4)) -> () refines AtomAcquire with () layer 1 {
  var ok : bool;
  while yield (!ok) inv (ok == done) {
    call Cas() -> (ok);
    if ok { commit; intro lock := t; } else { }
  }
}
proc Release(lend t : word(4)) -> () refines AtomRelease with () layer 1
  { call Reset() -> (); commit; intro lock := 0:4; }
proc Read(lend t : word(4)) -> (val v : word(8))
  refines AtomRead with () layer 1 { call Load() -> (v); commit; }
proc Write(lend t : word(4), val v : word(8)) -> ()
  refines AtomWrite with () layer 1 { call Store(v) -> (); commit; }
proc Idle() -> () refines AtomIdle with () layer 1 {
  var n : word(16);
  var s : bool;
  n := %d:16;
  while rank (n != 0:16) by n 
    inv (((!done) && (!old(done))) && (((b == old(b)) && (lock == old(lock))) && ((x == old(x)) && (stop == old(stop)))))
    { n := (n - 1:16); }
  call Look() -> (s);
  commit;
}
proc Incr(lend t : word(4)) -> () refines AtomIncr with () layer 2 {
  var v : word(8);
  call Acquire(t) -> (); call Read(t) -> (v);
  call Write(t, (v + 1:8)) -> (); call Release(t) -> (); commit;
}
proc Add(lend t : word(4)) -> () refines AtomAdd with () layer 3 {
  var n : word(2);
  n := 3:2;
  while yield (n != 0:2) inv (!done) { n := (n - 1:2); }
  call Incr(t) -> (); commit;
}
proc Bump(lend t : word(4)) -> () refines AtomBump with () layer 4
  { call Add(t) -> (); commit; }
proc Count(lend t : word(4)) -> () root {
  var s : bool;
  while true { call Bump(t) -> (); call Look() -> (s); assert (!s); }
}
proc Wait(lend t : word(4)) -> () root { while true { call Idle() -> (); } }
proc Turn(lend t : word(4)) -> () root { while true { call Flip() -> (); } }
"""


class World:
    """What the program's threads share."""

    def __init__(self, rounds):
        self.taken = False
        self.stop = False
        self.failing = False
        self.rounds = rounds


def acquired(world):
    """The moves of Acquire behind its call: each is a yield."""
    while True:
        yield  # the loop's test
        ok, world.taken = not world.taken, True
        yield  # Cas
        yield  # if
        if ok:
            yield  # the loop's test
            yield  # the end
            return


def once():
    """The moves of a procedure that makes one call, behind its own."""
    yield
    yield


def counting(world):
    """The moves of Count."""
    yield  # the first call
    while True:
        yield  # the loop's test
        yield from (None, None, None)  # Bump, Add, n := 3
        for _ in range(3):
            yield from (None, None)  # the loop's test, n := n - 1
        yield from (None, None, None)  # the loop's test, Incr, Acquire
        yield from acquired(world)
        for _ in "Read", "Write":
            yield
            yield from once()
        yield  # Release
        world.taken = False
        yield  # Reset
        yield from (None, None, None, None)  # the ends of Release, Incr, Add, Bump
        seen = world.stop
        world.failing = world.failing or seen
        yield  # Look
        yield  # assert


def waiting(world):
    """The moves of Wait."""
    yield
    while True:
        yield from (None, None, None)  # the loop's test, Idle, n := ..
        for _ in range(world.rounds):
            yield from (None, None)
        yield from (None, None, None)  # the loop's test, Look, the end


def turning(world, choices):
    """The moves of Turn."""
    yield
    while True:
        yield  # the loop's test
        world.stop = choices[0] == "(true)"
        yield  # Flip


def made(kind, count):
    """A script of about so many moves: its text and how many it has."""
    rounds = 1 if kind == "even" else max(1, count // 20)
    world = World(rounds)
    choices = ["(false)"]
    counters = THREADS - 1 if kind == "even" else 1
    waiters = THREADS - 1 - counters
    runs = [waiting(world) for _ in range(waiters)] + [counting(world) for _ in range(counters)] + [turning(world, choices)]
    names = ["Wait"] * waiters + ["Count"] * counters + ["Turn"]
    chance = random.Random(1)
    moves = []
    while not world.failing:
        thread = chance.randrange(THREADS)
        if len(moves) >= count - 200:
            choices[0] = "(true)"
        next(runs[thread])
        moves.append(f"move {thread}{choices[0] if thread == THREADS - 1 else '()'};")
    threads = "".join(f"thread {name}({at + 1}:4);\n" for at, name in enumerate(names))
    store = "schedule b = false; lock = 0:4; x = 0:8; stop = false;\n"
    return PROGRAM % min(rounds, 65535) + threads + store + "".join(moves) + "\n", len(moves)


def main():
    if len(sys.argv) < 2:
        sys.exit(__doc__)
    if sys.argv[1] == "--text":
        sys.stdout.write(made(sys.argv[3] if sys.argv[3:] else "even", int(sys.argv[2]))[0])
        return
    for kind in "even", "early":
        first = None
        for count in [int(word) for word in sys.argv[2:]] or (1000, 3000, 10000, 30000, 100000):
            text, low = made(kind, count)
            busy, seconds, size, line = min(timed(sys.argv[1], ["lift"], text) for _ in range(3))
            words = line.split()
            if words[:1] != ["failing"]:
                sys.exit(f"{kind} {count}: {line}")
            first = first or (low, busy)
            print(f"{kind}: {low} moves, {busy:.3f} s ({seconds:.3f} by the clock), {size:.0f} MB, "
                  f"{low / first[0]:.1f} times the moves, {busy / first[1]:.1f} times the seconds", flush=True)


if __name__ == "__main__":
    main()
