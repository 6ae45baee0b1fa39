"""Texts that are as long as the limit allows, and programs with many conditions."""
import os
import re

LIMIT = 1_048_576


def named(letter, count):
    return ["%s%d" % (letter, number) for number in range(count)]


def at_all_limits(sort, calls, behind=""):
    """A program at all limits at once, with names of this sort: 64 globals, 128 actions, 64 procedures of 32 names, 256 cut points and
    64 invariants; with calls, as many as a megabyte holds. The text behind it counts too."""
    ins, outs = named("p", 15), named("o", 15)
    params = ", ".join("val %s : %s" % (name, sort) for name in ins)
    gives = ", ".join("val %s : %s" % (name, sort) for name in outs)
    updates = " ".join("%s := %s;" % (out, into) for out, into in zip(outs, ins))
    parts = ["civl 2; layers 8; permissions 5;\n"]
    parts += ["global g%d : %s layers 0 to 8;\n" % (number, sort) for number in range(64)]
    parts.append("init true;\n")
    parts += ["invariant %d (g%d == g%d);\n" % (number % 8 + 1, number, number) for number in range(64)]
    for number in range(128):
        parts.append("action A%d(%s) -> (%s) choose () layers 0 to 8 both gate true guard true { g%d := p0; %s }\n"
                     % (number, params, gives, number % 64, updates))
    call = "call A%%d(%s) -> (%s);\n" % (", ".join(ins), ", ".join(outs))
    front = ("proc P%%d(%s) -> (%s) refines A%%d with () layer 8 { var t : %s; var u : %s; yield true; yield true; yield true;\n"
             % (params, gives, sort, sort))
    room = (LIMIT - sum(map(len, parts)) - len(behind)) // 64 - len(front) - 40
    for number in range(64):
        body = [call % ((number + at) % 128) for at in range(room // (len(call) + 2))] if calls else []
        parts.append(front % (number, number) + "".join(body) + "commit; }\n")
    return "".join(parts) + behind


EXAMPLES = os.path.join(os.path.dirname(os.path.abspath(__file__)), "..", "examples")


def spinlock():
    """The spinlock of examples/, with its counter."""
    with open(os.path.join(EXAMPLES, "spinlock.civl")) as file:
        return file.read()


def copies(count):
    """That program with so many copies of all but its threads: each pair of actions has its conditions, so these grow with the square."""
    parts = re.split(r"\n(?=(?:global|init|invariant|action|proc|thread)\b)", spinlock().strip())
    names = "|".join(name for part in parts for name in re.findall(r"^(?:global|action|proc) (\w+)", part) if name != "Main")
    of_kind = lambda kind: [part for part in parts if part.startswith(kind + " ") and not part.startswith("proc Main")]
    copy = lambda part, number: re.sub(r"\b(%s)\b" % names, r"\1_%d" % number, part)
    copied = lambda kind: [copy(part, number) for number in range(count) for part in of_kind(kind)]
    initial = copy(of_kind("init")[0][len("init "):-1], 0)
    for number in range(1, count):
        initial = "(%s && %s)" % (initial, copy(of_kind("init")[0][len("init "):-1], number))
    calls = " ".join("call Incr_%d(t) -> ();" % number for number in range(count))
    main = "proc Main(lend t : word(2)) -> () root { %s }" % calls
    whole = parts[:1] + copied("global") + ["init %s;" % initial] + copied("invariant") + copied("action") + copied("proc")
    return "\n".join(whole + [main] + of_kind("thread")) + "\n"


def long_body(count):
    """That program with a procedure that reads and writes so many times in one block."""
    body = "call Read(t) -> (v);\n  call Write(t, (v + 1:8)) -> ();"
    one = "call Acquire(t) -> (); call Read(t) -> (v);\n  call Write(t, (v + 1:8)) -> (); call Release(t) -> (); commit;"
    many = "call Acquire(t) -> ();\n  %s\n  call Release(t) -> (); commit;" % "\n  ".join([body] * count)
    assert spinlock().count(one) == 1
    return spinlock().replace(one, many).replace("x := (x + 1:8)", "x := (x + %d:8)" % (count % 256))


def many_conditions():
    """The spinlock, and programs of about twenty times its size: of its conditions and of the weight of all formulas."""
    return {"spinlock": spinlock(), "four copies": copies(4), "five copies": copies(5), "twenty rounds in one block": long_body(20)}


STEP = "civl 2; layers 1; permissions 1;\n"


def heavy(count):
    """A program with a block of so many sums of 32 bits, of the last of which only the lowest bit is asked. With 5,967 its formulas weigh as much as they may, and they are easy."""
    read = "action Read() -> (val v : word(32)) choose () layers 0 to 1 both gate true guard true { v := g; }\n"
    upper = "action B() -> () choose () layers 1 to 1 atomic gate true guard true { }\n"
    body = "call Read() -> (u);\n" + "t := (t + u);\n" * count + "assert ((t & 1:32) <= 1:32);\n"
    return (STEP + "global g : word(32) layers 0 to 1;\ninit true;\n" + read + upper
            + "proc P() -> () refines B with () layer 1 {\nvar t : word(32); var u : word(32);\n" + body + "commit; }\n")


def cells(count):
    """So many globals, and true as what is initial."""
    return "".join("global g%d : word(8) layers 0 to 1;\n" % number for number in range(count)) + "init true;\n"


def many_globals(count, actions):
    """Globals of which each action reads one and writes another, and each pair of actions may be exchanged or not."""
    both = ["action A%d() -> () choose () layers 0 to 0 both gate (g%d < 9:8) guard true { g%d := (g%d + 1:8); }\n"
            % (number, 2 * number % count, (2 * number + 1) % count, 2 * number % count) for number in range(actions)]
    return STEP + cells(count) + "".join(both)


def refining(globals_, actions, body, invariants=""):
    """A procedure with this body, which refines an action that sets the first global."""
    upper = "action B() -> () choose () layers 1 to 1 atomic gate true guard true { g0 := 0:8; }\n"
    return (STEP + cells(globals_) + invariants + actions + upper
            + "proc P() -> () refines B with () layer 1 {\nvar u : word(8);\n" + body + "commit; }\n")


READ = "action Read() -> (val v : word(8)) choose () layers 0 to 1 both gate true guard true { v := g0; }\n"
WRITE = "action Write(val v : word(8)) -> () choose () layers 0 to 1 both gate true guard true { g0 := v; }\n"
DRAW = "action Draw() -> (val v : word(8)) choose (c : word(8) = 0:8) layers 0 to 0 both gate true guard (c < 9:8) { v := c; }\n"
IDLE = "action Idle() -> () choose () layers 0 to 0 both gate true guard true { }\n"


def balanced(parts):
    """The conjunction of these."""
    if len(parts) == 1:
        return parts[0]
    half = len(parts) // 2
    return "(%s && %s)" % (balanced(parts[:half]), balanced(parts[half:]))


def other_shapes():
    """Programs of other shapes, some of them beside a smaller one: the building of a term may take the time of its own size, and not of
    what its program or its procedure has besides."""
    turn = "call Read() -> (u);\nu := (u + 1:8);\ncall Write(u) -> ();\n"
    kept = "".join("invariant 1 (g%d < 200:8);\n" % number for number in range(64))
    gate = balanced(["(g63 != %d:8)" % number for number in range(200)])
    long_gate = "action Long() -> () choose () layers 0 to 0 both gate %s guard true { g63 := 1:8; }\n" % gate
    return {
        "12 actions of which each names two of 2 globals": many_globals(2, 12),
        "12 actions of which each names two of 64 globals": many_globals(64, 12),
        "300 statements in one block, 2 globals": refining(2, READ + WRITE, turn * 100),
        "300 statements in one block, 64 globals": refining(64, READ + WRITE, turn * 100),
        "a gate that names the last of 64 globals 200 times": refining(64, READ + WRITE + long_gate, turn),
        "6 yields, each 15 statements behind the one before": refining(2, READ + WRITE, (turn * 5 + "yield true;\n") * 6),
        "30 yields, each 3 statements behind the one before": refining(2, READ + WRITE, (turn + "yield true;\n") * 30),
        "64 invariants, which one block of 30 statements keeps": refining(64, READ + WRITE, turn * 10, kept),
        "200 calls with a choice in one block": refining(2, DRAW, "call Draw() -> (u);\n" * 200),
        "2,000 calls with a choice in one block": refining(2, DRAW, "call Draw() -> (u);\n" * 2000),
        "200 calls that do nothing in one block": refining(2, IDLE, "call Idle() -> ();\n" * 200),
        "2,000 calls that do nothing in one block": refining(2, IDLE, "call Idle() -> ();\n" * 2000),
    }
