#!/usr/bin/env python3
"""Makes the certificate of each condition of a program, replays it, and has checkers of the field agree.

Usage: certificates.py BINARY FOLDER [TEXT]        (crates/civl/out/civl after `rt run` in crates/civl; a scratch folder; a program, else examples/spinlock.civl)

For the condition with the number K, `proof make --at K` writes the certificate, and `proof replay` reads it. It is split into what other programs take: FOLDER/K.cnf, the clause set alone (DIMACS), and FOLDER/K.drat, the log alone, a clause a line with `0` behind it (the text form of DRAT). Where `drat-trim` is there, it has to verify the log against the clause set; where `cadical` is there, it has to find the clause set unsatisfiable by itself. A log without its last clause has to be refused by both replays.

Each line that is printed: the condition's number and name, its clauses and those of its log, the bytes of the certificate, the seconds to make and to replay it, and what each program said. The exit code is 1 where one said something else than the others.
"""
import os
import shutil
import subprocess
import sys
import time

SPINLOCK = os.path.join(os.path.dirname(os.path.abspath(__file__)), "..", "examples", "spinlock.civl")


def ran(words, text=b""):
    """The exit code, the output and the seconds of a program."""
    start = time.perf_counter()
    done = subprocess.run(words, input=text, stdout=subprocess.PIPE, stderr=subprocess.DEVNULL)
    return done.returncode, done.stdout, time.perf_counter() - start


def split(certificate):
    """The name in the comment line, the clause set as DIMACS, and the log as DRAT's text form."""
    front, log = certificate.split(b"\nlog\n", 1)
    comments = [line for line in front.split(b"\n") if line.startswith(b"c")]
    clauses = [line for line in front.split(b"\n") if not line.startswith(b"c")]
    return comments[0][2:].decode(), b"\n".join(clauses) + b"\n", log


def without_last(certificate):
    """The certificate without the last clause of its log."""
    return certificate[: certificate.rstrip(b"\n").rfind(b"\n") + 1]


def outside(path_cnf, path_log):
    """What each checker of the field says: its name, and whether it agrees."""
    said = []
    if shutil.which("drat-trim"):
        said.append(("drat-trim", b"s VERIFIED" in ran(["drat-trim", path_cnf, path_log])[1]))
    if shutil.which("cadical"):
        said.append(("cadical", ran(["cadical", "-q", path_cnf])[0] == 20))
    return said


def tried(binary, folder, at, certificate, made):
    """Whether all programs agree on a certificate; prints its line."""
    name, clauses, log = split(certificate)
    path_cnf, path_log = os.path.join(folder, f"{at}.cnf"), os.path.join(folder, f"{at}.drat")
    for path, content in ((path_cnf, clauses), (path_log, log)):
        with open(path, "wb") as file:
            file.write(content)
    code, report, replayed = ran([binary, "proof", "replay"], certificate)
    shorter = ran([binary, "proof", "replay"], without_last(certificate))[1]
    said = [("replay", code == 0 and report == b"refutes\n"), ("shorter refused", shorter != b"refutes\n"), *outside(path_cnf, path_log)]
    sizes = f"{clauses.splitlines()[0].split()[3].decode()} clauses, log of {len(log.splitlines())}, {len(certificate)} bytes"
    votes = ", ".join(f"{who} {'agrees' if yes else 'DIFFERS'}" for who, yes in said)
    print(f"{at} {name}: {sizes}, made in {made:.2f} s, replayed in {replayed:.2f} s, {votes}", flush=True)
    return all(yes for _, yes in said)


def main():
    if len(sys.argv) not in (3, 4):
        sys.exit(__doc__)
    binary, folder = sys.argv[1], sys.argv[2]
    with open(sys.argv[3] if len(sys.argv) == 4 else SPINLOCK, "rb") as file:
        text = file.read()
    os.makedirs(folder, exist_ok=True)
    for checker in ("drat-trim", "cadical"):
        if not shutil.which(checker):
            print(f"no {checker} here")
    agree, at = True, 0
    while True:
        code, report, made = ran([binary, "proof", "make", "--at", str(at)], text)
        if report.startswith(b"refused E81"):
            break
        if code != 0 or not report.startswith(b"c "):
            print(f"{at}: {report.decode().splitlines()[0]}", flush=True)
            if code != 0:
                sys.exit(1)
        else:
            agree = tried(binary, folder, at, report, made) and agree
        at += 1
    print(f"{at} conditions, all agree" if agree else f"{at} conditions, NOT all agree")
    sys.exit(0 if agree else 1)


if __name__ == "__main__":
    main()
