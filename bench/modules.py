#!/usr/bin/env python3
"""Tells what the modules of one crate's check cost, in seconds of the processor: the borrow checker's part of a function (FN.Lts), its
proof (FN.Proof), its answers, lemma files and the rest.

Usage, at the top of the repository, where the libraries below the crate are built (crates/*/out/rlib, as `rt ci` leaves them):

    modules.py CRATE TABLE [WORD ..]     the words go to the prover, such as --only module::function

The check has one lane and a new incremental folder, to which the prover writes a file for each module as it ends it. The folder is
looked at some twenty times a second, so what ends between two looks has one line together. TABLE gets a line for each look that found
something: the seconds since the last one, those since the start, the modules; sort it by its first column. What the prover said goes
to TABLE.log, and its last line is printed.
"""
import os
import re
import shutil
import subprocess
import sys
import tempfile
import time

KIT = os.path.dirname(os.path.dirname(os.path.realpath(shutil.which("rt"))))
TICKS = os.sysconf("SC_CLK_TCK")
PAUSE = 0.05


def listed():
    """The crates of crates.txt, each with the libraries that its line names."""
    with open("crates.txt", encoding="utf-8") as file:
        lines = [line.split("#")[0].strip() for line in file]
    return {name.split()[0]: below.split() for name, _, below in (line.partition(":") for line in lines) if name}


def below(crates, name, found):
    """All crates of the repository on which one stands, lowest first."""
    for other in crates[name]:
        if other in crates and other not in found:
            below(crates, other, found)
            found.append(other)
    return found


def words(crates, name, top):
    """The prover's words for a check of this crate, run in its folder."""
    root = "src/main.rt" if os.path.exists(f"crates/{name}/src/main.rt") else "src/lib.rt"
    found = ["--crate-name", name, root, "--extern", f"std={KIT}/rlibs/std.rlib"]
    for other in crates[name]:
        path = f"{top}/crates/{other}/out/rlib/{other}.rlib" if other in crates else f"{KIT}/rlibs/{other}.rlib"
        found += ["--extern", f"{other}={path}"]
    found += ["-L", f"dependency={KIT}/rlibs"]
    for other in below(crates, name, []):
        found += ["-L", f"dependency={top}/crates/{other}/out/rlib"]
    found += ["--antt-project", f"{KIT}/rattle/logic/antt-project.json", "--logic-built", f"{KIT}/logic_built"]
    return [*found, "--links", f"{name}=", "--jobs", "1"]


def seconds_of(process):
    """What a process has taken of the processor, or None where it has ended."""
    try:
        with open(f"/proc/{process.pid}/stat", encoding="utf-8") as file:
            fields = file.read().rpartition(")")[2].split()
        return sum(map(int, fields[11:13])) / TICKS
    except OSError:
        return None


def new_files(folder, seen):
    """The files that came since the last look, in the order in which they were written."""
    found = []
    for at, _, names in os.walk(folder):
        for path in (f"{at}/{name}" for name in names):
            if path not in seen:
                seen.add(path)
                try:
                    found.append((os.stat(path).st_mtime_ns, path))
                except OSError:
                    # (it was a passing one)
                    pass
    return [path for _, path in sorted(found)]


def module_of(path, name):
    it = re.sub(r"^.*Rattle-", "", os.path.basename(path)).removeprefix(f"{name}-")
    return it.removesuffix(".oantt").removesuffix(".decls")


def watch(process, folder, name):
    """A line for each look that found new modules."""
    seen, lines, last = set(), [], 0.0
    while process.poll() is None:
        taken = seconds_of(process)
        found = new_files(folder, seen)
        if found and taken is not None:
            modules = dict.fromkeys(module_of(path, name) for path in found)
            lines.append(f"{taken - last:7.2f} {taken:8.2f} {' '.join(modules)}\n")
            last = taken
        time.sleep(PAUSE)
    return lines


def main():
    name, table, *more = sys.argv[1:]
    top = os.getcwd()
    with tempfile.TemporaryDirectory() as folder, open(f"{table}.log", "w", encoding="utf-8") as log:
        check = ["rattle", "check", *words(listed(), name, top), "--incremental", folder, *more]
        process = subprocess.Popen(check, cwd=f"crates/{name}", stdout=log, stderr=subprocess.STDOUT)
        lines = watch(process, folder, name)
    with open(table, "w", encoding="utf-8") as file:
        file.writelines(lines)
    with open(f"{table}.log", encoding="utf-8") as log:
        print(log.read().rstrip().rpartition("\n")[2])
    return process.returncode


if __name__ == "__main__":
    sys.exit(main())
