#!/usr/bin/env python3
"""Times `check` and `conditions` of the built program on programs with many conditions.

Usage: checks.py BINARY [TEXT ..]        (crates/civl/out/civl after `rt run` in crates/civl)

The texts are those of bench/texts.py that have many conditions, where none is named: the spinlock of examples/, programs of about twenty times its size, and one whose formulas weigh as much as they may. Each line that is printed: the text, the command, the seconds of the processor and by the clock (of the quickest of three runs) and how often those of the processor for the first text they are, the greatest size of the process in megabytes (at least that of this script, of which the process begins as a copy), and the last line of the report.
"""
import os
import subprocess
import sys
import tempfile
import time

from texts import heavy, many_conditions


def timed(binary, words, text):
    """The seconds of the processor and by the clock, the greatest size in megabytes, and the last line of the report."""
    with tempfile.TemporaryFile() as file:
        file.write(text.encode())
        file.seek(0)
        start = time.perf_counter()
        child = subprocess.Popen([binary, *words], stdin=file, stdout=subprocess.PIPE)
        report = child.stdout.read().decode()
        _, _, usage = os.wait4(child.pid, 0)
        return usage.ru_utime + usage.ru_stime, time.perf_counter() - start, usage.ru_maxrss / 1024, report.splitlines()[-1]


def main():
    if len(sys.argv) < 2:
        sys.exit(__doc__)
    binary, first = sys.argv[1], {}
    texts = {path: open(path).read() for path in sys.argv[2:]} or {**many_conditions(), "the greatest weight": heavy(5967)}
    for name, text in texts.items():
        for command in ("check", "conditions"):
            busy, seconds, size, line = min(timed(binary, [command], text) for _ in range(3))
            ratio = busy / first.setdefault(command, busy)
            print(f"{name}: {len(text)} bytes, {command} {busy:.3f} s ({seconds:.3f} by the clock), {ratio:.1f} times, {size:.0f} MB, {line}", flush=True)


if __name__ == "__main__":
    main()
