#!/usr/bin/env python3
"""Times `trial N` of the built program, for N from 1 to 8.

Usage: trials.py BINARY [N ..]        (crates/civl/out/civl after `rt run` in crates/civl)

A trial program of N copies has about as many conditions as the square of N says. Each line that is printed, of the quickest of three runs: N, the conditions, the seconds of the processor and by the clock, the greatest size of the process in megabytes (at least that of this script, of which the process begins as a copy), how often those of the first N the conditions and the seconds of the processor are, and the milliseconds for each condition.
"""
import sys

from checks import timed


def tried(binary, number):
    """The seconds, the size and the number of conditions of a trial, whose last line says that it is accepted."""
    busy, seconds, size, line = min(timed(binary, ["trial", str(number)], "") for _ in range(3))
    words = line.split()
    if words[:1] + words[2:] != ["accepted", "conditions"]:
        sys.exit(f"trial {number}: {line}")
    return busy, seconds, size, int(words[1])


def main():
    if len(sys.argv) < 2:
        sys.exit(__doc__)
    first = None
    for number in [int(word) for word in sys.argv[2:]] or range(1, 9):
        busy, seconds, size, count = tried(sys.argv[1], number)
        first = first or (busy, count)
        print(f"trial {number}: {count} conditions, {busy:.3f} s ({seconds:.3f} by the clock), {size:.0f} MB, "
              f"{count / first[1]:.1f} times the conditions, {busy / first[0]:.1f} times the seconds, "
              f"{1000 * busy / count:.2f} ms a condition", flush=True)


if __name__ == "__main__":
    main()
