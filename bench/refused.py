#!/usr/bin/env python3
"""Refuses the built program its allocations, one at a time, and looks at what it says then.

Usage: refused.py BINARY FOLDER [EVERY]        (crates/civl/out/civl after `rt run` in crates/civl; a scratch folder)

A small C library, which is compiled in the folder and loaded before the C library, counts the calls that allocate, and refuses the one of a number. Each input is run with no refusal, and then with the first call refused, with the second, and so on until one is past the last (each EVERYth of them, where that is given). Each run has to end with code 7 and nothing written, or with the code and the report of the run with no refusal; a refused call after which the program finds another way is no fault. Each line that is printed: the command and the text, the runs with a refusal, those that ended with code 7, and those with the right report. The exit code is 1 where some run ended otherwise.
"""
import os
import subprocess
import sys

from texts import spinlock

SHIM = r"""
#include <errno.h>
#include <stddef.h>
#include <stdio.h>
#include <stdlib.h>

extern void *__libc_malloc(size_t);
extern void *__libc_calloc(size_t, size_t);
extern void *__libc_realloc(void *, size_t);
extern void *__libc_memalign(size_t, size_t);

static long number = -1, calls = 0;

__attribute__((constructor)) static void begin(void) {
    const char *text = getenv("REFUSED");
    number = text ? atol(text) : 0;
}

static int refuses(void) {
    if (number < 0) return 0;
    calls += 1;
    return calls == number;
}

__attribute__((destructor)) static void end(void) {
    const char *path = getenv("REFUSED_COUNT");
    number = -1;
    if (path) {
        FILE *file = fopen(path, "w");
        if (file) { fprintf(file, "%ld", calls); fclose(file); }
    }
}

void *malloc(size_t size) { return refuses() ? NULL : __libc_malloc(size); }
void *calloc(size_t count, size_t size) { return refuses() ? NULL : __libc_calloc(count, size); }
void *realloc(void *old, size_t size) { return refuses() ? NULL : __libc_realloc(old, size); }
void *memalign(size_t align, size_t size) { return refuses() ? NULL : __libc_memalign(align, size); }
void *aligned_alloc(size_t align, size_t size) { return refuses() ? NULL : __libc_memalign(align, size); }
int posix_memalign(void **out, size_t align, size_t size) {
    void *made = refuses() ? NULL : __libc_memalign(align, size);
    if (!made) return ENOMEM;
    *out = made;
    return 0;
}
"""

RUN = """
schedule b = false; lock = 0:2; x = 0:8;
move 0 (); move 0 (); move 0 (); move 0 (); move 0 (); move 0 (); move 1 (); move 0 (); move 0 ();
"""


def inputs():
    """The command and the text of each input, by its name."""
    text = spinlock()
    return {
        "check, the spinlock": (["check"], text),
        "check, a spinlock that counts by two": (["check"], text.replace("x := (x + 1:8)", "x := (x + 2:8)")),
        "conditions, the spinlock": (["conditions"], text),
        "run low, the spinlock": (["run", "low"], text + RUN),
        "fmt, the spinlock": (["fmt"], text),
        "trial 1": (["trial", "1"], ""),
        "no command": (["x"], ""),
    }


def compiled(folder):
    """The library that refuses."""
    os.makedirs(folder, exist_ok=True)
    source, library = os.path.join(folder, "refusing.c"), os.path.abspath(os.path.join(folder, "refusing.so"))
    with open(source, "w") as file:
        file.write(SHIM)
    subprocess.run(["cc", "-O2", "-shared", "-fPIC", "-fno-builtin", "-o", library, source], check=True)
    return library


def ran(binary, library, words, text, number, count_path):
    """The code and the report where the call of this number is refused (none where it is 0), and how many calls there were. A run that isn't done after a minute has no code."""
    env = dict(os.environ, LD_PRELOAD=library, REFUSED=str(number), REFUSED_COUNT=count_path)
    try:
        done = subprocess.run([binary, *words], input=text.encode(), capture_output=True, env=env, timeout=60)
    except subprocess.TimeoutExpired:
        return None, b"", 0
    if done.returncode < 0:
        return done.returncode, done.stdout, 0
    with open(count_path) as file:
        return done.returncode, done.stdout, int(file.read())


def main():
    if len(sys.argv) not in (3, 4):
        sys.exit(__doc__)
    binary, folder, every = os.path.abspath(sys.argv[1]), sys.argv[2], int(sys.argv[3]) if len(sys.argv) == 4 else 1
    library, wrong = compiled(folder), 0
    count_path = os.path.abspath(os.path.join(folder, "count"))
    for name, (words, text) in inputs().items():
        code, report, calls = ran(binary, library, words, text, 0, count_path)
        if calls == 0:
            sys.exit("no call was counted: the program allocates by other means than the C library's")
        refused, right, others = 0, 0, []
        for number in range(1, calls + 1, every):
            found = ran(binary, library, words, text, number, count_path)[:2]
            if found == (7, b""):
                refused += 1
            elif found == (code, report):
                right += 1
            else:
                others.append(number)
        print(f"{name}: code {code}, {calls} allocations, {refused + right + len(others)} refused: {refused} times code 7 and nothing written, "
              f"{right} times the right report, {len(others)} times another {others[:5] or ''}", flush=True)
        wrong += len(others)
    sys.exit(1 if wrong else 0)


if __name__ == "__main__":
    main()
