#!/usr/bin/env python3
"""Compares the line `Crates above: ..` of each crate's README with crates.txt: which crates name this one among what they stand on.

Usage, at the top of the repository:

    above.py           tells the crates whose line is another, and exits with 1 where there is one
    above.py --write   writes the lines anew
"""
import re
import sys

LINE = re.compile(r"^(?:Crates above: .*|No crate stands above\.)$", re.MULTILINE)


def text_of(path):
    with open(path, encoding="utf-8") as file:
        return file.read()


def libraries():
    """What each crate stands on, in the order of crates.txt."""
    rows = [line.partition("#")[0].partition(":") for line in text_of("crates.txt").split("\n")]
    return {name.split()[0]: below.split() for name, colon, below in rows if colon}


def line_of(crate, below):
    above = [name for name, uses in below.items() if crate in uses]
    return f"Crates above: {', '.join(above)}." if above else "No crate stands above."


def main():
    below, wrong = libraries(), 0
    for crate in below:
        path = f"crates/{crate}/README.md"
        text, wanted = text_of(path), line_of(crate, below)
        found = LINE.search(text)
        if not found or found[0] == wanted:
            continue
        wrong += 1
        if "--write" in sys.argv:
            with open(path, "w", encoding="utf-8") as file:
                file.write(text[: found.start()] + wanted + text[found.end() :])
        else:
            print(f"{crate}: {wanted}")
    return int(wrong > 0 and "--write" not in sys.argv)


if __name__ == "__main__":
    sys.exit(main())
