#!/usr/bin/env python3
"""Lists lemmas and definitions of the logic whose type is written word for word in more than one file, or such functions.

Usage, at the top of the repository:

    copies.py [COUNT]     prints the types that stand most often, at most COUNT (40)
    copies.py --functions prints the functions whose text is the same but for their name and contract, longest first

The first line tells how many types stand in several files, and how many copies that is beyond the first of each. Then a line a type:
in how many files, its first words, its names, and the crates. Types that are short, or only name a goal of the prover's, are left out;
a type inside a module with parameters can mean something else in each file, so a line is a place to look at and no verdict. Of
functions each line has how many lines one takes, and where they stand; the same text can speak of other types.
"""
import collections
import glob
import re
import sys

MADE = ("returns", "invariant", "abort", "requires", "unreachable", "measure", "bound")
FUNCTION = re.compile(r"^( *)(?:pub(?:\([a-z]+\))? )?fn (\w+)", re.MULTILINE)
STATED = re.compile(r"\s*(?:abbrev |unfoldable )*(?:pub )?([^\s:(){}]+) : (.*)$")


def stated(path):
    """The names and types that a file states, but for those that answer the prover's goals."""
    with open(path, encoding="utf-8") as file:
        for line in file:
            found = STATED.match(line.rstrip("\n"))
            if found and not line.startswith("use") and not found[1].startswith(MADE):
                yield found[1], found[2]


def functions(path):
    """The name of each function of a file, its lines, and its text without name, contract and comments."""
    with open(path, encoding="utf-8") as file:
        text = file.read()
    for found in FUNCTION.finditer(text):
        end = re.compile("^" + found[1] + r"\}$", re.MULTILINE).search(text, found.end())
        if end:
            whole = text[found.start() : end.end()]
            bare = re.sub(r"//.*|^ *(?:requires|ensures) .*|pub(?:\([a-z]+\))? ", "", whole, flags=re.MULTILINE)
            yield found[2], whole.count("\n") + 1, " ".join(re.sub(rf"\b{found[2]}\b", "@", bare).split())


def list_functions():
    places = collections.defaultdict(list)
    for path in sorted(glob.glob("crates/*/src/**/*.rt", recursive=True)):
        for name, lines, text in functions(path):
            if len(text) > 90:
                places[text].append((lines, f"{path.removeprefix('crates/')} {name}"))
    for found in sorted(places.values(), key=lambda found: -found[0][0]):
        if len(found) > 1:
            print(found[0][0], ", ".join(place for _, place in found))


def is_telling(kind):
    return len(kind) > 40 and any(word in kind for word in ("≡", "Contains", "→"))


def main():
    if sys.argv[1:] == ["--functions"]:
        return list_functions()
    most = int(sys.argv[1]) if len(sys.argv) > 1 else 40
    places = collections.defaultdict(list)
    for path in sorted(glob.glob("crates/*/specs/**/*.antt", recursive=True) + glob.glob("crates/*/proofs/**/*.antt", recursive=True)):
        for name, kind in stated(path):
            if is_telling(kind):
                places[kind].append((path, name))
    several = [(len({path for path, _ in found}), kind, found) for kind, found in places.items() if len({path for path, _ in found}) > 1]
    several.sort(key=lambda it: -it[0])
    print(len(several), sum(count - 1 for count, _, _ in several))
    for count, kind, found in several[:most]:
        names, crates = sorted({name for _, name in found}), sorted({path.split("/")[1] for path, _ in found})
        print(count, kind[:110], " ".join(names[:4]), " ".join(crates[:8]))


if __name__ == "__main__":
    main()
