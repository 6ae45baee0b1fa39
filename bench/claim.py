#!/usr/bin/env python3
"""Prints docs/CLAIM.md: the headline, and each definition under it.

Usage:

    claim.py > docs/CLAIM.md   the page
    claim.py --check           compares the page with that, and the first lines of files with what stands under the headline
    claim.py --mark            writes those first lines
    claim.py CLAUSE            what this clause of `command` or of `lift_command` rests on beyond the headline

The headline is `SpellsProgram` and `Preserves` of one program, and its clause that of the fewest definitions under which both stand. A file of
specs/ with a definition under the two begins with the line `-- Part of the claim: docs/CLAIM.md.`, and no other file does. --check tells the
first line of the page that differs, each file whose first line is wrong, each name under a clause for which no definition, no type and no word
of the kit is found, and each file of examples under the headline; the exit code is 1 where it tells something.
"""
import functools
import glob
import os
import re
import sys

import antt

TOP = os.path.abspath(os.path.join(os.path.dirname(os.path.abspath(__file__)), ".."))
PAGE = "docs/CLAIM.md"
MARK = "-- Part of the claim: docs/CLAIM.md.\n"
PARTS = [("What it says of the program", "civl_meaning", "Preserves"), ("What it says of the bytes", "civl_frontend", "SpellsProgram")]
IN_TEXTS = {"check", "init", "assert", "spawn"}
COMMANDS = ["civl_command", "civl_lift_command"]
SHORT = [("civl_command", name) for name in ("accepted", "rejected", "undecided", "refused", "safe")]
SHORT += [("civl_lift_command", "lifted"), ("civl_command", "certified"), ("civl_command", "replayed")]

HEAD = """# The claim

What has to be read to believe the sentence in bold of README.md, and no more. `bench/claim.py` prints this page from the sources, and
`claim.py --check` compares it. The code, the proofs and all other definitions needn't be read: the prover has checked that the code keeps
the clause.

## The headline, in words

Let the words be those of `check`, with or without a budget. Let the source tell its bytes, as one in memory does; call those that it told
at the call, as still to come, the input. If the status is Done, there is a program with all of the following. (A report that begins with
`accepted` is that of Done, or was cut short: clause `alone`.)

- `SpellsProgram`: the input spells the program, and no other (`SpellsOnly`).
  - `HasTokens`: the input is the texts of tokens, in order, with blanks and comments before, between and behind them (`IsGap`, `IsLastGap`).
    Each token is the longest that begins at its place (`IsLongest`).
  - `spell_program`: the tokens are the spelling of the program by the grammar.
  - `HasSpelling`: the grammar can write the program. What stands as a name is one, parameters and outputs have modes that they may have,
    and only version 2 has the later operators and `spawn`.
- `Preserves`, its field `starts`: some store is initial (`IsInitial`). It has a value of its sort for every global, `init` holds in it, and
  the permissions of linear globals and of linear arguments of threads are pairwise disjoint.
- `Preserves`, its field `preserved`: from each initial store from which the lowest program can fail, the topmost program can.
  - `CanFail`: some list of moves runs from the program's start in the store (`start`) to a configuration that fails.
  - `RunsTo`: each move is a step that is made (`step_of`). A move names a thread, declared or spawned, and has values for the choices of an
    action (`IsMove`).
  - `is_failing`: some thread stands before a call of an action whose gate is false, or before an `assert` that is false.
  - `lowest`, `topmost`: in the lowest program each procedure means its body. In the topmost one a procedure that refines an action means
    that action.

Nothing else is assumed of the program, of the store or of the moves. Trusted are the kit (its prover, its compilers, the statements of its
libraries), the C library, and that standard input gave the bytes that were judged. What the sentence doesn't say stands below it in
README.md.
"""

CLAUSE = """## The clause

It is `{name}` among the promises of the top call of {crate}, by the definitions below it. What these rest on beyond the headline is
listed at the end.

```antt
{text}
```
"""

BASE = """## The definitions

{count} definitions of {files} files, {lines} lines without comments. A file stands before those that it rests on. Of each file stands here what
is needed; `use` lines are left out. Each of these files begins with the line `{mark}`, and no other file does.
"""

TYPES = """## The types

The trees, stores, configurations and values of which the definitions speak, by the files that declare them. A clause sees a struct as the
record of its fields, and one with a model as the type that the model gives (`ghost Value`). Fields of other types count too.
"""

BEYOND = """## The other clauses

What other clauses rest on beyond the definitions above. The rest of `accepted` is no premise of the headline: it says besides that the program
breaks no rule, that no formula weighs too much, that all its conditions hold, and what was read and written.

| Clause | Definitions | Lines | Files |
|---|---|---|---|
"""

LISTS = """
Below stands each file under the first clause that needs something of it, with the number of lines; so a clause needs a part of what stands
above it too. `bench/claim.py CLAUSE` lists what one clause needs.
"""


# ---- clauses

@functools.cache
def clauses(crate):
    """The clauses of a command by their names, those of its contract and the fields of the record `Promises`: the text, and what it names."""
    path, found = f"crates/{crate}/src/top.rt", {}
    text = antt.read(path)
    contract = text[text.rindex("\npub fn ") :]
    for whole, name in re.findall(r"^(    ensures (\w+) \{.*?\})$(?=\n\n|\n    (?:ensures|//)|\n\{)", contract, re.MULTILINE | re.DOTALL):
        found[name] = (whole, list(filter(None, antt.ghost_references(text, whole))))
    for module in antt.library().values():
        if module.name.startswith(f"Rattle.{crate}.") and "Promises" in module.definitions:
            found.update(antt.fields_named(module.definitions["Promises"]))
    return found


def parts_of(crate, name):
    return clauses(crate)[name][1]


def named(crate, name):
    """The one definition of a crate with this name."""
    modules = [module for module in antt.library().values() if module.name.startswith(f"Rattle.{crate}.specs.")]
    (found,) = [module.definitions[name] for module in modules if name in module.definitions]
    return found.key()


def definition(key):
    return antt.library()[key[1]].definitions[key[2]]


def definitions(keys):
    return [definition(key) for key in keys if key[0] == "definition"]


def lines_of(found):
    return sum(each.count() for each in found)


def paths_of(found):
    return sorted({each.module.path for each in found})


def roots():
    return {named(crate, name) for _, crate, name in PARTS}


def headline():
    """The clause under which both parts of the headline stand with the fewest definitions: its crate and its name."""
    found = [(len(under), crate, name) for crate in COMMANDS for name in clauses(crate) if roots() <= (under := antt.closure(parts_of(crate, name))).keys()]
    return min(found)[1:]


def base():
    return antt.closure(sorted(roots()))


# ---- the page

def names_below(path, keys):
    """The definitions of other files that those of this file name, of these."""
    here = [each for each in definitions(keys) if each.module.path == path]
    found = {it for each in here for it in antt.rests_on(each.key())[0] if it in keys and it[0] == "definition"}
    return [it for it in found if definition(it).module.path != path]


def in_reading_order(root, keys):
    """The files of these definitions, each before those that it rests on: crate by crate, and first the one that rests on more."""
    sizes = {key: len(antt.closure([key])) for key in keys}
    order, depths = [], {}

    def visit(path):
        depths.setdefault(crate_of(path), 0)
        for it in sorted(names_below(path, keys), key=lambda it: (sizes[it], it)):
            if definition(it).module.path not in order:
                visit(definition(it).module.path)
        if path not in order:
            order.insert(0, path)

    visit(definition(root).module.path)
    for path in order:
        for it in names_below(path, keys):
            below = crate_of(definition(it).module.path)
            depths[below] = max(depths[below], depths[crate_of(path)] + (below != crate_of(path)))
    first = [crate_of(path) for path in order]
    return sorted(order, key=lambda path: (depths[crate_of(path)], first.index(crate_of(path))))


def crate_of(path):
    return path.split("/")[1]


def body_of(path, found):
    """The text of what is needed of a file."""
    texts = ["\n".join([*each.comment, *each.lines]) for each in found if each.module.path == path]
    return "```antt\n" + "\n\n".join(texts) + "\n```\n"


def sentence_of(module):
    """The first sentence of the first comment of a file, but for the line that says that it is a part of the claim."""
    comment = re.match(r"(?:-- .*\n)*", module.text.removeprefix(MARK))[0]
    return re.split(r"(?<=\.) (?=[A-Z`])", comment.strip().removeprefix("-- ").replace("\n-- ", " "))[0]


def in_file_order(found):
    return sorted(found, key=lambda each: (each.module.path, list(each.module.definitions).index(each.name)))


def parts_of_base():
    """Of each part of the headline its title, and the files of which something is needed, in reading order."""
    told = set()
    for title, crate, name in PARTS:
        root = named(crate, name)
        paths = [path for path in in_reading_order(root, antt.closure([root])) if path not in told]
        told.update(paths)
        yield title, paths


def print_base(found):
    found = in_file_order(found)
    yield BASE.format(count=len(found), files=len(paths_of(found)), lines=lines_of(found), mark=MARK.strip())
    for title, paths in parts_of_base():
        yield f"### {title}\n"
        for path in paths:
            here = [each for each in found if each.module.path == path]
            whole = lines_of(here[0].module.definitions.values())
            yield f"#### {path.removeprefix('crates/')}\n\n{sentence_of(here[0].module)} Needed are {lines_of(here)} of {whole} lines.\n"
            yield body_of(path, found)


def print_clause():
    """The clause, what it names, and the definitions on the way from it to the two of the headline."""
    crate, name = headline()
    under, parts = base(), parts_of(crate, name)
    way = [each for each in definitions(antt.closure(parts, under)) if each.key() in parts or antt.closure([each.key()]).keys() & roots()]
    yield CLAUSE.format(name=name, crate=crate, text=clauses(crate)[name][0])
    for path in paths_of(way):
        yield f"{path.removeprefix('crates/')}:\n\n" + body_of(path, in_file_order(way))


def print_types(keys):
    yield TYPES
    files = {}
    for key in keys:
        if key[0] == "type":
            files.setdefault(key[2].removeprefix("crates/"), set()).add(key[3])
    yield "".join(f"- {path}: {listed(files[path])}\n" for path in sorted(files))
    words = sorted({key[2] for key in keys if key[0] == "kit"})
    yield f"Of the kit these words are used: {listed(words)}.\n"


def listed(names):
    return ", ".join(f"`{name}`" for name in sorted(names))


def by_crate(found):
    """A line a crate: its files, each with how many lines of it are needed."""
    crates = {}
    for path in paths_of(found):
        crate, _, rest = path.removeprefix("crates/").partition("/specs/")
        crates.setdefault(crate, []).append(f"{rest.removesuffix('.antt')} {lines_of(each for each in found if each.module.path == path)}")
    return "".join(f"- {crate}: {', '.join(files)}\n" for crate, files in crates.items())


def top_of(parts, found):
    """The names of what the clause names, and of what this names in its turn."""
    near = list(parts)
    for _ in range(2):
        near += [it for key in near for it in sorted(antt.rests_on(key)[0])]
    return dict.fromkeys(each.name for key in near if key[0] == "definition" and (each := definition(key)) in found)


def print_beyond(under):
    needed = {short: definitions(antt.closure(parts_of(*short), under)) for short in SHORT}
    rows = [f"| `{name}` of {crate} | {len(found)} | {lines_of(found)} | {len(paths_of(found))} |\n" for (crate, name), found in needed.items()]
    yield BEYOND + "".join(rows) + LISTS
    told = set()
    for short, found in needed.items():
        new = [each for each in found if each.key() not in told]
        told.update(each.key() for each in new)
        yield f"### {short[1]}\n\n{listed(top_of(parts_of(*short), new))}\n\n{by_crate(new)}"


def page():
    under = base()
    parts = [HEAD, *print_clause(), *print_base(definitions(under)), *print_types(under), *print_beyond(under)]
    return "\n".join(parts)


# ---- the check

def wrong_lines():
    """What is told of the page where it isn't what would be printed."""
    wanted, found = page().split("\n"), antt.read(PAGE).split("\n") if os.path.exists(PAGE) else []
    for at, line in enumerate(wanted + [None] * (len(found) - len(wanted))):
        if at >= len(found) or found[at] != line:
            yield f"{PAGE}:{at + 1}: it is {found[at] if at < len(found) else None!r}, and {line!r} is wanted"
            return


def marked():
    return {path for path in glob.glob("crates/*/specs/**/*.antt", recursive=True) if antt.read(path).startswith(MARK)}


def wrong_marks():
    """What is told of each file whose first line is wrong."""
    wanted, found = set(paths_of(definitions(base()))), marked()
    yield from (f"{path}: the first line isn't {MARK.strip()!r}, and it stands under the headline" for path in sorted(wanted - found))
    yield from (f"{path}: the first line is {MARK.strip()!r}, and nothing of it stands under the headline" for path in sorted(found - wanted))
    yield from (f"{path}: worked examples under the headline" for path in sorted(wanted) if "xample" in path)


def unknown_names():
    """What is told of names that stand for nothing known, under any clause, and of names in the words that no definition has."""
    every = antt.closure(it for crate in COMMANDS for name in clauses(crate) for it in parts_of(crate, name))
    for key in every:
        yield from (f"{key[1]} {key[2]}: what is {path}?" for path in antt.rests_on(key)[1])
    text = "\n".join([*IN_TEXTS, *(name for crate in COMMANDS for name in clauses(crate)), *(line for each in definitions(every) for line in each.lines)])
    yield from (f"the words name {word}, which no definition does" for word in re.findall(r"`(\w+)`", HEAD) if not re.search(rf"\b{word}\b", text))


def check():
    told = [*wrong_marks(), *unknown_names(), *wrong_lines()]
    found = definitions(base())
    print(*told, f"{len(found)} definitions, {lines_of(found)} lines, {len(paths_of(found))} files under the headline, {len(told)} wrong", sep="\n")
    sys.exit(bool(told))


def mark():
    """Writes the first line of each file that has another than it should."""
    wanted, found = set(paths_of(definitions(base()))), marked()
    for path in wanted ^ found:
        text = antt.read(path)
        with open(path, "w", encoding="utf-8") as file:
            file.write(MARK + text if path in wanted else text.removeprefix(MARK))
    print(f"{len(wanted - found)} files marked, {len(found - wanted)} marks taken out")


def print_one(name):
    for crate in COMMANDS:
        if name in clauses(crate):
            found = definitions(antt.closure(parts_of(crate, name), base()))
            print(f"`{name}` of {crate}: {len(found)} definitions, {lines_of(found)} lines, {len(paths_of(found))} files beyond the headline\n{by_crate(found)}")


def main():
    os.chdir(TOP)
    words = sys.argv[1:]
    if not words:
        print(page(), end="")
    elif words == ["--check"]:
        check()
    elif words == ["--mark"]:
        mark()
    elif len(words) == 1 and not words[0].startswith("-"):
        print_one(words[0])
    else:
        sys.exit(__doc__)


if __name__ == "__main__":
    main()
