#!/usr/bin/env python3
"""Lists names that a file imports and that stand nowhere else in it, in src/, specs/ and proofs/ of all crates.

Usage, at the top of the repository:

    unused.py [CRATE ..]            a line a name: the file, and the name
    unused.py --write [CRATE ..]    takes them out of the files, and an import with none left too

The compiler tells of none in src/. Of .antt files `rattle check --fix-imports` takes them out, but only of a crate or of functions that it
has just proved; this proves nothing. Whole modules that are imported under another name are looked for too. What is passed on (`pub use`)
is left out; of an operator all parts are looked for, and of a trait of the crates its methods. After --write all crates have to be
compiled again (`rt try`), and files of src/ formatted (`rattle fmt --write`).
"""
import glob
import re
import sys

IMPORT = re.compile(r"^((?:ghost )?use [^\s{};]+?(?:\.|::))(?:\{([^{}]*)\}|(\w+))(;?)\n", re.MULTILINE)
TRAIT = re.compile(r"^pub trait (\w+)[^{]*\{\n(.*?)^\}", re.MULTILINE | re.DOTALL)
MODULE = re.compile(r"^use \S+ as ([\w\-]+)\n", re.MULTILINE)
ANY_IMPORT = re.compile(r"^(?:ghost |pub )*use [^;{}\n]*(?:\{[^{}]*\})?;?\n", re.MULTILINE)


def methods_of_traits():
    """The methods of each public trait of the crates, by its name."""
    methods = {}
    for path in glob.glob("crates/*/src/**/*.rt", recursive=True):
        with open(path, encoding="utf-8") as file:
            for name, inside in TRAIT.findall(file.read()):
                methods.setdefault(name, set()).update(re.findall(r"^    fn (\w+)", inside, re.MULTILINE))
    return methods


def is_used(name, body, methods):
    """Whether what is written as this name, or as the one behind `as`, stands in a text, or a method of the trait that it is."""
    if any(f".{method}(" in body for method in methods.get(name, ())):
        return True
    word = name.split(" as ")[-1].strip()
    if word == "self":
        return True
    if "◌" in word:
        return all(part in body for part in word.split("◌") if part)
    if re.fullmatch(r"[\w\-]+", word):
        return re.search(rf"(?<![\w\-]){re.escape(word)}(?![\w\-])", body) is not None
    return word in body


def looked_through(text, methods):
    """The text without the names that it imports and doesn't use, and these names."""
    body, unused = ANY_IMPORT.sub("", text), []

    def cut(found):
        names = [name.strip() for name in (found[2] or found[3]).split(",") if name.strip()]
        kept = [name for name in names if is_used(name, body, methods)]
        unused.extend(name for name in names if name not in kept)
        if len(kept) == len(names):
            return found[0]
        if not kept:
            return ""
        bare = len(kept) == 1 and found[1].endswith("::") and not found[1].startswith("ghost") and " as " not in kept[0] and kept[0] != "self"
        return found[1] + (kept[0] if bare else "{" + ", ".join(kept) + "}") + found[4] + "\n"

    def cut_module(found):
        if is_used(found[1], MODULE.sub("", body), methods):
            return found[0]
        unused.append(found[1])
        return ""

    return MODULE.sub(cut_module, IMPORT.sub(cut, text)), unused


def main():
    words = sys.argv[1:]
    is_writing = words[:1] == ["--write"]
    crates = words[is_writing:] or ["*"]
    methods = methods_of_traits()
    for crate in crates:
        for path in sorted(glob.glob(f"crates/{crate}/s*/**/*.rt", recursive=True) + glob.glob(f"crates/{crate}/[ps]*/**/*.antt", recursive=True)):
            with open(path, encoding="utf-8") as file:
                text = file.read()
            rest, unused = looked_through(text, methods)
            for name in unused:
                print(path, name)
            if unused and is_writing:
                with open(path, "w", encoding="utf-8") as file:
                    file.write(rest)


if __name__ == "__main__":
    main()
