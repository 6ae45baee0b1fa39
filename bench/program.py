"""Builds a program over crates of this repository in a scratch folder."""
import os
import shutil
import subprocess

CRATES = os.path.join(os.path.dirname(os.path.abspath(__file__)), "..", "crates")


def write(path, text):
    os.makedirs(os.path.dirname(path), exist_ok=True)
    with open(path, "w") as file:
        file.write(text)


def closure(names):
    """These crates and all that they stand on, by crates.txt."""
    with open(CRATES + ".txt") as file:
        below = {name: used.split() for name, _, used in (line.strip().partition(":") for line in file) if used}
    found, left = set(), list(names)
    while left:
        name = left.pop()
        if name not in found and os.path.isdir(os.path.join(CRATES, name)):
            found.add(name)
            left += below.get(name, [])
    return sorted(found)


def crate_list(name, crates):
    """The lines of crates.txt for the crates that are copied, and one for the program, which may use them all."""
    with open(CRATES + ".txt") as file:
        lines = [line for line in file if line.split(":")[0] in crates]
    return "".join(lines) + f"{name}: " + " ".join(crates) + "\n"


def laid_out(folder, name, crates, files):
    """The folder of the program of these files (a text for each path), beside copies of the crates that are not there yet."""
    crate = os.path.join(folder, "crates", name)
    for used in crates:
        copy = os.path.join(folder, "crates", used)
        if not os.path.exists(copy):
            shutil.copytree(os.path.join(CRATES, used), copy, ignore=shutil.ignore_patterns("out"))
    write(os.path.join(folder, "crates.txt"), crate_list(name, crates))
    for path, text in files.items():
        write(os.path.join(crate, path), text)
    write(os.path.join(crate, "stdin"), "")
    return crate


def built(folder, name, crates, files):
    """The program of these files, which is proved and built where it isn't there."""
    binary = os.path.join(folder, "crates", name, "out", name)
    if not os.path.exists(binary):
        crate = laid_out(folder, name, crates, files)
        subprocess.run(["rt", "run"], cwd=crate, stdin=subprocess.DEVNULL, check=True)
    return binary


def tried(folder, name, crates, files, given):
    """What the program of these files prints where it reads this text. It is compiled, and nothing of it is proved."""
    crate = laid_out(folder, name, crates, files)
    environment = {**os.environ, "RT_SECONDS": "3600"}
    done = subprocess.run(["rt", "try"], cwd=crate, input=given.encode(), stdout=subprocess.PIPE, env=environment, check=True)
    return done.stdout.decode()
