#!/usr/bin/env python3
"""Measures the gate: for each crate the processor minutes of its proof, of its tests and of its must-fail edits.

Usage, at the top of the repository:

    gate.py TABLE [WORD ..]     runs `rt ci WORD ..`, as `rt ci --anew`, and ends with its status
    gate.py TABLE --pid NUMBER  watches an `rt ci` that runs already, until it ends

The gate's log has no times, so the processes below `rt` are looked at twice a second, and nothing of theirs is changed. Its
output is left as it is. TABLE is a file, to which a table in Markdown is written once a minute and at the end. A dash says that
nothing was seen to be done: it is kept from an earlier run, or there is none.

Processors that are shared with other machines, or with other work, do less in a minute at one time than at another. So once a minute
a small loop is timed, and below the table stands what it took, and what the whole comes to where each minute is weighed by it: the
minutes of a processor that needs one second for ten million additions of the loop.
"""
import os
import re
import resource
import signal
import subprocess
import sys
import time

KINDS = ["proof", "tests", "edits"]
TICKS = os.sysconf("SC_CLK_TCK")
PAUSE, REWRITE = 0.5, 60
ADDITIONS = 3_000_000
LOOP = f"""
import time
total, begun = 0, time.process_time()
for number in range({ADDITIONS}):
    total += number
print(time.process_time() - begun)
"""


def text_of(path):
    with open(path, "rb") as file:
        return file.read().decode(errors="replace")


class Process:
    """A process as /proc tells it: its state, its parent, when it began, and the seconds of it and of those below it that have ended."""

    def __init__(self, number):
        fields = text_of(f"/proc/{number}/stat").rpartition(")")[2].split()
        self.number, self.state, self.parent, self.began = number, fields[0], int(fields[1]), fields[19]
        self.seconds = sum(map(int, fields[11:15])) / TICKS


def processes():
    found = {}
    for name in filter(str.isdigit, os.listdir("/proc")):
        try:
            found[int(name)] = Process(int(name))
        except OSError:
            # (it has ended meanwhile)
            pass
    return found


def work_of(number):
    """The crate and the kind of work that a process does, if it is one of the prover, or a run of what was proved."""
    words = text_of(f"/proc/{number}/cmdline").split("\0")
    for word in words:
        run = re.search(r"/rt-run-[^/]+/bin/(\w+)$", word)
        if run:
            return re.sub("_tests$", "", run[1]), "tests"
    if "--crate-name" not in words[:-1]:
        return None
    crate = words[words.index("--crate-name") + 1]
    # (an edit is tried on a copy, and so is the check that the edits of a crate begin with)
    if "/rt-edit-" in os.readlink(f"/proc/{number}/cwd"):
        return crate, "edits"
    return crate, "tests" if "--test" in words else "proof"


class Pace:
    """What the loop took each time, in seconds for ten million additions."""

    def __init__(self):
        self.seconds, self.running = [], None

    def first(self):
        self.begin()
        self.running.wait()
        self.take()

    def begin(self):
        if not self.running:
            self.running = subprocess.Popen([sys.executable, "-c", LOOP], stdout=subprocess.PIPE, text=True)

    def take(self):
        if self.running and self.running.poll() is not None:
            said = self.running.stdout.read().strip()
            if said:
                self.seconds.append(float(said) * 10_000_000 / ADDITIONS)
            self.running = None

    def now(self):
        return self.seconds[-1]


class Watch:
    """What was seen of the processes below one: for each that does a crate's work, this work and its seconds; and all of them, weighed by
    the pace at which they passed."""

    def __init__(self, root, pace):
        self.root, self.pace, self.works, self.seconds, self.weighed = root, pace, {}, {}, 0

    def work(self, process):
        key = process.number, process.began
        if not self.works.get(key):
            try:
                self.works[key] = work_of(process.number)
            except OSError:
                return None
        return self.works[key]

    def look(self):
        found, below = processes(), {}
        for process in found.values():
            below.setdefault(process.parent, []).append(process)

        def whole(process):
            return process.seconds + sum(map(whole, below.get(process.number, [])))

        ahead = list(below.get(self.root, []))
        while ahead:
            process = ahead.pop()
            if self.work(process):
                key, before = (process.number, process.began), self.seconds.get((process.number, process.began), 0)
                self.seconds[key] = max(before, whole(process))
                self.weighed += (self.seconds[key] - before) / self.pace.now()
            else:
                ahead += below.get(process.number, [])

    def minutes(self):
        """The minutes for each crate and kind."""
        sums = {}
        for key, seconds in self.seconds.items():
            work = self.works[key]
            sums[work] = sums.get(work, 0) + seconds / 60
        return sums


def line(name, cells):
    return "| " + " | ".join([name, *("–" if cell is None else f"{cell:.1f}" for cell in cells)]) + " |\n"


def sum_of(cells):
    seen = [cell for cell in cells if cell is not None]
    return sum(seen) if seen else None


def table(crates, minutes):
    rows = {crate: [minutes.get((crate, kind)) for kind in KINDS] for crate in crates}
    text = "| Crate | Proof | Tests | Must-fail edits | Sum |\n|---|---|---|---|---|\n"
    for crate, cells in rows.items():
        text += line(crate, [*cells, sum_of(cells)])
    sums = [sum_of(column) for column in zip(*rows.values())]
    return text + line("Sum", [*sums, sum_of(sums)])


def crates_here():
    """The crates, in the order of crates.txt."""
    lines = [it.partition("#")[0] for it in text_of("crates.txt").split("\n")]
    return [it.partition(":")[0].split()[0] for it in lines if ":" in it]


def ended_minutes():
    """The processor minutes of what this program started and what ended."""
    usage = resource.getrusage(resource.RUSAGE_CHILDREN)
    return (usage.ru_utime + usage.ru_stime) / 60


def write(path, text):
    with open(f"{path}.new", "w") as file:
        file.write(text)
    os.replace(f"{path}.new", path)


def watched(root, path, is_over):
    """Looks again and again, until it is over, and writes the table."""
    pace = Pace()
    pace.first()
    crates, watch, due = crates_here(), Watch(root, pace), 0
    start, before = time.monotonic(), ended_minutes()

    def tell():
        text = f"\nProcessor minutes. By the clock: {(time.monotonic() - start) / 60:.1f} minutes."
        whole = ended_minutes() - before
        if whole:
            text += f" The gate took {whole:.1f} processor minutes in all, with what belongs to no crate."
        least, most, mean = min(pace.seconds), max(pace.seconds), sum(pace.seconds) / len(pace.seconds)
        text += f" Ten million additions took {mean:.2f} seconds ({least:.2f} to {most:.2f}); weighed by that, it is {watch.weighed / 60:.1f} minutes."
        write(path, table(crates, watch.minutes()) + text + "\n")

    while not is_over():
        watch.look()
        pace.take()
        if time.monotonic() >= due:
            tell()
            pace.begin()
            due = time.monotonic() + REWRITE
        time.sleep(PAUSE)
    tell()


def main():
    words = sys.argv[1:]
    if not words or words[0].startswith("-") or not os.path.isfile("crates.txt"):
        sys.exit(__doc__)
    path, words = os.path.abspath(words[0]), words[1:]
    write(path, "")
    if words[:1] == ["--pid"]:
        root = int(words[1])
        began = Process(root).began

        def has_ended():
            try:
                now = Process(root)
            except OSError:
                return True
            return now.began != began or now.state == "Z"

        return watched(root, path, has_ended)
    # (what ends this ends the gate by itself)
    signal.signal(signal.SIGINT, signal.SIG_IGN)
    gate = subprocess.Popen(["rt", "ci", *words], preexec_fn=lambda: signal.signal(signal.SIGINT, signal.SIG_DFL))
    signal.signal(signal.SIGTERM, lambda *_: gate.terminate())
    watched(gate.pid, path, lambda: gate.poll() is not None)
    sys.exit(gate.returncode if gate.returncode >= 0 else 128 - gate.returncode)


if __name__ == "__main__":
    main()
