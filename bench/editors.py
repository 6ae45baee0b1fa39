#!/usr/bin/env python3
"""Tries the patterns of editors/ on reports of civl_explain.

Usage: editors.py BINARY          (crates/civl_explain/out/civl_explain after `rt run` in crates/civl_explain)

The program is run with `check --lines` on the texts of examples/ and on the broken twins of the cookbook. What it prints is read by Vim with
editors/civl.vim, by Emacs with editors/civl.el, and by node with the pattern of editors/tasks.json, each where it is installed. Each line
`line:column: kind: text` has to be one finding there, with this place, kind and text, and no other line any. It prints a line for each
text that is read otherwise, and at last how many findings were read by which editor. The exit code is 1 where one was read otherwise,
where there were none, or where no editor is installed.
"""
import glob
import json
import os
import re
import shutil
import subprocess
import sys
import tempfile

TOP = os.path.abspath(os.path.join(os.path.dirname(os.path.abspath(__file__)), ".."))
EDITORS = os.path.join(TOP, "editors")
FINDING = re.compile(r"(\d+):(\d+): (info|error): (.*)")


def texts():
    return sorted(glob.glob(f"{TOP}/examples/*.civl") + glob.glob(f"{TOP}/crates/civl_tests/data/*_broken.civl"))


def report(binary, text):
    with open(text, "rb") as file:
        return subprocess.run([binary, "check", "--lines"], stdin=file, stdout=subprocess.PIPE).stdout.decode()


def wanted(report):
    """The findings of a report: line, column, the first letter of the kind, and the text."""
    matches = (FINDING.fullmatch(line) for line in report.splitlines())
    return [(int(match[1]), int(match[2]), match[3][0], match[4]) for match in matches if match]


# ---- what each editor reads in a report, which stands in a file

def by_vim(folder, text, file):
    script = os.path.join(folder, "read.vim")
    with open(script, "w") as out:
        out.write(
            f"edit {text}\nsource {EDITORS}/civl.vim\ncgetfile {file}\n"
            "let found = map(filter(getqflist(), 'v:val.valid'), '[v:val.lnum, v:val.col, v:val.type, v:val.text]')\n"
            f"call writefile([json_encode(found)], '{folder}/found')\nqall!\n")
    subprocess.run(["vim", "-N", "-u", "NONE", "-i", "NONE", "-n", "-es", "-S", script], stdout=subprocess.DEVNULL, timeout=60)
    with open(f"{folder}/found") as found:
        return [(line, column, kind, text) for line, column, kind, text in json.load(found)]


EMACS = """
(load "{editors}/civl.el" nil t)
(setq civl-text "{text}")
(with-temp-buffer
  (insert-file-contents "{file}")
  (civl-mode)
  (let ((inhibit-read-only t)) (compilation--ensure-parse (point-max)))
  (goto-char (point-min))
  (while (not (eobp))
    (let ((message (get-text-property (point) 'compilation-message)))
      (when message
        (let ((place (compilation--message->loc message)))
          (princ (format "%d:%d: %s: %s\\n" (compilation--loc->line place) (compilation--loc->col place)
                         (if (= (compilation--message->type message) 2) "error" "info")
                         (buffer-substring (match-end-of-place) (line-end-position)))))))
    (forward-line 1)))
"""


def by_emacs(folder, text, file):
    script = os.path.join(folder, "read.el")
    place = '(save-excursion (beginning-of-line) (looking-at "[0-9]+:[0-9]+: [a-z]+: ") (match-end 0))'
    with open(script, "w") as out:
        out.write(EMACS.format(editors=EDITORS, text=text, file=file).replace("(match-end-of-place)", place))
    ran = subprocess.run(["emacs", "--batch", "-Q", "-l", script], stdout=subprocess.PIPE, stderr=subprocess.DEVNULL, timeout=60)
    return wanted(ran.stdout.decode())


NODE = """
const fs = require("fs");
const matcher = JSON.parse(fs.readFileSync(process.argv[1])).tasks[0].problemMatcher.pattern;
const found = [];
for (const line of fs.readFileSync(process.argv[2], "utf8").split("\\n")) {
  const match = new RegExp(matcher.regexp).exec(line);
  if (match) found.push([match[matcher.file], +match[matcher.line], +match[matcher.column], match[matcher.severity], match[matcher.message]]);
}
console.log(JSON.stringify(found));
"""


def by_node(folder, text, file):
    """The report has gone through the task's `sed`, which puts the file's name before each finding."""
    with open(f"{EDITORS}/tasks.json") as tasks:
        command = json.load(tasks)["tasks"][0]["command"].split(" | ", 1)[1].replace("${file}", text)
    named = os.path.join(folder, "named")
    subprocess.run(f"{command} < '{file}' > '{named}'", shell=True, check=True)
    ran = subprocess.run(["node", "-e", NODE, f"{EDITORS}/tasks.json", named], stdout=subprocess.PIPE, timeout=60)
    return [(line, column, kind[0], said) for name, line, column, kind, said in json.loads(ran.stdout) if name == text]


READERS = {"vim": by_vim, "emacs": by_emacs, "node": by_node}


def tried(binary, folder, name, text):
    """How many findings an editor reads in the report on a text, or None where it reads others."""
    file = os.path.join(folder, "report")
    made = report(binary, text)
    with open(file, "w") as out:
        out.write(made)
    found = READERS[name](folder, text, file)
    if found == wanted(made):
        return len(found)
    print(f"{name} reads {found} of {text}, where these were printed: {wanted(made)}")
    return None


def main():
    binary, bad = os.path.abspath(sys.argv[1]), False
    installed = [name for name in READERS if shutil.which(name)]
    with tempfile.TemporaryDirectory() as folder:
        for name in installed:
            counts = [tried(binary, folder, name, text) for text in texts()]
            bad = bad or None in counts or not any(counts)
            print(f"{name}: {sum(count or 0 for count in counts)} findings in {len(counts)} reports")
    print("not installed:", ", ".join(name for name in READERS if name not in installed) or "none")
    return bad or not installed


if __name__ == "__main__":
    sys.exit(main() if len(sys.argv) == 2 else __doc__)
