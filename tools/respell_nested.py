#!/usr/bin/env python3
"""Brings names that stand inside another definition or module, which tools/respell.py doesn't read, to snake case too. Run once, after it.

The names stand in nested.tsv beside this file: old, a tab, new. A lemma that would have its function's name gets `_lem`.

usage: tools/respell_nested.py [--check] [FOLDER ..]
"""
import glob
import os
import re
import sys

sys.path.insert(0, os.path.dirname(os.path.abspath(__file__)))
from respell import TOKEN

def from_outside(text):
    """The names that a file takes from outside the repository."""
    own = {line.split(":")[0].split()[0] for line in open("crates.txt") if line.strip() and line[0] != "#"}
    names = set()
    for module, items in re.findall(r"\buse ([^\s;{]+?)\.?\{([^}]*)\}", text):
        parts = module.split(".")
        if not (len(parts) > 2 and parts[0] == "Rattle" and parts[1] in own):
            names.update(TOKEN.findall(items))
    return names


def main():
    check = "--check" in sys.argv
    folders = [a for a in sys.argv[1:] if a != "--check"] or ["."]
    table = dict(line.split() for line in open(os.path.join(os.path.dirname(os.path.abspath(__file__)), "nested.tsv")))
    for folder in folders:
        paths = glob.glob(folder + "/crates/*/specs/**/*.antt", recursive=True) + glob.glob(folder + "/crates/*/proofs/**/*.antt", recursive=True)
        paths += glob.glob(folder + "/crates/*/src/*.rt") + glob.glob(folder + "/crates/*/must-fail/*.edit")
        for path in sorted(paths):
            text = open(path).read()
            keep = from_outside(text)
            comment = "//" if path.endswith(".rt") else "--"
            lines = []
            tokens = set(TOKEN.findall(text))
            for old in sorted(tokens):
                if old in table and old not in keep and table[old] in tokens:
                    print("beside:", path, old, table[old])
                if old in table and old in keep:
                    print("kept:", path, old)
            for line in text.split("\n"):
                at = line.find(comment)
                code, said = (line, "") if at < 0 or (at > 0 and line[at - 1] != " ") else (line[:at], line[at:])
                answers = path.endswith(("Answers.antt", "Invariants.antt")) and ".Goals as goal" in text

                def word(m):
                    made = answers and m.start() > 0 and code[m.start() - 1] == "."
                    return m.group(0) if made or m.group(0) in keep else table.get(m.group(0), m.group(0))

                lines.append(TOKEN.sub(word, code) + said)
            new = "\n".join(lines)
            if new != text and not check:
                open(path, "w").write(new)


if __name__ == "__main__":
    main()
