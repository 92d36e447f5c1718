#!/usr/bin/env python3
"""Brings the names in code spans of comments (.antt, .rt, .edit) to today's spelling, as tools/respell_pages.py does for pages."""
import glob
import re

from respell_pages import WORD, check, turned


def main():
    names = check.defined()
    for path in sorted(glob.glob("crates/*/*/**/*.antt", recursive=True) + glob.glob("crates/*/src/*.rt") + glob.glob("crates/*/must-fail/*.edit")):
        if "/out/" in path:
            continue
        lines = open(path, encoding="utf-8").read().split("\n")
        for i, line in enumerate(lines):
            at = {"t": line.find("--"), "r": line.find("//"), "e": 0 if line.startswith("#") else -1}[{"antt": "t", "rt": "r", "edit": "e"}[path.rsplit(".", 1)[1]]]
            if at >= 0:
                said = re.sub(r"`[^`]+`", lambda m: WORD.sub(lambda w: turned(w.group(0), names), m.group(0)), line[at:])
                lines[i] = line[:at] + said
        new = "\n".join(lines)
        if new != open(path, encoding="utf-8").read():
            open(path, "w", encoding="utf-8").write(new)
            print(path)


main()
