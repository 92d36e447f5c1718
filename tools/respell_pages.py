#!/usr/bin/env python3
"""Brings the names in code spans of the pages to today's spelling, where the crates have the name in that spelling and not in the old one. Run after
tools/respell.py and tools/respell_nested.py.

usage: tools/respell_pages.py PAGE ..
"""
import importlib.machinery
import importlib.util
import os
import re
import sys

HERE = os.path.dirname(os.path.abspath(__file__))
sys.path.insert(0, HERE)
from respell import CONSTANTS, snake

loader = importlib.machinery.SourceFileLoader("check", os.path.join(HERE, "..", "docs", "check"))
text = open(loader.path, encoding="utf-8").read().replace("sys.exit(main())", "")
check = importlib.util.module_from_spec(importlib.util.spec_from_loader("check", loader=None))
check.__file__ = loader.path
exec(text, check.__dict__)

NESTED = dict(line.split() for line in open(os.path.join(HERE, "nested.tsv")))
WORD = re.compile(r"[^\s(){}.;,:`|\"«»/\\]+")


def turned(word, names):
    if word in CONSTANTS:
        return CONSTANTS[word]
    word = word.replace("′", "'")
    if word in names:
        return word
    for new in (NESTED.get(word), snake(word), snake(word) + "_lem"):
        if new and new in names:
            return new
    return word


def main():
    names = check.defined()
    for path in sys.argv[1:]:
        page = open(path, encoding="utf-8").read()
        spans = re.split(r"(^```.*?^```|`[^`\n]+`)", page, flags=re.M | re.S)
        for i, span in enumerate(spans):
            if span.startswith("`") and not span.startswith("```"):
                spans[i] = WORD.sub(lambda m: turned(m.group(0), names), span)
        new = "".join(spans)
        if new != page:
            open(path, "w", encoding="utf-8").write(new)


if __name__ == "__main__":
    main()
