#!/usr/bin/env python3
"""Brings the repository's own names to the spelling of today's Rattle: definitions, lemmas, fields and constructors in snake case, types and modules
in camel case. Run once, at the top of the checkout, after the kit's port.py. It prints what it renamed, and names that fall together.

usage: tools/respell.py [--check]
"""
import collections
import glob
import re
import sys

NAME = r'[^\s(){}.;,@"«»:]+'
TOKEN = re.compile(r'[^\s(){}.;,@"«»]+')

# Constants that were spelled like types. Where the plain spelling would fall together with another name, the name says what it is.
CONSTANTS = {
    "Idle": "idle_status",
    "Running": "running_status",
    "Down": "down_status",
    "Inserts": "insert_kind",
    "Deletes": "delete_kind",
    "Finds": "find_kind",
    "NoAnswer": "no_answer",
    "False": "false_answer",
    "True": "true_answer",
    "Fail": "fail_answer",
}

# Lemmas that port.py gave the name that their function has now.
LEMMAS = ["header_read", "keys_on", "none_left", "number_read", "one_more", "pairs_of"]


def antt_files():
    return sorted(glob.glob("crates/*/specs/**/*.antt", recursive=True) + glob.glob("crates/*/proofs/**/*.antt", recursive=True))


def declared(text, goals):
    """The names that a file declares: definitions, fields, constructors. Without goals, a name that Rattle asks for doesn't count."""
    names, mode = [], None
    for line in text.split("\n"):
        top = re.match(r"(?:(?:abbrev|unfoldable|pub|private|opaque) )*(record|data) (" + NAME + ")", line)
        if top:
            names.append(top.group(2))
            mode = top.group(1)
        elif line and not line.startswith((" ", "--")):
            mode = None
            plain = re.match(r"(?:(?:abbrev|unfoldable|pub|private|opaque) )*(" + NAME + ") : (.*)$", line)
            if plain and (goals or not re.match(r"(tie|goal|given|goals)\.", plain.group(2))):
                names.append(plain.group(1))
        elif mode:
            part = re.match(r"  (?:pub )?(" + NAME + "(?: " + NAME + r")*) : ", line)
            if part:
                names.extend(part.group(1).split())
    return names


def snake(name):
    if name in CONSTANTS:
        return CONSTANTS[name]
    if not name[0].isalpha() and name[0] != "◌" or name[0].isupper():
        return name
    name = re.sub(r"(?<=[a-z0-9])([A-Z])(?![A-Z])", lambda m: "_" + m.group(1).lower(), name)
    return name.replace("-", "_")


def outside(text):
    """The names that a file takes from outside the repository, and of those that Rattle makes."""
    own = set(line.split(":")[0].strip() for line in open("crates.txt") if line.strip() and line[0] != "#")
    names = set()
    for module, items in re.findall(r"\buse ([^\s;{]+?)\.?\{([^}]*)\}", text):
        parts = module.split(".")
        ours = len(parts) > 2 and parts[0] == "Rattle" and parts[1] in own
        if not ours:
            names.update(TOKEN.findall(items))
    return names


def imported(text):
    """The items that a file's `use` lines name."""
    return {n for items in re.findall(r"\buse [^\s;{]+\{([^}]*)\}", text) for n in TOKEN.findall(items)}


def turn(text, table, keep, comment):
    def word(m):
        w = m.group(0)
        return table[w] if w in table and w not in keep else w

    lines = []
    for line in text.split("\n"):
        at = line.find(comment)
        if at > 0 and line[at - 1] not in " ":
            at = -1
        code, said = (line, "") if at < 0 else (line[:at], line[at:])
        code = TOKEN.sub(word, code)
        said = re.sub(r"[\w≔-]+", lambda m: table[m.group(0)] if m.group(0) in table and m.group(0) not in CONSTANTS and spoken(m.group(0)) else m.group(0), said)
        lines.append(code + said)
    return "\n".join(lines)


def spoken(name):
    """Whether a name in a comment is surely the name, and not prose."""
    return "-" not in name


def turn_rattle(text, table, keep):
    """In Rattle source the names stand in clauses and ghost items alone; strings stay."""
    out = []
    for part in re.split(r'("(?:\\.|[^"\\])*")', text):
        out.append(part if part.startswith('"') else turn(part, table, keep, "//"))
    return "".join(out)


def main():
    check = "--check" in sys.argv
    names = collections.defaultdict(set)
    for path in antt_files():
        for name in declared(open(path).read(), False):
            names[name].add(path)
    table = {n: snake(n) for n in names if snake(n) != n}
    # A lemma that would have its function's name gets `_lem`.
    taken = {new for old, new in table.items() if "-" not in old} | set(names)
    table = {old: new + "_lem" if "-" in old and new in taken else new for old, new in table.items()}
    back = collections.defaultdict(set)
    for old, new in table.items():
        back[new].add(old)
    for new, olds in sorted(back.items()):
        if len(olds) > 1 or new in names:
            print("together:", new, sorted(olds), "declared already" if new in names else "", *sorted(p for o in olds for p in names[o])[:4], *sorted(names.get(new, []))[:3])
    count = 0
    for path in antt_files() + sorted(glob.glob("crates/*/src/**/*.rt", recursive=True)) + sorted(glob.glob("crates/*/must-fail/*.edit")):
        text = open(path).read()
        keep = outside(text)
        here = dict(table)
        here.update((n, n + "_lem") for n in LEMMAS if n in declared(text, True) or n in imported(text))
        kept = sorted(n for n in keep if n in table)
        if kept:
            print("kept:", path, *kept)
        rattle = path.endswith((".rt", ".edit"))
        new = turn_rattle(text, table, keep) if rattle else turn(text, here, keep, "--")
        taken = set(TOKEN.findall(text))
        for n in sorted(taken):
            if n in table and n not in keep and table[n] in taken and table[n] != n:
                print("beside:", path, n, table[n])
        if new != text:
            count += 1
            if not check:
                open(path, "w").write(new)
    print(f"respelled: {len(table)} names in {count} files")
    if check:
        for old in sorted(table):
            print("name:", old, table[old])


if __name__ == "__main__":
    main()
