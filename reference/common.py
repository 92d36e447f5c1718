"""Shared by generate.py, check, corpora, streams, ../compare, ../bench and ../samples/make: kinds of
events, numbers as bytes, table cases as bytes and lines, the build of the reference, where the built
programs are, and the reader of the hand-worked cases."""

import os
import subprocess
import sys

HERE = os.path.dirname(os.path.abspath(__file__))
RUNX = os.path.join(HERE, "runx")  # runs a built program on any machine
FIELDS = ("place", "pred", "curr", "succ", "pending", "recovering",
          "status", "kind", "address", "node", "result")
INSERT, DELETE, FIND, STEP, STOP, RESTART, BURST = range(7)


def number(n):
    """A number in 01's form: groups of seven bits, lowest first, shortest form."""
    if n < 128:
        return SMALL[n]
    groups = bytearray()
    while n >= 128:
        groups.append(n % 128 + 128)
        n //= 128
    groups.append(n)
    return bytes(groups)


SMALL = [bytes([n]) for n in range(128)]


def numbers(values):
    """Numbers one after another: the bytes of a header, an event, a case."""
    return b"".join(map(number, values))


class Case:
    """A table case: stated sizes, count, lent tables, lent row (lists of eleven), one event."""

    def __init__(self, sizes, addresses, links, deleters, row, event):
        self.nodes, self.processes, self.count = sizes
        self.addresses, self.links, self.deleters = list(addresses), list(links), list(deleters)
        self.row = [list(record) for record in row]
        self.event = list(event)

    def bytes(self):
        values = [self.nodes, self.processes, self.count]
        for table in (self.addresses, self.links, self.deleters):
            values.append(len(table))
            values += table
        values.append(len(self.row))
        for record in self.row:
            values += record
        return numbers(values + self.event)

    def line(self, outcome):
        values = [self.count] + self.addresses + self.links + self.deleters
        for record in self.row:
            values += record
        return " ".join([outcome] + [str(value) for value in values])


def build(folder):
    """Builds the reference into the folder and gives the program's path."""
    program = os.path.join(folder, "reference")
    source = os.path.join(HERE, "reference.c")
    try:
        subprocess.run(["cc", "-O2", "-std=c11", "-Wall", "-Wextra", "-o", program, source], check=True)
    except FileNotFoundError:
        sys.exit("no C compiler: the reference is built with cc")
    return program


def reference(program, option, stdin):
    """What the reference prints for an input."""
    return subprocess.run([program, option], input=stdin, stdout=subprocess.PIPE, check=True).stdout


def find(name, variable):
    """The program that the variable names, or the one that `rt run` or `rt ci` built in its crate."""
    if os.environ.get(variable):
        return os.path.abspath(os.environ[variable])
    path = os.path.join(os.path.dirname(HERE), "crates", name, "out", name)
    return path if os.access(path, os.X_OK) else None


# ---- The hand-worked cases ----

class HandCase:
    """One case of reference/by-hand: its input and the output it must give."""

    def __init__(self, name):
        self.name = name
        self.raw = b""    # input given as hex
        self.lines = []   # output given as lines
        self.given = {}   # a table case, as given
        self.row = []     # its records, as given
        self.then = []    # what it changes

    def add(self, word, rest):
        if word == "hex":
            text, times = split_times(rest)
            self.raw += bytes.fromhex(text) * times
        elif word == "line":
            text, times = split_times(rest)
            self.lines += [text] * times
        elif word == "lines":  # lines A to B TEXT
            first, _, last, text = rest.split(" ", 3)
            self.lines += ["%d %s" % (i, text) for i in range(int(first), int(last) + 1)]
        elif word == "record":
            self.row.append(with_fields([0] * len(FIELDS), rest.split()))
        elif word == "then":
            self.then.append(rest.split())
        elif word in ("sizes", "addresses", "links", "deleters", "event"):
            self.given[word] = [int(value) for value in rest.split()]
        elif word == "gives":
            self.given[word] = rest
        elif word != "why":
            raise ValueError("%s: unknown word %s" % (self.name, word))

    def stdin(self):
        return self.table_case().bytes() if self.given else self.raw

    def stdout(self):
        lines = self.lines
        if self.given:
            case = self.table_case()
            for change in self.then:
                change_case(case, change)
            lines = [case.line(self.given["gives"])]
        return "".join(line + "\n" for line in lines).encode()

    def table_case(self):
        given = self.given
        return Case(given["sizes"], given["addresses"], given["links"], given["deleters"],
                    self.row, given["event"])


def split_times(text):
    """`TEXT times N` is the text N times."""
    head, found, times = text.rpartition(" times ")
    return (head, int(times)) if found else (text, 1)


def with_fields(record, pairs):
    for pair in pairs:
        name, value = pair.split("=")
        record[FIELDS.index(name)] = int(value)
    return record


def change_case(case, change):
    """`count N`, `address I = W`, `link I = W`, `deleter I = W`, or `record I FIELD=VALUE ..`."""
    what, index = change[0], int(change[1])
    if what == "count":
        case.count = index
    elif what == "record":
        with_fields(case.row[index], change[2:])
    else:
        table = {"address": case.addresses, "link": case.links, "deleter": case.deleters}[what]
        table[index] = int(change[3])


def hand_cases(name):
    """The cases of reference/by-hand/NAME.txt, in order."""
    cases = []
    with open(os.path.join(HERE, "by-hand", name + ".txt")) as text:
        for line in text:
            word, _, rest = line.split("#")[0].strip().partition(" ")
            if word == "case":
                cases.append(HandCase(rest))
            elif word:
                cases[-1].add(word, rest.strip())
    return cases
