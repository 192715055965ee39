"""The stored runs: a plan, what is changed in its tables, the calls, and every answer."""

import os
from collections import Counter, namedtuple

from second_planner import USUAL, make_plan, read_text
from second_steps import LARGEST, Opening, Record, Run

# What the caller has: the lengths of its two tables and of its row.
MEMORY_ACTORS, MEMORY_LINKS, MEMORY_ROW = 128, 512, 512

# The lengths that a run is opened on.
Lent = namedtuple("Lent", "actors links row")

# A stored run.  Changes are ("a", number, processor) and ("l", number, *record).
Case = namedtuple("Case", "name kind lent text changes calls expected")


class Planned:
    """A planned drawing, in tables that end with records of zeros."""

    def __init__(self, text):
        drawing = read_text(text, USUAL)
        rows = make_plan(drawing).rows
        self.text = text
        self.n = len(drawing.actors)
        self.given = len(drawing.links)
        self.count = len(rows)
        self.processors = [actor.processor for actor in drawing.actors]
        self.processors += [0] * (MEMORY_ACTORS - self.n)
        self.links = [Record(*row.link, row.mark, row.size) for row in rows]
        self.links += [Record(0, 0, 0, 0, 0)] * (MEMORY_LINKS - self.count)
        self.exact = Lent(self.n, self.count, self.count)

    def marked(self, *marks):
        """The numbers of the links that have one of the marks."""
        return [i for i in range(self.count) if self.links[i].mark in marks]

    def changed(self, number, **fields):
        """The change that gives some fields of a link other values."""
        return ("l", number, *self.links[number]._replace(**fields))

    def opening(self, kind, lent, changes):
        """What a run is opened on, after the changes."""
        processors, links = list(self.processors), list(self.links)
        for word, number, *values in changes:
            if word == "a":
                processors[number] = values[0]
            else:
                links[number] = Record(*values)
        return Opening(kind, self.n, self.count, processors[:lent.actors], links[:lent.links],
                       lent.row)


def written(lines):
    """Lines of words and numbers as text."""
    return "".join(" ".join(map(str, line)) + "\n" for line in lines).encode()


def block_of(case):
    """A case as the file has it."""
    parts = [case.text, written(case.changes), written(case.calls), case.expected]
    words = ["run", case.name, case.kind, *case.lent, *map(len, parts)]
    return written([words]) + b"".join(parts) + b"\n"


def read_rows(part):
    """The lines of a part: a word and numbers each."""
    rows = [line.split() for line in part.decode().splitlines()]
    return [(word, *map(int, numbers)) for word, *numbers in rows]


def read_runs(data):
    """The cases of a file, as its reader sees them."""
    cases, at = [], 0
    while at < len(data):
        end = data.index(b"\n", at)
        word, name, kind, *numbers = data[at:end].decode().split(" ")
        assert word == "run" and kind in LARGEST, name
        *lent, text, changes, calls, expected = map(int, numbers)
        parts, at = [], end + 1
        for length in (text, changes, calls, expected):
            parts.append(data[at:at + length])
            at += length
        assert data[at:at + 1] == b"\n", name
        at += 1
        cases.append(Case(name, kind, Lent(*lent), parts[0], read_rows(parts[1]),
                          read_rows(parts[2]), parts[3]))
    return cases


def expected_of(case):
    """What a case is to be answered with, worked out anew."""
    plan = Planned(case.text)
    run = Run(plan.opening(case.kind, case.lent, case.changes))
    answers = [run.answer(word, number) for word, number in case.calls]
    return written([line] for line in answers + run.closing())


class Shelf:
    """Collects stored runs, names them by sort and counts what they meet."""

    def __init__(self):
        self.blocks = []
        self.sorts = Counter()
        self.kinds = Counter()
        self.answers = Counter()
        self.faults = Counter()

    def add(self, sort, plan, kind, make, changes=(), lent=None, fault=None):
        """Add a run with the calls that make gives for it; fault is known beforehand."""
        lent = lent or plan.exact
        changes = list(changes)
        run = Run(plan.opening(kind, lent, changes))
        found = (run.fault.number, run.fault.place) if run.fault else None
        self.sorts[sort] += 1
        name = "%s-%d" % (sort, self.sorts[sort])
        if found != fault:
            raise SystemExit("run %s: expected %s, found %s" % (name, fault, found))
        calls, answers = make(run)
        expected = written([line] for line in answers + run.closing())
        case = Case(name, kind, lent, plan.text, changes, calls, expected)
        self.blocks.append(block_of(case))
        self.kinds[kind] += 1
        self.faults[found[0] if found else 0] += 1
        self.note(answers)

    def note(self, answers):
        """Count answers by what they say."""
        for line in answers:
            word, _, said, *rest = line.split()
            self.answers[int(rest[0]) if said == "refused" else word] += 1


def write_runs(folder, adders):
    """Write the stored runs, read them back, and tell what they are."""
    shelf = Shelf()
    for adder in adders:
        adder(shelf)
    os.makedirs(folder, exist_ok=True)
    path = os.path.join(folder, "runs.txt")
    with open(path, "wb") as file:
        file.write(b"".join(shelf.blocks))
    with open(path, "rb") as file:
        data = file.read()
    cases = read_runs(data)
    for case in cases:
        assert case.expected == expected_of(case), case.name
    print("runs.txt: %d runs, %d bytes" % (len(cases), len(data)))
    tell(shelf)


def tell(shelf):
    """Counts of the runs by sort, and of the answers."""
    for sort, count in sorted(shelf.sorts.items()):
        print("  %-24s %4d" % (sort, count))
    for kind, count in sorted(shelf.kinds.items()):
        print("guards %s: %d runs" % (kind, count))
    print("sound: %d, unsound by 15: %d, by 16: %d" % tuple(shelf.faults[f] for f in (0, 15, 16)))
    for word in ("start", "finish", "cells"):
        print("%s accepted: %d" % (word, shelf.answers[word]))
    for number in sorted(number for number in shelf.answers if isinstance(number, int)):
        print("refused %d: %d" % (number, shelf.answers[number]))
