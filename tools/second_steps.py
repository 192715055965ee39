"""A run of a plan, call by call, told by counts alone.

Each actor's starts and finishes are all that is kept.  How many values wait at a guard follows from
them: its link's delay, plus the sender's finishes, less the receiver's starts.  So does the turn of
a processor: it is with the actor that has finished least often, the lowest of several.
"""

from collections import namedtuple

from second_planner import BACK, DROPPED, KEPT, LOCAL, MOST_PROCESSOR, Refusal

# A record of the link table as a run reads it.
Record = namedtuple("Record", "sender receiver delay mark size")

# What a run is opened on: the kind of its guards, the counts of actors and of links that the slip
# tells, the processors and links of the lent tables, and the length of the row.
Opening = namedtuple("Opening", "kind n count processors links row")

LARGEST = {"pointers": 65_534, "counter": 65_535}
MOST_STARTS = 1_000_000_000

# What every guard of a row is before the run is opened: its count and its size.
STALE = (3, 7)


def is_guarded(link):
    """The link is waited for, so that it has a guard."""
    return link.mark in (KEPT, BACK)


def is_unfit(link, n, largest):
    """A run cannot be told by this record."""
    if link.sender >= n or link.receiver >= n or link.mark not in (DROPPED, KEPT, LOCAL, BACK):
        return True
    if link.mark != LOCAL and (link.size == 0 or link.size < link.delay):
        return True
    return is_guarded(link) and link.size > largest


def opening_fault(opening):
    """Refusal 15 or 16, or None where the run is sound."""
    lengths = [(opening.n, len(opening.processors)), (opening.count, len(opening.links)),
               (opening.count, opening.row)]
    if any(lent < needed for needed, lent in lengths):
        return Refusal(15, 0)
    if max(opening.processors[:opening.n]) > MOST_PROCESSOR:
        return Refusal(15, 0)
    for place, link in enumerate(opening.links[:opening.count]):
        if is_unfit(link, opening.n, LARGEST[opening.kind]):
            return Refusal(16, place)
    return None


class Run:
    """A run, sound or not, and what each call of it answers."""

    def __init__(self, opening):
        self.fault = opening_fault(opening)
        self.n = opening.n
        self.links = opening.links[:opening.count]
        self.starts = [0] * self.n
        self.finishes = [0] * self.n
        if self.fault is None:
            guarded = [i for i, link in enumerate(self.links) if is_guarded(link)]
            places, actors = opening.processors, range(self.n)
            self.into = [[i for i in guarded if self.links[i].receiver == a] for a in actors]
            self.out = [[i for i in guarded if self.links[i].sender == a] for a in actors]
            self.mates = [[b for b in actors if places[b] == places[a]] for a in actors]

    def is_running(self, actor):
        """The actor has started and not finished."""
        return self.starts[actor] > self.finishes[actor]

    def turn(self, actor):
        """Whose turn it is on the actor's processor."""
        return min(self.mates[actor], key=lambda mate: (self.finishes[mate], mate))

    def waiting(self, number):
        """How many values wait at the guard of a link."""
        link = self.links[number]
        return link.delay + self.finishes[link.sender] - self.starts[link.receiver]

    def require_actor(self, actor):
        """Refuse where the run is unsound or there is no such actor."""
        if self.fault is not None:
            raise self.fault
        if actor >= self.n:
            raise Refusal(17, actor)

    def start(self, actor):
        """The actor starts, or it is refused."""
        self.require_actor(actor)
        if self.starts[actor] == MOST_STARTS:
            raise Refusal(18, actor)
        if self.turn(actor) != actor or any(map(self.is_running, self.mates[actor])):
            raise Refusal(19, actor)
        for number in self.into[actor]:
            if self.waiting(number) == 0:
                raise Refusal(20, number)
        self.starts[actor] += 1

    def finish(self, actor):
        """The actor finishes, or it is refused."""
        self.require_actor(actor)
        if not self.is_running(actor):
            raise Refusal(21, actor)
        for number in self.out[actor]:
            if self.waiting(number) == self.links[number].size:
                raise Refusal(23, number)
        self.finishes[actor] += 1

    def cells(self, number):
        """How many values a link holds, and which cells are written and read next."""
        if self.fault is not None:
            raise self.fault
        if number >= len(self.links) or self.links[number].mark not in (DROPPED, KEPT):
            raise Refusal(17, number)
        link = self.links[number]
        written = link.delay + self.starts[link.sender]
        held = max(0, written - self.finishes[link.receiver])
        return held, written % link.size, self.starts[link.receiver] % link.size

    def answer(self, word, number):
        """The line that a call is answered with."""
        try:
            if word == "cells":
                said = "holds %d write %d read %d" % self.cells(number)
            else:
                {"start": self.start, "finish": self.finish}[word](number)
                said = "done"
        except Refusal as refusal:
            said = refusal.line().decode().strip()
        return "%s %d %s" % (word, number, said)

    def closing(self):
        """The lines for the guards that are no longer what they were before the opening."""
        if self.fault is not None:
            return []
        guards = [(i, self.waiting(i), link.size) for i, link in enumerate(self.links)
                  if is_guarded(link)]
        return ["guard %d %d %d" % guard for guard in guards if guard[1:] != STALE]
