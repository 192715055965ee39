"""What the program `rehearse` prints for an input, told by the second planner and its runs."""

import re

from second_planner import LOCAL, Refusal, USUAL, check_tables, read_text
from second_steps import Run
from second_trials import Planned

MOST_INPUT = 1_048_576

CALL = re.compile(rb"(start|finish|cells) (0|[1-9][0-9]{0,6})\n")


def lines_of(data):
    """The lines with their line feeds; the last may have none."""
    *lines, tail = data.split(b"\n")
    return [line + b"\n" for line in lines] + ([tail] if tail else [])


def divided(data):
    """The text of the drawing, and the calls; or the number of a bad line."""
    lines = lines_of(data)
    end = lines.index(b"\n") if b"\n" in lines else len(lines)
    calls = []
    for number, line in enumerate(lines[end + 1:], end + 2):
        found = CALL.fullmatch(line)
        if found is None:
            return None, number
        calls.append((found[1].decode(), int(found[2])))
    return b"".join(lines[:end]), calls


class Links:
    """What each link of a run holds, and the most that it held."""

    def __init__(self, run):
        self.run = run
        self.most = self.held()

    def held(self):
        """What each link holds now."""
        starts, finishes = self.run.starts, self.run.finishes
        return [max(0, link.delay + starts[link.sender] - finishes[link.receiver])
                for link in self.run.links]

    def look(self):
        """Take note of what the links hold now."""
        self.most = list(map(max, self.most, self.held()))

    def lines(self):
        """A line for each link."""
        for number, link in enumerate(self.run.links):
            room = "home" if link.mark == LOCAL else "cells %d" % link.size
            yield "link %d holds %d most %d %s" % (number, self.held()[number], self.most[number], room)


def rehearsal(data):
    """What is printed for an input."""
    if len(data) > MOST_INPUT:
        return b"too long\n"
    text, calls = divided(data)
    if text is None:
        return b"bad line %d\n" % calls
    try:
        check_tables(read_text(text, USUAL), USUAL)
        plan = Planned(text)
    except Refusal as refusal:
        return refusal.line()
    run = Run(plan.opening("pointers", plan.exact, ()))
    links = Links(run)
    told = []
    for word, number in calls:
        told.append(run.answer(word, number))
        links.look()
    return "".join(line + "\n" for line in [*told, *links.lines()]).encode()
