"""The run of a plan tried against what a plan means, in every way that a tiny drawing can run."""

from second_cases import FOUR_ACTORS
from second_drawings import Dice, text_of
from second_planner import (
    BACK, DROPPED, KEPT, Refusal, USUAL, answer, link_edges, order_edges, read_text)
from second_runs import all_states, allows, finished, started, tiny
from second_sound import KINDS, WORKED, fixed
from second_steps import Run
from second_trials import Planned


def run_at(opening, state):
    """The run after so many events of each actor."""
    run = Run(opening)
    run.starts = [started(events) for events in state]
    run.finishes = [finished(events) for events in state]
    return run


def refusal_of(call, actor):
    """(number, place) of the refusal of a call, or None."""
    try:
        call(actor)
    except Refusal as refusal:
        return refusal.number, refusal.place
    return None


class Meaning:
    """What the edges of a plan allow, link by link."""

    def __init__(self, drawing, plan):
        self.orders = order_edges(drawing.actors)
        self.links = link_edges(plan.links[:plan.count])
        self.waits = [e for e in self.links if plan.links[e.number].mark in (KEPT, BACK)]

    def start_refusal(self, state, actor):
        """How the start of an actor is to be refused, or None."""
        barring = [e for e in self.orders + self.waits
                   if e.receiver == actor and not allows(e, state)]
        if state[actor] % 2 or any(e.number is None for e in barring):
            return 19, actor
        return (20, min(e.number for e in barring)) if barring else None

    def obeyed(self, state, actor):
        """Every link lets the actor start, a dropped or local one too."""
        return all(allows(e, state) for e in self.links if e.receiver == actor)


def check_state(opening, plan, meaning, state, require):
    """Try every call in one state; gives the states that accepted calls lead to."""
    later = []
    for actor in range(plan.n):
        after = state[:actor] + (state[actor] + 1,) + state[actor + 1:]
        refusal = refusal_of(run_at(opening, state).start, actor)
        require(refusal == meaning.start_refusal(state, actor), "start %d at %s" % (actor, state))
        if refusal is None:
            require(meaning.obeyed(state, actor), "start %d breaks a link at %s" % (actor, state))
            later.append(after)
        refusal = refusal_of(run_at(opening, state).finish, actor)
        require(refusal == (None if state[actor] % 2 else (21, actor)),
                "finish %d at %s" % (actor, state))
        if refusal is None:
            later.append(after)
    check_cells(opening, plan, state, require)
    return later


def check_cells(opening, plan, state, require):
    """No link holds more than it has cells, and no guard has less than none or is overfull."""
    run = run_at(opening, state)
    for number, link in enumerate(plan.links[:plan.count]):
        if link.mark in (DROPPED, KEPT):
            held = link.delay + run.starts[link.sender] - run.finishes[link.receiver]
            require(0 <= held <= link.size and run.cells(number)[0] == held,
                    "link %d holds %d at %s" % (number, held, state))
        else:
            require(refusal_of(run.cells, number) == (17, number), "cells of link %d" % number)
        if link.mark in (KEPT, BACK):
            require(0 <= run.waiting(number) <= link.size, "guard %d at %s" % (number, state))


def check_plan(text, kind, most, require):
    """Every run of one plan with at most so many starts of each actor."""
    drawing, plan = read_text(text, USUAL), Planned(text)
    opening = plan.opening(kind, plan.exact, [])
    meaning = Meaning(drawing, plan)

    def hold(truth, what):
        require(truth, "run: " + what, drawing)

    hold(Run(opening).fault is None, "a plan is not opened")
    found = {(0,) * plan.n}
    waiting = list(found)
    while waiting:
        for later in check_state(opening, plan, meaning, waiting.pop(), hold):
            if later not in found and max(map(started, later)) <= most:
                found.add(later)
                waiting.append(later)
    hold(found == all_states(plan.n, meaning.orders + meaning.waits, most), "other states")
    return len(found)


def test_steps(require):
    """The worked run, and tiny drawings run in every way; how many, and their states."""
    worked = Planned(FOUR_ACTORS)
    for kind in KINDS:
        fixed(WORKED)(Run(worked.opening(kind, worked.exact, [])))
    dice = Dice("steps")
    states = [check_plan(FOUR_ACTORS, kind, 3, require) for kind in KINDS]
    while len(states) < 120:
        text = text_of(tiny(dice)._replace(lead=dice.between(1, 2)))
        if not answer(text).startswith(b"refused"):
            states.append(check_plan(text, KINDS[len(states) % 2], 3, require))
    return len(states), sum(states)
