"""What a plan means, tried by running small drawings in every way that their waits allow."""

from itertools import combinations

from second_drawings import Dice
from second_planner import (
    Actor, BACK, Drawing, KEPT, LOCAL, Link, Refusal, is_cross, link_edges, make_plan, order_edges)


def started(events):
    """How often an actor with so many events has started."""
    return (events + 1) // 2


def finished(events):
    """How often it has finished."""
    return events // 2


def allows(edge, state):
    """The wait of the edge lets its receiver start once more."""
    start = started(state[edge.receiver]) + 1
    return start <= edge.delay or start - edge.delay <= finished(state[edge.sender])


def all_states(n, edges, most):
    """Every state, as events by actor, that runs with at most so many starts reach."""
    entering = [[e for e in edges if e.receiver == actor] for actor in range(n)]
    found = {(0,) * n}
    waiting = list(found)
    while waiting:
        state = waiting.pop()
        for actor, events in enumerate(state):
            resting = events % 2 == 0
            if resting and (started(events) >= most or not all(allows(e, state) for e in entering[actor])):
                continue
            later = state[:actor] + (events + 1,) + state[actor + 1:]
            if later not in found:
                found.add(later)
                waiting.append(later)
    return found


def can_break(n, edges, links, most):
    """Some run that obeys the edges starts an actor before a link allows it."""
    entering = [[e for e in edges if e.receiver == actor] for actor in range(n)]
    for state in all_states(n, edges, most):
        for link in links:
            resting = state[link.receiver] % 2 == 0
            if resting and not allows(link, state) and all(
                    allows(e, state) for e in entering[link.receiver]):
                return True
    return False


def check_meaning(drawing, require):
    """Try each claim by runs: deadlock, enough, fewest, sizes. True if the drawing is live."""
    n = len(drawing.actors)
    orders = order_edges(drawing.actors)
    given = orders + link_edges(drawing.links)
    runs = any(all(finished(events) for events in state) for state in all_states(n, given, 1))
    try:
        plan = make_plan(drawing)
    except Refusal:
        require(not runs, "deadlocked, but runs", drawing)
        return False
    require(runs, "accepted, but does not run", drawing)
    links = link_edges([row.link for row in plan.rows])
    waits = [e for e in links if plan.rows[e.number].mark in (KEPT, BACK)]
    reach = [row.size - row.link.delay for row in plan.rows if row.mark != LOCAL]
    most = 2 + max([0] + [e.delay for e in links] + reach)
    require(not can_break(n, orders + waits, links, most), "the kept and back links are not enough", drawing)
    crossing = [e for e in links if is_cross(e, drawing.actors)]
    for fewer in combinations(crossing, max(len(waits) - 1, 0)):
        require(not waits or can_break(n, orders + list(fewer), links, most), "fewer links are enough", drawing)
    states = all_states(n, orders + waits, most)
    for e in crossing:
        held = max(e.delay + started(state[e.sender]) - finished(state[e.receiver]) for state in states)
        require(held == plan.rows[e.number].size, "link %d holds %d" % (e.number, held), drawing)
    return True


def tiny(dice):
    """A drawing of up to four actors, small enough to run in every way."""
    n = dice.between(1, 4)
    processors = dice.between(1, 4)
    actors = [Actor(dice.below(processors), dice.between(1, 3)) for _ in range(n)]
    links = []
    for _ in range(dice.between(0, 4)):
        u, v = dice.below(n), dice.below(n)
        links.append(Link(u, v, dice.between(1 if u == v else 0, 1)))
        if dice.chance(25):
            links.append(dice.pick(links))
    return Drawing(1, actors, links)


def test_meaning(require):
    """Tiny random drawings, run in every way."""
    dice = Dice("runs")
    found = [check_meaning(tiny(dice), require) for _ in range(1200)]
    return found.count(True), found.count(False)
