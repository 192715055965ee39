"""Stored runs at the limits of an opening: every reason of 15 and 16, and what is just within."""

from second_cases import FOUR_ACTORS
from second_drawings import Dice
from second_planner import BACK, DROPPED, KEPT, LOCAL
from second_sound import KINDS, MOST_NUMBER, random_calls, some_plan
from second_steps import LARGEST
from second_trials import Lent, MEMORY_ACTORS, MEMORY_LINKS, MEMORY_ROW, Planned

SHORT = (15, 0)


def plans(name, count):
    """The worked drawing and some random ones that have links of every mark."""
    dice = Dice(name)
    rows = [Planned(FOUR_ACTORS)]
    while len(rows) < count:
        rows.append(some_plan(dice, dice.between(5, 9), [DROPPED, KEPT, LOCAL, BACK]))
    return rows


def add_lengths(shelf):
    """Tables and rows that are shorter than the plan, just long enough, and longer."""
    dice = Dice("run lengths")
    for index, plan in enumerate(plans("run lengths plans", 3)):
        kind = KINDS[index % 2]
        n, count = plan.exact.actors, plan.exact.links
        for length in (0, n - 1, n, n + 1, MEMORY_ACTORS):
            add_lent(shelf, dice, plan, kind, plan.exact._replace(actors=length))
        for length in (0, plan.given, count - 1, count, count + 1, MEMORY_LINKS):
            add_lent(shelf, dice, plan, kind, plan.exact._replace(links=length))
        for length in (0, plan.given, count - 1, count, count + 1, MEMORY_ROW):
            add_lent(shelf, dice, plan, kind, plan.exact._replace(row=length))
        add_lent(shelf, dice, plan, kind, Lent(0, 0, 0))


def add_lent(shelf, dice, plan, kind, lent):
    """One run of such lengths."""
    short = any(one < needed for one, needed in zip(lent, plan.exact))
    shelf.add("length", plan, kind, random_calls(dice, 12), (), lent, SHORT if short else None)


def add_processors(shelf):
    """Processors at and above the highest, of the first and last actor and past it."""
    dice = Dice("run processors")
    for index, plan in enumerate(plans("run processors plans", 3)):
        lent = plan.exact._replace(actors=plan.n + 1)
        for actor in (0, plan.n - 1, plan.n):
            for processor in (15, 16, 17, 255, 256, MOST_NUMBER):
                fault = SHORT if processor > 15 and actor < plan.n else None
                shelf.add("processor", plan, KINDS[index % 2], random_calls(dice, 10),
                          [("a", actor, processor)], lent, fault)


# Fields of a record that no run can use: for links of any mark, then for all but local ones.
UNFIT = [
    lambda plan: {"sender": plan.n},
    lambda plan: {"receiver": plan.n},
    lambda plan: {"sender": MOST_NUMBER},
    lambda plan: {"receiver": MOST_NUMBER},
    lambda plan: {"sender": plan.n, "receiver": plan.n + 1},
    lambda plan: {"mark": 4},
    lambda plan: {"mark": 255},
]
UNSIZED = [
    lambda plan: {"delay": 0, "size": 0},
    lambda plan: {"delay": 1, "size": 0},
    lambda plan: {"delay": 1000, "size": 999},
    lambda plan: {"delay": MOST_NUMBER, "size": MOST_NUMBER - 1},
    lambda plan: {"delay": 65_536, "size": 65_535},
]


def add_unfit(shelf):
    """One record that no run can use, of every mark and for every reason."""
    dice = Dice("run unfit")
    for index, plan in enumerate(plans("run unfit plans", 2)[1:]):
        for mark in (DROPPED, KEPT, LOCAL, BACK):
            for at, fields in enumerate(UNFIT + UNSIZED):
                number = dice.pick(plan.marked(mark))
                fits = mark == LOCAL and fields in UNSIZED
                shelf.add("unfit", plan, KINDS[(index + at) % 2], random_calls(dice, 8),
                          [plan.changed(number, **fields(plan))], None,
                          None if fits else (16, number))


def add_ends_within(shelf):
    """The highest actor as an end, which there is."""
    dice = Dice("run ends within")
    for index, plan in enumerate(plans("run ends within plans", 3)):
        for number in (0, plan.count - 1):
            for field in ("sender", "receiver"):
                shelf.add("end-last", plan, KINDS[index % 2], random_calls(dice, 20),
                          [plan.changed(number, **{field: plan.n - 1})])


def add_pairs(shelf):
    """Several unfit records, and faults of both numbers."""
    dice = Dice("run pairs")
    for index, plan in enumerate(plans("run pairs plans", 7)[1:]):
        kind = KINDS[index % 2]
        numbers = sorted(dice.shuffled(range(plan.count))[:3])
        changes = [plan.changed(number, **dice.pick(UNFIT)(plan)) for number in reversed(numbers)]
        shelf.add("several", plan, kind, random_calls(dice, 8), changes, None, (16, numbers[0]))
        short = dice.pick([plan.exact._replace(actors=plan.n - 1),
                           plan.exact._replace(links=plan.count - 1),
                           plan.exact._replace(row=plan.count - 1)])
        shelf.add("both", plan, kind, random_calls(dice, 8), changes, short, SHORT)
        moved = changes + [("a", dice.below(plan.n), 16)]
        shelf.add("both", plan, kind, random_calls(dice, 8), moved, None, SHORT)


def add_largest(shelf):
    """Sizes at the largest of each kind, and about it."""
    dice = Dice("run largest")
    plan = plans("run largest plans", 2)[1]
    for kind in KINDS:
        for mark in (KEPT, BACK, DROPPED, LOCAL):
            number = dice.pick(plan.marked(mark))
            for size in (65_533, 65_534, 65_535, 65_536, MOST_NUMBER):
                if size == 65_533 and mark != KEPT:
                    continue
                fault = (16, number) if mark in (KEPT, BACK) and size > LARGEST[kind] else None
                shelf.add("largest", plan, kind, random_calls(dice, 15),
                          [plan.changed(number, size=size)], None, fault)
        top = LARGEST[kind]
        number = plan.marked(KEPT)[0]
        shelf.add("largest-full", plan, kind, random_calls(dice, 30, 85),
                  [plan.changed(number, delay=top, size=top)])
        shelf.add("largest-full", plan, kind, random_calls(dice, 30, 85),
                  [plan.changed(number, delay=top - 1, size=top)])
        shelf.add("largest-full", plan, kind, random_calls(dice, 5),
                  [plan.changed(number, delay=top + 1, size=top + 1)], None, (16, number))


def add_tight(shelf):
    """Sizes one below the delay, equal to it and one above, with delays of every sort."""
    dice = Dice("run tight")
    plan = plans("run tight plans", 2)[1]
    for index, mark in enumerate((KEPT, BACK, DROPPED, LOCAL)):
        number = plan.marked(mark)[-1]
        for delay in (1, 2, 1000):
            for size in (delay - 1, delay, delay + 1):
                fault = (16, number) if size < delay and mark != LOCAL else None
                shelf.add("tight", plan, KINDS[(index + delay) % 2], random_calls(dice, 20, 80),
                          [plan.changed(number, delay=delay, size=size)], None, fault)


FAULTY = [add_lengths, add_processors, add_unfit, add_ends_within, add_pairs, add_largest,
          add_tight]
