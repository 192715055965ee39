"""Random lists of calls of a run: most make progress, others are to be refused."""

# Numbers that no table has.
FAR = [64, 65, 127, 128, 256, 271, 512, 9_999_999, 4_294_967_295, 4_294_967_296]


def may_start(run, actor):
    """The actor's start would be accepted."""
    return (run.turn(actor) == actor and not any(map(run.is_running, run.mates[actor]))
            and all(run.waiting(number) for number in run.into[actor]))


def next_events(run):
    """The starts that would be accepted, and a finish for each actor that runs."""
    events = [("finish", actor) for actor in range(run.n) if run.is_running(actor)]
    return events + [("start", actor) for actor in range(run.n) if may_start(run, actor)]


def hungry(run):
    """The actors whose turn it is and that wait for a value."""
    return [actor for actor in range(run.n)
            if run.turn(actor) == actor and not run.is_running(actor)
            and not may_start(run, actor)]


def cells_call(dice, run):
    """A question about the cells of some link, mostly one that there is."""
    return "cells", dice.below(len(run.links) + 2)


def contrary(dice, run):
    """A call that is likely to be refused: of a wrong turn, a resting or a waiting actor."""
    throw = dice.below(10)
    waiting = hungry(run)
    if throw < 4 and waiting:
        return "start", dice.pick(waiting)
    if throw < 8:
        return dice.pick(["start", "finish"]), dice.below(run.n)
    word = dice.pick(["start", "finish", "cells"])
    edge = len(run.links) if word == "cells" else run.n
    return word, dice.pick([edge, edge + 1] + FAR)


def favoured(dice, events, manner):
    """One of the events: any, of the lowest or highest actors, or a start if there is one."""
    if manner == "ahead":
        lowest = min(actor for _, actor in events)
        return dice.pick([event for event in events if event[1] <= lowest + 2])
    if manner == "behind":
        highest = max(actor for _, actor in events)
        return dice.pick([event for event in events if event[1] + 2 >= highest])
    if manner == "full":
        starts = [event for event in events if event[0] == "start"]
        return dice.pick(starts or events)
    return dice.pick(events)


def next_call(dice, run, manner, progress):
    """One call; so many of a hundred make progress."""
    if dice.chance(progress):
        events = next_events(run)
        if events:
            return favoured(dice, events, manner)
    return cells_call(dice, run) if dice.chance(35) else contrary(dice, run)


def any_call(dice, run):
    """One call of any kind with any number."""
    word = dice.pick(["start", "finish", "cells"])
    near = len(run.links) if word == "cells" else run.n
    return word, dice.pick(FAR) if dice.chance(15) else dice.below(near + 2)


MANNERS = ["any", "any", "ahead", "behind", "full"]


def make_calls(dice, run, length, progress=70):
    """A list of calls and the line that each is answered with; the run takes every call."""
    calls, answers = [], []
    manner = dice.pick(MANNERS)
    for at in range(length):
        if at % 25 == 24:
            manner = dice.pick(MANNERS)
        sound = run.fault is None
        call = next_call(dice, run, manner, progress) if sound else any_call(dice, run)
        calls.append(call)
        answers.append(run.answer(*call))
    return calls, answers
