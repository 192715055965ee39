"""Stored runs whose openings are sound: true plans, and changed tables that a run can still use."""

from second_calls import make_calls
from second_cases import FOUR_ACTORS, example_pairs, star_drawing
from second_drawings import (
    Dice, SHAPES, cluster_spots, layer_spots, make_chain, make_clusters, make_dense, make_fans,
    make_feedback, make_rim, make_twins, random_live, ring_spots, text_of)
from second_planner import BACK, DROPPED, KEPT, LOCAL, MOST_LINKS, answer
from second_runs import tiny
from second_steps import LARGEST
from second_trials import Lent, MEMORY_ACTORS, MEMORY_LINKS, MEMORY_ROW, Planned

KINDS = sorted(LARGEST)
MOST_NUMBER = 4_294_967_295

# The calls of the worked run of four actors, and what is answered to each.
WORKED = [
    ("cells", 0, "holds 0 write 0 read 0"),
    ("start", 0, "done"),
    ("cells", 0, "holds 1 write 1 read 0"),
    ("start", 1, "refused 20 run 0"),
    ("start", 2, "refused 19 run 2"),
    ("finish", 0, "done"),
    ("start", 1, "done"),
    ("start", 2, "done"),
    ("finish", 2, "done"),
    ("start", 0, "done"),
    ("cells", 0, "holds 2 write 0 read 1"),
    ("finish", 0, "done"),
    ("start", 2, "refused 20 run 3"),
    ("cells", 1, "holds 2 write 2 read 0"),
    ("cells", 2, "holds 2 write 2 read 0"),
    ("cells", 3, "refused 17 run 3"),
    ("finish", 0, "refused 21 run 0"),
    ("start", 4, "refused 17 run 4"),
    ("start", 9999999, "refused 17 run 9999999"),
]


def fixed(calls):
    """Calls whose answers are known beforehand."""
    def make(run):
        answers = []
        for word, number, said in calls:
            answers.append(run.answer(word, number))
            if answers[-1] != "%s %d %s" % (word, number, said):
                raise SystemExit("known run: %s, not %s" % (answers[-1], said))
        return [call[:2] for call in calls], answers
    return make


def random_calls(dice, length, progress=70):
    """Calls made while the run takes them."""
    return lambda run: make_calls(dice, run, length, progress)


def calm(drawing):
    """The drawing with small delays and lead; what is above 0 stays so, and no deadlock arises."""
    links = [link._replace(delay=min(link.delay, 1 + link.delay % 4)) for link in drawing.links]
    return drawing._replace(lead=min(drawing.lead, 1 + drawing.lead % 4), links=links)


def some_plan(dice, most, wanted=()):
    """A plan of some calm drawing that has links of each wanted mark."""
    while True:
        make = dice.pick(
            [make_chain, make_clusters, make_fans, make_feedback, make_rim, make_twins])
        drawing = calm(make(dice, most))
        if len(drawing.links) <= MOST_LINKS:
            plan = Planned(text_of(drawing))
            if all(plan.marked(mark) for mark in wanted):
                return plan


def add_worked(shelf):
    """The worked run, with both kinds of guards."""
    for kind in KINDS:
        shelf.add("worked", Planned(FOUR_ACTORS), kind, fixed(WORKED))


def add_examples(shelf):
    """The examples that are planned."""
    dice = Dice("run examples")
    for text, _ in example_pairs():
        if not answer(text).startswith(b"refused"):
            for kind in KINDS:
                shelf.add("example", Planned(text), kind, random_calls(dice, 60, 75))


def add_tiny(shelf):
    """Tiny drawings."""
    dice = Dice("run tiny")
    for index in range(40):
        drawing = tiny(dice)
        while answer(text_of(drawing)).startswith(b"refused"):
            drawing = tiny(dice)
        shelf.add("tiny", Planned(text_of(drawing)), KINDS[index % 2], random_calls(dice, 30, 60))


def add_shapes(shelf):
    """Drawings of every shape, calm ones and one of each with any delays."""
    dice = Dice("run shapes")
    for index, make in enumerate(SHAPES.values()):
        for at, most in enumerate([6, 6, 10, 16, 8]):
            drawing = make(dice, most)
            while len(drawing.links) > MOST_LINKS:
                drawing = make(dice, most)
            wild = at == 4 and index % 2 == 0
            text = text_of(drawing if wild else calm(drawing))
            shelf.add("shape", Planned(text), KINDS[(index + at) % 2],
                      random_calls(dice, dice.between(20, 60), dice.pick([50, 70, 85])))


def add_long(shelf):
    """Long lists on large drawings."""
    dice = Dice("run long")
    spots = [lambda: cluster_spots(dice, 16, 5, 1), lambda: layer_spots(dice, 12, 4),
             lambda: ring_spots(dice, 16), lambda: cluster_spots(dice, 16, 8, 3)]
    for index in range(10):
        n = dice.pick([24, 32, 40, 64])
        drawing = random_live(dice, n, spots[index % 4](), dice.pick([n, 2 * n]), "small", twins=5)
        shelf.add("long", Planned(text_of(calm(drawing))), KINDS[index % 2],
                  random_calls(dice, 500, 80))
    shelf.add("long", Planned(text_of(star_drawing(64))), "pointers", random_calls(dice, 300, 80))
    full = calm(random_live(dice, 64, ring_spots(dice, 16), MOST_LINKS, "small"))
    for kind in KINDS:
        shelf.add("long", Planned(text_of(full)), kind, random_calls(dice, 200, 85))


def narrowed(dice, plan, count):
    """Changes that leave some kept and back links fewer cells than planned."""
    changes = []
    for number in dice.shuffled(plan.marked(KEPT, BACK)):
        link = plan.links[number]
        least = max(1, link.delay)
        if link.size > least and len(changes) < count:
            changes.append(plan.changed(number, size=dice.pick([least, link.size - 1])))
    return changes


def add_narrow(shelf):
    """Guards of too small a size, so that senders find them full."""
    dice = Dice("run narrow")
    index = 0
    while index < 50:
        plan = some_plan(dice, dice.between(4, 12), [KEPT])
        changes = narrowed(dice, plan, dice.pick([1, 2, 20]))
        if changes:
            shelf.add("narrow", plan, KINDS[index % 2], random_calls(dice, 60, 80), changes)
            index += 1


def remarked(dice, plan, number):
    """The change that gives a link another mark, and cells if it needs them."""
    link = plan.links[number]
    mark = dice.pick([mark for mark in (DROPPED, KEPT, LOCAL, BACK) if mark != link.mark])
    size = link.size if mark == LOCAL else max(1, link.delay, link.size + dice.below(3))
    return plan.changed(number, mark=mark, size=size)


def add_marks(shelf):
    """Links under wrong marks."""
    dice = Dice("run marks")
    for index in range(50):
        plan = some_plan(dice, dice.between(4, 10), [dice.pick([DROPPED, KEPT, LOCAL, BACK])])
        numbers = dice.shuffled(range(plan.count))[:dice.pick([1, 2, 5])]
        changes = [remarked(dice, plan, number) for number in numbers]
        shelf.add("mark", plan, KINDS[index % 2], random_calls(dice, 50, 80), changes)
    plan = Planned(FOUR_ACTORS)
    for number in range(plan.count):
        for mark in (DROPPED, KEPT, LOCAL, BACK):
            shelf.add("mark-each", plan, KINDS[mark % 2], random_calls(dice, 40, 80),
                      [plan.changed(number, mark=mark)])


def add_ends(shelf):
    """Links that join other actors than planned, an actor and itself among them."""
    dice = Dice("run ends")
    for index in range(40):
        plan = some_plan(dice, dice.between(3, 8), [KEPT])
        number = dice.pick(plan.marked(KEPT, BACK))
        sender = dice.below(plan.n)
        receiver = sender if index % 3 == 0 else dice.below(plan.n)
        delay = dice.below(3)
        change = plan.changed(number, sender=sender, receiver=receiver, delay=delay,
                              size=max(1, delay) + dice.below(2))
        shelf.add("ends", plan, KINDS[index % 2], random_calls(dice, 50, 80), [change])


def add_huge(shelf):
    """Dropped and local links with the largest numbers that a record holds."""
    dice = Dice("run huge")
    numbers = [MOST_NUMBER, MOST_NUMBER - 1, 2_147_483_648, 65_536, 65_535]
    for index in range(20):
        plan = some_plan(dice, 8, [DROPPED])
        changes, asked = [], plan.marked(DROPPED)
        for number in asked:
            size = dice.pick(numbers)
            delay = dice.pick([size, size - 1, size // 2, 0])
            changes.append(plan.changed(number, delay=delay, size=size))
        for number in plan.marked(LOCAL):
            changes.append(plan.changed(number, delay=dice.pick(numbers), size=dice.below(2)))
        shelf.add("huge", plan, KINDS[index % 2], huge_calls(dice, asked), changes)


def huge_calls(dice, asked):
    """Calls that make progress, and after each few a look at every link that is asked for."""
    def make(run):
        calls, answers = [], []
        for _ in range(5):
            for row, more in zip((calls, answers), make_calls(dice, run, 8, 90)):
                row.extend(more)
            for number in asked[:6]:
                calls.append(("cells", number))
                answers.append(run.answer("cells", number))
        return calls, answers
    return make


def add_moved(shelf):
    """Actors on other processors than planned."""
    dice = Dice("run moved")
    for index in range(20):
        plan = some_plan(dice, dice.between(4, 9), [KEPT])
        actors = dice.shuffled(range(plan.n))[:dice.between(1, 3)]
        changes = [("a", actor, dice.pick([0, 15, dice.below(16)])) for actor in actors]
        shelf.add("moved", plan, KINDS[index % 2], random_calls(dice, 50, 80), changes)


def add_spare(shelf):
    """Records and guards past those that matter, some of them no records of a drawing."""
    dice = Dice("run spare")
    for index in range(20):
        plan = some_plan(dice, dice.between(4, 9), [KEPT])
        lent = Lent(dice.pick([plan.n + 1, MEMORY_ACTORS]),
                    dice.pick([plan.count + 1, MEMORY_LINKS]),
                    dice.pick([plan.count + 1, MEMORY_ROW]))
        changes = []
        if index % 2:
            changes = [("a", plan.n, dice.pick([16, MOST_NUMBER, plan.processors[0]])),
                       ("l", plan.count, *dice.pick([(0, 1, 0, 1, 4), (plan.n, 0, 0, 1, 0),
                                                     (0, 0, 9, 4, 2), (0, 1, 1, 3, MOST_NUMBER)]))]
        shelf.add("spare", plan, KINDS[index // 2 % 2], random_calls(dice, 40, 75), changes, lent)


def add_dense(shelf):
    """Many links between few actors, narrow and with random calls mostly."""
    dice = Dice("run dense")
    for index in range(12):
        plan = Planned(text_of(calm(make_dense(dice, 8))))
        changes = narrowed(dice, plan, 3) if index % 2 else []
        shelf.add("dense", plan, KINDS[index // 2 % 2], random_calls(dice, 60, 40), changes)


SOUND = [add_worked, add_examples, add_tiny, add_shapes, add_long, add_narrow, add_marks, add_ends,
         add_huge, add_moved, add_spare, add_dense]
