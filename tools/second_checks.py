"""The second planner tried against known answers and against brute force."""

import re
import time
from collections import Counter

from second_cases import KNOWN, example_pairs
from second_drawings import Dice, SHAPES, joined, mutated, some_lines, text_of
from second_planner import (
    Actor, BACK, DROPPED, Drawing, Edge, KEPT, LOCAL, Link, MOST_BACKS, MOST_BYTES, Refusal,
    USUAL, answer, deadlocked_actor, groups_of, is_cross, least_delays_from, leaving_edges,
    link_edges, make_plan, order_edges, parts_of, read_text)
from second_rehearsal import rehearsal
from second_runs import test_meaning
from second_steps_checks import test_steps


def slow_least(n, edges):
    """Least delays by relaxing all edges n times: paths of at most k edges for k = 1, 2, ..."""
    best = {}
    for e in edges:
        pair = (e.sender, e.receiver)
        best[pair] = min(e.delay, best.get(pair, e.delay))
    for _ in range(n):
        longer = dict(best)
        for (source, middle), total in best.items():
            for e in edges:
                if e.sender == middle:
                    pair = (source, e.receiver)
                    longer[pair] = min(total + e.delay, longer.get(pair, total + e.delay))
        best = longer
    return best


def slow_path(source, target, edges, limit, passed=frozenset()):
    """Try every path that meets no actor twice: is one of delay at most limit?"""
    for e in edges:
        if e.sender == source and e.delay <= limit and e.receiver not in passed:
            if e.receiver == target:
                return True
            if slow_path(e.receiver, target, edges, limit - e.delay, passed | {source}):
                return True
    return False


def slow_groups(n, edges):
    """Actors that reach one another, found from the least delays."""
    best = slow_least(n, edges)
    groups = {frozenset([u] + [v for v in range(n) if (u, v) in best and (v, u) in best])
              for u in range(n)}
    return sorted(sorted(group) for group in groups)


def slow_parts(n, edges):
    """The lowest actor of each actor's part, by flooding both ways."""
    both = edges + [Edge(e.receiver, e.sender, e.delay, None) for e in edges]
    best = slow_least(n, both)
    return [min([u] + [v for v in range(n) if (u, v) in best]) for u in range(n)]


def slow_backs(drawing, edges):
    """The back links, by trying each rule on each group in turn."""
    n = len(drawing.actors)
    groups = slow_groups(n, edges)
    part = slow_parts(n, edges)
    result = []
    for lowest in range(n):
        own = [g for g in groups if part[g[0]] == lowest]
        if len(own) < 2:
            continue
        rows = []
        for entered in (True, False):
            row = []
            for group in own:
                ends = [(e.receiver, e.sender) if entered else (e.sender, e.receiver)
                        for e in edges]
                if not any(near in group and far not in group for near, far in ends):
                    least = min(drawing.actors[a].estimate for a in group)
                    row.append([a for a in group if drawing.actors[a].estimate == least][0])
            rows.append(row)
        for row in rows:
            for i in range(1, len(row)):
                result.append(Link(row[i - 1], row[i], 0))
        result.append(Link(rows[1][-1], rows[0][0], drawing.lead))
    return result


def require(truth, what, drawing):
    """Stop with a word about what is wrong, and with the drawing."""
    if not truth:
        raise SystemExit("selftest: %s\n%s" % (what, text_of(drawing).decode()))


def check_against_brute_force(drawing):
    """Try every rule of planning on one small drawing; True if it is live."""
    n = len(drawing.actors)
    orders = order_edges(drawing.actors)
    given = orders + link_edges(drawing.links)
    best = slow_least(n, given)
    stuck = [u for u in range(n) if best.get((u, u)) == 0]
    require(deadlocked_actor(n, given) == (stuck[0] if stuck else None), "deadlock", drawing)
    require(groups_of(n, given) == slow_groups(n, given), "groups", drawing)
    require(parts_of(n, given) == slow_parts(n, given), "parts", drawing)
    if stuck:
        return False
    plan = make_plan(drawing)
    require(plan.backs == slow_backs(drawing, given), "back links", drawing)
    links = list(drawing.links) + plan.backs
    every = orders + link_edges(links)
    check_least_delays(drawing, every)
    check_back_links(drawing, plan, every)
    check_rows(drawing, plan, links, every)
    return True


def check_least_delays(drawing, edges):
    """Dijkstra against relaxation by number of edges."""
    n = len(drawing.actors)
    best = slow_least(n, edges)
    leaving = leaving_edges(n, edges)
    for u in range(n):
        reached = least_delays_from(u, leaving)
        wanted = {v: best[u, v] for v in range(n) if (u, v) in best}
        require(reached == wanted, "least delays from %d" % u, drawing)


def check_back_links(drawing, plan, every):
    """Each part is one group, no delay-free cycle arises, at most 15 back links."""
    n = len(drawing.actors)
    groups = slow_groups(n, every)
    lowest = {actor: group[0] for group in groups for actor in group}
    given = every[:len(every) - len(plan.backs)]
    require([lowest[u] for u in range(n)] == slow_parts(n, given), "parts not closed", drawing)
    best = slow_least(n, every)
    require(all(best[u, u] > 0 for u in range(n)), "back links deadlock", drawing)
    require(len(plan.backs) <= MOST_BACKS, "too many back links", drawing)
    for back in plan.backs:
        require(is_cross(back, drawing.actors), "a back link stays home", drawing)
        require(back not in drawing.links, "a back link has a twin", drawing)


def check_rows(drawing, plan, links, every):
    """Marks, sizes and costs, and that the kept and back links suffice."""
    n = len(drawing.actors)
    best = slow_least(n, every)
    require([row.link for row in plan.rows] == links, "rows", drawing)
    for number, (mark, link, size) in enumerate(plan.rows):
        if number >= len(drawing.links):
            wanted = BACK
        elif drawing.actors[link.sender].processor == drawing.actors[link.receiver].processor:
            wanted = LOCAL
        else:
            rest = [e for e in every if e.number is None or e.number != number and not
                    (e.number > number and links[e.number] == link)]
            dropped = slow_path(link.sender, link.receiver, rest, link.delay)
            wanted = DROPPED if dropped else KEPT
        require(mark == wanted, "mark of link %d" % number, drawing)
        cells = 0 if mark == LOCAL else link.delay + best[link.receiver, link.sender]
        require(size == cells, "size of link %d" % number, drawing)
    check_costs(drawing, plan, every)
    stays = [e for e in every if e.number is None or plan.rows[e.number].mark != DROPPED]
    for link in drawing.links:
        if is_cross(link, drawing.actors):
            require(slow_path(link.sender, link.receiver, stays, link.delay),
                    "the links that stay do not do the work of all", drawing)


def check_costs(drawing, plan, every):
    """The two costs, and that planning never makes the cost higher."""
    n = len(drawing.actors)
    given = every[:len(every) - len(plan.backs)]
    together = slow_least(n, given)
    before = 0
    for row in plan.rows[:len(drawing.links)]:
        if row.mark != LOCAL:
            before += 2 if (row.link.receiver, row.link.sender) in together else 4
    after = 2 * sum(row.mark in (KEPT, BACK) for row in plan.rows)
    require((plan.before, plan.after) == (before, after), "costs", drawing)
    require(after <= before, "planning raises the cost", drawing)


def random_any(dice):
    """A drawing of up to five actors with any links: live or deadlocked."""
    n = dice.between(1, 5)
    processors = dice.between(1, 5)
    actors = [Actor(dice.below(processors), dice.between(1, 3)) for _ in range(n)]
    top = dice.pick([1, 1, 2, 3])
    one_way = dice.chance(50)
    links = []
    for _ in range(dice.between(0, 8)):
        u, v = dice.below(n), dice.below(n)
        if one_way and u > v:
            u, v = v, u
        links.append(Link(u, v, dice.between(1 if u == v else 0, top)))
        if dice.chance(25):
            links.append(dice.pick(links))
    return Drawing(dice.between(1, 3), actors, links)


def test_known():
    """The answers worked out by hand."""
    for text, expect in KNOWN:
        found = answer(text)
        if found != expect:
            raise SystemExit("selftest: %r gives %r, not %r" % (text, found, expect))
    return len(KNOWN)


def test_examples():
    """Every example lists as the file beside it says."""
    pairs = example_pairs()
    for text, expect in pairs:
        if answer(text) != expect:
            raise SystemExit("selftest: an example lists otherwise:\n%s" % text.decode())
    return len(pairs)


def test_rehearsals():
    """Every rehearsal among the examples is answered as the file beside it says."""
    pairs = example_pairs(".run", ".answers")
    for data, expect in pairs:
        if rehearsal(data) != expect:
            raise SystemExit("selftest: a rehearsal is answered otherwise:\n%s" % data.decode())
    return len(pairs)


def test_planning():
    """Small random drawings, of any links and of every shape, against brute force."""
    live = stuck = 0
    dice = Dice("selftest")
    for _ in range(3000):
        if check_against_brute_force(random_any(dice)):
            live += 1
        else:
            stuck += 1
    for shape, make in SHAPES.items():
        for most in [5] * 20 + [8] * 5:
            live += check_against_brute_force(make(dice, most))
    return live, stuck


LINE = re.compile(rb"(?:R [^ ]*|A [^ ]* [^ ]*|L [^ ]* [^ ]* [^ ]*)\n", re.DOTALL)
NUMERALS = re.compile(rb"[RAL](?: (?:0|[1-9][0-9]{0,6}))+\n")


def slow_text_refusal(text, rooms):
    """The refusals of the text, found by patterns; None if there is none."""
    if len(text) > MOST_BYTES:
        return 1, 0
    lines = re.findall(rb"[^\n]*\n|[^\n]+\Z", text)
    for at, line in enumerate(lines, 1):
        if not LINE.fullmatch(line):
            return 1, at
    for at, line in enumerate(lines, 1):
        if not NUMERALS.fullmatch(line):
            return 2, at
    letters = "".join(chr(line[0]) for line in lines)
    sorted_part = re.match("R?A*L*", letters).end()
    if sorted_part < len(letters):
        return 3, sorted_part + 1
    shift = 1 if letters.startswith("R") else 0
    actors, links = letters.count("A"), letters.count("L")
    if actors > min(64, rooms.actors):
        return 4, shift + min(64, rooms.actors) + 1
    if links > min(256, rooms.links):
        return 4, shift + actors + min(256, rooms.links) + 1
    return None


def test_texts():
    """Changed texts: the refusals of the text against patterns."""
    dice = Dice("selftest texts")
    found = Counter()
    for _ in range(4000):
        text = mutated(dice, joined(some_lines(dice)))
        if dice.chance(30):
            text = mutated(dice, text)
        rooms = USUAL
        if dice.chance(40):
            rooms = USUAL._replace(actors=dice.below(8), links=dice.below(12))
        wanted = slow_text_refusal(text, rooms)
        try:
            read_text(text, rooms)
            got = None
        except Refusal as refusal:
            got = (refusal.number, refusal.place)
        if got != wanted:
            raise SystemExit("selftest: %r %r gives %r, not %r" % (text, rooms, got, wanted))
        found[got[0] if got else 0] += 1
    return found


def selftest():
    """Run all tests and say what was tried."""
    start = time.monotonic()
    print("known answers: %d" % test_known())
    print("examples: %d drawings, %d rehearsals" % (test_examples(), test_rehearsals()))
    print("small drawings against brute force: %d live, %d deadlocked" % test_planning())
    print("tiny drawings run in every way: %d live, %d deadlocked" % test_meaning(require))
    print("tiny plans run call by call: %d plans, %d states" % test_steps(require))
    found = test_texts()
    print("texts against patterns: %d read, refused 1 to 4: %s"
          % (found[0], [found[number] for number in range(1, 5)]))
    print("selftest passed in %.1f seconds" % (time.monotonic() - start))
