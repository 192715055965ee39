"""Random drawings of many shapes, and changed texts."""

import zlib
from collections import namedtuple

from second_planner import (
    Actor, Drawing, Link, MOST_DELAY, MOST_ESTIMATE, MOST_LEAD, MOST_LINKS, MOST_PROCESSOR,
    back_links, deadlocked_actor, groups_of, is_cross, least_delays_from, leaving_edges,
    link_edges, order_edges)


class Dice:
    """A small random source of its own: the same numbers under every Python."""

    def __init__(self, name):
        self.state = zlib.crc32(name.encode())
        for _ in range(4):
            self.below(2)

    def below(self, bound):
        """A number from 0 to bound - 1."""
        self.state = (self.state * 6364136223846793005 + 1442695040888963407) % 2**64
        return (self.state >> 32) * bound >> 32

    def between(self, low, high):
        """A number from low to high, both possible."""
        return low + self.below(high - low + 1)

    def chance(self, percent):
        """True in so many of a hundred throws."""
        return self.below(100) < percent

    def pick(self, row):
        """One entry of a row."""
        return row[self.below(len(row))]

    def shuffled(self, row):
        """The entries of a row in a random order."""
        rest, result = list(row), []
        while rest:
            result.append(rest.pop(self.below(len(rest))))
        return result


# Where a processor stands in a random drawing: links stay in one part, and
# run within a cluster or from a lower layer to a higher one.
Spot = namedtuple("Spot", "part layer cluster")


def text_of(drawing, lead_line=True):
    """The text of a drawing; without the lead's line if so asked and lead is 1."""
    lines = ["A %d %d" % actor for actor in drawing.actors]
    lines += ["L %d %d %d" % link for link in drawing.links]
    if lead_line or drawing.lead != 1:
        lines.insert(0, "R %d" % drawing.lead)
    return "".join(line + "\n" for line in lines).encode()


def random_estimate(dice, manner):
    """An estimate: all alike, of a few values, at the bounds, or any."""
    if manner == 0:
        return 500
    if manner == 1:
        return dice.between(1, 3)
    if manner == 2:
        return dice.pick([1, 2, MOST_ESTIMATE - 1, MOST_ESTIMATE])
    return dice.between(1, MOST_ESTIMATE)


def random_actors(dice, n, processors):
    """n actors over the given processors, each used if n allows it."""
    places = dice.shuffled(processors)[:n]
    while len(places) < n:
        places.append(dice.pick(processors))
    manner = dice.below(4)
    return [Actor(place, random_estimate(dice, manner)) for place in dice.shuffled(places)]


def firing_order(dice, actors, spots):
    """A rank for each actor: layers in turn, each processor by rising number."""
    queues = {}
    for a, actor in enumerate(actors):
        queues.setdefault(actor.processor, []).append(a)
    rank = {}
    while queues:
        layer = min(spots[processor].layer for processor in queues)
        ready = sorted(p for p in queues if spots[p].layer == layer)
        chosen = dice.pick(ready)
        rank[queues[chosen].pop(0)] = len(rank)
        if not queues[chosen]:
            del queues[chosen]
    return rank


def random_delay(dice, manner, least):
    """A delay that is not below least, of a certain manner."""
    if manner == "none":
        return least
    if manner == "small":
        return least + dice.below(3)
    if manner == "bounds":
        return max(least, dice.pick([0, 0, 1, MOST_DELAY]))
    return dice.between(least, MOST_DELAY)


def may_join(one, two, step):
    """Links may run from one spot to the other."""
    if one.part != two.part:
        return False
    if one.cluster == two.cluster:
        return True
    return one.layer < two.layer and (step == 0 or two.layer - one.layer <= step)


def random_live(dice, n, spots, m, manner="small", step=0, twins=0, local=10):
    """A drawing without deadlock: a link against the firing order has a delay.

    spots tells for each processor where it stands; step bounds how many
    layers a link may cross (0: any); twins and local are per cent of links.
    """
    actors = random_actors(dice, n, sorted(spots))
    rank = firing_order(dice, actors, spots)
    pairs = [(u, v) for u in range(n) for v in range(n)
             if may_join(spots[actors[u].processor], spots[actors[v].processor], step)]
    home = [p for p in pairs if actors[p[0]].processor == actors[p[1]].processor]
    cross = [p for p in pairs if actors[p[0]].processor != actors[p[1]].processor]
    links = []
    for _ in range(m):
        if links and dice.chance(twins):
            links.append(dice.pick(links))
            continue
        u, v = dice.pick(home if not cross or dice.chance(local) else cross)
        links.append(Link(u, v, random_delay(dice, manner, 0 if rank[u] < rank[v] else 1)))
    return Drawing(random_lead(dice), actors, links)


def random_lead(dice):
    """A lead: often 1, at times a bound, at times any."""
    throw = dice.below(10)
    if throw < 4:
        return 1
    if throw < 7:
        return dice.between(2, 5)
    if throw < 8:
        return dice.pick([2, 999, MOST_LEAD])
    return dice.between(1, MOST_LEAD)


def any_manner(dice):
    """One of the manners of delay."""
    return dice.pick(["none", "small", "small", "bounds", "wide"])


def some_processors(dice, count):
    """So many processors, by random numbers."""
    return dice.shuffled(range(MOST_PROCESSOR + 1))[:count]


def chain_spots(dice, count):
    """Each processor in a layer of its own."""
    return {p: Spot(0, i, i) for i, p in enumerate(some_processors(dice, count))}


def layer_spots(dice, count, layers):
    """Processors over some layers, none linked within its layer."""
    return {p: Spot(0, dice.below(layers), i)
            for i, p in enumerate(some_processors(dice, count))}


def ring_spots(dice, count):
    """All processors in one cluster."""
    return {p: Spot(0, 0, 0) for p in some_processors(dice, count)}


def cluster_spots(dice, count, clusters, parts):
    """Processors over clusters, the clusters over layers and parts."""
    layers = [dice.below(clusters) for _ in range(clusters)]
    part = [dice.below(parts) for _ in range(clusters)]
    spots = {}
    for p in some_processors(dice, count):
        c = dice.below(clusters)
        spots[p] = Spot(part[c], layers[c], c)
    return spots


def make_chain(dice, most):
    """A chain of processors, each linked to the next."""
    count = dice.between(2, min(8, most))
    n = dice.between(count, most)
    return random_live(dice, n, chain_spots(dice, count), dice.between(1, 2 * n),
                       any_manner(dice), step=1)


def make_layers(dice, most):
    """Feed-forward layers with several sources and sinks."""
    count = dice.between(3, min(16, most))
    n = dice.between(count, most)
    return random_live(dice, n, layer_spots(dice, count, dice.between(2, 5)),
                       dice.between(2, 3 * n), any_manner(dice))


def make_parts(dice, most):
    """Several parts, each of several clusters."""
    count = dice.between(4, min(16, most))
    n = dice.between(count, most)
    parts = dice.between(2, 5)
    spots = cluster_spots(dice, count, dice.between(parts, 2 * parts + 2), parts)
    return random_live(dice, n, spots, dice.between(n // 2, 2 * n), any_manner(dice))


def make_dense(dice, most):
    """Far more links than actors."""
    count = dice.between(2, min(8, most))
    n = dice.between(count, min(most, 12))
    spots = cluster_spots(dice, count, dice.between(1, 3), 1)
    return random_live(dice, n, spots, dice.between(4 * n, 8 * n), any_manner(dice))


def make_twins(dice, most):
    """More than half of the links are twins of others."""
    count = dice.between(2, min(6, most))
    n = dice.between(count, min(most, 10))
    spots = cluster_spots(dice, count, dice.between(1, 4), 1)
    drawing = random_live(dice, n, spots, dice.between(4, 24), dice.pick(["none", "small"]),
                          twins=60)
    return drawing._replace(links=dice.shuffled(drawing.links))


def make_feedback(dice, most):
    """Processors in one cluster: links run both ways, with delays where needed."""
    count = dice.between(2, min(10, most))
    n = dice.between(count, most)
    return random_live(dice, n, ring_spots(dice, count), dice.between(2, 3 * n),
                       any_manner(dice))


def make_clusters(dice, most):
    """Groups of several processors, joined feed-forward."""
    count = dice.between(3, min(12, most))
    n = dice.between(count, most)
    spots = cluster_spots(dice, count, dice.between(2, 5), 1)
    return random_live(dice, n, spots, dice.between(n, 3 * n), any_manner(dice))


def make_one_processor(dice, most):
    """All actors on one processor: every link is local."""
    n = dice.between(1, most)
    return random_live(dice, n, ring_spots(dice, 1), dice.between(0, 2 * n), any_manner(dice))


def make_singles(dice, most):
    """Each actor alone on its processor."""
    n = dice.between(1, min(16, most))
    spots = layer_spots(dice, n, dice.between(2, 6))
    return random_live(dice, n, spots, dice.between(0, 2 * n), any_manner(dice))


def make_bounds(dice, most):
    """Delays 0, 1 and 1,000 only, and a lead at a bound."""
    count = dice.between(2, min(8, most))
    n = dice.between(count, most)
    spots = cluster_spots(dice, count, dice.between(1, 4), dice.between(1, 2))
    drawing = random_live(dice, n, spots, dice.between(n, 3 * n), "bounds")
    return drawing._replace(lead=dice.pick([1, MOST_LEAD]))


def make_near_deadlock(dice, most):
    """As few delays as can be: 0 with the firing order, 1 against it."""
    count = dice.between(2, min(8, most))
    n = dice.between(count, most)
    spots = cluster_spots(dice, count, dice.between(1, 2), 1)
    return random_live(dice, n, spots, dice.between(n, 5 * n), "none")


def make_bare(dice, most):
    """No links at all: every processor is a part of its own."""
    count = dice.between(1, min(16, most))
    n = dice.between(count, most)
    return random_live(dice, n, ring_spots(dice, count), 0)


def make_fans(dice, most):
    """Many entry and exit groups about a few processors in the middle."""
    count = dice.between(5, min(16, max(5, most)))
    procs = some_processors(dice, count)
    inner = dice.between(1, 2)
    spots = {p: Spot(0, 1 if i < inner else dice.pick([0, 2]), i) for i, p in enumerate(procs)}
    n = dice.between(count, max(count, most))
    return random_live(dice, n, spots, dice.between(count, 3 * count),
                       dice.pick(["none", "small"]), step=dice.below(2), local=5)


def make_rim(dice, most):
    """Links laid right at the rim of being dropped.

    To a live drawing, links are added whose delay is one less than, equal to
    or one more than the least delay between their ends, back links included.
    """
    base = make_clusters(dice, most)
    n = len(base.actors)
    orders = order_edges(base.actors)
    given = orders + link_edges(base.links)
    groups = groups_of(n, given)
    ahead = leaving_edges(n, given)
    every = list(base.links) + back_links(base, groups, given)
    around = leaving_edges(n, orders + link_edges(every))
    links = list(base.links)
    for _ in range(dice.between(2, 8)):
        u = dice.below(n)
        reached = sorted(v for v in least_delays_from(u, ahead)
                         if is_cross(Link(u, v, 0), base.actors))
        if not reached:
            continue
        v = dice.pick(reached)
        delay = least_delays_from(u, around)[v] + dice.pick([-1, 0, 0, 1])
        if not 0 <= delay <= MOST_DELAY:
            continue
        longer = links + [Link(u, v, delay)]
        if deadlocked_actor(n, orders + link_edges(longer)) is None:
            links = longer
    return base._replace(links=dice.shuffled(links))


SHAPES = {
    "chain": make_chain,
    "layers": make_layers,
    "parts": make_parts,
    "dense": make_dense,
    "twins": make_twins,
    "feedback": make_feedback,
    "clusters": make_clusters,
    "one-processor": make_one_processor,
    "singles": make_singles,
    "bounds": make_bounds,
    "near-deadlock": make_near_deadlock,
    "bare": make_bare,
    "fans": make_fans,
    "rim": make_rim,
}


def make_stuck(dice, most):
    """A live drawing with one or two links of delay 0 against the firing order."""
    drawing = dice.pick([make_chain, make_feedback, make_clusters, make_near_deadlock])(dice, most)
    n = len(drawing.actors)
    orders = order_edges(drawing.actors)
    while deadlocked_actor(n, orders + link_edges(drawing.links)) is None:
        extra = Link(dice.below(n), dice.below(n), 0)
        if len(drawing.links) < MOST_LINKS:
            drawing.links.insert(dice.below(len(drawing.links) + 1), extra)
        else:
            drawing.links[dice.below(MOST_LINKS)] = extra
    return drawing


def lines_of(drawing):
    """The lines of a drawing, the lead's first."""
    return text_of(drawing).split(b"\n")[:-1]


def joined(lines):
    """Lines as a text, each with its line feed."""
    return b"".join(line + b"\n" for line in lines)


def some_lines(dice):
    """The lines of a small random drawing."""
    shape = dice.pick([make_chain, make_layers, make_feedback, make_singles, make_clusters])
    return lines_of(shape(dice, dice.between(4, 9)))


def mutated(dice, text):
    """A text with one to three random changes of bytes or lines."""
    for _ in range(dice.between(1, 3)):
        lines = text.split(b"\n")
        at = dice.below(len(text) + 1)
        change = dice.below(8)
        if change == 0:
            text = text[:at] + text[at + 1:]
        elif change == 1:
            text = text[:at] + bytes([dice.below(256)]) + text[at:]
        elif change == 2:
            text = text[:at] + dice.pick([b" ", b"\n", b"0", b"R", b"9", b"\r", b"A"]) + text[at:]
        elif change == 3:
            text = text[:at] + bytes([dice.below(256)]) + text[at + 1:]
        elif change == 4:
            lines.insert(dice.below(len(lines)), dice.pick(lines))
            text = b"\n".join(lines)
        elif change == 5:
            lines[:-1] = dice.shuffled(lines[:-1])
            text = b"\n".join(lines)
        elif change == 6:
            text = text[:at]
        else:
            text = text[:at] + dice.pick([b"1", b"0", b"5"]) + text[at + 1:]
    return text
