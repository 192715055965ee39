"""The second planner: from a text to its listing.

It shares no code and no algorithm with the verified program: least delays
come from Dijkstra's algorithm over adjacency lists, strongly connected
components from two depth first searches, parts from union-find.
"""

import heapq
from collections import Counter, namedtuple

Actor = namedtuple("Actor", "processor estimate")
Link = namedtuple("Link", "sender receiver delay")
Drawing = namedtuple("Drawing", "lead actors links")

# An edge as the searches see it.  Its number is that of its link; the edges
# of a processor's order are no links and have None.
Edge = namedtuple("Edge", "sender receiver delay number")

# One planned link, given or back.
Row = namedtuple("Row", "mark link size")
Plan = namedtuple("Plan", "rows backs before after")

# The lengths of what a caller lends: the two tables, the two workspaces
# (delays, and yes/no flags) and the output.
Rooms = namedtuple("Rooms", "actors links delays flags output")
USUAL = Rooms(64, 271, 4096, 4096, 16384)

MOST_BYTES = 8192
MOST_ACTORS = 64
MOST_LINKS = 256
MOST_BACKS = 15
MOST_PROCESSOR = 15
MOST_ESTIMATE = 1_000_000
MOST_DELAY = 1000
MOST_LEAD = 1000

DROPPED, KEPT, LOCAL, BACK = 0, 1, 2, 3
MARK_WORDS = {DROPPED: "drop", KEPT: "kept", LOCAL: "home", BACK: "back"}


class Refusal(Exception):
    """A drawing is refused: the number of the rule and the place."""

    def __init__(self, number, place):
        super().__init__(number, place)
        self.number = number
        self.place = place

    def layer(self):
        """The layer that the number belongs to."""
        if self.number <= 4:
            return "text"
        if self.number <= 10:
            return "table"
        return {11: "plan", 12: "listing"}.get(self.number, "run")

    def line(self):
        """The one line that stands for a refused drawing."""
        return b"refused %d %s %d\n" % (self.number, self.layer().encode(), self.place)


# --------------------------------------------------------------------------
# Reading a text
# --------------------------------------------------------------------------

WORD_COUNTS = {b"R": 1, b"A": 2, b"L": 3}


def refuse_first(number, faults, start):
    """Refuse at the first fault of a row of yes/no; places count from start."""
    for place, fault in enumerate(faults, start):
        if fault:
            raise Refusal(number, place)


def split_lines(text):
    """The lines without their line feeds, and whether the last one lacks it."""
    lines = text.split(b"\n")
    tail = lines.pop()
    return (lines + [tail], True) if tail else (lines, False)


def is_well_formed(line):
    """A known letter, a space, and the letter's count of words."""
    letter, gap, rest = line[:1], line[1:2], line[2:]
    if letter not in WORD_COUNTS or gap != b" ":
        return False
    return len(rest.split(b" ")) == WORD_COUNTS[letter]


def is_number(word):
    """1 to 7 digits, and no leading zero but 0 itself."""
    if not 1 <= len(word) <= 7:
        return False
    if any(byte < 0x30 or byte > 0x39 for byte in word):
        return False
    return word == b"0" or word[0] != 0x30


def shape_faults(text):
    """For each line, whether it is badly formed or without its line feed."""
    lines, unended = split_lines(text)
    faults = [not is_well_formed(line) for line in lines]
    if unended:
        faults[-1] = True
    return faults


def order_faults(letters):
    """For each line, whether its letter stands out of order."""
    faults = []
    for index, letter in enumerate(letters):
        late_lead = letter == b"R" and index > 0
        late_actor = letter == b"A" and b"L" in letters[:index]
        faults.append(late_lead or late_actor)
    return faults


def room_faults(letters, rooms):
    """For each line, whether it is one actor or one link too many."""
    most = {b"A": min(MOST_ACTORS, rooms.actors), b"L": min(MOST_LINKS, rooms.links)}
    seen = Counter()
    faults = []
    for letter in letters:
        seen[letter] += 1
        faults.append(letter in most and seen[letter] > most[letter])
    return faults


def read_text(text, rooms):
    """The drawing that a text holds; refusals 1 to 4."""
    if len(text) > MOST_BYTES:
        raise Refusal(1, 0)
    refuse_first(1, shape_faults(text), 1)
    lines, _ = split_lines(text)
    letters = [line[:1] for line in lines]
    words = [line[2:].split(b" ") for line in lines]
    refuse_first(2, [not all(map(is_number, row)) for row in words], 1)
    refuse_first(3, order_faults(letters), 1)
    refuse_first(4, room_faults(letters, rooms), 1)
    lead, actors, links = 1, [], []
    for letter, row in zip(letters, words):
        numbers = [int(word) for word in row]
        if letter == b"R":
            lead = numbers[0]
        elif letter == b"A":
            actors.append(Actor(*numbers))
        else:
            links.append(Link(*numbers))
    return Drawing(lead, actors, links)


# --------------------------------------------------------------------------
# Checking the tables
# --------------------------------------------------------------------------


def actor_is_faulty(actor):
    """The processor or the estimate is out of bounds."""
    return actor.processor > MOST_PROCESSOR or not 1 <= actor.estimate <= MOST_ESTIMATE


def link_is_faulty(link, n):
    """An end is no actor, or the delay is out of bounds."""
    return link.sender >= n or link.receiver >= n or link.delay > MOST_DELAY


def check_tables(drawing, rooms):
    """Refusals 5 to 10."""
    n, m = len(drawing.actors), len(drawing.links)
    if n == 0 or n > MOST_ACTORS:
        raise Refusal(5, 0)
    if m > MOST_LINKS or rooms.links < m + MOST_BACKS:
        raise Refusal(6, 0)
    if not 1 <= drawing.lead <= MOST_LEAD:
        raise Refusal(7, 0)
    if rooms.delays < n * n or rooms.flags < n * n:
        raise Refusal(8, 0)
    refuse_first(9, [actor_is_faulty(actor) for actor in drawing.actors], 0)
    refuse_first(10, [link_is_faulty(link, n) for link in drawing.links], 0)


# --------------------------------------------------------------------------
# Edges and searches
# --------------------------------------------------------------------------


def order_edges(actors):
    """The edges of each processor's order: to the next, and last to first."""
    edges = []
    for processor in sorted({actor.processor for actor in actors}):
        row = [a for a, actor in enumerate(actors) if actor.processor == processor]
        edges += [Edge(u, v, 0, None) for u, v in zip(row, row[1:])]
        edges.append(Edge(row[-1], row[0], 1, None))
    return edges


def link_edges(links):
    """Every link as an edge that knows its number."""
    return [Edge(link.sender, link.receiver, link.delay, i) for i, link in enumerate(links)]


def leaving_edges(n, edges):
    """For each actor, the edges that leave it."""
    leaving = [[] for _ in range(n)]
    for edge in edges:
        leaving[edge.sender].append(edge)
    return leaving


def least_delays_from(source, leaving, barred=frozenset()):
    """Dijkstra: the least delay of a path of one or more edges to each actor reached.

    Edges whose number is barred are not used.
    """
    settled = {}
    waiting = [(e.delay, e.receiver) for e in leaving[source] if e.number not in barred]
    heapq.heapify(waiting)
    while waiting:
        total, actor = heapq.heappop(waiting)
        if actor in settled:
            continue
        settled[actor] = total
        for e in leaving[actor]:
            if e.number not in barred and e.receiver not in settled:
                heapq.heappush(waiting, (total + e.delay, e.receiver))
    return settled


def finishing_order(n, leaving):
    """The actors in the order in which a depth first search is done with them."""
    seen, finished = set(), []

    def visit(actor):
        seen.add(actor)
        for edge in leaving[actor]:
            if edge.receiver not in seen:
                visit(edge.receiver)
        finished.append(actor)

    for actor in range(n):
        if actor not in seen:
            visit(actor)
    return finished


def groups_of(n, edges):
    """Kosaraju: the strongly connected components, each rising, by lowest actor."""
    reverse = leaving_edges(n, [Edge(e.receiver, e.sender, 0, None) for e in edges])
    seen, groups = set(), []
    for root in reversed(finishing_order(n, leaving_edges(n, edges))):
        if root in seen:
            continue
        group, waiting = [], [root]
        seen.add(root)
        while waiting:
            actor = waiting.pop()
            group.append(actor)
            for edge in reverse[actor]:
                if edge.receiver not in seen:
                    seen.add(edge.receiver)
                    waiting.append(edge.receiver)
        groups.append(sorted(group))
    return sorted(groups)


def parts_of(n, edges):
    """Union-find: for each actor, the lowest actor of its part."""
    parent = list(range(n))

    def lowest(actor):
        while parent[actor] != actor:
            actor = parent[actor]
        return actor

    for edge in edges:
        one, two = lowest(edge.sender), lowest(edge.receiver)
        parent[max(one, two)] = min(one, two)
    return [lowest(actor) for actor in range(n)]


def deadlocked_actor(n, edges):
    """The lowest actor on a cycle of total delay 0, or None.

    Such a cycle lies in one strongly connected component of the edges of
    delay 0: one of several actors, or of one actor joined to itself.
    """
    free = [e for e in edges if e.delay == 0]
    on_cycle = {e.sender for e in free if e.sender == e.receiver}
    for group in groups_of(n, free):
        if len(group) > 1:
            on_cycle.update(group)
    return min(on_cycle, default=None)


# --------------------------------------------------------------------------
# Planning
# --------------------------------------------------------------------------


def stand_in(group, actors):
    """The actor that stands for a group: least estimate, the lowest on a tie."""
    return min(group, key=lambda actor: (actors[actor].estimate, actor))


def back_links(drawing, groups, edges):
    """The back links, part by part: entries in a row, exits in a row, the closing one."""
    part = parts_of(len(drawing.actors), edges)
    group_of = {actor: index for index, group in enumerate(groups) for actor in group}
    between = [(group_of[e.sender], group_of[e.receiver]) for e in edges]
    entered = {v for u, v in between if u != v}
    left = {u for u, v in between if u != v}
    backs = []
    for lowest in sorted(set(part)):
        inside = [g for g, group in enumerate(groups) if part[group[0]] == lowest]
        if len(inside) == 1:
            continue
        entries = [stand_in(groups[g], drawing.actors) for g in inside if g not in entered]
        exits = [stand_in(groups[g], drawing.actors) for g in inside if g not in left]
        backs += [Link(u, v, 0) for u, v in zip(entries, entries[1:])]
        backs += [Link(u, v, 0) for u, v in zip(exits, exits[1:])]
        backs.append(Link(exits[-1], entries[0], drawing.lead))
    return backs


def is_cross(link, actors):
    """The link joins two processors."""
    return actors[link.sender].processor != actors[link.receiver].processor


def barred_for(number, links):
    """The numbers that may not stand in for a link: its own, and its higher twins'."""
    return {i for i in range(number, len(links)) if links[i] == links[number]}


def is_dropped(number, links, leaving):
    """Another path, of delay at most the link's own, does the link's work."""
    link = links[number]
    reached = least_delays_from(link.sender, leaving, barred_for(number, links))
    return link.receiver in reached and reached[link.receiver] <= link.delay


def cost_before(drawing, groups):
    """4 for each cross link between two groups, 2 for each within one."""
    group_of = {actor: index for index, group in enumerate(groups) for actor in group}
    cost = 0
    for link in drawing.links:
        if is_cross(link, drawing.actors):
            cost += 2 if group_of[link.sender] == group_of[link.receiver] else 4
    return cost


def mark_of(number, drawing, links, leaving):
    """What becomes of one link, given or back."""
    if number >= len(drawing.links):
        return BACK
    if not is_cross(links[number], drawing.actors):
        return LOCAL
    return DROPPED if is_dropped(number, links, leaving) else KEPT


def make_plan(drawing):
    """Plan a drawing whose tables are sound; refusal 11."""
    n = len(drawing.actors)
    orders = order_edges(drawing.actors)
    given = orders + link_edges(drawing.links)
    stuck = deadlocked_actor(n, given)
    if stuck is not None:
        raise Refusal(11, stuck)
    groups = groups_of(n, given)
    backs = back_links(drawing, groups, given)
    links = list(drawing.links) + backs
    leaving = leaving_edges(n, orders + link_edges(links))
    least = [least_delays_from(actor, leaving) for actor in range(n)]
    rows = []
    for number, link in enumerate(links):
        mark = mark_of(number, drawing, links, leaving)
        size = 0 if mark == LOCAL else link.delay + least[link.receiver][link.sender]
        rows.append(Row(mark, link, size))
    after = sum(2 for row in rows if row.mark in (KEPT, BACK))
    return Plan(rows, backs, cost_before(drawing, groups), after)


# --------------------------------------------------------------------------
# Listing
# --------------------------------------------------------------------------


def listing_of(drawing, plan):
    """The listing of a plan."""
    lines = ["actors %d links %d returns %d"
             % (len(drawing.actors), len(drawing.links), len(plan.backs))]
    for number, (mark, link, size) in enumerate(plan.rows):
        lines.append("%s %d %d %d %d %d" % (MARK_WORDS[mark], number, *link, size))
    lines.append("cost %d %d" % (plan.before, plan.after))
    return "".join(line + "\n" for line in lines).encode()


def full_answer(text, rooms):
    """The listing, or the refusal's line, as if the output were long enough."""
    try:
        drawing = read_text(text, rooms)
        check_tables(drawing, rooms)
        return listing_of(drawing, make_plan(drawing))
    except Refusal as refusal:
        return refusal.line()


def answer(text, rooms=USUAL):
    """What the output holds afterwards; None stands for refusal 12."""
    full = full_answer(text, rooms)
    return full if len(full) <= rooms.output else None
