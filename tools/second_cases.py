"""The stored cases: texts, what is lent with them, and the expected output."""

import os
from collections import Counter

from second_drawings import (
    Dice, SHAPES, any_manner, chain_spots, cluster_spots, joined, layer_spots, make_chain,
    make_clusters, make_fans, make_layers, make_rim, make_stuck, mutated, random_live, ring_spots,
    some_lines, text_of)
from second_planner import (
    Actor, Drawing, Link, MOST_BYTES, MOST_DELAY, MOST_ESTIMATE, MOST_LEAD, MOST_LINKS, Refusal,
    Rooms, USUAL, answer, full_answer)

# --------------------------------------------------------------------------
# Stored cases: the book they are written into
# --------------------------------------------------------------------------


class Book:
    """Collects cases, names them by kind and works out their answers."""

    def __init__(self):
        self.blocks = []
        self.kinds = Counter()
        self.answers = Counter()
        self.places = {}
        self.sizes = []
        self.seen = set()

    def add(self, kind, text, rooms=USUAL, expect=None):
        """Add a case, unless it is there already; True if it was added.

        expect, if given, is the answer known beforehand, b"" for refusal 12.
        """
        if (text, rooms) in self.seen:
            return False
        self.seen.add((text, rooms))
        self.kinds[kind] += 1
        name = "%s-%d" % (kind, self.kinds[kind])
        found = answer(text, rooms)
        if expect is not None and (found or b"") != expect:
            raise SystemExit("case %s: expected %r, found %r" % (name, expect, found))
        self.note(found)
        word = "short" if found is None else "case"
        output = found or b""
        header = "%s %s %d %d %d %d %d %d %d\n" % (word, name, *rooms, len(text), len(output))
        self.blocks.append(header.encode() + text + output + b"\n")
        return True

    def note(self, found):
        """Count an answer by its number, and its places."""
        if found is None:
            self.answers[12] += 1
        elif found.startswith(b"refused"):
            words = found.split()
            self.answers[int(words[1])] += 1
            self.places.setdefault(int(words[1]), set()).add(int(words[3]))
        else:
            self.answers[0] += 1
            words = found.split(b"\n")[0].split()
            self.sizes.append((int(words[1]), int(words[3])))


def read_blocks(data):
    """The cases of a file, as its reader sees them: (word, name, rooms, text, output)."""
    cases, at = [], 0
    while at < len(data):
        end = data.index(b"\n", at)
        word, name, *numbers = data[at:end].split(b" ")
        *rooms, text_size, output_size = [int(number) for number in numbers]
        middle = end + 1 + text_size
        after = middle + output_size
        assert data[after:after + 1] == b"\n"
        cases.append((word, name, Rooms(*rooms), data[end + 1:middle], data[middle:after]))
        at = after + 1
    return cases


# --------------------------------------------------------------------------
# Stored cases: drawings that are planned
# --------------------------------------------------------------------------

FOUR_ACTORS = b"R 1\nA 0 30\nA 1 20\nA 0 10\nA 1 40\nL 0 1 0\nL 0 3 0\nL 2 3 1\n"

KNOWN = [
    (FOUR_ACTORS,
     b"actors 4 links 3 returns 1\nkept 0 0 1 0 2\ndrop 1 0 3 0 3\ndrop 2 2 3 1 3\n"
     b"back 3 1 2 1 2\ncost 12 4\n"),
    (b"", b"refused 5 table 0\n"),
    (b"A 0 1\nL 0 0 0\n", b"refused 11 plan 0\n"),
    (b"A 0 1\nL 0 0 1\n", b"actors 1 links 1 returns 0\nhome 0 0 0 1 0\ncost 0 0\n"),
    (b"A 0 1\n", b"actors 1 links 0 returns 0\ncost 0 0\n"),
    (b"A 0 1\nA 1 1\nL 0 1 0\nL 1 0 1\n",
     b"actors 2 links 2 returns 0\nkept 0 0 1 0 1\nkept 1 1 0 1 1\ncost 4 4\n"),
    (b"A 0 1\nA 1 1\nL 0 1 0\nL 0 1 0\n",
     b"actors 2 links 2 returns 1\nkept 0 0 1 0 1\ndrop 1 0 1 0 1\nback 2 1 0 1 1\ncost 8 4\n"),
    (b"A 0 1\nA 1 1\nL 0 1 2\nL 0 1 1\n",
     b"actors 2 links 2 returns 1\ndrop 0 0 1 2 3\nkept 1 0 1 1 2\nback 2 1 0 1 2\ncost 8 4\n"),
    (b"A 0 1\nA 1 1\nA 2 1\nA 3 1\nL 0 1 0\nL 2 3 0\n",
     b"actors 4 links 2 returns 2\nkept 0 0 1 0 1\nkept 1 2 3 0 1\nback 2 1 0 1 1\n"
     b"back 3 3 2 1 1\ncost 8 8\n"),
]


def add_known(book):
    """The cases whose answers were worked out by hand."""
    for text, expect in KNOWN:
        book.add("known", text, expect=expect)


def add_examples(book):
    """The drawings of the examples, with the listings kept beside them."""
    for text, expect in example_pairs():
        book.add("example", text, expect=expect)


def example_pairs(given=".txt", expected=".listing"):
    """(text, listing) of every example, by name; or other pairs, by the ends of their names."""
    folder = os.path.join(os.path.dirname(os.path.abspath(__file__)), "..", "examples")
    pairs = []
    for name in sorted(os.listdir(folder)):
        if name.endswith(given):
            with open(os.path.join(folder, name), "rb") as text:
                with open(os.path.join(folder, name[:-len(given)] + expected), "rb") as listing:
                    pairs.append((text.read(), listing.read()))
    return pairs


def add_shapes(book):
    """Random drawings of every shape: mostly small, some of middling size."""
    for shape, make in SHAPES.items():
        for kind, most, count in [("small", 6, 10), ("usual", 20, 20), ("middle", 36, 3)]:
            dice = Dice("%s %s" % (shape, kind))
            wanted = count
            while wanted:
                drawing = make(dice, most)
                if len(drawing.links) <= MOST_LINKS:
                    wanted -= book.add("valid-%s-%s" % (shape, kind),
                                       text_of(drawing, dice.chance(50)))


def add_tiny(book):
    """Every drawing of two actors with at most two links of delay 0 or 1."""
    every = [Link(u, v, d) for u in (0, 1) for v in (0, 1) for d in (0, 1)]
    rows = [[]] + [[one] for one in every] + [[one, two] for one in every for two in every]
    for second in (0, 1):
        for links in rows:
            drawing = Drawing(1, [Actor(0, 1), Actor(second, 1)], links)
            book.add("tiny-%s" % ("two" if second else "one"), text_of(drawing, False))


def large_spots(dice, shape):
    """Sixteen processors (or one) in one of the shapes used for large drawings."""
    return {
        "chain": lambda: chain_spots(dice, 16),
        "layers": lambda: layer_spots(dice, 16, 4),
        "ring": lambda: ring_spots(dice, 16),
        "clusters": lambda: cluster_spots(dice, 16, 5, 1),
        "parts": lambda: cluster_spots(dice, 16, 8, 3),
        "one": lambda: ring_spots(dice, 1),
    }[shape]()


def add_large(book):
    """Drawings near and at 64 actors and 256 links."""
    dice = Dice("large")
    for shape in ["chain", "layers", "ring", "clusters", "parts"]:
        for manner in ["none", "small", "bounds", "wide"]:
            n = dice.pick([41, 45, 50, 55, 60, 62, 63, 64, 64, 64])
            m = dice.pick([100, 200, 255, 256])
            drawing = random_live(dice, n, large_spots(dice, shape), m, manner, twins=5)
            book.add("valid-large-%s" % shape, text_of(drawing))
    full = random_live(dice, 64, large_spots(dice, "one"), 256, "small")
    book.add("valid-large-one-processor", text_of(full))
    bare = random_live(dice, 64, large_spots(dice, "ring"), 0)
    book.add("valid-large-bare", text_of(bare))
    book.add("valid-large-most-returns", text_of(star_drawing(64)))


def star_drawing(n):
    """One entry group and fifteen exit groups: fifteen back links."""
    actors = [Actor(a % 16, 1 + (a * 7) % 5) for a in range(n)]
    return Drawing(3, actors, [Link(0, p, p % 2) for p in range(1, 16)])


def ring_drawing(each, copies, closed):
    """Sixteen processors in a ring, or an open chain, by links of delay 1,000.

    Each has so many actors, and so many links to the next, which enter it
    late and leave it early: the widest sizes there are.
    """
    actors = [Actor(a // each, MOST_ESTIMATE - a) for a in range(16 * each)]
    links = []
    for i in range(copies * (16 if closed else 15)):
        here, place = i // copies, i % copies % each
        there = (here + 1) % 16
        links.append(Link(here * each + place, there * each + each - 1 - place, MOST_DELAY))
    return Drawing(MOST_LEAD, actors, links)


def add_rings(book):
    """Rings and chains about all sixteen processors."""
    for each, copies in [(1, 1), (2, 1), (2, 2), (2, 3), (4, 16)]:
        for closed in (True, False):
            book.add("valid-ring", text_of(ring_drawing(each, copies, closed)))


def add_span(book):
    """One drawing of each number of actors up to 40."""
    dice = Dice("span")
    for n in range(1, 41):
        count = dice.between(1, min(16, n))
        spots = cluster_spots(dice, count, dice.between(1, 5), dice.between(1, 2))
        m = dice.between(n, 2 * n)
        book.add("valid-span", text_of(random_live(dice, n, spots, m, any_manner(dice), twins=10)))


def add_returns(book):
    """Back links in number: one part of k single actors, as star and as fan."""
    for k in range(2, 17):
        actors = [Actor(15 - a, 1) for a in range(k)]
        out = [Link(0, a, 0) for a in range(1, k)]
        into = [Link(a, k - 1, a % 3) for a in range(k - 1)]
        book.add("valid-star", text_of(Drawing(k, actors, out)))
        book.add("valid-fan", text_of(Drawing(1, actors, into), False))


def add_stand_ins(book):
    """Which actor stands for a group: least estimate, the lowest on a tie."""
    for estimates in [(5, 5, 5), (5, 4, 4), (5, 4, 3), (3, 4, 5), (4, 5, 4), (5, 3, 5),
                      (1000000, 1000000, 999999), (2, 1, 1)]:
        actors = [Actor(a % 2, estimates[a // 2]) for a in range(6)]
        for lead in (1, 7):
            book.add("valid-stand-in", text_of(Drawing(lead, actors, [Link(2, 3, 0)])))


def add_chain_delays(book):
    """One link beside a path of two: the delay at which it is dropped."""
    for first in (0, 1, 500):
        for second in (0, 2, 500):
            for over in (-1, 0, 1):
                delay = first + second + over
                if 0 <= delay <= MOST_DELAY:
                    links = [Link(0, 2, delay), Link(0, 1, first), Link(1, 2, second)]
                    actors = [Actor(0, 1), Actor(1, 1), Actor(2, 1)]
                    book.add("valid-shortcut", text_of(Drawing(2, actors, links)))


def add_stuck(book):
    """Deadlocked drawings of all sizes."""
    dice = Dice("stuck")
    for most, count in [(4, 15), (12, 20), (24, 15)]:
        for _ in range(count):
            book.add("stuck", text_of(make_stuck(dice, most), dice.chance(50)))
    for low in range(0, 12):
        actors = [Actor(a % 3, 1) for a in range(14)]
        links = [Link(low + 1, low, 0), Link(low, low + 1, 0)]
        book.add("stuck-pair", text_of(Drawing(1, actors, links)),
                 expect=b"refused 11 plan %d\n" % low)
    for low in (0, 31, 62, 63):
        actors = [Actor(a % 16, 1) for a in range(64)]
        book.add("stuck-large", text_of(Drawing(1, actors, [Link(low, low, 0)])),
                 expect=b"refused 11 plan %d\n" % low)
    ring = [Link(a, (a + 1) % 16, 0) for a in range(16)]
    singles = [Actor(a, 1) for a in range(16)]
    for slow in (None, 0, 7, 15):
        links = [link._replace(delay=1) if i == slow else link for i, link in enumerate(ring)]
        book.add("ring", text_of(Drawing(1, singles, links)),
                 expect=b"refused 11 plan 0\n" if slow is None else None)


# --------------------------------------------------------------------------
# Stored cases: faulty texts
# --------------------------------------------------------------------------

# Lines that are badly formed, each a fault of number 1.
BAD_SHAPES = [
    b"", b" ", b"  ", b"R", b"A", b"L", b"A ", b"L ", b"L  ", b"R  ", b"A   ", b"L    ",
    b"X 1", b"r 1", b"a 0 1", b"l 0 0 1", b"B 0 1", b"Q 0 1", b"S 1", b"K 0 0 1", b"M 0 0 1",
    b"0 1", b"# note", b"A0 1", b"AA 0 1", b"A\x090 1", b"A\x090\x091", b"L0 0 1", b"R1", b"R=1",
    b" A 0 1", b" R 1", b" L 0 0 1", b"\x09A 0 1",
    b"A 0", b"A 0 1 ", b"A 0 1 2", b"A  0 1", b"A 0  1", b"A 0 1  ", b"A 0\x091",
    b"L 0 0", b"L 0 0 1 ", b"L 0 0 0 0", b"L  0 0 1", b"L 0  0 1", b"L 0 0  1", b"L 0",
    b"R 1 ", b"R  1", b"R 1 1", b"R 1  ",
    b"\r", b"A\r", b"A 0\r", b"\r A 0 1", b"\x00", b"\x00 0 1", b"A\x00 0 1", b"A\x000 1",
    b"\xff 0 1", b"\xc1 0 1", b"\xd2 1", b"\xcc 0 0 1", b"\xc3\x84 0 1", b"\xef\xbb\xbfR 1",
    b"A\xa00 1", b"A\xa0 0 1", b"L\xa00 0 1", b"\x7f", b"A\x0b0 1", b"A\x0c0 1",
]

# Words that are no numbers, each a fault of number 2 wherever it stands.
BAD_WORDS = [
    b"", b"00", b"01", b"000", b"0000001", b"007", b"12345678", b"00000000", b"10000000",
    b"99999999", b"123456789012345678901234567890", b"4294967296", b"18446744073709551617",
    b"-1", b"+1", b"-0", b"1-", b"x", b"0x1", b"1e3", b"1.5", b"1.", b"1,000", b"1_000",
    b"/", b":", b"1/", b"1:", b"a", b"1a", b"a1", b"\x091", b"1\x09", b"1\r", b"\r", b"\x00",
    b"1\x00", b"\x001", b"\xb2", b"\xff", b"\xb1", b"1\xb0", b"\xd9\xa1", b"\xef\xbc\x91",
    b"R", b"A", b"one", b"1234567a", b"\x0b1", b"\x0c", b"1\x1c", b"\xa01",
]


def refused(number, place):
    """The answer of a refusal."""
    return Refusal(number, place).line()


def add_bad_shapes(book):
    """Each badly formed line, at three places of some text."""
    dice = Dice("bad shapes")
    for bad in BAD_SHAPES:
        lines = some_lines(dice)
        for place in sorted({1, dice.between(2, len(lines)), len(lines) + 1}):
            text = joined(lines[:place - 1] + [bad] + lines[place - 1:])
            if place == 1 or dice.chance(60):
                book.add("shape", text, expect=refused(1, place))


def add_unended(book):
    """Texts whose last line has no line feed, or is cut short in other ways."""
    dice = Dice("unended")
    for _ in range(6):
        lines = some_lines(dice)
        text = joined(lines)
        book.add("unended", text[:-1], expect=refused(1, len(lines)))
        book.add("unended", text + b" ", expect=refused(1, len(lines) + 1))
        book.add("unended", text + b"\n", expect=refused(1, len(lines) + 1))
        book.add("unended", b"\n" + text, expect=refused(1, 1))
        book.add("unended", text[:-1] + b"\r", expect=refused(1, len(lines)))
    for piece in [b"R", b"R ", b"R 1", b"A 0 1", b"L 0 0 1", b"\x00", b"\xff", b"\r", b" ", b"X"]:
        book.add("unended", piece, expect=refused(1, 1))
        book.add("unended", b"A 0 1\n" + piece, expect=refused(1, 2))
    book.add("unended", b"\n", expect=refused(1, 1))
    book.add("unended", b"\n\n", expect=refused(1, 1))
    book.add("unended", b"A 0 1\r\nL 0 0 1\r\n", expect=refused(2, 1))
    book.add("unended", b"A 0 1\nL 0 0 1\r\n", expect=refused(2, 2))
    book.add("unended", b"A 0 1\rL 0 0 1\r", expect=refused(1, 1))
    book.add("unended", b"A 0 1\r", expect=refused(1, 1))


def add_bad_words(book):
    """Each bad word, once in an R, an A and an L line, at any of its words."""
    dice = Dice("bad words")
    for index, bad in enumerate(BAD_WORDS):
        lines = some_lines(dice)
        actors = [i for i, line in enumerate(lines) if line[:1] == b"A"]
        links = [i for i, line in enumerate(lines) if line[:1] == b"L"] or actors
        chosen = [dice.pick(actors), dice.pick(links)] + ([0] if index % 2 == 0 else [])
        for at in chosen:
            letter, *words = lines[at].split(b" ")
            words[dice.below(len(words))] = bad
            text = joined(lines[:at] + [b" ".join([letter] + words)] + lines[at + 1:])
            book.add("word", text, expect=refused(2, at + 1))
    for line in [b"R ", b"A  ", b"A 0 ", b"A  1", b"L   ", b"L 0 0 ", b"L  0 1", b"L 0  1"]:
        book.add("word-empty", b"A 0 1\n" + line + b"\n", expect=refused(2, 2))
        book.add("word-empty", line + b"\n", expect=refused(2, 1))


def add_orders(book):
    """Lines out of order."""
    dice = Dice("orders")
    for _ in range(8):
        lines = some_lines(dice) + [b"L 0 0 1"]
        last_actor = max(i for i, line in enumerate(lines) if line[:1] == b"A")
        early = dice.between(1, last_actor)
        book.add("order", joined(lines[:early] + [b"R 1"] + lines[early:]),
                 expect=refused(3, early + 1))
        book.add("order", joined(lines + [b"A 0 1"]), expect=refused(3, len(lines) + 1))
        book.add("order", joined(lines + [b"R 2"]), expect=refused(3, len(lines) + 1))
        book.add("order", joined(lines + [b"A 0 1", b"R 2"]), expect=refused(3, len(lines) + 1))
        book.add("order", joined(lines[:1] + lines), expect=refused(3, 2))
        book.add("order", joined([b"L 0 0 1"] + lines[1:]), expect=refused(3, 2))
        book.add("order", joined(lines[1:2] + lines), expect=refused(3, 2))
    book.add("order", b"L 0 0 1\nA 0 1\n", expect=refused(3, 2))
    book.add("order", b"A 0 1\nR 1\n", expect=refused(3, 2))
    book.add("order", b"R 1\nR 1\n", expect=refused(3, 2))
    book.add("order", b"L 0 0 1\nL 0 0 1\nR 1\nA 0 1\n", expect=refused(3, 3))


def text_fault_lines(early, late):
    """A text with one fault of the text in its early and one in its late half.

    Gives the text, its rooms and the places of the two faults.
    """
    lines = [b"R 1"] + [b"A %d 1" % a for a in range(4)] + [b"L %d 0 1" % a for a in range(4)]
    rooms = USUAL
    inserted = 0
    if early == 1:
        lines[2] = b"A 1"
    elif early == 2:
        lines[2] = b"A 1 x"
    elif early == 3:
        lines.insert(2, b"R 1")
        inserted = 1
    else:
        rooms = rooms._replace(actors=1)
    if late == 1:
        lines[7 + inserted] = b"L 2 0"
    elif late == 2:
        lines[7 + inserted] = b"L 2 0 x"
    elif late == 3:
        lines[7 + inserted] = b"A 2 1"
    else:
        rooms = rooms._replace(links=2)
    return joined(lines), rooms, 3, 8 + inserted


def add_text_pairs(book):
    """Every two faults of the text, either one first."""
    for early in range(1, 5):
        for late in range(1, 5):
            text, rooms, place, later = text_fault_lines(early, late)
            expect = refused(early, place) if early <= late else refused(late, later)
            book.add("pair", text, rooms, expect)
            rest = text[text.index(b"\n") + 1:]
            first = refused(early, place - 1) if early <= late else refused(late, later - 1)
            book.add("pair", rest, rooms, first)


def faulty_case(faults):
    """A text and rooms with all the given faults, of numbers 1 to 11."""
    actors = [] if 5 in faults else [b"A 0 1", b"A 16 1" if 9 in faults else b"A 1 1", b"A 2 1"]
    links = [b"L 0 1 0", b"L 1 2 1001" if 10 in faults else b"L 1 2 1000"]
    links += [b"L 2 2 0"] if 11 in faults else [b"L 2 2 1"]
    lines = [b"R 0" if 7 in faults else b"R 1"] + actors + links
    n, m = len(actors), len(links)
    rooms = USUAL
    if 8 in faults:
        rooms = rooms._replace(flags=max(0, n * n - 1))
    if 6 in faults:
        rooms = rooms._replace(links=m + 14)
    if 4 in faults:
        rooms = rooms._replace(links=m - 1) if 5 in faults else rooms._replace(actors=n - 1)
    lines += [b"R 1"] * (3 in faults) + [b"L 0 0 x"] * (2 in faults) + [b"L 0 0"] * (1 in faults)
    return joined(lines), rooms


def add_fault_sets(book):
    """Two and more faults of any layers at once: the lowest number is answered."""
    sets = [{low, high} for low in range(1, 12) for high in range(low, 12)]
    sets += [set(range(low, 12)) for low in range(1, 12)]
    for faults in sets:
        if 5 in faults:
            faults = faults - {8, 9, 11}
        text, rooms = faulty_case(faults)
        if not (text, rooms) in book.seen:
            found = full_answer(text, rooms)
            assert int(found.split()[1]) == min(faults), (faults, found)
            book.add("set", text, rooms, found)


def add_fuzz(book):
    """Texts of drawings with a few bytes changed, whatever comes of it."""
    dice = Dice("fuzz")
    wanted = 160
    while wanted:
        wanted -= book.add("fuzz", mutated(dice, joined(some_lines(dice))))


def add_number_fuzz(book):
    """Texts of drawings with one or two numbers changed, whatever comes of it."""
    dice = Dice("number fuzz")
    wanted = 100
    while wanted:
        lines = some_lines(dice)
        n = sum(line[:1] == b"A" for line in lines)
        for _ in range(dice.between(1, 2)):
            at = dice.below(len(lines))
            letter, *words = lines[at].split(b" ")
            number = dice.pick([0, 0, 0, 1, n - 1, n, 15, 16, 63, 1000, 1001, 1000001])
            words[dice.below(len(words))] = b"%d" % number
            lines[at] = b" ".join([letter] + words)
        wanted -= book.add("number", joined(lines))


# --------------------------------------------------------------------------
# Stored cases: limits
# --------------------------------------------------------------------------


def add_text_sizes(book):
    """Texts of exactly 8,192 bytes and one byte more or less."""
    long_number = b"R 1\n" * 2047 + b"R x\n"
    blank_words = b"R \n" * 2730 + b"R\n"
    orders = b"R 1\n" * 2048
    actors = b"A 10 1\n" + b"A 0 1\n" * 1364 + b"X"
    rooms_out = b"A 0 10\n" * 64 + b"L 0 0 1\n" * 968
    mixed = b"A 9 1000000\n" * 4 + b"A 0 10\n" * 60 + b"L 0 0 1000\n" * 700 + b"L 0 63 10\n" * 2
    mixed = mixed[:MOST_BYTES].rsplit(b"\n", 1)[0] + b"\n"
    mixed += b"A" * (MOST_BYTES - len(mixed) - 1) + b"\n"
    for text, expect in [
            (long_number, refused(2, 2048)),
            (blank_words, refused(1, 2731)),
            (orders, refused(3, 2)),
            (actors, refused(1, 1366)),
            (rooms_out, refused(4, 321)),
            (mixed, None),
            (b"\n" * MOST_BYTES, refused(1, 1)),
            (b"A" * MOST_BYTES, refused(1, 1)),
            (b"A " + b"1" * (MOST_BYTES - 4) + b" 1", refused(1, 1)),
            (b"A " + b"1" * (MOST_BYTES - 4) + b" \n", refused(2, 1)),
            (b"R" + b" " * (MOST_BYTES - 2) + b"\n", refused(1, 1)),
            (b"\x00" * MOST_BYTES, refused(1, 1)),
            (b"\xff" * MOST_BYTES, refused(1, 1))]:
        assert len(text) == MOST_BYTES, len(text)
        book.add("bytes-most", text, expect=expect)
        book.add("bytes-over", text + b"\n", expect=refused(1, 0))
        book.add("bytes-over", b"X" + text, expect=refused(1, 0))
    whole = rooms_out
    book.add("bytes-less", whole[:-1], expect=refused(1, 64 + 968))
    book.add("bytes-less", whole[:-8], expect=refused(4, 321))
    book.add("bytes-over", whole + b"L 0 0 1\n", expect=refused(1, 0))
    book.add("bytes-over", b"A 0 1\n" * 2000, expect=refused(1, 0))
    book.add("bytes-over", (b"A 0 1\n" * 2000)[:MOST_BYTES + 1], expect=refused(1, 0))
    nines = [b"R 9999999"] + [b"A 9999999 9999999"] * 64 + [b"L 9999999 9999999 9999999"] * 256
    book.add("bytes-less", joined(nines), expect=refused(7, 0))
    book.add("bytes-less", joined(nines[1:]), expect=refused(9, 0))
    book.add("bytes-less", joined([b"R 1000"] + [b"A 15 1000000"] * 64 + nines[65:]),
             expect=refused(10, 0))


def add_counts(book):
    """64 and 65 actors, 256 and 257 links, in tables that could hold more."""
    wide = Rooms(100, 400, 4096, 4096, 16384)
    for n in (63, 64, 65, 66):
        lines = [b"A %d %d" % (a % 16, 1 + a) for a in range(n)]
        for rooms in (USUAL, wide):
            book.add("actors", joined(lines), rooms, refused(4, 65) if n > 64 else None)
        book.add("actors", joined([b"R 2"] + lines), USUAL, refused(4, 66) if n > 64 else None)
    for m in (255, 256, 257, 258):
        lines = [b"A 0 1", b"A 1 1", b"A 1 2"]
        lines += [b"L %d %d %d" % (i % 3, (i + 1) % 3, 1 + i % 7) for i in range(m)]
        for rooms in (USUAL, wide):
            book.add("links", joined(lines), rooms, refused(4, 260) if m > 256 else None)
        book.add("links", joined([b"R 2"] + lines), USUAL, refused(4, 261) if m > 256 else None)
    both = [b"A 0 1"] * 65 + [b"L 0 0 1"] * 257
    book.add("links", joined(both), wide, refused(4, 65))
    book.add("links", joined(both[1:]), wide, refused(4, 64 + 257))
    book.add("links", joined([b"R 1000"] + both[1:]), wide, refused(4, 65 + 257))
    book.add("links", joined(both[1:-1] + [b"A 0 1"]), wide, refused(3, 64 + 257))


def add_numbers(book):
    """The bounds of every number, and how many digits it may have."""
    for lead in (0, 1, 2, 999, 1000, 1001, 1002, 9999, 1000000, 9999999):
        fault = None if 1 <= lead <= 1000 else refused(7, 0)
        book.add("lead", b"R %d\nA 0 1\nA 1 1\nL 0 1 0\n" % lead, expect=fault)
        book.add("lead", b"R %d\nA 0 1\n" % lead, expect=fault)
    book.add("lead", b"R 10000000\nA 0 1\n", expect=refused(2, 1))
    book.add("lead", b"R 01\nA 0 1\n", expect=refused(2, 1))
    book.add("lead", b"R 5\n", expect=refused(5, 0))
    book.add("lead", b"R 0\n", expect=refused(5, 0))
    book.add("lead", b"L 0 0 1\n", expect=refused(5, 0))
    book.add("lead", b"R 1001\nL 0 0 0\nL 9 9 9999\n", expect=refused(5, 0))
    for place in (0, 1, 4):
        for value in (0, 1, 9, 10, 14, 15, 16, 17, 100, 999, 1000000, 9999999):
            book.add("processor", actors_with(place, b"%d 7" % value),
                     expect=refused(9, place) if value > 15 else None)
        for value in (0, 1, 2, 999999, 1000000, 1000001, 1000002, 9999999):
            book.add("estimate", actors_with(place, b"2 %d" % value),
                     expect=None if 1 <= value <= 1000000 else refused(9, place))
        for word in (b"15 00", b"015 1", b"0 10000000", b"00000000 1", b"0 01000000"):
            book.add("digits", actors_with(place, word), expect=refused(2, place + 1))
    for place in (7, 20, 40, 62, 63):
        lines = [b"A %d 5" % (a % 16) for a in range(64)]
        lines[place] = b"A 3 0" if place % 2 else b"A 16 3"
        book.add("processor", joined(lines), expect=refused(9, place))
    book.add("processor", b"A 16 0\nA 0 0\n", expect=refused(9, 0))
    book.add("processor", b"A 0 1\nA 15 1000001\nA 16 1\n", expect=refused(9, 1))
    for place in (0, 2, 5):
        for value in (0, 1, 999, 1000, 1001, 1002, 9999, 1000000, 9999999):
            book.add("delay", links_with(place, b"0 1 %d" % value),
                     expect=refused(10, place) if value > 1000 else None)
        for value in (0, 1, 2, 3, 4, 63, 64, 65, 256, 9999999):
            book.add("sender", links_with(place, b"%d 1 1" % value),
                     expect=refused(10, place) if value > 2 else None)
            book.add("receiver", links_with(place, b"1 %d 1" % value),
                     expect=refused(10, place) if value > 2 else None)
        for word in (b"0 1 01", b"00 1 1", b"0 1 10000000", b"0 00000001 1"):
            book.add("digits", links_with(place, word), expect=refused(2, place + 4))
    for place in (31, 99, 200, 254, 255):
        lines = [b"A 0 1", b"A 1 1"] + [b"L %d %d 2" % (i % 2, i // 2 % 2) for i in range(256)]
        lines[2 + place] = b"L 2 0 1" if place % 2 else b"L 0 1 1001"
        book.add("delay", joined(lines), expect=refused(10, place))
    book.add("delay", b"A 0 1\nL 0 0 1001\nL 1 0 0\n", expect=refused(10, 0))
    book.add("delay", b"A 0 1\nL 0 0 0\nL 0 0 1001\n", expect=refused(10, 1))


def actors_with(place, words):
    """Five actors and a link; one actor has other words."""
    lines = [b"A %d 5" % (a % 3) for a in range(5)]
    lines[place] = b"A " + words
    return joined(lines + [b"L 0 4 1"])


def links_with(place, words):
    """Three actors and six links; one link has other words."""
    lines = [b"A %d 5" % a for a in range(3)] + [b"L %d %d 1" % (i % 3, i % 2) for i in range(6)]
    lines[3 + place] = b"L " + words
    return joined(lines)


# --------------------------------------------------------------------------
# Stored cases: rooms
# --------------------------------------------------------------------------


def small_texts(name, count):
    """Some small live drawings with their texts."""
    dice = Dice(name)
    rows = []
    while len(rows) < count:
        make = dice.pick([make_chain, make_layers, make_clusters, make_fans, make_rim])
        drawing = make(dice, dice.between(5, 10))
        if drawing.links:
            rows.append((drawing, text_of(drawing)))
    return rows


def add_rooms(book):
    """Tables and workspaces below, at and above what a drawing needs."""
    for drawing, text in small_texts("rooms", 8):
        n, m = len(drawing.actors), len(drawing.links)
        full = full_answer(text, USUAL)
        for length in (0, 1, n - 1, n, n + 1):
            book.add("room-actors", text, USUAL._replace(actors=length),
                     full if length >= n else refused(4, 2 + length))
        for length in (0, 1, m - 1, m, m + 1, m + 14, m + 15, m + 16):
            expect = full if length >= m + 15 else refused(6, 0)
            if length < m:
                expect = refused(4, 2 + n + length)
            book.add("room-links", text, USUAL._replace(links=length), expect=expect)
        for length in (0, n, n * n - 1, n * n, n * n + 1):
            expect = full if length >= n * n else refused(8, 0)
            book.add("room-delays", text, USUAL._replace(delays=length), expect=expect)
            book.add("room-flags", text, USUAL._replace(flags=length), expect=expect)
        for delays in (n * n - 1, n * n):
            for flags in (n * n - 1, n * n):
                fits = delays == flags == n * n
                book.add("room-both", text, USUAL._replace(delays=delays, flags=flags),
                         full if fits else refused(8, 0))
        book.add("room-tight", text, Rooms(n, m + 15, n * n, n * n, len(full)), full)
        book.add("room-tight", text, Rooms(n, m + 15, n * n, n * n, len(full) - 1), b"")
        book.add("room-tight", text, Rooms(n - 1, m + 14, n * n - 1, n * n - 1, 0), b"")
        book.add("room-tight", text, Rooms(n, m + 14, n * n - 1, n * n - 1, 18),
                 refused(6, 0))
    largest = [b"R 1000"] + [b"A %d 1" % (a % 16) for a in range(64)]
    for rooms, expect in [(Rooms(64, 15, 4096, 4096, 64), None),
                          (Rooms(64, 14, 4096, 4096, 64), refused(6, 0)),
                          (Rooms(64, 15, 4095, 4096, 64), refused(8, 0)),
                          (Rooms(64, 15, 4096, 4095, 64), refused(8, 0)),
                          (Rooms(63, 15, 4096, 4096, 64), refused(4, 65)),
                          (Rooms(65, 15, 4097, 4097, 64), None)]:
        book.add("room-large", joined(largest), rooms, expect)
    full_links = [b"A 0 1"] + [b"L 0 0 1"] * 256
    for length, expect in [(255, refused(4, 257)), (256, refused(6, 0)), (270, refused(6, 0)),
                           (271, None), (272, None)]:
        book.add("room-large", joined(full_links), USUAL._replace(links=length), expect)


# One text for each refusal of the text, the tables and the plan.
REFUSED_TEXTS = [
    (b"A 0\n", refused(1, 1)),
    (b"A 0 1\n" * 11 + b"X\n", refused(1, 12)),
    (b"\n" * 8193, refused(1, 0)),
    (b"A 0 1\nA 0 x\n", refused(2, 2)),
    (b"R 1\n" * 200 + b"R x\n", refused(2, 201)),
    (b"A 0 1\nL 0 0 1\nA 0 1\n", refused(3, 3)),
    (b"A 0 1\n" * 65, refused(4, 65)),
    (b"A 0 1\n" * 64 + b"L 0 0 1\n" * 257, refused(4, 321)),
    (b"", refused(5, 0)),
    (b"R 0\nA 0 1\n", refused(7, 0)),
    (b"A 0 1\nA 16 1\n", refused(9, 1)),
    (b"A 0 1\n" * 12 + b"A 0 0\n", refused(9, 12)),
    (b"A 0 1\nL 0 1 0\n", refused(10, 0)),
    (b"A 0 1\n" + b"L 0 0 1\n" * 100 + b"L 0 0 1001\n", refused(10, 100)),
    (b"A 0 1\nL 0 0 0\n", refused(11, 0)),
    (b"A 0 1\n" * 14 + b"L 13 13 0\n", refused(11, 13)),
]


def add_outputs(book):
    """Outputs one byte too short, exact and one longer; and far too short."""
    rows = [(text, full_answer(text, USUAL), USUAL) for _, text in small_texts("outputs", 6)]
    rows += [(text, expect, USUAL) for text, expect in REFUSED_TEXTS]
    rows += [(text, expect, USUAL) for text, expect in KNOWN[:5]]
    rows.append((b"A 0 1\n", refused(6, 0), USUAL._replace(links=14)))
    rows.append((b"A 0 1\n", refused(8, 0), USUAL._replace(delays=0)))
    rows.append((b"A 0 1\n", refused(8, 0), USUAL._replace(flags=0)))
    rows.append((b"A 0 1\n", refused(4, 1), USUAL._replace(actors=0)))
    for text, full, rooms in rows:
        for length in (len(full) - 1, len(full), len(full) + 1):
            book.add("output", text, rooms._replace(output=length),
                     full if length >= len(full) else b"")
    for text, full, rooms in rows[:12]:
        for length in (0, 1, len(full) // 2, 17):
            book.add("output-far", text, rooms._replace(output=length),
                     full if length >= len(full) else b"")


def add_nothing(book):
    """Nothing lent at all, and nothing but one thing."""
    nothing = Rooms(0, 0, 0, 0, 0)
    for text in [b"", b"A 0 1\n", b"R 1\n", b"X\n", b"L 0 0 1\n", FOUR_ACTORS]:
        book.add("nothing", text, nothing, b"")
    book.add("nothing", b"", nothing._replace(output=17), b"")
    book.add("nothing", b"", nothing._replace(output=18), refused(5, 0))
    book.add("nothing", b"", nothing._replace(output=19), refused(5, 0))
    usual = nothing._replace(output=64)
    book.add("nothing", b"", usual, refused(5, 0))
    book.add("nothing", b"R 1\n", usual, refused(5, 0))
    book.add("nothing", b"R 0\n", usual, refused(5, 0))
    book.add("nothing", b"A 0 1\n", usual, refused(4, 1))
    book.add("nothing", b"R 1\nA 0 1\n", usual, refused(4, 2))
    book.add("nothing", b"L 0 0 1\n", usual, refused(4, 1))
    book.add("nothing", b"A 0 1\nL 0 0 1\n", usual._replace(actors=1), refused(4, 2))
    book.add("nothing", b"A 0 1\n", usual._replace(actors=1), refused(6, 0))
    book.add("nothing", b"A 0 1\n", Rooms(1, 15, 0, 0, 64), refused(8, 0))
    book.add("nothing", b"A 0 1\n", Rooms(1, 15, 1, 0, 64), refused(8, 0))
    book.add("nothing", b"A 0 1\n", Rooms(1, 15, 0, 1, 64), refused(8, 0))
    one = b"actors 1 links 0 returns 0\ncost 0 0\n"
    book.add("nothing", b"A 0 1\n", Rooms(1, 15, 1, 1, len(one)), one)
    book.add("nothing", b"A 0 1\n", Rooms(1, 15, 1, 1, len(one) - 1), b"")
    book.add("nothing", b"A 0 1\n", Rooms(1, 15, 1, 1, 0), b"")


ADDERS = [
    add_known, add_examples, add_tiny, add_shapes, add_returns, add_stand_ins, add_chain_delays,
    add_rings, add_span, add_large, add_stuck, add_bad_shapes, add_unended, add_bad_words,
    add_orders, add_text_pairs, add_fault_sets, add_fuzz, add_number_fuzz, add_text_sizes,
    add_counts, add_numbers, add_rooms, add_outputs, add_nothing,
]


def make_book():
    """All stored cases."""
    book = Book()
    for adder in ADDERS:
        adder(book)
    return book


MOST_TOGETHER = 3_000_000
MOST_SPLIT = 1_000_000


def shelves(blocks):
    """The blocks of each file: one file, or several if they would be too long."""
    if sum(map(len, blocks)) <= MOST_TOGETHER:
        return {"cases.txt": blocks}
    files, size = [[]], 0
    for block in blocks:
        if size + len(block) > MOST_SPLIT:
            files.append([])
            size = 0
        files[-1].append(block)
        size += len(block)
    return {"cases-%d.txt" % i: rows for i, rows in enumerate(files, 1)}


def write_cases(folder):
    """Write the stored cases, read them back, and tell what they are."""
    book = make_book()
    os.makedirs(folder, exist_ok=True)
    for name, blocks in shelves(book.blocks).items():
        path = os.path.join(folder, name)
        with open(path, "wb") as file:
            file.write(b"".join(blocks))
        with open(path, "rb") as file:
            data = file.read()
        cases = read_blocks(data)
        for word, case, rooms, text, output in cases:
            found = answer(text, rooms)
            assert (word == b"short") == (found is None) and output == (found or b""), case
        print("%s: %d cases, %d bytes" % (name, len(cases), len(data)))
    tell(book)


def tell(book):
    """Counts of the cases by kind and by answer."""
    for kind, count in sorted(book.kinds.items()):
        print("  %-34s %4d" % (kind, count))
    print("listed: %d" % book.answers[0])
    for number in range(1, 13):
        places = sorted(book.places.get(number, []))
        print("refused %2d: %4d, %3d places" % (number, book.answers[number], len(places)))
    small = sum(1 for n, _ in book.sizes if n <= 20)
    large = sum(1 for n, _ in book.sizes if n > 40)
    print("listed with at most 20 actors: %d, with more than 40: %d" % (small, large))
