"""chained.py LIBRARY SEED COUNT: honest gluing on every small grid and on COUNT random ones: classes by a union of the two ends of every gluing step, numbered by their least points; both engines,
the count, single points, words, 4, 6, 7 and 12, and what every lent list holds afterwards. The last line is 'compared N calls on M grids, 0 differences'."""
import random
import sys
from itertools import product
from math import factorial

import inputs
import model as m
from port import Port


def coordinates(d, axes, v):
    place = []
    for i in range(d):
        v, c = divmod(v, axes[2 * i] + 1)
        place.append(c)
    return place


def number(d, axes, place):
    v = 0
    for i in reversed(range(d)):
        v = v * (axes[2 * i] + 1) + place[i]
    return v


def classes_of(d, axes):
    """each point's class, and how many classes there are"""
    n = m.points(d, axes)
    up = list(range(n))

    def top(v):
        while up[v] != v:
            up[v] = up[up[v]]
            v = up[v]
        return v

    for v in range(n):
        place = coordinates(d, axes, v)
        for a in range(d):
            if m.kind(axes[2 * a + 1]) and place[a] == axes[2 * a]:
                there = [axes[2 * k] - c if m.mask(axes[2 * a + 1]) >> k & 1 else c for k, c in enumerate(place)]
                there[a] = 0
                x, y = top(v), top(number(d, axes, there))
                up[max(x, y)] = min(x, y)
    named, out = {}, []
    for v in range(n):
        out.append(named.setdefault(top(v), len(named)))
    return out, len(named)


def early(d, axes):
    """the checks before the room: those of the first mode without its 6"""
    said = m.check_grid(d, axes)
    return None if said and said[0] == 6 else said


def words_by(d, axes, classes):
    return [tuple(classes[v] for v in w) for w in m.grid_cells(d, axes)]


def crowded(d, words):
    return m.crowded(m.facet_rows(m.cells_of(d, [v for w in words for v in w])))


def end_of_words(d, axes, classes, count):
    """what the words come to before the word list is tested: a refusal, or the words"""
    if count > m.VERTICES:
        return (6, 0), None
    words = words_by(d, axes, classes)
    for i, w in enumerate(words):
        if len(set(w)) < len(w):
            return (4, i), None
    if crowded(d, words):
        return (7, 0), None
    return None, [v for w in words for v in w]


class Chained:
    def __init__(self, port, rnd):
        self.port, self.rnd = port, rnd
        self.calls = self.grids = self.wrong = 0
        self.ends = {}

    def compare(self, name, numbers, lists, code, after):
        said, left = self.port.call(name, numbers, [("u32", x) for x in lists])
        self.calls += 1
        self.ends[code >> 32] = self.ends.get(code >> 32, 0) + 1
        if said != code or left != after:
            self.wrong += 1
            if self.wrong < 5:
                print("DIFFERENCE", name, numbers, lists, "said", hex(said), left, "must be", hex(code), after)

    def full(self, n):
        return [self.rnd.randrange(1 << 32) for _ in range(n)]

    def listed(self, d, axes, refusal, need, classes, count):
        """both engines, with room and lists that are too short, just long enough, or longer"""
        have = max(0, need + self.rnd.choice((-1, 0, 0, 3)))
        n = len(classes) if classes else 0
        given = max(0, n + self.rnd.choice((-1, 0, 0, 2)))
        to, room = self.full(given), self.full(have)
        if refusal:
            code, to2, room2 = refusal, to, room
        elif have < need:
            code, to2, room2 = (12, 0), to, room
        else:
            room2 = [0] * need + room[need:]
            if count > m.VERTICES:
                code, to2 = (6, 0), to
            elif given < n:
                code, to2 = (12, 0), to
            else:
                code, to2 = (0, count), classes + to[n:]
        for name in ("planner_chained_classes", "planner_chained_closed_classes"):
            self.compare(name, [d], [axes, to, room], code[0] << 32 | code[1], [axes, to2, room2])

    def asked(self, d, axes, refusal, need, classes, count):
        have = max(0, need + self.rnd.choice((-1, 0, 0, 0, 3)))
        room = self.full(have)
        n = len(classes) if classes else 0
        v = self.rnd.choice((self.rnd.randrange(n) if n else 0, self.rnd.randrange(n) if n else 5, n, 2 ** 32 - 1))
        room2 = room
        if refusal:
            code = one = refusal
        elif have < need:
            code = one = (12, 0)
        else:
            room2 = [0] * need + room[need:]
            if count > m.VERTICES:
                code = one = (6, 0)
            else:
                code, one = (0, count), (0, classes[v] if v < n else m.NO_VERTEX)
        self.compare("planner_chained_nvertices", [d], [axes, room], code[0] << 32 | code[1], [axes, room2])
        self.compare("planner_chained_reduce", [d, v], [axes, room], one[0] << 32 | one[1], [axes, room2])

    def worded(self, d, axes, refusal, need, classes, count):
        each = [d * need, need, need, need]
        short = self.rnd.choice((None, None, None, None, 0, 1, 2, 3))
        rooms = [self.full(max(0, x + self.rnd.choice((0, 0, 2)) - (3 if short == i else 0))) for i, x in enumerate(each)]
        given = max(0, need + self.rnd.choice((-1, 0, 0, 2)))
        words = self.full(given)
        left = rooms
        if refusal:
            code, words2 = refusal, words
        elif any(len(r) < x for r, x in zip(rooms, each)):
            code, words2 = (12, 0), words
        else:
            left = [[0] * x + r[x:] for r, x in zip(rooms, each)]
            code, flat = end_of_words(d, axes, classes, count)
            if code:
                words2 = words
            elif given < need:
                code, words2 = (12, 0), words
            else:
                code, words2 = (0, need // (d + 1)), flat + words[need:]
        self.compare("planner_chained_cell_words", [d], [axes, words] + rooms, code[0] << 32 | code[1], [axes, words2] + left)

    def grid(self, d, axes):
        self.grids += 1
        refusal = early(d, axes)
        if refusal:
            classes, count, need = None, 0, self.rnd.randrange(30)
        else:
            classes, count = classes_of(d, axes)
            boxes = 1
            for i in range(d):
                boxes *= axes[2 * i]
            need = factorial(d) * boxes * (d + 1)
        for ask in (self.listed, self.asked, self.worded):
            ask(d, axes, refusal, need, classes, count)


def small(every):
    """every grid of one to three axes with few cells and every gluing; of the largest kind one in `every`"""
    for d, most in ((1, 7), (2, 6), (3, 4)):
        glues = [[0, m.PERIODIC] + [m.TWISTED + s for s in range(1 << d)] for _ in range(d)]
        for i, (counts, chosen) in enumerate(product(product(range(1, most + 1), repeat=d), product(*glues))):
            axes = [x for pair in zip(counts, chosen) for x in pair]
            if d < 3 or i % every == 0 or early(d, axes) is None:
                yield d, axes


def edges():
    """around the limits"""
    for n in (4094, 4095, 4096, 4097):
        for g in (0, m.PERIODIC, m.TWISTED):
            yield 1, [n, g]
    for a, b in ((45, 45), (46, 44), (46, 45), (2048, 1), (1024, 2), (32, 64)):
        for g, h in ((0, 0), (m.TWISTED + 2, m.TWISTED + 1), (m.PERIODIC, 0), (m.TWISTED + 2, 0), (m.TWISTED + 2, m.PERIODIC)):
            yield 2, [a, g, b, h]
    yield 0, []
    yield 4, [3, 0] * 4
    yield 2, [3, m.TWISTED + 2]


def main():
    library, seed, count = sys.argv[1], int(sys.argv[2]), int(sys.argv[3])
    rnd = random.Random(seed)
    c = Chained(Port(library), rnd)
    for d, axes in small(16):
        c.grid(d, axes)
    for d, axes in edges():
        c.grid(d, axes)
    for _ in range(count):
        d = rnd.choice((1, 2, 2, 3, 3))
        c.grid(d, inputs.random_axes(rnd, d, 400))
    print("said: " + ", ".join("%s %d" % ("taken" if k == 0 else k, c.ends[k]) for k in sorted(c.ends)))
    print("compared %d calls on %d grids, %d differences" % (c.calls, c.grids, c.wrong))
    sys.exit(1 if c.wrong else 0)


if __name__ == "__main__":
    main()
