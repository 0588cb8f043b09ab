"""seams.py LIBRARY ORACLE SEED COUNT: every point of every small grid, and COUNT points of random grids, with the sets of its crossing: the number from the Rust, the sets from directions that
are turned as the point is carried across the seam. The last line is 'compared N points of M grids, 0 differences'."""
import random
import sys
from itertools import product

import inputs
import model as m
from judge import Rust
from port import Port


def carried(d, axes, v):
    """The sets of point v: a direction along every axis is carried with the point to the other side of each closed axis at whose far end it lies."""
    place, wrapped = [], 0
    for i in range(d):
        n, glue = axes[2 * i], axes[2 * i + 1]
        v, c = divmod(v, n + 1)
        place.append((c, n, glue))
    direction = [1] * d
    for a, (c, n, glue) in enumerate(place):
        if c == n and m.kind(glue):
            wrapped |= 1 << a
            direction = [-s if m.mask(glue) >> k & 1 else s for k, s in enumerate(direction)]
    return wrapped, sum(1 << k for k, s in enumerate(direction) if s < 0)


def small():
    """every grid of one to three axes with few cells and every gluing, those that are refused with it"""
    for d, most in ((1, 6), (2, 5), (3, 4)):
        glues = [[0, m.PERIODIC] + [m.TWISTED + s for s in range(1 << d)] for _ in range(d)]
        for counts in product(range(1, most + 1), repeat=d):
            for chosen in product(*glues):
                yield d, [x for pair in zip(counts, chosen) for x in pair]


class Seams:
    def __init__(self, port, rust):
        self.port, self.rust = port, rust
        self.points = self.grids = self.refused = self.wrong = 0

    def point(self, d, axes, v, code, sets):
        before = [0xA5A5A5A5, 0x5A5A5A5A]
        said, after = self.port.call("planner_crossing", [d, v], [("u32", axes)], [("u32", before)])
        alone, _ = self.port.call("planner_reduce", [d, v], [("u32", axes)])
        self.points += 1
        if said != code or alone != code or after != [axes, before if sets is None else list(sets)]:
            self.wrong += 1
            if self.wrong < 5:
                print("DIFFERENCE", d, axes, v, "said", hex(said), hex(alone), after, "must be", hex(code), sets)

    def grid(self, d, axes, points=None):
        early = m.check_grid(d, axes)
        self.grids += 1
        if early:
            self.refused += 1
            return self.point(d, axes, self.grids % 7, early[0] << 32 | early[1], None)
        told = self.rust.ask("reduce " + m.grid_text(d, axes))
        numbers = [int(x) for x in told.split(" ")[-1].split("=")[-1].split(",")]
        n = m.points(d, axes)
        assert len(numbers) == n, told
        for v in range(n) if points is None else points(n):
            self.point(d, axes, v, numbers[v], carried(d, axes, v))
        for v in (n, n + 1, 2 ** 32 - 1):
            self.point(d, axes, v, m.NO_VERTEX, (0, 0))


def main():
    library, oracle, seed, count = sys.argv[1], sys.argv[2], int(sys.argv[3]), int(sys.argv[4])
    s, rnd = Seams(Port(library), Rust(oracle)), random.Random(seed)
    for d, axes in small():
        s.grid(d, axes)
    begun = s.points
    while s.points - begun < count:
        d = rnd.choice((1, 2, 3))
        s.grid(d, inputs.random_axes(rnd, d, 4096), lambda n: [rnd.randrange(n) for _ in range(20)])
    print("refused grids: %d" % s.refused)
    print("compared %d points of %d grids, %d differences" % (s.points, s.grids, s.wrong))
    sys.exit(1 if s.wrong else 0)


if __name__ == "__main__":
    main()
