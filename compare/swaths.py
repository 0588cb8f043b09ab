"""swaths.py LIBRARY ORACLE SEED COUNT: lists of points of COUNT random grids, and of every small one, against the Rust's reduction of each point and against single calls; lists of exact length, longer and
too short, points past the last, refused grids. The last line is 'compared N lists with M points, 0 differences'."""
import random
import sys

import inputs
import model as m
from judge import Rust, filled
from port import Port
from seams import small


class Swaths:
    def __init__(self, port, rust, rnd):
        self.port, self.rust, self.rnd = port, rust, rnd
        self.lists = self.points = self.wrong = self.short = self.refused = 0

    def differs(self, *what):
        self.wrong += 1
        if self.wrong < 5:
            print("DIFFERENCE", *what)

    def swath(self, d, axes, points, early, numbers):
        rnd = self.rnd
        room = len(points) + rnd.choice((0, 0, 1, 5)) if rnd.random() < 0.85 else rnd.randrange(len(points) + 1)
        before = filled("u32", room)
        said, after = self.port.call("planner_swath", [d], [("u32", axes), ("u32", points), ("u32", before)])
        code = early or ((12, 0) if room < len(points) else (0, 0))
        self.lists += 1
        self.refused += early is not None
        self.short += code == (12, 0)
        expect = before
        if code == (0, 0):
            self.points += len(points)
            expect = numbers + before[len(points):]
        if (said >> 32, said & 0xFFFFFFFF) != code or after != [axes, points, expect]:
            self.differs(d, axes, points[:20], "room", room, "said", hex(said), "must be", code, after[2][:20], expect[:20])

    def grid(self, d, axes, length):
        rnd, early = self.rnd, m.check_grid(d, axes)
        if early:
            return self.swath(d, axes, [rnd.randrange(9) for _ in range(rnd.randrange(4))], early, [])
        table = [int(x) for x in self.rust.ask("reduce " + m.grid_text(d, axes)).split(" ")[-1].split(",")]
        n = len(table)
        points = [rnd.randrange(n) if rnd.random() < 0.9 else rnd.choice((n, n + 1, rnd.randrange(2 ** 32), 2 ** 32 - 1)) for _ in range(length)]
        numbers = [table[v] if v < n else m.NO_VERTEX for v in points]
        self.swath(d, axes, points, None, numbers)
        if points:
            i = rnd.randrange(len(points))
            alone, _ = self.port.call("planner_reduce", [d, points[i]], [("u32", axes)])
            if alone != numbers[i]:
                self.differs(d, axes, points[i], "single call", alone, "in the list", numbers[i])


def main():
    library, oracle, seed, count = sys.argv[1], sys.argv[2], int(sys.argv[3]), int(sys.argv[4])
    rnd = random.Random(seed)
    s = Swaths(Port(library), Rust(oracle), rnd)
    for d, axes in small():
        s.grid(d, axes, rnd.choice((0, 1, 2, 7)))
    for _ in range(count):
        d = rnd.choice((1, 2, 3))
        s.grid(d, inputs.random_axes(rnd, d, 4096), rnd.choice((0, 1, 5, 40, 400)))
    print("refused for the grid: %d, for the list: %d" % (s.refused, s.short))
    print("compared %d lists with %d points, %d differences" % (s.lists, s.points, s.wrong))
    sys.exit(1 if s.wrong else 0)


if __name__ == "__main__":
    main()
