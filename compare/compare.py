"""compare.py LIBRARY ORACLE SEED COUNT [FILE]: the same requests to the planner's library and to the Rust. FILE gets the calls for lent.c."""
import faulthandler
import random
import sys

import calls
import inputs
import patterns
from judge import Judge, Rust
from port import Port


def cell_lists(j, lists, refined=1):
    """every call on each list; of refinement, which has many and long results, on one list of so many"""
    for i, (d, ws) in enumerate(lists):
        c = calls.Cells(j, d, ws)
        for call in calls.CELL_CALLS:
            call(j, c)
        if i % refined == 0:
            calls.refine(j, c)


def grid(j, rnd, d, axes, sides):
    g = calls.Grid(j, d, axes, sides)
    calls.questions(j, g)
    calls.cell_words(j, g)
    calls.triangulate_ordered(j, g)
    calls.lengths(j, g)
    n = calls.m.points(d, axes) if g.early is None else 0
    for v in list(range(n)) if 0 < n <= 40 else [rnd.randrange(2 * n + 5) for _ in range(3)]:
        calls.reduce(j, g, v)
    for v in (n, n + 1, 2 ** 32 - 1):
        calls.reduce(j, g, v)


def grids(j, rnd, all_grids):
    for d, axes in all_grids:
        grid(j, rnd, d, axes, inputs.random_sides(rnd, d))


def makers(j, rnd):
    n = rnd.choice((0, 1, 2, 3, 4, 5, 8, 30, 64, 4095, 4096, 4097, 2 ** 32 - 1, rnd.randrange(100)))
    glues = [rnd.choice((0, 256, 512 + (rnd.randrange(8) & ~(1 << i)), 512 + rnd.randrange(16)) * 4 + (768 + rnd.randrange(2 ** 20),)) for i in range(rnd.choice((2, 3, 3, 3)))]
    calls.makers(j, rnd.choice((0, 1, 2, 2, 3, 3, 4)), inputs.random_sides(rnd, 3), n, glues)


def run(port, oracle, seed, count):
    """every small input, the inputs around each limit, and then at least COUNT random requests"""
    rnd = random.Random(seed)
    j = Judge(port, Rust(oracle), rnd)
    cell_lists(j, inputs.small_lists(), refined=8)
    cell_lists(j, inputs.limit_lists(), refined=8)
    grids(j, rnd, inputs.small_grids())
    grids(j, rnd, inputs.limit_grids())
    patterns.patterns(j, rnd)
    patterns.refinements(j, rnd, [inputs.random_list(rnd) for _ in range(60)])
    begun = j.requests
    while j.requests - begun < count and (j.requests or not j.missing):
        for _ in range(2):
            cell_lists(j, [inputs.random_list(rnd)])
        grids(j, rnd, [inputs.random_grid(rnd)])
        for _ in range(3):
            makers(j, rnd)
    return j


def main():
    faulthandler.enable()          # a list that is overrun stops the run, with the place
    library, oracle, seed, count = sys.argv[1], sys.argv[2], int(sys.argv[3]), int(sys.argv[4])
    j = run(Port(library, sys.argv[5] if len(sys.argv) > 5 else None), oracle, seed, count)
    for name in sorted(j.by_call):
        print("%-36s %8d" % (name, j.by_call[name]))
    print("answers: " + ", ".join("%s %d" % ("fine" if k == 0 else k, n) for k, n in sorted(j.by_answer.items())))
    if j.missing:
        print("not in the library: " + " ".join(sorted(j.missing)))
    print("compared %d requests, %d differences" % (j.requests, j.differences))
    sys.exit(1 if j.differences or j.missing or not j.requests else 0)


if __name__ == "__main__":
    main()
