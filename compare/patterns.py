"""patterns.py LIBRARY ORACLE SEED COUNT: the pattern of a refined cell by both paths, held to document 01's rule and to the Rust's `unit_refinement`; and refinements at R 2 to 5 of
COUNT random lists by both paths. The last line is 'compared N requests, 0 differences'. compare.py makes these requests too, of fewer lists."""
import random
import sys

import calls
import inputs
import model as m
from judge import Judge, Rust, Want
from port import Port

PATHS = ("planner_corners", "planner_corners_stepping")


def rust_corners(j, d, r):
    """the corners of the children as the Rust's lattice points give them"""
    f = j.rust.fields("unit %d %d" % (d, r))
    points = m.chunks(calls.words(f["vertices"]), d + 1)
    return [w for k in calls.words(f["children"]) for w in points[k]]


def pattern(j, d, r):
    early, corners = None, []
    if d > 3:
        early = (1, 0)
    elif not 1 <= r <= 64:
        early = (11, 0)
    elif r ** d > 4096:
        early = (3, 0)
    else:
        corners = [w for child in m.lattice_children(d, r) for corner in child for w in corner]
        j.agree("corners of dimension %d by %d" % (d, r), corners, rust_corners(j, d, r))
    for name in PATHS:
        j.call(name, [d, r], [], ["u32"], Want(early, None, None, value=len(corners) // (d + 1), results=[("u32", corners)]))


def patterns(j, rnd, times=3):
    """every dimension and R that is taken and those around the limits, into lists that are long enough and too short"""
    if [name for name in PATHS if j.lacks(name)]:
        return
    for _ in range(times):
        for d in range(6):
            for r in range(68):
                pattern(j, d, r)
            pattern(j, d, 2 ** 32 - 1)
        pattern(j, 2 ** 32 - 1, 2)


def refinements(j, rnd, lists):
    """at R 2 to 5, along the sorted vertices and along an order"""
    for d, ws in lists:
        c = calls.Cells(j, d, ws)
        for r in (2, 3, 4, 5):
            order = inputs.order_for(rnd, d, c.cells) if c.fine else ws[:d + 1]
            for by in (None, order):
                calls.refinement(j, c, by, r, calls.BOTH)


def main():
    library, oracle, seed, count = sys.argv[1], sys.argv[2], int(sys.argv[3]), int(sys.argv[4])
    rnd = random.Random(seed)
    j = Judge(Port(library), Rust(oracle), rnd)
    patterns(j, rnd)
    refinements(j, rnd, (inputs.random_list(rnd) for _ in range(count)))
    for name in sorted(j.by_call):
        print("%-36s %8d" % (name, j.by_call[name]))
    print("answers: " + ", ".join("%s %d" % ("fine" if k == 0 else k, n) for k, n in sorted(j.by_answer.items())))
    print("compared %d requests, %d differences" % (j.requests, j.differences))
    sys.exit(1 if j.differences or j.missing or not j.requests else 0)


if __name__ == "__main__":
    main()
