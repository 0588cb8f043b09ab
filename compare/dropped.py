"""dropped.py LIBRARY SEED COUNT: planner_drop_cells on COUNT random lists and sets of cells. What stays and its numbers are numpy's (unique with its inverse), the refusals
document 01's and 02's; planner_orient_by is asked about the kept signs. The last line is 'compared N calls, 0 differences'."""
import random
import sys

import numpy

import calls
import inputs
import model as m
from judge import Judge, Want
from port import Port


class Quiet:
    """no Rust: it has no such call"""

    def fields(self, line):
        return None


def kept(d, ws, cells, gone):
    """the words that stay by their new numbers, and the old number of each"""
    place = {c: i for i, c in enumerate(map(tuple, cells))}
    words = numpy.array(ws, dtype=numpy.int64).reshape(-1, d + 1)
    stay = numpy.array([place[tuple(w)] not in gone for w in numpy.sort(words, axis=1).tolist()], dtype=bool)
    old, new = numpy.unique(words[stay], return_inverse=True)
    return new.reshape(-1).tolist(), old.tolist(), int(stay.sum())


def a_set(rnd, n):
    """cells to remove: none, some, half, all but one, all, a place twice, one past the last"""
    kind = rnd.randrange(8)
    gone = [] if kind == 0 else rnd.sample(range(n), rnd.randrange(n + 1) if kind < 4 else n // 2 if kind < 6 else n - (kind == 6))
    if gone and rnd.random() < 0.2:
        gone.append(rnd.choice(gone))
    if rnd.random() < 0.06:
        gone.append(rnd.choice((n, n + 1, 2 ** 32 - 1)))
    rnd.shuffle(gone)
    return gone


def one(j, d, ws):
    early = m.check_cells(d, ws)
    late, need, results, value, vertices = None, None, [], 0, []
    gone = [j.rnd.randrange(4) for _ in range(j.rnd.randrange(3))]
    if early is None:
        need = calls.need(d, len(ws))
        cells = m.cells_of(d, ws)
        gone = a_set(j.rnd, len(cells))
        rows = m.facet_rows(cells)
        if m.crowded(rows):
            late = (7, 0)
        elif any(c >= len(cells) for c in gone):
            late = (23, 0)
        elif len(set(gone)) == len(cells):
            late = (2, 0)
        else:
            new, old, value = kept(d, ws, cells, set(gone))
            results, vertices = [("u32", new), ("u32", old)], [len(old)]
            if not gone:
                assert (new, old) == (ws, list(range(max(ws) + 1)))
    j.call("planner_drop_cells", [d], [("u32", ws), ("u32", gone)], ["u32", "u32"], Want(early, need, late, value, results), fixed=("u32", vertices, 1))
    if results:
        signs_stay(j, d, ws, cells, set(gone), results[0][1])


def signs_stay(j, d, ws, cells, gone, new):
    """the kept signs of a mesh with coherent signs, asked of planner_orient_by: the new cells stand in the order of the old ones"""
    room = [("u32", [0] * n) for n in calls.record_need(len(ws))]
    answer, after = j.port.call("planner_orientation", [d], [("u32", ws), ("i32", [0] * len(cells))] + room)
    if answer >> 32:
        return
    left = [s for c, s in enumerate(after[1]) if c not in gone]
    j.call("planner_orient_by", [d], [("u32", new), ("i32", left)], [], Want(None, calls.record_need(len(new)), None, int(d > 0)))


def main():
    library, seed, count = sys.argv[1], int(sys.argv[2]), int(sys.argv[3])
    rnd = random.Random(seed)
    j = Judge(Port(library), Quiet(), rnd)
    for d, ws in list(inputs.small_lists())[::7] + list(inputs.limit_lists()):
        one(j, d, ws)
    while j.by_call.get("planner_drop_cells", 0) < count:
        if rnd.random() < 0.3:
            d, axes = inputs.random_grid(rnd)
            if m.check_grid(d, axes) is None:
                one(j, d, [v for w in m.words_of(d, axes) for v in w])
        else:
            one(j, *inputs.random_list(rnd))
    print(", ".join("%s %d" % item for item in sorted(j.by_call.items())))
    print("answers: " + ", ".join("%s %d" % ("fine" if k == 0 else k, n) for k, n in sorted(j.by_answer.items())))
    print("compared %d calls, %d differences" % (j.requests, j.differences))
    sys.exit(1 if j.differences or not j.requests else 0)


if __name__ == "__main__":
    main()
