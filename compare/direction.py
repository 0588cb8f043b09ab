"""direction.py LIBRARY SEED COUNT: children inherit direction, on COUNT refinements through the library. The determinants are numpy's, of the whole-number Jacobians that a
refinement hands out; the parent's sign times the determinant's sign goes to planner_orient_by, and is held to the rule of coherent signs here."""
import random
import sys

import numpy

import calls
import inputs
import model as m
from port import Port

MOST = 1200          # children of one refinement


def said(answer):
    return answer >> 32, answer & 0xFFFFFFFF


class Planner:
    def __init__(self, library):
        self.port = Port(library)

    def signs(self, d, ws):
        """the signs of planner_orientation, or None"""
        lists = [("u32", ws), ("i32", [0] * (len(ws) // (d + 1)))] + [("u32", [0] * n) for n in calls.record_need(len(ws))]
        answer, after = self.port.call("planner_orientation", [d], lists)
        number, count = said(answer)
        return None if number else after[1][:count]

    def refined(self, d, ws, order, r):
        """cells, parents and whole-number Jacobians of a refinement, or None"""
        given = [("u32", ws)] + ([] if order is None else [("u32", order)])
        most = len(ws) // (d + 1) * r ** d
        sizes = [(d + 1) * most, (d + 1) * most, most, 9 * most, 9 * most] + [(d + 1) ** 2 * most] * 3
        lists = given + [(k, [0] * n) for k, n in zip(calls.REFINED, sizes)] + [("u32", [0] * n) for n in calls.refine_need(d, len(ws), r)]
        answer, after = self.port.call("planner_refine" if order is None else "planner_refine_with", [d, r], lists, [("u32", [0])])
        number, count = said(answer)
        if number:
            return None
        out = after[len(given):]
        return out[0][:(d + 1) * count], out[2][:count], out[4][:9 * count]

    def agreed(self, d, ws, signs):
        lists = [("u32", ws), ("i32", signs)] + [("u32", [0] * n) for n in calls.record_need(len(ws))]
        return said(self.port.call("planner_orient_by", [d], lists)[0])


def shuffled(rnd, d, cells):
    """an order by a random sequence of all vertices, which agrees on every face; written down in any sequence"""
    place = list(range(1 + max(v for c in cells for v in c)))
    rnd.shuffle(place)
    out = [sorted(c, key=place.__getitem__) for c in cells]
    rnd.shuffle(out)
    return [v for w in out for v in w]


def complexes(rnd):
    """dimension, words and an order that agrees: None stands for the sorted vertices"""
    while True:
        if rnd.random() < 0.4:
            d, axes = inputs.random_grid(rnd)
            if m.check_grid(d, axes) is not None or len(m.words_of(d, axes)) > 200:
                continue
            ws = [v for w in m.words_of(d, axes) for v in w]
        else:
            d, ws = inputs.accepted_list(rnd)
        if m.check_cells(d, ws) is not None:
            continue
        cells = m.cells_of(d, ws)
        rows = m.facet_rows(cells)
        if m.crowded(rows):
            continue
        own = m.order_of(d, cells, ws) if len(cells) * (d + 1) == len(ws) else None
        own = ws if own is not None and m.agrees(cells, rows, own) else None
        yield d, ws, cells, rnd.choice((None, own, shuffled(rnd, d, cells)))


def determinants_of(d, wholes):
    matrices = numpy.array(wholes, dtype=float).reshape(-1, 9)[:, :d * d].reshape(-1, d, d)
    return numpy.rint(numpy.linalg.det(matrices)).astype(int).tolist()


def one(p, d, ws, cells, order, r, counts):
    signs = p.signs(d, ws)
    if signs is None:
        counts["one-sided"] += 1
        return 0
    got = p.refined(d, ws, order, r)
    if got is None:
        counts["refused"] += 1
        return 0
    fine, parents, wholes = got
    determinants = determinants_of(d, wholes) if d else [1] * len(parents)          # an empty determinant counts as +1
    children = [signs[q] * s for q, s in zip(parents, determinants)]
    faults = int(set(determinants) - {1, -1} != set())
    faults += p.agreed(d, fine, children) != (0, int(d > 0))
    faults += not m.coherent(m.facet_rows(m.cells_of(d, fine)), children)
    faults += p.signs(d, fine) is None
    counts["refinements"] += 1
    counts["children"] += len(parents)
    counts["minus at the lowest cell"] += children[0] == -1
    if faults:
        print("FAULT", d, r, ws[:60], order and order[:60], determinants[:40])
    return faults


def main():
    library, seed, count = sys.argv[1], int(sys.argv[2]), int(sys.argv[3])
    rnd, p, faults = random.Random(seed), Planner(library), 0
    counts = {"refinements": 0, "children": 0, "minus at the lowest cell": 0, "one-sided": 0, "refused": 0}
    for d, ws, cells, order in complexes(rnd):
        if counts["refinements"] >= count:
            break
        able = [r for r in (1, 2, 2, 2, 3, 3, 4, 5, 7) if len(cells) * r ** d <= MOST]
        faults += one(p, d, ws, cells, order, rnd.choice(able or [1]), counts)
    print(", ".join("%s %d" % (k, n) for k, n in counts.items()))
    print("inherited signs of %d refinements, %d faults" % (counts["refinements"], faults))
    sys.exit(1 if faults or not counts["refinements"] else 0)


if __name__ == "__main__":
    main()
