"""records.py LIBRARY ORACLE SEED COUNT: the facet records of every small cell list, of those around the limits and of COUNT random ones. Facets and their cells come from the
Rust; an induced sign is worked out from the vertex that the cell has and the facet has not, by how many of the cell's vertices are smaller; the border is the records with no
other cell, against planner_border. With an order, right or wrong, agreement is the facet's vertices as the words list them."""
import random
import sys

import calls
import inputs
import model as m
from judge import Judge, Rust
from port import Port


def facets_of(c):
    """each facet with its cells, as the Rust lists them"""
    told = c.rust["facets"]
    if told in ("none", "-"):
        return []
    return [(tuple(calls.numbers(f)), calls.numbers(cs)) for f, cs in (part.split(":") for part in told.split(";"))]


def mark(cell, facet):
    left = next(v for v in cell if v not in facet)
    return 1 + sum(v < left for v in cell) % 2


def kept(word, facet):
    return [v for v in word if v in facet]


def records(j, c):
    facets, flat, border = [], [], []
    order = inputs.order_for(j.rnd, c.d, c.cells) if c.fine else [j.rnd.randrange(5) for _ in range(j.rnd.randrange(9))]
    by = m.order_of(c.d, c.cells, order) if c.fine else None
    agree = []
    if c.fine:
        for f, cs in facets_of(c):
            facets += f
            sides = [(x, mark(c.cells[x], f)) for x in cs] + [(m.NO_VERTEX, 0)]
            flat += [v for side in sides[:2] for v in side] + [1]
            border += [] if len(cs) > 1 else [f]
            agree.append(int(by is None or len({tuple(kept(by[x], f)) for x in cs}) == 1))
        listed = [f for f, r in c.rows.items() if len(r) == 1]
        j.agree("border by the records", border, listed)
    j.call("planner_facet_records", [c.d], [("u32", c.ws)], ["u32", "u32"], c.want(value=len(flat) // 5, results=[("u32", facets), ("u32", flat)]))
    if by is not None:
        j.agree("agreement by the records", all(agree), m.agrees(c.cells, c.rows, by))
    flat[4::5] = agree
    w = c.want((16, 0) if c.fine and by is None else None, value=len(flat) // 5, results=[("u32", facets), ("u32", flat)])
    if c.need:
        w.need = calls.order_need(len(c.ws))
    j.call("planner_facet_records_with", [c.d], [("u32", c.ws), ("u32", order)], ["u32", "u32"], w)


def main():
    library, oracle, seed, count = sys.argv[1], sys.argv[2], int(sys.argv[3]), int(sys.argv[4])
    rnd = random.Random(seed)
    j = Judge(Port(library), Rust(oracle), rnd)
    for d, ws in list(inputs.small_lists()) + list(inputs.limit_lists()) + [inputs.random_list(rnd) for _ in range(count)]:
        records(j, calls.Cells(j, d, ws))
    print("answers: " + ", ".join("%s %d" % ("fine" if k == 0 else k, n) for k, n in sorted(j.by_answer.items())))
    print("compared %d requests, %d differences" % (j.requests, j.differences))
    sys.exit(1 if j.differences or j.missing or not j.requests else 0)


if __name__ == "__main__":
    main()
