"""sample.py ORACLE SEED COUNT FOLDER [refine]: a sample of requests of every kind and of the Rust's answers, as the program `replay` reads and writes them;
with the last word a sample of refinements, for `replay_refine`.

A request is a line of numbers: the call, two numbers, two lists each after its length; sides are given as fractions, signs as 1 for +1, 2 for -1 and 3 for anything else,
and the ends of an edge stand before the axes. An answer is the refusal's number and place, or 0 and the answer, and what was handed out, floats as bit patterns.

A refinement is 1 (sorted vertices) or 2 (an order), the dimension, R, the words and the order; its answer has a bar before each of the eight result lists. Cells, words,
parents, Jacobians, the births' vertices and shares and the number of vertices are the Rust's, bit for bit; whole Jacobians and weights, which it lacks, and the
refusals are document 01's (model.py). The stored samples: `sample.py ORACLE 3 4 crates/replay` and `sample.py ORACLE 5 3 crates/replay_refine refine`."""
import random
import sys

import calls
import compare
import inputs
import model as m
from judge import Judge, Rust

KINDS = {"planner_torus": 1, "planner_klein": 2, "planner_moebius": 3, "planner_quasi_uniform": 4, "planner_reduce": 5, "planner_nvertices": 6,
         "planner_is_orientation_preserving": 7, "planner_orientation": 8, "planner_cells": 9, "planner_edges": 10, "planner_border": 11, "planner_facets": 12,
         "planner_ordering": 13, "planner_induced_orientation": 14, "planner_cell_words": 15, "planner_triangulate_ordered": 16, "planner_orient_by": 17,
         "planner_edge_lengths_sq": 18, "planner_edge_length_sq": 19}
MOST = 128                    # numbers in a list that `replay` reads
ROOM = {"planner_orientation": [640, 128, 128, 128], "planner_orient_by": [640, 128, 128, 128], "planner_edge_lengths_sq": [648] * 4}     # its working lists
OTHER_ROOM = [896, 384, 384, 384]
SEVEN = {"u32": 7, "f64": m.bits(7.0)}                # what stands in a list before the call
# document 01's figures, and grids around them: d, axes, sides
FIGURES = [(2, [3, 514, 1, 0], (3, 1)), (2, [3, 256, 1, 0], (3, 1)), (2, [2, 256, 1, 0], (2, 1)), (2, [3, 0, 0, 0], (3, 1)), (3, [3, 514, 3, 516, 1, 0], (3, 3, 1)),
           (3, [3, 514, 3, 516, 2, 0], (3, 2, 1)), (2, [3, 514, 3, 513], (1, 3)), (1, [4095, 0], (1,)), (1, [4096, 0], (1,)), (1, [4097, 0], (1,)), (1, [3, 256], (6,))]
FRACTIONS = {m.bits(a / b): (a, b) for a in range(0, 13) for b in (1, 2, 3, 7, 10)}


class Sampler(Judge):
    """Writes requests down instead of making them, a few of each call and answer."""

    def __init__(self, rust, rnd, most):
        super().__init__(None, rust, rnd)
        self.lines, self.most = [], most

    def lacks(self, name):
        return name not in KINDS

    def call(self, name, numbers, inputs_, kinds, want, fixed=None):
        kind = KINDS.get(name)
        if kind is None:
            self.missing.add(name)
            return
        code = want.early or want.late or (0, want.value)
        key = (name, code[0], 0 if code[0] else min(code[1], 3) + (code[1] >> 31))      # yes and no, and an edge without length, apart
        if self.by_answer.get(key, 0) >= self.most:
            return
        lists = self.lists(name, numbers, inputs_)
        if lists is None or any(len(v) > MOST for v in lists) or any(len(v) > MOST for _, v in want.results):
            return
        if want.need is not None and any(n > have for n, have in zip(want.need, ROOM.get(name, OTHER_ROOM))):
            return
        a, b = (list(numbers) + [0, 0])[:2]
        if name == "planner_moebius":
            a, b = 0, numbers[0]
        request = [kind, a, b, len(lists[0])] + lists[0] + [len(lists[1])] + lists[1]
        out = list(code)
        if fixed is not None:
            new = fixed[1] if code[0] == 0 else []
            out += new + [SEVEN[fixed[0]]] * (fixed[2] - len(new))
        if code[0] == 0:
            for k, values in want.results:
                out += [{1: "+", -1: "-"}[v] for v in values] if k == "i32" else values
        self.by_answer[key] = self.by_answer.get(key, 0) + 1
        self.lines.append((" ".join(map(str, request)), " ".join(map(str, out))))

    def lists(self, name, numbers, inputs_):
        """the two lists of the request, or None where a side is no fraction"""
        found, sides = [], [m.bits(x) for x in numbers[1:]] if name == "planner_moebius" else None
        for k, values in inputs_:
            if k == "f64":
                sides = values
            else:
                found.append([{1: 1, -1: 2}.get(v, 3) for v in values] if k == "i32" else list(values))
        if name == "planner_edge_length_sq":
            found[0] = list(numbers[1:]) + found[0]
        if sides is not None:
            if len(sides) > 3 or any(x not in FRACTIONS for x in sides):
                return None
            found = (found + [[]])[:1] + [[n for x in sides for n in FRACTIONS[x]]]
        return (found + [[], []])[:2]


REFINES = {"planner_refine": 1, "planner_refine_with": 2}
MOST_GIVEN = 64                                            # numbers in a list that `replay_refine` reads
MOST_LONG = 15000                                          # characters in an answer on several cells
MOST_MADE = [512, 512, 128, 1152, 1152, 512, 512, 512]     # its result lists
NUMBERS = [1, 2, 3, 4, 5, 6, 7] * 3 + [0, 17, 64, 65, 2 ** 32 - 1]


class Refinements(Sampler):
    """A few refinements for each dimension, R, single cells and several, and how the order fits, and of each refusal."""

    def lacks(self, name):
        return name not in REFINES

    def call(self, name, numbers, inputs_, kinds, want, fixed=None):
        code = want.early or want.late or (0, want.value)
        d, r = numbers
        given, order = ([list(v) for _, v in inputs_] + [[]])[:2]
        key = (name, code[0], code[1] > 0, self.fits if code[0] == 16 else None) if code[0] else (name, 0, d, r, self.single, self.fits)
        if self.by_answer.get(key, 0) >= (self.most if code[0] else 1) or len(given) > MOST_GIVEN or len(order) > MOST_GIVEN:
            return
        if any(len(v) > most for (_, v), most in zip(want.results, MOST_MADE)):
            return
        out = [str(x) for x in (code if code[0] else (0, want.value, fixed[1][0]))]
        for _, values in want.results or [(k, []) for k in kinds]:
            out += ["|"] + [str(v) for v in values]
        out = " ".join(out)
        if len(out) > MOST_LONG and not self.single:
            return
        self.by_answer[key] = self.by_answer.get(key, 0) + 1
        request = [REFINES[name], d, r, len(given)] + given + [len(order)] + order
        self.lines.append((" ".join(map(str, request)), out))

    def refine(self, d, words, r):
        """along the sorted vertices; also along an order where there are several cells, or R is 2 or 4"""
        c = calls.Cells(self, d, words)
        self.single, self.fits = c.fine and len(c.cells) == 1, None
        calls.refinement(self, c, None, r)
        if self.single and r not in (2, 4):
            return
        order = inputs.order_for(self.rnd, d, c.cells) if c.fine else words[:d + 1]
        if c.fine:
            by, n = m.order_of(d, c.cells, order), len(c.cells) * (d + 1)
            self.fits = m.agrees(c.cells, c.rows, by) if by is not None else (len(order) > n) - (len(order) < n)
        calls.refinement(self, c, order, r)


def refinements(rust, rnd, most):
    s = Refinements(rust, rnd, most)
    for d in range(4):
        for r in range(1, 8):
            s.refine(d, list(range(d + 1)), r)
    while s.rust.asked < 6000:
        d, words = inputs.random_list(rnd, rnd.choice((2, 3, 3, 4, 9)))
        s.refine(d, words, rnd.choice(NUMBERS))
    return s


def requests(rust, rnd, most):
    fractions = [m.unbits(x) for x in FRACTIONS]
    inputs.random_side = lambda r: r.choice([x for x in fractions if x > 0])
    inputs.EDGE_SIDES[:] = [0.0]
    s = Sampler(rust, rnd, most)
    for d, axes, sides in FIGURES:
        compare.grid(s, rnd, d, axes, [m.bits(float(x)) for x in sides])
    compare.cell_lists(s, inputs.one_sided())
    while s.rust.asked < 6000:
        compare.cell_lists(s, [inputs.random_list(rnd, 9)])
        compare.grids(s, rnd, [inputs.random_grid(rnd)])
        compare.makers(s, rnd)
    return s


def main():
    oracle, seed, count, folder = sys.argv[1], int(sys.argv[2]), int(sys.argv[3]), sys.argv[4]
    s = (refinements if sys.argv[5:] == ["refine"] else requests)(Rust(oracle), random.Random(seed), count)
    if s.missing:
        sys.exit("calls without a number: " + " ".join(sorted(s.missing)))
    if s.differences:
        sys.exit("document 01 and the Rust differ: nothing is written")
    with open(folder + "/stdin", "w") as f:
        f.write("".join(a + "\n" for a, _ in s.lines))
    with open(folder + "/stdout", "w") as f:
        f.write("".join(b + "\n" for _, b in s.lines))
    print("%d requests, %d kinds of call and answer" % (len(s.lines), len(s.by_answer)))


if __name__ == "__main__":
    main()
