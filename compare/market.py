"""market.py LIBRARY [ORACLE] SEED COUNT: the index, the faces, the boundary operator and its Matrix Market file on COUNT random lists, held to numpy and SciPy: the cells at
each vertex, the faces by itertools, each operator as a matrix built from its faces, the file read back by scipy.io.mmread, products of successive operators zero, and the
Betti numbers of known complexes by ranks. With ORACLE the faces and the index are the Rust's too (its skeletons and FaceIncidence). The last line is
'compared N calls, 0 differences'."""
import io
import random
import sys
from itertools import combinations
from math import comb

import numpy
import scipy.io

import calls
import inputs
import model as m
from judge import Judge, Rust, Want
from port import Port


class Quiet:
    def fields(self, line):
        return None


def face_need(d, n):
    """the four working lists of the calls on faces"""
    words = n // (d + 1)
    rows = max(comb(d + 1, e + 1) * (e + 1) for e in range(d + 1)) * words
    keys = max([d + 1] + [comb(d + 1, e + 1) * (e + 1) * e for e in range(d + 1)]) * words
    return [keys, rows, rows, rows]


def faces_of(cells, k):
    return sorted({f for c in cells for f in combinations(c, k + 1)}, key=lambda f: f[::-1])


def entries_of(cells, k):
    """sign, face and coface by rising coface, then by dropped position"""
    number = {f: i for i, f in enumerate(faces_of(cells, k - 1))}
    return [((-1) ** i, number[f[:i] + f[i + 1:]], c) for c, f in enumerate(faces_of(cells, k)) for i in range(k + 1)]


def matrix_of(cells, k):
    out = numpy.zeros((len(faces_of(cells, k - 1)), len(faces_of(cells, k))), dtype=int)
    for s, f, c in entries_of(cells, k):
        out[f, c] += s
    return out


def file_of(cells, k):
    es = entries_of(cells, k)
    head = "%%%%MatrixMarket matrix coordinate integer general\n%d %d %d\n" % (len(faces_of(cells, k - 1)), len(faces_of(cells, k)), len(es))
    return (head + "".join("%d %d %d\n" % (f + 1, c + 1, s) for s, f, c in es)).encode()


def flat(rows):
    return [x for row in rows for x in row]


def one(j, d, ws, rust):
    early = m.check_cells(d, ws)
    late, cells, need, faces = None, [], None, None
    if early is None:
        cells = [tuple(c) for c in m.cells_of(d, ws)]
        late = (7, 0) if m.crowded(m.facet_rows(cells)) else None
        need = face_need(d, len(ws))
    fine = early is None and late is None
    at = [[c for c, w in enumerate(cells) if v in w] for v in range(max(ws) + 1)] if fine else []
    if fine and rust is not None and len(cells) <= 200:
        told = rust.fields("incidence " + calls.text(ws, d + 1))
        j.agree("index", at, [calls.numbers(t) for t in told["cells"].split(";")])
        for k in range(d + 1):
            j.agree("faces %d" % k, flat(faces_of(cells, k)), calls.words(told["faces%d" % k]))
    starts = [sum(map(len, at[:v])) for v in range(len(at) + 1)] if fine else []
    j.call("planner_incidence", [d], [("u32", ws)], ["u32", "u32"],
           Want(early, calls.need(d, len(ws)) if early is None else None, late, len(at), [("u32", starts), ("u32", flat(at))]))
    for k in sorted({0, d, d + 1, j.rnd.randrange(5), 2 ** 32 - 1}):
        there = late or (None if k <= d else (24, 0))
        out = faces_of(cells, k) if fine and k <= d else []
        j.call("planner_faces", [d, k], [("u32", ws)], ["u32"], Want(early, need, there, len(out), [("u32", flat(out))]))
        there = late or (None if 1 <= k <= d else (24, 0))
        good = fine and 1 <= k <= d
        es = entries_of(cells, k) if good else []
        lists = [("i32", [e[0] for e in es]), ("u32", [e[1] for e in es]), ("u32", [e[2] for e in es])]
        j.call("planner_boundary", [d, k], [("u32", ws)], ["i32", "u32", "u32"], Want(early, need, there, len(es), lists))
        text = list(file_of(cells, k)) if good else []
        j.call("planner_matrix_market", [d, k], [("u32", ws)], ["u8"], Want(early, need, there, len(text), [("u8", text)]))
    if fine and len(cells) < 200:
        read(j, d, ws, cells)


def read(j, d, ws, cells):
    """every operator's file as SciPy reads it, and products of successive ones"""
    matrices = []
    for k in range(1, d + 1):
        got = market(j.port, d, k, ws)
        matrices.append(scipy.io.mmread(io.BytesIO(got)).toarray())
        j.agree("mmread", matrices[-1].tolist(), matrix_of(cells, k).tolist())
    for a, b in zip(matrices, matrices[1:]):
        j.agree("boundary of a boundary", int(numpy.abs(a @ b).sum()), 0)
    return matrices


def market(port, d, k, ws):
    """the file, by two calls' worth of room"""
    need = face_need(d, len(ws))
    room = [("u32", [0] * n) for n in need]
    answer, after = port.call("planner_matrix_market", [d, k], [("u32", ws), ("u8", [0] * (83 + 34 * need[1]))] + room)
    assert answer >> 32 == 0, answer >> 32
    return bytes(after[1][:answer])


def betti(matrices, counts):
    ranks = [0] + [int(numpy.linalg.matrix_rank(x)) for x in matrices] + [0]
    return [n - ranks[k] - ranks[k + 1] for k, n in enumerate(counts)]


def grid(*axes):
    return len(axes) // 2, flat(m.words_of(len(axes) // 2, list(axes)))


P, O, T = m.PERIODIC, 0, m.TWISTED
KNOWN = [("circle", grid(5, P), [1, 1]), ("disk", grid(3, O, 2, O), [1, 0, 0]), ("torus", grid(4, P, 3, P), [1, 2, 1]), ("Moebius band", grid(5, T + 2, 2, O), [1, 1, 0]),
         ("Klein bottle", grid(5, T + 2, 4, P), [1, 1, 0]), ("sphere", (2, [0, 1, 2, 0, 1, 3, 0, 2, 3, 1, 2, 3]), [1, 0, 1]), ("ball", grid(1, O, 1, O, 1, O), [1, 0, 0, 0]),
         ("three-torus", grid(3, P, 3, P, 3, P), [1, 3, 3, 1]), ("seven-vertex torus", (2, flat([(i, (i + 1) % 7, (i + 3) % 7) for i in range(7)] + [(i, (i + 2) % 7, (i + 3) % 7) for i in range(7)])), [1, 2, 1])]


def main():
    args = sys.argv[1:]
    library, seed, count = args[0], int(args[-2]), int(args[-1])
    rnd = random.Random(seed)
    rust = Rust(args[1]) if len(args) == 4 else None
    j = Judge(Port(library), Quiet(), rnd)
    for name, (d, ws), want in KNOWN:
        cells = [tuple(c) for c in m.cells_of(d, ws)]
        got = betti(read(j, d, ws, cells), [len(faces_of(cells, k)) for k in range(d + 1)])
        j.agree("Betti numbers of the " + name, want, got)
        print("%-20s %s" % (name, " ".join(map(str, got))))
    for d, ws in list(inputs.small_lists())[::40]:
        one(j, d, ws, rust)
    done = 0
    while done < count:
        done += 1
        if rnd.random() < 0.3:
            d, axes = inputs.random_grid(rnd)
            if m.check_grid(d, axes) is None and len(m.words_of(d, axes)) <= 400:
                one(j, d, flat(m.words_of(d, axes)), rust)
        else:
            one(j, *inputs.random_list(rnd), rust)
    print(", ".join("%s %d" % item for item in sorted(j.by_call.items())))
    print("answers: " + ", ".join("%s %d" % ("fine" if k == 0 else k, n) for k, n in sorted(j.by_answer.items())))
    print("compared %d calls, %d differences" % (j.requests, j.differences))
    sys.exit(1 if j.differences or not j.requests else 0)


if __name__ == "__main__":
    main()
