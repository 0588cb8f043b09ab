"""The lengths that the library tells against docs/ROOM.md: the formulas here are the page's, and the page's rows name every function there is."""
import math
import random
import re
from pathlib import Path

import numpy as np

import pampilussa as pa
import pampilussa._library as library

MOST, DIMENSION, REFINEMENT = 4096, 3, 64
ROOM = Path(__file__).resolve().parents[3] / "docs" / "ROOM.md"


def worked(d, n):
    """Nothing is needed where d or the number of cells is refused before the lists are looked at."""
    return n if d <= DIMENSION and n <= MOST * (d + 1) else 0


def faces(d, n):
    """The numbers of the faces of one dimension, and of all their facets: the most that some dimension has."""
    cells = n // (d + 1)
    each = [math.comb(d + 1, e + 1) * (e + 1) for e in range(d + 1)] if n else [0]
    return max([d + 1] + [x * e for e, x in enumerate(each)]) * cells, max(each) * cells


def told(d, n):
    """By call, result lists first."""
    n = worked(d, n)
    k = max(1, d) * n
    plain, ordered, signed, laid = [k, n, n, n], [7 * n, n, n, n], [5 * n, n, n, n], [k + 2 * n, n, n, n]
    keys, rows = faces(d, n)
    of_faces = [keys, rows, rows, rows]
    return {
        "cells": [n] + plain, "cell_words": [n] + plain, "edges": [k, 2 * k, k, k, k], "facets": [d * n, 4 * n] + plain, "border": [d * n] + plain,
        "orientation": [n // (d + 1)] + signed, "orient_by": signed, "ordering": [n] + ordered, "induced_orientation": ordered, "triangulate_ordered": [n, n] + laid,
        "edge_lengths_sq": [d * n] * 5, "geojson": [43 + 276 * (n // (d + 1))] + plain, "chained_classes": [n, n], "incidence": [n + 1, n] + plain,
        "faces": [rows] + of_faces, "boundary": [rows] * 3 + of_faces, "matrix_market": [83 + 34 * rows] + of_faces, "drop_cells": [n, n] + plain,
    }


def refined(d, r, n):
    n = worked(d, n)
    c = min(MOST, n // (d + 1) * (r if 1 <= r <= REFINEMENT else 1) ** d) if n else 0
    k = c * (d + 1)
    born = min(k, MOST) * (d + 1)
    return [k, k, c, DIMENSION ** 2 * c, DIMENSION ** 2 * c, born, born, born, n, n, (d + 1) * k, 4 * n + 8 * k, n + k, n + k, n + k + 65, k, c, n + k]


def pattern(d, r):
    return [min(MOST, (r if 1 <= r <= REFINEMENT else 1) ** d) * (d + 1) ** 2] if d <= DIMENSION else [0]


def written(d, n, births, pairs):
    n = worked(d, n)
    most = (14 + 6 * REFINEMENT) * MOST
    births, pairs = (x if x <= most else 0 for x in (births, pairs))
    return [16 + n // (d + 1) * (10 + 4 * d) + births // 3 * 14 + pairs // 2 * 6, max(1, d) * n, n, n, n]


def read(n):
    return [n // 4, n // 8, n // 3, DIMENSION * (n // 4)] + [n // 4] * 3


LIMITS = [MOST * (d + 1) + k for d in range(4) for k in (-1, 0, 1)] + [2 ** 32 - 1, 2 ** 32, 2 ** 63, 2 ** 64 - 1]


def test_needs():
    asked = 0
    for d in list(range(7)) + [2 ** 31, 2 ** 32 - 1]:
        for n in list(range(100)) + LIMITS:
            for call, lengths in told(d, n).items():
                assert library.needed(call, d, n) == lengths, (call, d, n)
                asked += 1
            for r in (0, 1, 2, 3, 64, 65, 2 ** 32 - 1):
                assert library.needed("refine", d, r, n) == refined(d, r, n), (d, r, n)
                assert library.needed("corners", d, r) == pattern(d, r), (d, r)
            for births, pairs in ((0, 0), (3, 4), (7, 9), (1630208, 1630209), (2 ** 64 - 1, 2 ** 64 - 1)):
                assert library.needed("write_mesh", d, n, births, pairs) == written(d, n, births, pairs), (d, n, births, pairs)
            assert library.needed("read_mesh", n) == read(n), n
    assert asked > 18000 and len(told(2, 3)) + 4 == len(library.NEEDS)


def test_page():
    """docs/ROOM.md names each function that tells lengths, and no other."""
    named = set(re.findall(r"`(planner_need_[a-z_]+)`", ROOM.read_text()))
    assert named == set(library.NEEDS), named ^ set(library.NEEDS)


def test_corners():
    for line in ("1 3 P", "2 3 T1 1 O", "3 2 O 3 P 4 P", "2 64 P 32 P"):
        grid = pa.Grid.parse(line)
        assert library.call("planner_grid_corners", grid.d, grid._axes) == library.call("planner_chained_corners", grid.d, grid._axes) == grid.words().size


def test_enough():
    """With lists of the lengths that are told a refinement is never refused with 12; with one number fewer in a working list it is."""
    chance = random.Random(31)
    kinds = (np.uint32, np.uint32, np.uint32, np.float64, np.int32, np.uint32, np.uint32, np.float64) + (np.uint32,) * 10
    made = 0
    for _ in range(300):
        d = chance.randrange(4)
        cells = [chance.sample(range(d + 4), d + 1) for _ in range(chance.randrange(1, 6))]
        used = sorted({v for c in cells for v in c})
        words, r = np.array([used.index(v) for c in cells for v in c], np.uint32), chance.choice((1, 2, 3, 4, 9, 64))
        need = library.needed("refine", d, r, words.size)
        less = list(need)
        less[chance.randrange(8, 18)] -= 1
        for lengths in (need, less):
            lists = [np.zeros(max(n, 0), kind) for n, kind in zip(lengths, kinds)]
            try:
                library.call("planner_refine", d, r, words, *lists, np.zeros(1, np.uint32), d=d, words=words, r=r)
                assert lengths is need
                made += 1
            except pa.Refused as refused:
                assert (refused.number == 12) == (lengths is less) or refused.number in (4, 5), (d, r, words, lengths)
    assert made > 100
