"""operators.py: the boundary operator of a torus of 4,050 triangles and its Matrix Market file, by our calls through the Python package and by numpy and SciPy, CPU time of each (median).
Both begin with the words; numpy sorts them and finds the edges by numpy.unique, SciPy writes the file. The entries are the same, which is asked first."""
import io
import os
import sys
import time

sys.path.insert(0, os.path.join(sys.path[0], "..", "bindings", "python"))
import numpy as np
import pampilussa as pa
import scipy.io
import scipy.sparse

ROUNDS = 15


def median(work):
    times = []
    for _ in range(ROUNDS):
        start = time.process_time()
        work()
        times.append(time.process_time() - start)
    return sorted(times)[ROUNDS // 2]


def by_numpy(words):
    """the boundary operator in dimension 2: cells in colex order, edges in colex order, sign by the position dropped"""
    cells = np.unique(np.sort(words, axis=1)[:, ::-1], axis=0)[:, ::-1]
    rows = np.concatenate([np.delete(cells, i, axis=1) for i in range(3)])
    edges, which = np.unique(rows[:, ::-1], axis=0, return_inverse=True)
    signs = np.repeat(np.array([1, -1, 1], dtype=np.int32), len(cells))
    return scipy.sparse.coo_matrix((signs, (which.ravel(), np.tile(np.arange(len(cells)), 3))), shape=(len(edges), len(cells)))


def written(matrix):
    file = io.BytesIO()
    scipy.io.mmwrite(file, matrix, field="integer", symmetry="general")
    return file.getvalue()


mesh = pa.Grid.torus(45, (1.0, 1.0)).complex()
words = np.asarray(mesh.words).reshape(-1, 3)
ours = scipy.io.mmread(io.BytesIO(mesh.matrix_market(2)))
assert (ours.tocsr() != by_numpy(words).tocsr()).nnz == 0
for name, a, b in [("boundary", lambda: pa.Complex(words).boundary(2), lambda: by_numpy(words)),
                   ("matrix_market", lambda: pa.Complex(words).matrix_market(2), lambda: written(by_numpy(words)))]:
    x, y = median(a), median(b)
    print("%s of %d triangles: ours %.3f ms, numpy and SciPy %.3f ms, ratio %.1f" % (name, len(words), 1e3 * x, 1e3 * y, y / x))
