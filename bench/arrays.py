"""arrays.py: the jobs that NumPy has too, by our calls through the Python package and by NumPy, CPU time of each (the best of many). The answers are the same, which is asked
first. NumPy tests none of what our calls test (repeated vertices, gaps, limits, a facet in three cells)."""
import os
import sys
import time

sys.path.insert(0, os.path.join(sys.path[0], "..", "bindings", "python"))
import numpy as np
import pampilussa as pa

ROUNDS = 30


def best(work):
    times = []
    for _ in range(ROUNDS):
        start = time.process_time()
        work()
        times.append(time.process_time() - start)
    return min(times) * 1e6


def colex(rows):
    """the different rows, in colex order"""
    return np.unique(rows[:, ::-1], axis=0)[:, ::-1]


def cells(words):
    return colex(np.sort(words, axis=1))


def edges(words):
    rows = np.sort(words, axis=1)
    i, j = np.triu_indices(rows.shape[1], 1)
    return colex(np.stack([rows[:, i].ravel(), rows[:, j].ravel()], axis=1))


def border(words):
    rows = cells(words)
    facets = np.concatenate([np.delete(rows, k, axis=1) for k in range(rows.shape[1])])
    found, count = np.unique(facets[:, ::-1], axis=0, return_counts=True)
    return found[count == 1][:, ::-1]


def reduced(grid):
    """all points of a grid whose axes are joined straight or open: coordinates, each joined axis' last one to its first"""
    points = np.arange(np.prod([n + 1 for n, _ in grid.axes]), dtype=np.uint32)
    number, stride = np.zeros_like(points), 1
    for n, glue in grid.axes:
        points, at = np.divmod(points, n + 1)
        if glue == "P":
            at[at == n] = 0
        number += at * stride
        stride *= n if glue == "P" else n + 1
    return number


def main():
    print("| Job | Input | ours, through Python | NumPy | NumPy / ours |\n|---|---|---|---|---|")
    for name, grid in (("2-D band 64 x 32", pa.Grid([(64, "P"), (32, "O")])), ("3-D torus 5 x 8 x 17", pa.Grid([(5, "P"), (8, "P"), (17, "P")]))):
        words = grid.words()
        mesh = pa.Complex(words)
        points = np.arange(len(reduced(grid)), dtype=np.uint32)
        jobs = [("cells", lambda: pa.Complex(words).cells, lambda: cells(words)), ("edges", lambda: mesh.edges(), lambda: edges(words)),
                ("border", lambda: mesh.border(), lambda: border(words)), ("all points reduced", lambda: grid.reduce(points), lambda: reduced(grid))]
        for job, ours, theirs in jobs:
            if not np.array_equal(ours(), theirs()):
                sys.exit("%s of %s differ" % (job, name))
            a, b = best(ours), best(theirs)
            print("| %s | %s | %.0f us | %.0f us | %.1f |" % (job, name, a, b, b / a))


if __name__ == "__main__":
    main()
