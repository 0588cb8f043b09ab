"""The boundary operator of a torus in SciPy: Betti numbers 1, 2, 1.

They count the pieces, the different ways round and the closed surfaces; on a torus these are 1, 2 and 1, on a Klein bottle 1, 1 and 0 over the real numbers. Usage: betti.py"""
import numpy as np
import pampilussa as pa
import scipy.sparse as sparse


def boundaries(whole):
    """The boundary of the triangles as edges and of the edges as vertices, as sparse matrices with entries 1 and -1."""
    facets = whole.facets()
    rows, there = np.nonzero(facets.cells != pa.NO_CELL)
    signs = 1 - 2 * (facets.dropped[rows, there].astype(int) % 2)
    of_cells = sparse.csr_matrix((signs, (rows, facets.cells[rows, there])), (len(facets.vertices), whole.ncells))
    edges = whole.edges()
    columns = np.arange(len(edges))
    ends = np.concatenate([edges[:, 1], edges[:, 0]]), np.concatenate([columns, columns])
    of_edges = sparse.csr_matrix((np.repeat([1, -1], len(edges)), ends), (whole.nvertices, len(edges)))
    return of_edges, of_cells


def betti(whole):
    """The Betti numbers over the real numbers, from the ranks of the two operators."""
    of_edges, of_cells = boundaries(whole)
    assert (of_edges @ of_cells).count_nonzero() == 0           # the boundary of a boundary is nothing
    first, second = (np.linalg.matrix_rank(x.toarray()) for x in (of_edges, of_cells))
    return whole.nvertices - first, of_edges.shape[1] - first - second, whole.ncells - second


for name, grid in (("torus", pa.Grid.torus(6, (1.0, 1.0))), ("Klein bottle", pa.Grid.klein(6, (1.0, 1.0))), ("Moebius band", pa.Grid.moebius(6, 6.0, 2.0))):
    print("%s: %s" % (name, ", ".join(str(int(b)) for b in betti(grid.complex()))))
