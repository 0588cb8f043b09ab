"""Cells, and what is asked of them: edges, facets, the border, coherent signs, orders, refinement."""
from typing import Any, List, NamedTuple, Optional, Tuple

import numpy as np

from ._library import call, needed, numbers, room, whole
from .refined import Refined, refine
from .refused import Refused

NO_CELL = 0xFFFFFFFF


class Facets(NamedTuple):
    """The facets in colex order."""

    vertices: np.ndarray
    """d vertices for each facet, rising."""
    cells: np.ndarray
    """Its lower cell and its other cell, by row of Complex.cells; the other is NO_CELL in the border."""
    dropped: np.ndarray
    """The position of the vertex that the facet drops, in each of the two cells."""


class Boundary(NamedTuple):
    """A boundary operator by its entries, by rising coface, then by dropped position."""

    signs: np.ndarray
    """1 or -1: the sign that the dropped position induces."""
    faces: np.ndarray
    """The row of each entry: a row of faces(k - 1)."""
    cofaces: np.ndarray
    """The column of each entry: a row of faces(k)."""


class Order(NamedTuple):
    """An order's words by cell."""

    words: np.ndarray
    """To each cell its word, at the cell's row."""
    agrees: bool
    """Whether on every facet of two cells both words list the facet's vertices in one sequence."""


class Complex:
    """Cells of one dimension that meet in facets, at most two to a facet.

    words has d+1 vertex numbers for each cell, one row each, in any order; a flat list needs d. Vertices are numbered from 0 on without gaps. What is not taken
    is refused here.

    >>> import pampilussa as pa
    >>> two = pa.Complex([[2, 1, 0], [3, 1, 2], [0, 1, 2]])
    >>> two.cells.tolist()
    [[0, 1, 2], [1, 2, 3]]
    >>> two.orientation().tolist()
    [1, -1]
    """

    def __init__(self, words: Any, d: Optional[int] = None) -> None:
        if isinstance(words, Complex):
            words, d = words.words, words.d
        shape = np.shape(words)
        if d is None:
            if len(shape) != 2 or shape[1] == 0:
                raise ValueError("words must have one row for each cell; give d with a flat list")
            d = shape[1] - 1
        self.d = whole(d, "d")
        self._words = numbers(words, "words")
        self._cells = self._listed("cells", self.d + 1)
        self._cells.flags.writeable = False

    def __repr__(self) -> str:
        return "<Complex of dimension %d: %d cells, %d vertices>" % (self.d, self.ncells, self.nvertices)

    def _need(self, name: str) -> List[int]:
        return needed(name, self.d, self._words.size)

    def _call(self, name: str, *given: np.ndarray, **about: Any) -> int:
        """A call on the words, whose refusals name them."""
        return call("planner_" + name, self.d, self._words, *given, d=self.d, words=self._words, **about)

    def _listed(self, name: str, stride: int, kind: Any = np.uint32) -> np.ndarray:
        """A call with one result list: the rows that it handed out."""
        most, *need = self._need(name)
        out = np.empty(most, kind)
        count = self._call(name, out, *room(need))
        return out[:count * stride].reshape(count, stride)

    @property
    def words(self) -> np.ndarray:
        """The words as given, one row each."""
        return self._words.reshape(-1, self.d + 1)

    @property
    def cells(self) -> np.ndarray:
        """The cells, d+1 rising vertices each, in colex order without repeats."""
        return self._cells

    @property
    def ncells(self) -> int:
        """How many cells there are."""
        return len(self._cells)

    @property
    def nvertices(self) -> int:
        """How many vertices there are."""
        return int(self._cells.max()) + 1

    def edges(self) -> np.ndarray:
        """The edges, two vertices each, the lower first, in colex order.

        >>> import pampilussa as pa
        >>> pa.Complex([[2, 1, 0]]).edges().tolist()
        [[0, 1], [0, 2], [1, 2]]
        """
        return self._listed("edges", 2)

    def facets(self) -> Facets:
        """The facets with their one or two cells. In dimension 0 there are none.

        >>> import pampilussa as pa
        >>> facets = pa.Complex([[0, 1], [1, 2]]).facets()
        >>> facets.vertices.tolist(), facets.cells[1].tolist(), facets.dropped[1].tolist()
        ([[0], [1], [2]], [0, 1], [0, 1])
        """
        flat_most, table_most, *need = self._need("facets")
        flat, table = np.empty(flat_most, np.uint32), np.empty(table_most, np.uint32)
        count = self._call("facets", flat, table, *room(need))
        rows = table[:4 * count].reshape(count, 2, 2)
        return Facets(flat[:self.d * count].reshape(count, self.d), rows[:, :, 0], rows[:, :, 1])

    def border(self) -> np.ndarray:
        """The facets that lie in one cell, d vertices each, in colex order.

        >>> import pampilussa as pa
        >>> pa.Complex([[0, 1, 2], [1, 2, 3]]).border().tolist()
        [[0, 1], [0, 2], [1, 3], [2, 3]]
        """
        return self._listed("border", self.d)

    def orientation(self) -> np.ndarray:
        """One sign a cell, 1 or -1: coherent, 1 at the lowest cell of each piece. Refused with 13 exactly where no coherent signs exist.

        >>> import pampilussa as pa
        >>> pa.Grid([(3, "P"), (1, "O")]).complex().orientation().tolist()
        [1, -1, 1, -1, -1, 1]
        >>> pa.Grid([(3, "T1"), (1, "O")]).complex().orientation()
        Traceback (most recent call last):
        pampilussa.refused.Refused: refused 13: no coherent signs exist: some way round turns left into right, as on a Moebius band
        """
        return self._listed("orientation", 1, np.int32).reshape(-1)

    def orientation_looks(self) -> Tuple[Optional[np.ndarray], int]:
        """The signs, or None where there are none, and how many facets the walk that finds them looks at.

        >>> import pampilussa as pa
        >>> pa.Grid([(3, "P"), (1, "O")]).complex().orientation_looks()[1]
        18
        """
        most, *need = self._need("orientation")
        signs, looks = np.empty(most, np.int32), np.zeros(1, np.uint32)
        try:
            count = self._call("orientation_looks", signs, *room(need), looks)
        except Refused as refused:
            if refused.number != 13:
                raise
            return None, int(looks[0])
        return signs[:count], int(looks[0])

    def orient_by(self, signs: Any) -> bool:
        """Whether these signs, one for each row of cells, are coherent; in dimension 0 never.

        >>> import pampilussa as pa
        >>> line = pa.Complex([[0, 1], [1, 2]])
        >>> line.orient_by([1, 1]), line.orient_by([1, -1])
        (True, False)
        """
        given = np.ascontiguousarray(signs, np.int32).reshape(-1)
        return self._call("orient_by", given, *room(self._need("orient_by")), signs=given, cells=self.ncells) == 1

    def ordering(self, order: Any) -> Order:
        """The words of an order by cell, and whether they agree on every facet of two cells. An order has one word for each cell, in any order.

        >>> import pampilussa as pa
        >>> two = pa.Complex([[0, 1, 2], [1, 2, 3]])
        >>> two.ordering([[0, 1, 2], [3, 2, 1]]).agrees
        False
        """
        words = numbers(order, "order")
        most, *need = self._need("ordering")
        listed = np.empty(most, np.uint32)
        said = self._call("ordering", words, listed, *room(need), order=words)
        count = said & 0x7FFFFFFF
        return Order(listed[:count * (self.d + 1)].reshape(count, self.d + 1), said >> 31 == 1)

    def induced_orientation(self, order: Any) -> bool:
        """Whether the signs of an order's words are coherent, + where an even number of swaps sorts the word; in dimension 0 never.

        >>> import pampilussa as pa
        >>> line = pa.Complex([[0, 1], [1, 2]])
        >>> line.induced_orientation([[0, 1], [1, 2]]), line.induced_orientation([[0, 1], [2, 1]])
        (True, False)
        """
        words = numbers(order, "order")
        return self._call("induced_orientation", words, *room(self._need("induced_orientation")), order=words) == 1

    def drop_cells(self, gone: Any) -> "Tuple[Complex, np.ndarray]":
        """The complex without these cells (rows of cells), its vertices numbered without gaps in their old order, and the old number of each.

        >>> import pampilussa as pa
        >>> left, old = pa.Complex([[0, 1, 2], [1, 2, 3]]).drop_cells([0])
        >>> left.cells.tolist(), old.tolist()
        ([[0, 1, 2]], [1, 2, 3])
        """
        named = numbers(gone, "the cells to be dropped")
        most, most_old, *need = self._need("drop_cells")
        kept, old, vertices = np.empty(most, np.uint32), np.empty(most_old, np.uint32), np.zeros(1, np.uint32)
        count = self._call("drop_cells", named, kept, old, *room(need), vertices, gone=named, cells=self.ncells)
        return Complex(kept[:count * (self.d + 1)], self.d), old[:int(vertices[0])]

    def incidence(self) -> List[np.ndarray]:
        """To each vertex its cells, rising (rows of cells).

        >>> import pampilussa as pa
        >>> [at.tolist() for at in pa.Complex([[0, 1, 2], [1, 2, 3]]).incidence()]
        [[0], [0, 1], [0, 1], [1]]
        """
        most_starts, most, *need = self._need("incidence")
        starts, touching = np.empty(most_starts, np.uint32), np.empty(most, np.uint32)
        count = self._call("incidence", starts, touching, *room(need))
        return np.split(touching[:int(starts[count])], starts[1:count].astype(int))

    def faces(self, k: int) -> np.ndarray:
        """The faces of dimension k, k+1 rising vertices each, in colex order. Refused with 24 where k is above d.

        >>> import pampilussa as pa
        >>> pa.Complex([[0, 1, 2]]).faces(1).tolist()
        [[0, 1], [0, 2], [1, 2]]
        """
        most, *need = self._need("faces")
        out = np.empty(most, np.uint32)
        count = self._with("faces", k, out, need)
        return out[:count * (k + 1)].reshape(count, k + 1)

    def boundary(self, k: int) -> Boundary:
        """The boundary operator from the faces of dimension k to those of dimension k - 1. Refused with 24 where k is 0 or above d.

        >>> import pampilussa as pa
        >>> edge = pa.Complex([[0, 1]]).boundary(1)
        >>> edge.signs.tolist(), edge.faces.tolist(), edge.cofaces.tolist()
        ([1, -1], [1, 0], [0, 0])
        """
        signs, faces, cofaces, *need = self._need("boundary")
        lists = np.empty(signs, np.int32), np.empty(faces, np.uint32), np.empty(cofaces, np.uint32)
        count = self._with("boundary", k, *lists, need)
        return Boundary(*(x[:count] for x in lists))

    def matrix_market(self, k: int) -> bytes:
        """The same operator as a Matrix Market file, which scipy.io.mmread reads.

        >>> import pampilussa as pa
        >>> print(pa.Complex([[0, 1]]).matrix_market(1).decode(), end="")
        %%MatrixMarket matrix coordinate integer general
        2 1 2
        2 1 1
        1 1 -1
        """
        most, *need = self._need("matrix_market")
        out = np.empty(most, np.uint8)
        return out[:self._with("matrix_market", k, out, need)].tobytes()

    def _with(self, name: str, k: int, *given: Any) -> int:
        """A call on the faces of dimension k; the last given is what it needs of the working lists."""
        *lists, need = given
        return call("planner_" + name, self.d, whole(k, "k"), self._words, *lists, *room(need), d=self.d, words=self._words)

    def refine(self, r: int, order: Any = None) -> Refined:
        """Every cell cut into r**d children, along its sorted vertices or along an order's word for it.

        >>> import pampilussa as pa
        >>> fine = pa.Complex([[0, 1, 2]]).refine(2)
        >>> fine.cells.tolist(), fine.parents.tolist()
        ([[0, 3, 4], [1, 3, 5], [2, 4, 5], [3, 4, 5]], [0, 0, 0, 0])
        >>> fine.births.vertices.tolist()
        [[0, 1, 4294967295], [0, 2, 4294967295], [1, 2, 4294967295]]
        """
        return refine(self.d, self._words, whole(r, "r"), None if order is None else numbers(order, "order"))

    def refine_by_steps(self, r: int, order: Any = None) -> Refined:
        """The same, with the pattern of a cell made by the stepping rule and never read from the table: equal on every input.

        >>> import pampilussa as pa
        >>> solid = pa.Complex([[0, 1, 2, 3]])
        >>> (solid.refine_by_steps(3).words == solid.refine(3).words).all()
        True
        """
        return refine(self.d, self._words, whole(r, "r"), None if order is None else numbers(order, "order"), "_by_steps")
