"""What a refinement hands out."""
from typing import Any, NamedTuple, Optional, TYPE_CHECKING

import numpy as np

from ._library import call, needed, room, whole
from .refused import MOST_DIMENSION

if TYPE_CHECKING:
    from .complex import Complex
    from .mesh_file import Mesh

NO_VERTEX = 0xFFFFFFFF
FORM = MOST_DIMENSION ** 2          # numbers of a child's Jacobian, those past d * d zero


class Births(NamedTuple):
    """The new vertices, one row each, in the order of their numbers, which follow the coarse ones."""

    vertices: np.ndarray
    """The coarse vertices with a positive weight, rising, then NO_VERTEX."""
    weights: np.ndarray
    """Their weights, whole numbers over r, then 0."""
    shares: np.ndarray
    """Weight times (1/r), then 0.0."""


class Child(NamedTuple):
    """One child."""

    parent: int
    jacobian: np.ndarray
    whole: np.ndarray


class Birth(NamedTuple):
    """One new vertex: the coarse vertices that it was born of, rising, with their weights over r and their shares."""

    vertices: np.ndarray
    weights: np.ndarray
    shares: np.ndarray


class Refined:
    """A refined complex: its children in the colex order of the refined cells.

    cells, words: d+1 vertices for each child, sorted and as its word. parents: the row of the coarse cell that it lies in. jacobians, wholes: a d by d matrix for each
    child; column j is its sorted corner j+1 less its corner 0, in the parent's local coordinates, and the same times r. births: the new vertices. coarse: how many
    vertices there were before; nvertices: how many there are.
    """

    def __init__(self, d: int, r: int, coarse: int, nvertices: int, lists: Any, count: int) -> None:
        self.d, self.r, self.coarse, self.nvertices = d, r, coarse, nvertices
        cells, words, parents, jacobians, wholes, vertices, weights, shares = lists
        stride = d + 1
        self.cells: np.ndarray = cells[:count * stride].reshape(count, stride)
        self.words: np.ndarray = words[:count * stride].reshape(count, stride)
        self.parents: np.ndarray = parents[:count]
        self._forms = jacobians[:count * FORM], wholes[:count * FORM]
        born = nvertices - coarse
        self.births = Births(*(x[:born * stride].reshape(born, stride) for x in (vertices, weights, shares)))

    def _square(self, flat: np.ndarray) -> np.ndarray:
        """A view of the flat list as one d by d matrix for each child."""
        rows = flat.reshape(-1, FORM)[:, :self.d * self.d]
        return rows.reshape(-1, self.d, self.d).swapaxes(1, 2)

    @property
    def jacobians(self) -> np.ndarray:
        """One d by d matrix of floats for each child."""
        return self._square(self._forms[0])

    @property
    def wholes(self) -> np.ndarray:
        """The same times r: whole numbers."""
        return self._square(self._forms[1])

    @property
    def complex(self) -> "Complex":
        """The refined cells as a complex; its rows are the children's."""
        from .complex import Complex
        return Complex(self.cells)

    def __len__(self) -> int:
        return len(self.parents)

    def __repr__(self) -> str:
        return "<Refined by %d: %d cells of dimension %d, %d vertices, %d of them new>" % (self.r, len(self), self.d, self.nvertices, len(self.births.weights))

    def child(self, number: int) -> Child:
        """One child by number; refused with 12 past the last.

        >>> import pampilussa as pa
        >>> pa.Complex([[0, 1, 2]]).refine(2).child(3).whole.tolist()
        [[-1, 0], [1, 1]]
        """
        k = whole(number, "the child's number")
        jacobian, form = np.zeros(FORM), np.zeros(FORM, np.int32)
        parent = call("planner_child_of", k, self.parents, *self._forms, jacobian, form, short="there is no child %d; there are %d" % (k, len(self)))
        return Child(parent, self._square(jacobian)[0], self._square(form)[0])

    def birth(self, number: int) -> Birth:
        """One new vertex by number, counted from the first one on; refused with 12 past the last.

        >>> import pampilussa as pa
        >>> one = pa.Complex([[0, 1, 2]]).refine(3).birth(0)
        >>> one.vertices.tolist(), one.weights.tolist()
        ([0, 1], [2, 1])
        """
        k = whole(number, "the birth's number")
        row = MOST_DIMENSION + 1
        vertices, weights, shares = np.zeros(row, np.uint32), np.zeros(row, np.uint32), np.zeros(row)
        lists = (np.ascontiguousarray(x).reshape(-1) for x in self.births)
        support = call("planner_birth_of", self.d, k, *lists, vertices, weights, shares, short="there is no birth %d; there are %d" % (k, len(self.births.weights)))
        return Birth(vertices[:support], weights[:support], shares[:support])

    def mesh(self) -> "Mesh":
        """The children's words with the births, as a mesh file has them."""
        from .mesh_file import Mesh
        births = [{int(v): int(w) for v, w in zip(row, weights) if w} for row, weights in zip(self.births.vertices, self.births.weights)]
        return Mesh(self.words, births, self.r if births else 0)

    def positions(self, coarse: Any) -> np.ndarray:
        """The position of every vertex, coarse ones as given (one row each), new ones by their shares; meant where no gluing lies between.

        >>> import pampilussa as pa
        >>> pa.Complex([[0, 1]]).refine(2).positions([[0.0], [1.0]]).tolist()
        [[0.0], [1.0], [0.5]]
        """
        given = np.asarray(coarse, np.float64)
        if len(given) != self.coarse:
            raise ValueError("there are %d positions for %d vertices" % (len(given), self.coarse))
        padded = np.vstack([given, np.zeros((1, given.shape[1]))])
        at = np.where(self.births.vertices == NO_VERTEX, self.coarse, self.births.vertices)
        return np.vstack([given, (padded[at] * self.births.shares[:, :, None]).sum(axis=1)])


def corners(d: int, r: int) -> np.ndarray:
    """The pattern of one cell of dimension d refined by r: for each child, for each corner, the weights over the places of the cell's word, whole numbers over r."""
    d, r = whole(d, "d"), whole(r, "r")
    out = np.empty(needed("corners", d, r)[0], np.uint32)
    count = call("planner_corners", d, r, out, d=d, r=r, words=[])
    return out[:count * (d + 1)].reshape(-1, d + 1, d + 1)


RESULTS = (np.uint32, np.uint32, np.uint32, np.float64, np.int32, np.uint32, np.uint32, np.float64)


def refine(d: int, words: np.ndarray, r: int, order: Optional[np.ndarray], how: str = "") -> Refined:
    """The words refined by r, along the cells' sorted vertices or along an order."""
    need = needed("refine", d, r, words.size)
    lists = [np.empty(n, kind) for n, kind in zip(need, RESULTS)]
    vertices = np.zeros(1, np.uint32)
    name, more = ("planner_refine", []) if order is None else ("planner_refine_with", [order])
    about = dict(d=d, words=words, r=r, **({} if order is None else {"order": order}))
    count = call(name + how, d, r, words, *more, *lists, *room(need[len(lists):]), vertices, **about)
    return Refined(d, r, int(words.max()) + 1, int(vertices[0]), lists, count)
