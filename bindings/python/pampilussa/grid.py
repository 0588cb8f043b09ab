"""Grids with glued axes."""
import math
from typing import Any, List, NamedTuple, Optional, Sequence, Tuple, Union

import numpy as np

from ._library import call, needed, numbers, room, whole
from .complex import Complex
from .refused import MOST_DIMENSION, Refused

OPEN = 0
PERIODIC = 256
TWISTED = 512
NO_VERTEX = 0xFFFFFFFF


class Clash(NamedTuple):
    """The two squared lengths of one edge that clash first."""

    first: float
    second: float


class Crossing(NamedTuple):
    """How a grid point went across the seam; bit a of a set is axis a."""

    vertex: int
    """The glued vertex; NO_VERTEX past the last point."""
    wrapped: int
    """The closed axes on which the point was wrapped."""
    reversed: int
    """The axes that came out reversed: an odd number of the wrapped axes reflects them."""


def gluing_code(gluing: str) -> int:
    """The number of a gluing that is written as bandsum writes it: O, P, or T with the digits of the reflected axes."""
    if gluing == "O":
        return OPEN
    if gluing == "P":
        return PERIODIC
    if not isinstance(gluing, str) or gluing[:1] != "T" or not set(gluing[1:]) <= set("01234567") or len(set(gluing[1:])) != len(gluing) - 1:
        raise ValueError("a gluing is O, P, or T with different digits from 0 to 7 as in T1; this is %r" % (gluing,))
    return TWISTED + sum(1 << int(digit) for digit in gluing[1:])


def gluing_text(code: int) -> str:
    """The gluing of a number, as bandsum writes it."""
    if code < PERIODIC:
        return "O"
    return "P" if code < TWISTED else "T" + "".join(str(j) for j in range(8) if code - TWISTED >> j & 1)



def _degrees(value: int) -> int:
    """A whole number of 32 bits with its sign, or ValueError."""
    number = int(value)
    if number != value or not -2 ** 31 <= number < 2 ** 31:
        raise ValueError("the latitude is %r; it must be a whole number of degrees" % (value,))
    return number


class Grid:
    """Boxes along up to three axes, the ends of each axis left open (O), joined (P), or joined with some axes turned over (T and their digits).

    axes has a count of boxes and a gluing for each axis, sides its length where lengths are asked for. A grid is plain data: the calls check it.

    >>> import pampilussa as pa
    >>> ring = pa.Grid([(3, "P"), (1, "O")], sides=(3.0, 1.0))
    >>> ring.nvertices, ring.is_orientation_preserving
    (6, True)
    >>> ring
    Grid.parse('2 3 P 1 O')
    """

    def __init__(self, axes: Sequence[Tuple[int, str]], sides: Optional[Sequence[float]] = None) -> None:
        flat: List[int] = []
        for count, gluing in axes:
            flat += [whole(count, "the number of boxes"), gluing_code(gluing)]
        self._axes = np.array(flat, np.uint32)
        self.sides = None if sides is None else np.ascontiguousarray(sides, np.float64).reshape(-1)

    @classmethod
    def _made(cls, d: int, axes: np.ndarray, sides: np.ndarray) -> "Grid":
        grid = cls([])
        grid._axes, grid.sides = axes[:2 * d].copy(), sides.copy()
        return grid

    @classmethod
    def parse(cls, line: str) -> "Grid":
        """The grid that a line of ./bandsum describes.

        >>> import pampilussa as pa
        >>> pa.Grid.parse("2 3 T1 1 O").axes
        [(3, 'T1'), (1, 'O')]
        """
        parts = line.split()
        if not parts or not all(x.isdigit() for x in parts[:1] + parts[1::2]) or len(parts) != 1 + 2 * int(parts[0]):
            raise ValueError("a line is the dimension, then a count and a gluing for each axis, as in '2 3 P 1 O'; this is %r" % line)
        return cls([(int(count), gluing) for count, gluing in zip(parts[1::2], parts[2::2])])

    @classmethod
    def torus(cls, n: int, sides: Sequence[float]) -> "Grid":
        """n boxes on every axis, all joined; one axis for each side.

        >>> import pampilussa as pa
        >>> pa.Grid.torus(4, (1.0, 2.0)).nvertices
        16
        """
        return cls._maker("torus", n, sides)

    @classmethod
    def klein(cls, n: int, sides: Sequence[float]) -> "Grid":
        """A Klein bottle of n by n boxes.

        >>> import pampilussa as pa
        >>> pa.Grid.klein(3, (1.0, 1.0)).axes
        [(3, 'T1'), (3, 'P')]
        """
        return cls._maker("klein", n, sides)

    @classmethod
    def _maker(cls, name: str, n: int, sides: Sequence[float]) -> "Grid":
        lengths, axes = np.ascontiguousarray(sides, np.float64).reshape(-1), np.zeros(2 * MOST_DIMENSION, np.uint32)
        d, given = len(lengths), whole(n, "n")
        meant = [given, PERIODIC] * d
        call("planner_" + name, d, given, lengths, axes, d=d, axes=meant, sides=lengths, maker=name)
        return cls._made(d, axes, lengths)

    @classmethod
    def moebius(cls, n: int, circumference: float, width: float) -> "Grid":
        """A Moebius band, n boxes on the longer side, at least 3 around and 1 across.

        >>> import pampilussa as pa
        >>> pa.Grid.moebius(12, 6.0, 1.0).axes
        [(12, 'T1'), (2, 'O')]
        """
        axes, lengths = np.zeros(2 * MOST_DIMENSION, np.uint32), np.array([circumference, width], np.float64)
        given = whole(n, "n")
        call("planner_moebius", given, circumference, width, axes, d=2, n=given, sides=lengths)
        return cls._made(2, axes, lengths)

    @classmethod
    def quasi_uniform(cls, n: int, gluings: Sequence[str], sides: Sequence[float]) -> "Grid":
        """These gluings, n boxes on the longest side and as many on the others as their lengths ask for.

        >>> import pampilussa as pa
        >>> pa.Grid.quasi_uniform(8, "PO", (2.0, 1.0)).axes
        [(8, 'P'), (4, 'O')]
        """
        codes, lengths = np.array([gluing_code(g) for g in gluings], np.uint32), np.ascontiguousarray(sides, np.float64).reshape(-1)
        axes, given = np.zeros(2 * MOST_DIMENSION, np.uint32), whole(n, "n")
        meant = [x for code in codes for x in (given, int(code))]
        call("planner_quasi_uniform", len(codes), given, codes, lengths, axes, d=len(codes), n=given, axes=meant, sides=lengths)
        return cls._made(len(codes), axes, lengths)

    @property
    def d(self) -> int:
        """How many axes there are."""
        return len(self._axes) // 2

    @property
    def axes(self) -> List[Tuple[int, str]]:
        """The count of boxes and the gluing of each axis."""
        return [(int(self._axes[2 * i]), gluing_text(int(self._axes[2 * i + 1]))) for i in range(self.d)]

    def __repr__(self) -> str:
        return "Grid.parse('%s')" % " ".join([str(self.d)] + ["%d %s" % axis for axis in self.axes])

    def _ask(self, name: str, *given: Any, **about: Any) -> int:
        """A question of the grid, whose refusals name its axes."""
        return call(name, self.d, *given, d=self.d, axes=self._axes, sides=[] if self.sides is None else self.sides, **about)

    @property
    def nvertices(self) -> int:
        """How many vertices there are after gluing."""
        return self._ask("planner_nvertices", self._axes)

    @property
    def is_orientation_preserving(self) -> bool:
        """Whether every axis reflects an even number of axes; Complex.orientation says whether signs exist."""
        return self._ask("planner_is_orientation_preserving", self._axes) == 1

    @property
    def shape(self) -> Tuple[int, ...]:
        """How many grid points each axis has, before gluing."""
        return tuple(count + 1 for count, _ in self.axes)

    def point(self, *coordinates: int) -> int:
        """The number of a grid point: axis 0 counts fastest.

        >>> import pampilussa as pa
        >>> pa.Grid([(3, "P"), (1, "O")]).point(3, 1)
        7
        """
        return int(np.ravel_multi_index(coordinates, self.shape, order="F"))

    def cut(self) -> "Grid":
        """The same boxes with every axis left open: row i of its words is row i of this grid's words before gluing.

        >>> import pampilussa as pa
        >>> pa.Grid([(3, "P"), (1, "O")]).cut().words()[5].tolist()
        [2, 6, 7]
        """
        return Grid([(count, "O") for count, _ in self.axes], self.sides)

    def points(self) -> np.ndarray:
        """Where the grid points lie before gluing, one row each, by their numbers: coordinates in boxes, or in the sides' lengths where there are sides.

        >>> import pampilussa as pa
        >>> pa.Grid([(2, "O"), (1, "O")], sides=(6.0, 1.0)).points().tolist()
        [[0.0, 0.0], [3.0, 0.0], [6.0, 0.0], [0.0, 1.0], [3.0, 1.0], [6.0, 1.0]]
        """
        counts = np.array([count for count, _ in self.axes], np.float64)
        spacing = np.ones(self.d) if self.sides is None else self.sides[:self.d] / counts
        return np.stack([x.reshape(-1, order="F") for x in np.indices(self.shape)], axis=1) * spacing

    def reduce(self, points: Any) -> Union[int, np.ndarray]:
        """The glued vertex of a grid point, or of each of an array of them; NO_VERTEX past the last point.

        >>> import pampilussa as pa
        >>> band = pa.Grid([(3, "T1"), (1, "O")])
        >>> band.reduce(7), band.reduce(range(8)).tolist()
        (0, [0, 1, 2, 3, 3, 4, 5, 0])
        """
        if np.ndim(points) == 0:
            return self._ask("planner_reduce", whole(points, "the point"), self._axes)
        given = np.asarray(points)
        flat = numbers(given, "points")
        glued = np.empty(flat.size, np.uint32)
        self._ask("planner_swath", self._axes, flat, glued)
        return glued.reshape(given.shape)

    def crossing(self, point: int) -> Crossing:
        """The glued vertex of a grid point, with the axes on which it was wrapped and those that came out reversed.

        >>> import pampilussa as pa
        >>> pa.Grid([(3, "T1"), (1, "O")]).crossing(7)
        Crossing(vertex=0, wrapped=1, reversed=2)
        """
        sets = np.zeros(2, np.uint32)
        vertex = self._ask("planner_crossing", whole(point, "the point"), self._axes, sets)
        return Crossing(vertex, int(sets[0]), int(sets[1]))

    def _need(self, name: str, mode: str = "grid") -> List[int]:
        """How long the lists of that call must be; nothing is needed for a grid that the call refuses. The mode is grid, or chained for honest gluing."""
        try:
            corners = self._ask("planner_%s_corners" % mode, self._axes)
        except Refused:
            corners = 0
        return needed(name, self.d, corners)

    def words(self) -> np.ndarray:
        """The words of the grid's cells, d+1 glued vertices each, in the order of the sorted grid cells.

        >>> import pampilussa as pa
        >>> pa.Grid([(3, "P"), (1, "O")]).words().tolist()
        [[0, 1, 4], [0, 3, 4], [1, 2, 5], [1, 4, 5], [2, 0, 3], [2, 5, 3]]
        """
        most, *need = self._need("cell_words")
        out = np.empty(most, np.uint32)
        count = self._ask("planner_cell_words", self._axes, out, *room(need))
        return out[:count * (self.d + 1)].reshape(count, self.d + 1)

    def chained_classes(self) -> np.ndarray:
        """Honest gluing: the class of each grid point, points in one class exactly where a chain of gluing steps joins them.

        >>> import pampilussa as pa
        >>> plane = pa.Grid([(4, "T1"), (4, "T0")])          # a projective plane: n * n + 1 classes
        >>> int(plane.chained_classes().max()) + 1, plane.chained_nvertices, plane.nvertices
        (17, 17, 16)
        """
        classes, lent = room(self._need("chained_classes", "chained"))
        self._ask("planner_chained_classes", self._axes, classes, lent)
        return classes[:math.prod(count + 1 for count, _ in self.axes)]

    @property
    def chained_nvertices(self) -> int:
        """Honest gluing: how many classes there are."""
        return self._ask("planner_chained_nvertices", self._axes, *room(self._need("chained_classes", "chained")[1:]))

    def chained_reduce(self, point: int) -> int:
        """Honest gluing: the class of a grid point; NO_VERTEX past the last point.

        >>> import pampilussa as pa
        >>> pa.Grid([(3, "P"), (1, "O")]).chained_reduce(7)
        3
        """
        return self._ask("planner_chained_reduce", whole(point, "the point"), self._axes, *room(self._need("chained_classes", "chained")[1:]))

    def chained_words(self) -> np.ndarray:
        """Honest gluing: the words of the grid's cells, d+1 classes each; a word that names a class twice is refused with 4.

        >>> import pampilussa as pa
        >>> pa.Grid([(3, "P"), (1, "O")]).chained_words().tolist() == pa.Grid([(3, "P"), (1, "O")]).words().tolist()
        True
        """
        most, *need = self._need("cell_words", "chained")
        out = np.empty(most, np.uint32)
        count = self._ask("planner_chained_cell_words", self._axes, out, *room(need))
        return out[:count * (self.d + 1)].reshape(count, self.d + 1)

    def complex(self) -> Complex:
        """The grid's cells."""
        return Complex(self.words())

    def triangulate_ordered(self) -> Tuple[np.ndarray, Optional[np.ndarray]]:
        """The cells in colex order, and to each cell its word where these agree on every facet, else None.

        >>> import pampilussa as pa
        >>> cells, order = pa.Grid([(3, "P"), (1, "O")]).triangulate_ordered()
        >>> cells[0].tolist(), order[0].tolist()
        ([0, 2, 3], [2, 0, 3])
        >>> pa.Grid([(3, "T1"), (1, "O")]).triangulate_ordered()[1] is None
        True
        """
        most, most_order, *need = self._need("triangulate_ordered")
        cells, order = np.empty(most, np.uint32), np.empty(most_order, np.uint32)
        said = self._ask("planner_triangulate_ordered", self._axes, cells, order, *room(need))
        count, shape = said & 0x7FFFFFFF, (-1, self.d + 1)
        size = count * (self.d + 1)
        return cells[:size].reshape(shape), order[:size].reshape(shape) if said >> 31 else None

    def edge_lengths_sq(self) -> np.ndarray:
        """The squared length of each edge of the flat grid, in the colex order of Complex.edges.

        >>> import pampilussa as pa
        >>> pa.Grid([(3, "P"), (1, "O")], sides=(3.0, 2.0)).edge_lengths_sq()[:3].tolist()
        [1.0, 1.0, 1.0]
        """
        most, *need = self._need("edge_lengths_sq")
        lengths = np.empty(most, np.float64)
        count = self._ask("planner_edge_lengths_sq", self._axes, self._sides(), lengths, *room(need))
        return lengths[:count]

    def geojson(self, south: int, north: int) -> bytes:
        """The band between two latitudes in whole degrees, once round the earth, as an RFC 7946 GeoJSON file: one Polygon for each cell, none across 180 degrees; a
        feature's id is its cell's row in `complex().cells`. Refused with 18 unless axis 0 is periodic and axis 1 open, and with 19 where south is not below north or either
        beyond 90.

        >>> import json, pampilussa as pa
        >>> [f["id"] for f in json.loads(pa.Grid([(3, "P"), (1, "O")]).geojson(0, 60))["features"]]
        [1, 2, 3, 5, 0, 4]
        """
        south, north = _degrees(south), _degrees(north)
        most, *need = self._need("geojson")
        out = np.empty(most, np.uint8)
        size = call("planner_geojson", self.d, south, north, self._axes, out, *room(need), d=self.d, axes=self._axes, south=south, north=north)
        return out[:size].tobytes()

    def edge_length_sq(self, one: int, other: int) -> Union[float, Clash, None]:
        """The squared length of the edge between two glued vertices, the two that clash first, or None where there is no such edge.

        >>> import pampilussa as pa
        >>> ring = pa.Grid([(3, "P"), (1, "O")], sides=(3.0, 2.0))
        >>> ring.edge_length_sq(0, 4), ring.edge_length_sq(0, 5)
        (5.0, None)
        """
        squares = np.zeros(2)
        ends = whole(one, "the vertex"), whole(other, "the vertex")
        count = self._ask("planner_edge_length_sq", *ends, self._axes, self._sides(), squares)
        return None if count == 0 else float(squares[0]) if count == 1 else Clash(float(squares[0]), float(squares[1]))

    def _sides(self) -> np.ndarray:
        return np.empty(0) if self.sides is None else self.sides
