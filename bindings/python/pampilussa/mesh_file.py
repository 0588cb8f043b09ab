"""Mesh files: words and births as bytes, to be carried home and read again."""
from typing import Any, Dict, List, NamedTuple, Sequence

import numpy as np

from ._library import call, needed, numbers, room, whole


class Mesh(NamedTuple):
    """A mesh as a file has it.

    >>> import pampilussa as pa
    >>> mesh = pa.Complex([[0, 1, 2]]).refine(2).mesh()
    >>> mesh.births
    [{0: 1, 1: 1}, {0: 1, 2: 1}, {1: 1, 2: 1}]
    >>> again = pa.read_mesh(mesh.write())
    >>> again.words.tolist() == mesh.words.tolist(), again.births == mesh.births, again.r
    (True, True, 2)
    """

    words: np.ndarray
    """One row for each cell, in the order of the cells."""
    births: List[Dict[int, int]]
    """The last of the vertices, where they were born of the others: to each vertex that one was born of its weight over r."""
    r: int
    """What the weights are over; 0 where there are no births."""

    def write(self) -> bytes:
        """The file of the mesh; refused with 22 where its lists break the rules of a mesh file."""
        return write_mesh(self.words, self.births, self.r)


def write_mesh(words: Any, births: Sequence[Dict[int, int]] = (), r: int = 0) -> bytes:
    """The file of these words, one row for each cell in colex order, and of the births of the last vertices.

    >>> import pampilussa as pa
    >>> len(pa.write_mesh([[0, 1, 2]]))
    34
    """
    rows = np.asarray(words)
    d = rows.shape[1] - 1
    flat = numbers(rows, "words")
    first = int(flat.max()) + 1 - len(births) if flat.size else 0
    heads = [x for k, birth in enumerate(births) for x in (first + k, whole(r, "r"), len(birth))]
    pairs = [x for birth in births for pair in sorted(birth.items()) for x in pair]
    lists = numbers(np.array(heads, np.int64), "births"), numbers(np.array(pairs, np.int64), "pairs")
    most, *need = needed("write_mesh", d, flat.size, *(x.size for x in lists))
    out = np.empty(most, np.uint8)
    size = call("planner_write_mesh", d, flat, *lists, out, *room(need), d=d, words=flat)
    return out[:size].tobytes()


def read_mesh(data: bytes) -> Mesh:
    """The mesh of a file; refused with 20 where it ends too early, 21 at an unknown record, 22 where it breaks a rule.

    >>> import pampilussa as pa
    >>> pa.read_mesh(pa.write_mesh([[0, 1, 2], [1, 2, 3]])).words.tolist()
    [[0, 1, 2], [1, 2, 3]]
    >>> pa.read_mesh(b"")
    Traceback (most recent call last):
    pampilussa.refused.Refused: refused 20: the file ends inside a record, or before the record that ends it; it was cut, or not carried over whole
    """
    given = np.frombuffer(data, np.uint8)
    lists = room(needed("read_mesh", given.size))
    words, births, pairs = lists[:3]
    shape = np.zeros(3, np.uint32)
    count = call("planner_read_mesh", given, *lists, shape, file=given)
    d, many, _ = (int(x) for x in shape)
    heads = births[:3 * many].reshape(many, 3).tolist()
    listed, at = [], 0
    for _, _, size in heads:
        listed.append({int(v): int(w) for v, w in pairs[at:at + 2 * size].reshape(size, 2)})
        at += 2 * size
    return Mesh(words[:count * (d + 1)].reshape(count, d + 1), listed, heads[0][1] if heads else 0)
