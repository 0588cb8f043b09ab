"""A planner's mesh core, proved: glued grids, cells, coherent signs, orders, refinement.

Every call is the proved library's; nothing is kept between calls, and what is not taken is refused with a number and a sentence.

>>> import pampilussa as pa
>>> ring = pa.Grid.parse("2 3 P 1 O").complex()
>>> ring
<Complex of dimension 2: 6 cells, 6 vertices>
>>> ring.refine(2)
<Refined by 2: 24 cells of dimension 2, 18 vertices, 12 of them new>
"""
from .complex import Boundary, Complex, Facets, NO_CELL, Order
from .grid import Clash, Crossing, Grid
from .mesh_file import Mesh, read_mesh, write_mesh
from .refined import Birth, Births, Child, NO_VERTEX, Refined, corners
from .refused import Refused

__all__ = ["Birth", "Births", "Boundary", "Child", "Clash", "Complex", "Crossing", "Facets", "Grid", "Mesh", "NO_CELL", "NO_VERTEX", "Order", "Refined", "Refused", "corners", "read_mesh", "refine", "write_mesh"]
__version__ = "0.2.0"


def refine(words: "Complex", r: int, order: object = None) -> Refined:
    """Every cell of a complex, or of rows of words, cut into r**d children.

    >>> import pampilussa as pa
    >>> len(pa.refine([[0, 1, 2]], 3))
    9
    """
    return (words if isinstance(words, Complex) else Complex(words)).refine(r, order)
