"""A refusal, as an exception: its number and place, its name, and a sentence that says what to mend."""
from collections import Counter
from itertools import combinations
from typing import Any, Optional

NAMES = {
    1: "BAD_DIMENSION", 2: "RAGGED_WORDS", 3: "TOO_MANY_CELLS", 4: "VERTEX_TWICE", 5: "UNUSED_NUMBER", 6: "TOO_MANY_VERTICES", 7: "CROWDED_FACET", 8: "SHORT_AXIS",
    9: "BAD_REFLECTION", 10: "BAD_SIDE", 11: "BAD_REFINEMENT", 12: "TOO_SHORT", 13: "NO_SIGNS", 14: "BAD_SIGNS", 15: "TWO_LENGTHS", 16: "BAD_ORDER",
    18: "OTHER_GRID", 19: "BAD_LATITUDES", 20: "FILE_ENDS", 21: "UNKNOWN_KIND", 22: "BAD_FILE", 23: "NO_SUCH_CELL", 24: "BAD_FACES",
}
MOST_DIMENSION = 3
MOST_CELLS = 4096
MOST_VERTICES = 4096


class Refused(ValueError):
    """The library does not take what it was given.

    >>> import pampilussa as pa
    >>> try:
    ...     pa.Grid([(3, "P"), (2, "P")]).words()
    ... except pa.Refused as refused:
    ...     print(refused.number, refused.name, refused.place, refused.sentence)
    8 SHORT_AXIS 1 axis 1 has 2 cells; a closed axis needs 3
    """

    def __init__(self, number: int, place: int = 0, sentence: Optional[str] = None, **about: Any) -> None:
        self.number = number
        self.place = place
        self.name = NAMES.get(number, "UNKNOWN")
        self.sentence = sentence if sentence is not None else sentence_of(number, place, about)
        super().__init__("refused %d: %s" % (number, self.sentence))

    def __reduce__(self) -> Any:
        """So that a refusal passes between processes."""
        return (Refused, (self.number, self.place, self.sentence))


def sentence_of(number: int, place: int, about: Any) -> str:
    """What to mend, in one sentence; `about` has the grid, the words, R, the signs and the order, where the call had them."""
    speaker = SENTENCES.get(number)
    if number < 12 and "file" in about:
        return "the mesh in the file is refused with %s" % NAMES.get(number, "?")
    return speaker(place, about) if speaker else "no such number"


def dimension(place: int, about: Any) -> str:
    if "words" in about:
        return "the cells have dimension %d; it must be 0 to %d" % (about["d"], MOST_DIMENSION)
    if about.get("maker") == "klein":
        return "a Klein bottle has %d sides; it needs 2" % about["d"]
    return "the grid has %d axes; it must have 1 to %d" % (about["d"], MOST_DIMENSION)


def ragged(place: int, about: Any) -> str:
    if "gone" in about:
        return "all cells would go; leave at least one"
    if len(about["words"]) == 0:
        return "there are no cells; give at least one word"
    return "the words have %d numbers, no multiple of %d; a cell of dimension %d has %d vertices" % (len(about["words"]), about["d"] + 1, about["d"], about["d"] + 1)


def too_many_cells(place: int, about: Any) -> str:
    most = "at most {:,} are taken".format(MOST_CELLS)
    if "n" in about:
        return "{:,} cells are asked for along the longest axis, and so more in all; {}".format(about["n"], most)
    if "axes" in about:
        return "the grid's boxes give more cells than are taken; " + most
    cells = len(about["words"]) // (about["d"] + 1)
    if "r" in about and cells <= MOST_CELLS:
        return "refined by {} each cell becomes {:,}; {}".format(about["r"], about["r"] ** about["d"], most)
    return "there are {:,} cells; {}".format(cells, most)


def vertex_twice(place: int, about: Any) -> str:
    d = about["d"]
    if "words" not in about:
        return "word %d of the glued grid names a class twice" % place
    word = [int(v) for v in about["words"][place * (d + 1):(place + 1) * (d + 1)]]
    twice = next((v for v in word if word.count(v) > 1), word[0])
    return "word %d is %s, which names vertex %d twice; a cell needs %d different vertices" % (place, tuple(word), twice, d + 1)


def unused(place: int, about: Any) -> str:
    return "no cell has vertex %d, though %d is there; number the vertices from 0 on without gaps" % (place, int(max(about["words"])))


def too_many_vertices(place: int, about: Any) -> str:
    most = "at most {:,} vertices are taken".format(MOST_VERTICES)
    if "axes" in about or "n" in about:
        return "the grid has more vertices than are taken; " + most
    largest = int(max(about["words"]))
    if largest >= MOST_VERTICES:
        return "there is a vertex {:,}; {}, numbered from 0 on".format(largest, most)
    return "refined by {} there are more; {}".format(about.get("r", 1), most)


def crowded(place: int, about: Any) -> str:
    """Names the facet, which the library does not."""
    if "words" not in about:
        return "three or more cells meet in one facet, since a twisted axis is turned over by another; leave one of the twists out"
    d = about["d"]
    cells = {tuple(sorted(int(v) for v in about["words"][i:i + d + 1])) for i in range(0, len(about["words"]), d + 1)}
    found = Counter(f for cell in cells for f in combinations(cell, d))
    facet, often = max(found.items(), key=lambda item: item[1])
    return "facet %s lies in %d cells; a facet may lie in two" % (facet, often)


def short_axis(place: int, about: Any) -> str:
    axes = about.get("axes", [])
    if 2 * place + 1 >= len(axes):
        return "axis %d has too few cells: a closed axis needs 3, an open one 1" % place
    cells = int(axes[2 * place])
    kind, least = ("an open", 1) if int(axes[2 * place + 1]) < 256 else ("a closed", 3)
    return "axis %d has %d cell%s; %s axis needs %d" % (place, cells, "" if cells == 1 else "s", kind, least)


def bad_reflection(place: int, about: Any) -> str:
    axes, d = about.get("axes", []), about["d"]
    mask = int(axes[2 * place + 1]) - 512 if 2 * place + 1 < len(axes) else 0
    if mask >> place & 1:
        return "axis %d reflects itself; it may reflect the other axes only" % place
    outside = [j for j in range(32) if mask >> j & 1 and j >= d]
    return "axis %d reflects axis %d, and the grid has axes 0 to %d" % (place, outside[0] if outside else d, d - 1)


def bad_side(place: int, about: Any) -> str:
    sides = about.get("sides", [])
    if place >= len(sides):
        return "axis %d has no side; give one length for each axis" % place
    return "side %d is %r; it must be a number from 2**-100 to 2**100" % (place, float(sides[place]))


def bad_refinement(place: int, about: Any) -> str:
    return "R is %d; it must be from 1 to 64" % about["r"]


def too_short(place: int, about: Any) -> str:
    return about.get("short", "a list lent to the library is too short; this is a fault of the package, please report it")


def no_signs(place: int, about: Any) -> str:
    return "no coherent signs exist: some way round turns left into right, as on a Moebius band"


def bad_signs(place: int, about: Any) -> str:
    signs, cells = about["signs"], about["cells"]
    if len(signs) != cells:
        return "there are %d signs for %d cells; give one for each" % (len(signs), cells)
    at = next(i for i, s in enumerate(signs) if s not in (1, -1))
    return "sign %d is %d; a sign is 1 or -1" % (at, int(signs[at]))


def two_lengths(place: int, about: Any) -> str:
    return "the gluing lays edges of two lengths onto each other; edge_length_sq says which"


def bad_order(place: int, about: Any) -> str:
    return "the order's words are not one for each cell and no more: each cell needs exactly one word, its own vertices in some sequence"


def other_grid(place: int, about: Any) -> str:
    return "a band on the map needs two axes, axis 0 joined (P) and axis 1 open (O)"


def bad_latitudes(place: int, about: Any) -> str:
    return "the latitudes are %s and %s; south must lie below north, both from -90 to 90" % (about.get("south"), about.get("north"))


def file_ends(place: int, about: Any) -> str:
    return "the file ends inside a record, or before the record that ends it; it was cut, or not carried over whole"


def unknown_kind(place: int, about: Any) -> str:
    return "the file has a record of an unknown kind; it was written by a newer version, or is no mesh file"


def bad_file(place: int, about: Any) -> str:
    if "file" in about:
        return "the file has a wrong length, order, count, field or birth, or bytes after its end"
    return "the lists are no mesh file: cells must stand in colex order, births on the last vertices with two or more vertices rising below the first birth and weights that add up to r, 2 to 64"


def no_such_cell(place: int, about: Any) -> str:
    return "a cell to be dropped is not there; there are %s" % about.get("cells", "fewer")


def bad_faces(place: int, about: Any) -> str:
    return "faces of dimension %s are asked for; it must be from 1 to %d" % (about.get("k"), about.get("d", MOST_DIMENSION))


SENTENCES = {
    1: dimension, 2: ragged, 3: too_many_cells, 4: vertex_twice, 5: unused, 6: too_many_vertices, 7: crowded, 8: short_axis, 9: bad_reflection, 10: bad_side,
    11: bad_refinement, 12: too_short, 13: no_signs, 14: bad_signs, 15: two_lengths, 16: bad_order,
    18: other_grid, 19: bad_latitudes, 20: file_ends, 21: unknown_kind, 22: bad_file, 23: no_such_cell, 24: bad_faces,
}
