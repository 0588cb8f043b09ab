"""The library against plain computations, on inputs made by Hypothesis."""
import numpy as np
import pampilussa as pa
import plain
from hypothesis import assume, given, settings, strategies as st

MANY = settings(max_examples=300, deadline=None, derandomize=True)


@st.composite
def word_lists(draw):
    """Words of dimension 0 to 3 over few vertices, numbered without gaps."""
    d = draw(st.integers(0, 3))
    word = st.lists(st.integers(0, d + 4), min_size=d + 1, max_size=d + 1, unique=True)
    words = draw(st.lists(word, min_size=1, max_size=8))
    number = {v: i for i, v in enumerate(sorted({v for w in words for v in w}))}
    return [[number[v] for v in w] for w in words]


@st.composite
def grids(draw):
    d = draw(st.integers(1, 3))
    axes = []
    for a in range(d):
        others = [str(j) for j in range(d) if j != a]
        twist = "T" + "".join(sorted(draw(st.sets(st.sampled_from(others))))) if others else "T"
        gluing = draw(st.sampled_from(["O", "P", twist]))
        axes.append((draw(st.integers(1 if gluing == "O" else 3, 4)), gluing))
    return axes


def taken(words):
    """The complex of the words, where no facet is crowded; then Refused says 7 and the plain computation agrees."""
    crowded = max([len(s) for s in plain.facet_cells(plain.cells_of(words)).values()], default=0) > 2
    try:
        made = pa.Complex(words)
    except pa.Refused as refused:
        assert crowded and refused.number == 7
        assume(False)
    assert not crowded
    return made


@MANY
@given(word_lists())
def test_cells_edges_facets(words):
    made = taken(words)
    cells = plain.cells_of(words)
    assert made.cells.tolist() == [list(c) for c in cells]
    assert made.edges().tolist() == [list(e) for e in plain.faces_of(cells, 2)]
    table = plain.facet_cells(cells)
    facets = made.facets()
    assert facets.vertices.tolist() == [list(f) for f in table]
    for sides, there, dropped in zip(table.values(), facets.cells.tolist(), facets.dropped.tolist()):
        told = [(c, i) for c, i in zip(there, dropped) if c != pa.NO_CELL]
        assert told == sides
    assert made.border().tolist() == [list(f) for f, sides in table.items() if len(sides) == 1]


@MANY
@given(word_lists(), st.data())
def test_signs(words, data):
    made = taken(words)
    cells = plain.cells_of(words)
    signs = plain.signs_of(cells)
    try:
        assert made.orientation().tolist() == signs
    except pa.Refused as refused:
        assert refused.number == 13 and signs is None
    own = data.draw(st.lists(st.sampled_from([1, -1]), min_size=len(cells), max_size=len(cells)))
    assert made.orient_by(own) == (made.d > 0 and plain.coherent(cells, own))


@MANY
@given(word_lists(), st.randoms(use_true_random=False))
def test_orders(words, chance):
    made = taken(words)
    order = [list(c) for c in plain.cells_of(words)]
    for word in order:
        chance.shuffle(word)
    shuffled = list(order)
    chance.shuffle(shuffled)
    answer = made.ordering(shuffled)
    assert answer.words.tolist() == order
    table = plain.facet_cells(plain.cells_of(words))
    read = {f: {tuple(v for v in order[c] if v in f) for c, _ in sides} for f, sides in table.items()}
    assert answer.agrees == all(len(ways) == 1 for ways in read.values())


@MANY
@given(grids())
def test_grids(axes):
    grid = pa.Grid(axes)
    points = int(np.prod(grid.shape))
    assert grid.reduce(np.arange(points + 2)).tolist() == [plain.reduced(axes, v) for v in range(points + 2)]
    words = plain.grid_words(axes)
    try:
        assert grid.words().tolist() == [list(w) for w in words]
    except pa.Refused as refused:
        assert refused.number == 7
        return
    cells, order = grid.triangulate_ordered()
    assert cells.tolist() == [list(c) for c in plain.cells_of(words)]
    assert grid.nvertices == max(v for w in words for v in w) + 1
    if order is not None:
        assert sorted(map(tuple, order.tolist())) == sorted(words)
        assert pa.Complex(cells).ordering(order).agrees


@MANY
@given(word_lists(), st.integers(1, 4))
def test_refinement(words, r):
    made = taken(words)
    fine = made.refine(r)
    assert len(fine) == made.ncells * r ** made.d
    assert np.bincount(fine.parents, minlength=made.ncells).tolist() == [r ** made.d] * made.ncells
    assert (fine.births.weights.sum(axis=1) == r).all()
    # seen from its parent every child has the same volume, 1 over r^d of it
    if made.d:
        assert (np.abs(np.rint(np.linalg.det(fine.wholes))) == 1).all()
        assert np.allclose(fine.jacobians, fine.wholes * (1.0 / r), rtol=0, atol=1e-15)
    again = fine.complex
    assert again.cells.tolist() == fine.cells.tolist() and again.nvertices == fine.nvertices


@MANY
@given(st.integers(0, 4), st.lists(st.integers(0, 2 ** 32 - 1), max_size=12))
def test_any_numbers_are_answered(d, words):
    """Whatever the numbers are, the answer is cells or a refusal with a sentence."""
    try:
        pa.Complex(np.array(words, np.uint32), d)
    except pa.Refused as refused:
        assert 1 <= refused.number <= 7 and refused.number != 12 and len(refused.sentence) > 10


@MANY
@given(st.lists(st.tuples(st.integers(0, 2 ** 32 - 1), st.sampled_from(["O", "P", "T", "T0", "T1", "T2", "T7", "T12"])), max_size=4), st.lists(st.floats(), max_size=4))
def test_any_grid_is_answered(axes, sides):
    grid = pa.Grid(axes, sides)
    for ask in (grid.words, grid.edge_lengths_sq, lambda: grid.edge_length_sq(0, 1), lambda: grid.nvertices):
        try:
            ask()
        except pa.Refused as refused:
            assert refused.number in (1, 3, 6, 7, 8, 9, 10, 15) and len(refused.sentence) > 10


@MANY
@given(word_lists(), st.data())
def test_dropped_cells(words, data):
    made = taken(words)
    gone = data.draw(st.lists(st.integers(0, made.ncells)))
    try:
        left, old = made.drop_cells(gone)
    except pa.Refused as refused:
        assert refused.number == (23 if made.ncells in gone else 2) and (made.ncells in gone or len(set(gone)) == made.ncells)
        return
    kept = [c for i, c in enumerate(plain.cells_of(words)) if i not in gone]
    assert old.tolist() == sorted({v for c in kept for v in c})
    assert sorted(tuple(old[c].tolist()) for c in left.cells) == sorted(kept)
