"""Document 01's figures, lists without copies, threads, and a refusal passed between processes."""
import pickle
import threading

import numpy as np
import pampilussa as pa
import pytest

RING = [[0, 1, 4], [0, 3, 4], [1, 2, 5], [1, 4, 5], [2, 0, 3], [2, 5, 3]]
BAND = [[0, 1, 4], [0, 3, 4], [1, 2, 5], [1, 4, 5], [2, 3, 0], [2, 5, 0]]


def test_ring():
    ring = pa.Grid.parse("2 3 P 1 O")
    assert ring.words().tolist() == RING
    cells, order = ring.triangulate_ordered()
    assert cells.tolist() == [[0, 2, 3], [0, 1, 4], [0, 3, 4], [1, 2, 5], [2, 3, 5], [1, 4, 5]] and order is not None
    assert ring.complex().orientation().tolist() == [1, -1, 1, -1, -1, 1]
    assert len(ring.complex().edges()) == 12 and len(ring.complex().border()) == 6


def test_moebius_band():
    band = pa.Grid.parse("2 3 T1 1 O")
    assert band.reduce(range(8)).tolist() == [0, 1, 2, 3, 3, 4, 5, 0]
    assert band.words().tolist() == BAND
    assert band.triangulate_ordered()[1] is None and not band.is_orientation_preserving
    with pytest.raises(pa.Refused) as refused:
        band.complex().orientation()
    assert refused.value.number == 13


def test_triangle_by_two():
    fine = pa.Complex([[0, 1, 2]]).refine(2)
    assert fine.words.tolist() == [[0, 3, 4], [3, 1, 5], [4, 5, 2], [3, 4, 5]]
    assert fine.births.vertices[:, :2].tolist() == [[0, 1], [0, 2], [1, 2]] and (fine.births.weights[:, :2] == 1).all()
    assert pa.Complex([[0, 1, 2]]).refine(1).words.tolist() == [[0, 1, 2]]
    assert len(pa.Complex([[0]]).refine(64)) == 1


def test_two_lengths():
    grid = pa.Grid([(3, "T1"), (3, "T2"), (1, "O")], sides=(3.0, 3.0, 1.0))
    with pytest.raises(pa.Refused) as refused:
        grid.edge_lengths_sq()
    assert refused.value.number == 15
    assert any(isinstance(grid.edge_length_sq(a, b), pa.Clash) for a in range(grid.nvertices) for b in range(a))


def test_words_are_not_copied():
    words = np.array(RING, np.uint32)
    assert np.shares_memory(pa.Complex(words).words, words)
    fine = pa.Complex(words).refine(2)
    assert np.shares_memory(fine.jacobians, fine.jacobians) and fine.jacobians.shape == (24, 2, 2)


def test_threads_go_on_side_by_side():
    torus = pa.Grid.torus(8, (1.0, 1.0, 1.0))
    wanted, got = torus.words(), [None] * 8

    def work(i):
        for _ in range(20):
            got[i] = torus.words()

    threads = [threading.Thread(target=work, args=(i,)) for i in range(8)]
    for thread in threads:
        thread.start()
    for thread in threads:
        thread.join()
    assert all(np.array_equal(wanted, x) for x in got)


def test_refusals_pass_between_processes():
    with pytest.raises(pa.Refused) as refused:
        pa.Grid([(2, "P")]).words()
    again = pickle.loads(pickle.dumps(refused.value))
    assert (again.number, again.place, again.sentence) == (8, 0, "axis 0 has 2 cells; a closed axis needs 3")
    assert str(again) == "refused 8: axis 0 has 2 cells; a closed axis needs 3"


SENTENCES = [
    (1, lambda: pa.Complex(list(range(5)), 4), "the cells have dimension 4; it must be 0 to 3"),
    (1, lambda: pa.Grid([(3, "P")] * 4).words(), "the grid has 4 axes; it must have 1 to 3"),
    (1, lambda: pa.Grid.klein(3, (1.0,)), "a Klein bottle has 1 sides; it needs 2"),
    (2, lambda: pa.Complex([], 2), "there are no cells; give at least one word"),
    (2, lambda: pa.Complex([0, 1], 2), "the words have 2 numbers, no multiple of 3; a cell of dimension 2 has 3 vertices"),
    (3, lambda: pa.Complex([[0]] * 4097), "there are 4,097 cells; at most 4,096 are taken"),
    (3, lambda: pa.Complex([[0, 1, 2]]).refine(64).complex.refine(2), "refined by 2 each cell becomes 4; at most 4,096 are taken"),
    (4, lambda: pa.Complex([[0, 1, 2], [1, 2, 2]]), "word 1 is (1, 2, 2), which names vertex 2 twice; a cell needs 3 different vertices"),
    (5, lambda: pa.Complex([[0, 1, 3]]), "no cell has vertex 2, though 3 is there; number the vertices from 0 on without gaps"),
    (6, lambda: pa.Complex([[0, 4096]]), "there is a vertex 4,096; at most 4,096 vertices are taken, numbered from 0 on"),
    (7, lambda: pa.Complex([[0, 1, 2], [0, 1, 3], [0, 1, 4]]), "facet (0, 1) lies in 3 cells; a facet may lie in two"),
    (8, lambda: pa.Grid([(3, "P"), (0, "O")]).words(), "axis 1 has 0 cells; an open axis needs 1"),
    (8, lambda: pa.Grid.torus(2, (1.0, 1.0)), "axis 0 has 2 cells; a closed axis needs 3"),
    (9, lambda: pa.Grid([(3, "T0")]).words(), "axis 0 reflects itself; it may reflect the other axes only"),
    (9, lambda: pa.Grid([(3, "T4"), (3, "P")]).words(), "axis 0 reflects axis 4, and the grid has axes 0 to 1"),
    (10, lambda: pa.Grid.torus(3, (1.0, -1.0)), "side 1 is -1.0; it must be a number from 2**-100 to 2**100"),
    (10, lambda: pa.Grid([(3, "P")]).edge_lengths_sq(), "axis 0 has no side; give one length for each axis"),
    (11, lambda: pa.Complex([[0, 1, 2]]).refine(65), "R is 65; it must be from 1 to 64"),
    (12, lambda: pa.Complex([[0, 1, 2]]).refine(2).child(4), "there is no child 4; there are 4"),
    (14, lambda: pa.Complex([[0, 1, 2]]).orient_by([1, 1]), "there are 2 signs for 1 cells; give one for each"),
    (14, lambda: pa.Complex([[0, 1, 2]]).orient_by([0]), "sign 0 is 0; a sign is 1 or -1"),
]


@pytest.mark.parametrize("number, wrong, sentence", SENTENCES)
def test_sentences(number, wrong, sentence):
    with pytest.raises(pa.Refused) as refused:
        wrong()
    assert (refused.value.number, refused.value.sentence) == (number, sentence)


@pytest.mark.parametrize("wrong", [lambda: pa.Grid([(-1, "P")]), lambda: pa.Grid([(3, "X")]), lambda: pa.Complex([[0.5, 1.0]]), lambda: pa.Complex([[-1, 1]]),
                                   lambda: pa.Complex([0, 1]), lambda: pa.Complex([[0, 1]]).refine(1.5), lambda: pa.Grid.parse("2 3 P")])
def test_what_is_no_number_is_an_error(wrong):
    with pytest.raises((ValueError, TypeError)):
        wrong()
