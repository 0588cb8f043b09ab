"""Files: mesh files there and back, the GeoJSON band, the pattern of a refined cell."""
import json

import numpy as np
import pampilussa as pa
import pampilussa._library as library
import pytest
from hypothesis import given, settings, strategies as st

SOME = settings(max_examples=200, deadline=None, derandomize=True)


@SOME
@given(st.integers(1, 3), st.integers(1, 4), st.integers(1, 3), st.integers(1, 3))
def test_mesh_files_come_back(d, r, one, other):
    fine = pa.Grid([(one, "O"), (other, "O"), (1, "O")][:d]).complex().refine(r)
    mesh = fine.mesh()
    again = pa.read_mesh(mesh.write())
    assert again.words.tolist() == mesh.words.tolist() and again.births == mesh.births and again.r == mesh.r
    assert again.write() == mesh.write()


@SOME
@given(st.binary(max_size=60))
def test_any_bytes_are_answered(data):
    try:
        mesh = pa.read_mesh(data)
        assert mesh.write() == data
    except pa.Refused as refused:
        assert refused.number in (1, 2, 3, 4, 5, 6, 7, 20, 21, 22) and len(refused.sentence) > 10


@SOME
@given(st.data())
def test_changed_files_are_answered(data):
    whole = bytearray(pa.Complex([[0, 1, 2], [1, 2, 3]]).refine(2).mesh().write())
    whole[data.draw(st.integers(0, len(whole) - 1))] = data.draw(st.integers(0, 255))
    try:
        assert pa.read_mesh(bytes(whole)).write() == bytes(whole)
    except pa.Refused as refused:
        assert refused.number != 12


def test_lists_that_are_no_file():
    for words, births, r in (([[1, 2], [0, 1]], [], 0), ([[0, 1]], [{0: 1}], 2), ([[0, 2], [2, 1]], [{0: 1, 1: 1}], 3)):
        with pytest.raises(pa.Refused) as refused:
            pa.write_mesh(words, births, r)
        assert refused.value.number == 22


@pytest.mark.skipif(not library.has("planner_geojson"), reason="the library has no map files")
def test_geojson():
    band = pa.Grid([(12, "P"), (4, "O")])
    data = band.geojson(-60, 60)
    features = json.loads(data)["features"]
    assert len(features) == 96 and data.endswith(b"\n")
    rings = np.array([f["geometry"]["coordinates"][0] for f in features])
    assert np.array_equal(rings[:, 0], rings[:, -1]) and (np.ptp(rings[:, :, 0], axis=1) == 30).all()
    cut = band.cut()
    corners = cut.points()[cut.words()] * [30, 30] + [-180, -60]
    assert np.allclose(np.sort(rings[:, :3].reshape(96, -1)), np.sort(corners.reshape(96, -1)))
    cells = band.complex().cells
    assert [sorted(cells[f["id"]].tolist()) for f in features] == [sorted(w) for w in band.words().tolist()]
    for grid, south, north, number in ((band, 60, 60, 19), (band, -91, 0, 19), (pa.Grid([(3, "T1"), (1, "O")]), 0, 1, 18), (pa.Grid([(2, "P"), (1, "O")]), 0, 1, 8)):
        with pytest.raises(pa.Refused) as refused:
            grid.geojson(south, north)
        assert refused.value.number == number


@pytest.mark.skipif(not library.has("planner_corners"), reason="the library has no patterns")
def test_corners():
    for d in range(4):
        for r in range(1, 5):
            pattern = pa.corners(d, r)
            assert pattern.shape == (r ** d, d + 1, d + 1) and (pattern.sum(axis=2) == r).all()
    for d, r, number in ((4, 2, 1), (2, 0, 11), (2, 65, 11), (3, 17, 3)):
        with pytest.raises(pa.Refused) as refused:
            pa.corners(d, r)
        assert refused.value.number == number
