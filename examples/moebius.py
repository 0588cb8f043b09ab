"""A Moebius band: why orientation is refused.

Signs say for each triangle which way round its corners are read. Going round a ring they fit together; going round a Moebius band the last triangle meets the first with
the wrong sign, and the library says 13. Cut open, the same triangles have signs. Usage: moebius.py"""
import numpy as np
import pampilussa as pa


def walk(band):
    """The signs that a walk from cell to cell over common edges gives, and the edges on which they do not fit."""
    whole = band.complex()
    facets = whole.facets()
    inner = [(c, i) for c, i in zip(facets.cells.astype(np.int64), facets.dropped.astype(np.int64)) if c[1] != pa.NO_CELL]
    signs, found = {0: 1}, True
    while found:
        found = False
        for (a, b), (i, j) in inner:
            for x, y in ((a, b), (b, a)):
                if x in signs and y not in signs:
                    signs[y] = -signs[x] * (-1) ** int(i + j)
                    found = True
    return signs, [(int(a), int(b)) for (a, b), (i, j) in inner if signs[a] * (-1) ** int(i) == signs[b] * (-1) ** int(j)]


for name, line in (("ring", "2 6 P 1 O"), ("Moebius band", "2 6 T1 1 O"), ("the same, cut open", "2 6 O 1 O")):
    band = pa.Grid.parse(line)
    signs, misfits = walk(band)
    try:
        said = "signs " + "".join("+" if s > 0 else "-" for s in band.complex().orientation())
        assert not misfits
    except pa.Refused as refused:
        said = "refused %d, %s" % (refused.number, refused.sentence)
        assert misfits
    print("%s (%s): %s" % (name, line, said))
    print("  a walk over the edges leaves %d edges where the signs do not fit%s" % (len(misfits), ": " + str(misfits) if misfits else ""))
