"""maps.py LIBRARY SEED COUNT: map files of every small band, of bands at the limits and of COUNT random grids and latitudes, byte for byte against a writer of its own that turns fractions into
decimals, sorts triangles and takes each cell's number from the glued cells; refusals in document 02's order, lists too short, and what every list holds afterwards. The last line is
'compared N requests, 0 differences'."""
import math
import random
import sys
from fractions import Fraction

import inputs
import model as m
from judge import Judge, Want
from port import Port


def decimals(f):
    """a fraction of a degree to six decimals, halves away from zero"""
    n = math.floor(abs(f) * 10 ** 6 + Fraction(1, 2))
    return "%s%d.%06d" % ("-" if f < 0 else "", n // 10 ** 6, n % 10 ** 6)


def triangles(columns, rows):
    """the grid cells of a flat grid as rising triples of (column, row), sorted as the words of their points sort"""
    out = []
    for r in range(rows):
        for c in range(columns):
            out += [((c, r), (c + 1, r), (c + 1, r + 1)), ((c, r), (c, r + 1), (c + 1, r + 1))]
    return sorted(out, key=lambda t: [(y, x) for x, y in reversed(t)])


def turned(t):
    """from the lowest point round counterclockwise, and back to it"""
    (ax, ay), (bx, by), (cx, cy) = t
    area = (bx - ax) * (cy - ay) - (cx - ax) * (by - ay)
    assert area
    return (t[0], t[1], t[2], t[0]) if area > 0 else (t[0], t[2], t[1], t[0])


def band_file(columns, rows, south, north):
    east = [decimals(Fraction(360 * c, columns) - 180) for c in range(columns + 1)]
    up = [decimals(south + Fraction((north - south) * r, rows)) for r in range(rows + 1)]
    cells = triangles(columns, rows)
    glued = [tuple(sorted(x % columns + columns * y for x, y in t)) for t in cells]
    number = {w: i for i, w in enumerate(sorted(set(glued), key=lambda w: w[::-1]))}
    features = ['{"type":"Feature","id":%d,"properties":{"cell":%d},"geometry":{"type":"Polygon","coordinates":[[%s]]}}' % (
        number[w], number[w], ",".join("[%s,%s]" % (east[x], up[y]) for x, y in turned(t))) for t, w in zip(cells, glued)]
    return ('{"type":"FeatureCollection","features":[%s]}\n' % ",".join(features)).encode()


def is_band(d, axes):
    return d == 2 and m.kind(axes[1]) and not m.mask(axes[1]) and not m.kind(axes[3])


class Maps(Judge):
    def map(self, d, axes, south, north):
        early, need, late, file = m.check_grid(d, axes), None, None, b""
        if not early:
            words = m.words_of(d, axes)
            n = len(words) * (d + 1)
            need = [d * n, n, n, n]
            if m.crowded(m.facet_rows(m.cells_of(d, [v for w in words for v in w]))):
                late = (7, 0)
            elif not is_band(d, axes):
                late = (18, 0)
            elif not -90 <= south < north <= 90:
                late = (19, 0)
            else:
                file = band_file(axes[0], axes[2], south, north)
                assert len(file) <= 43 + 276 * len(words)
        want = Want(early, need, late, value=len(file), results=[("u8", list(file))] if not early and not late else [])
        self.call("planner_geojson", [d, south, north], [("u32", axes)], ["u8"], want)


def main():
    library, seed, count = sys.argv[1], int(sys.argv[2]), int(sys.argv[3])
    rnd = random.Random(seed)
    j = Maps(Port(library), None, rnd)
    degrees = (-2 ** 31, -91, -90, -89, -60, -1, 0, 1, 7, 60, 89, 90, 91, 2 ** 31 - 1)
    for columns in range(2, 15):
        for rows in range(0, 9):
            for south, north in ((-90, 90), (0, 60), (-7, 3), (89, 90), (60, 60), (-91, 0)):
                j.map(2, [columns, m.PERIODIC, rows, 0], south, north)
    for axes in ([2048, m.PERIODIC, 1, 0], [1024, m.PERIODIC, 1, 0], [1024, m.PERIODIC, 2, 0], [3, m.TWISTED, 682, 0], [64, m.PERIODIC, 32, 0], [2049, m.PERIODIC, 1, 0], [3, m.PERIODIC, 683, 0]):
        for south, north in ((-90, 90), (-1, 1), (-90, -89)):
            j.map(2, axes, south, north)
    for south in degrees:
        for north in degrees:
            j.map(2, [3, m.PERIODIC, 1, 0], south, north)
    begun = j.requests
    while j.requests - begun < count:
        if rnd.random() < 0.6:
            d, axes = 2, [rnd.randrange(2, 40), rnd.choice((m.PERIODIC, m.PERIODIC, m.TWISTED)), rnd.randrange(0, 20), rnd.choice((0, 0, 0, 0, m.PERIODIC))]
        else:
            d = rnd.choice((0, 1, 2, 2, 3, 4))
            axes = inputs.random_axes(rnd, min(max(d, 1), 3), 600)
        south = rnd.choice((rnd.randrange(-95, 96), rnd.choice(degrees)))
        j.map(d, axes, south, rnd.choice((south + rnd.randrange(0, 40), rnd.randrange(-95, 96), rnd.choice(degrees))))
    print("answers:", dict(sorted(j.by_answer.items())))
    print("compared %d requests, %d differences" % (j.requests, j.differences))
    sys.exit(1 if j.differences or j.missing else 0)


if __name__ == "__main__":
    main()
