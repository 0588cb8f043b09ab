"""Islands across 180 degrees: a survey from 170 degrees east to 170 degrees west becomes the cells that it touches.

The band goes round the earth between 60 degrees south and north in boxes of 10 degrees, its ends joined at 180 degrees. A survey that runs across that meridian is two
short pieces in longitudes; taken as one interval from -170 to 170 it is all the rest of the world instead. Usage: islands.py [PICTURE]"""
import sys

import numpy as np
import pampilussa as pa

STEP, SOUTH, NORTH = 10, -60, 60
band = pa.Grid([(360 // STEP, "P"), ((NORTH - SOUTH) // STEP, "O")])
flat = band.cut()                                     # row i of its words: cell i before its ends were joined
corners = flat.points()[flat.words()] * STEP + [-180, SOUTH]


def touched(west, east, south, north):
    """Which cells have a point inside the survey, going east from west to east across 180 degrees where that is the way."""
    low, high = corners.min(axis=1), corners.max(axis=1)
    width = (east - west) % 360
    start = (low[:, 0] - west) % 360                  # how far east of the survey's west end a cell begins
    along = (start < width) | (start + STEP > 360)
    return along & (low[:, 1] < north) & (high[:, 1] > south)


def pieces(words):
    """How many pieces hang together over common edges."""
    numbers, flat_words = np.unique(words, return_inverse=True)
    facets = pa.Complex(flat_words.reshape(words.shape)).facets()
    root = list(range(len(words)))

    def find(cell):
        while root[cell] != cell:
            cell = root[cell]
        return cell

    for one, other in facets.cells:
        if other != pa.NO_CELL:
            root[find(int(one))] = find(int(other))
    return sum(root[cell] == cell for cell in range(len(words)))


chosen = touched(170, -170, -30, 0)
wrong = (corners[:, :, 0].min(axis=1) < 170) & (corners[:, :, 0].max(axis=1) > -170) & (corners[:, :, 1].min(axis=1) < 0) & (corners[:, :, 1].max(axis=1) > -30)
print("cells in the band:", len(corners))
print("cells that the survey touches:", int(chosen.sum()))
print("between longitudes", sorted({(int(a), int(b)) for a, b in zip(corners[chosen, :, 0].min(axis=1), corners[chosen, :, 0].max(axis=1))}))
print("pieces on the sheet of paper:", pieces(flat.words()[chosen]))
print("pieces on the joined band:", pieces(band.words()[chosen]))
print("cells if -170 and 170 are taken for one interval:", int(wrong.sum()))

if len(sys.argv) > 1:
    import drawing
    drawing.islands(corners, chosen, wrong, sys.argv[1])
