"""The pictures of docs/pictures, each from the library's own output. Usage: drawing.py FOLDER"""
import sys

import matplotlib
import numpy as np
import pampilussa as pa

matplotlib.use("Agg")
import matplotlib.pyplot as plt          # noqa: E402
from matplotlib.collections import PolyCollection          # noqa: E402
from mpl_toolkits.mplot3d.art3d import Poly3DCollection          # noqa: E402

BLUE, ORANGE, GREY, RED, INK = "#6b9bc7", "#eb9b54", "#e4e4e0", "#b5362c", "#333333"


def kept(figure, path):
    """The picture in few colours, so that it stays small."""
    figure.savefig(path, dpi=80, bbox_inches="tight", facecolor="white")
    plt.close(figure)
    try:
        from PIL import Image
    except ImportError:
        return
    with Image.open(path) as picture:
        few = picture.convert("RGB").quantize(96, dither=Image.Dither.NONE)
    few.save(path, optimize=True)


def islands(corners, chosen, wrong, path):
    """The survey on the map frame: what it touches, and what two plain longitudes would make of it."""
    figure, frames = plt.subplots(2, 1, figsize=(9, 6.4))
    for frame, cells, title in ((frames[0], chosen, "the joined band: %d cells, one piece across 180°" % chosen.sum()),
                                (frames[1], wrong, "longitudes taken for numbers, from −170 to 170: %d cells, all the wrong ones" % wrong.sum())):
        frame.add_collection(PolyCollection(corners, facecolors=[ORANGE if c else GREY for c in cells], edgecolors="white", linewidths=0.6))
        for end in (-180, 180):
            frame.axvline(end, color=RED, lw=2)
        frame.set(xlim=(-183, 183), ylim=(-62, 62), title=title, xticks=range(-180, 181, 60), yticks=(-60, -30, 0, 30, 60))
        frame.set_aspect("equal")
        frame.tick_params(labelsize=8)
    figure.tight_layout()
    kept(figure, path)


def seam(path):
    """A ring and a Moebius band with the edges where the ends are joined."""
    figure = plt.figure(figsize=(10, 4.2))
    for place, (line, turns, title) in enumerate((("2 24 P 3 O", 0.0, "P: ends joined"), ("2 24 T1 3 O", 0.5, "T1: joined with a half turn"))):
        band = pa.Grid.parse(line)
        flat = band.cut()
        u, v = flat.points()[:, 0] / 24 * 2 * np.pi - 0.9, (flat.points()[:, 1] / 3 - 0.5) * 0.9
        tilt = turns * (u + 0.9) + np.pi / 2 if turns else np.full_like(u, np.pi / 2)
        where = np.stack([(1 + v * np.cos(tilt)) * np.cos(u), (1 + v * np.cos(tilt)) * np.sin(u), v * np.sin(tilt)], axis=1)
        frame = figure.add_subplot(1, 2, place + 1, projection="3d", computed_zorder=False)
        words = flat.words()
        frame.add_collection3d(Poly3DCollection(where[words], facecolors=[BLUE if i % 2 else "#a9c6de" for i in range(len(words))], edgecolors="white", linewidths=0.4))
        start = np.array([flat.point(0, y) for y in range(4)])
        glued = {band.reduce(int(p)) for p in start}
        assert glued == {band.reduce(flat.point(24, y)) for y in range(4)}          # both ends become the same vertices
        frame.plot(*(where[start] * 1.01).T, color=RED, lw=5, zorder=9)
        frame.set(xlim=(-1.05, 1.05), ylim=(-1.05, 1.05), zlim=(-0.75, 0.75))
        frame.set_title("%s\n%d cells, %d vertices" % (title, band.complex().ncells, band.nvertices), fontsize=11, y=0.96)
        frame.set_box_aspect((1, 1, 0.62), zoom=1.12)
        frame.view_init(28, -62)
        frame.set_axis_off()
    kept(figure, path)


def orientation(path):
    """The coherent signs of a torus, as arrows round each triangle on the unfolded sheet."""
    torus = pa.Grid([(6, "P"), (4, "P")])
    flat, whole = torus.cut(), torus.complex()
    signs = {tuple(cell): sign for cell, sign in zip(whole.cells.tolist(), whole.orientation())}
    corners = flat.points()[flat.words()]
    figure, frame = plt.subplots(figsize=(7.4, 5.2))
    colours = []
    for word, where in zip(torus.words(), corners):
        order = np.argsort(word, kind="stable")
        turn = np.sign(np.linalg.det(where[order][1:] - where[order][0])) * signs[tuple(sorted(word.tolist()))]
        colours.append(BLUE if signs[tuple(sorted(word.tolist()))] > 0 else ORANGE)
        middle = where.mean(axis=0)
        angles = np.linspace(0.3, 5.3, 24) * turn
        ring = middle + 0.13 * np.stack([np.cos(angles), np.sin(angles)], axis=1)
        frame.plot(*ring[:-1].T, color=INK, lw=1)
        frame.annotate("", ring[-1], ring[-3], arrowprops=dict(arrowstyle="->", color=INK, lw=1))
    frame.add_collection(PolyCollection(corners, facecolors=colours, edgecolors="white", linewidths=1.2, zorder=0))
    for point, where in enumerate(flat.points()):
        frame.annotate(str(torus.reduce(point)), where, fontsize=8, ha="center", va="center", bbox=dict(boxstyle="circle,pad=0.15", fc="white", ec=GREY))
    frame.set(xlim=(-0.25, 6.25), ylim=(-0.25, 4.25), title="a torus of 6 by 4 boxes, unfolded: equal numbers are one vertex\nblue +, orange −: with these signs every cell is read the same way round")
    frame.title.set_size(9)
    frame.set_aspect("equal")
    frame.set_axis_off()
    kept(figure, path)


def refined(path):
    """A triangle refined by 4, its children coloured by the sign of their Jacobian."""
    fine = pa.Complex([[0, 1, 2]]).refine(4)
    where = fine.positions(np.array([[0, 0], [4, 0], [2, 3.4]]))
    signs = np.linalg.det(fine.wholes)
    figure, frame = plt.subplots(figsize=(6, 4.9))
    frame.add_collection(PolyCollection(where[fine.cells], facecolors=[BLUE if s > 0 else ORANGE for s in signs], edgecolors="white", linewidths=1.5))
    for number, middle in enumerate(where[fine.cells].mean(axis=1)):
        frame.annotate(str(number), middle, fontsize=9, color=INK, ha="center", va="center")
    for vertex, place in enumerate(where):
        frame.annotate(str(vertex), place, fontsize=8, ha="center", va="center", bbox=dict(boxstyle="circle,pad=0.15", fc="white", ec=INK if vertex < 3 else GREY))
    frame.set(xlim=(-0.3, 4.3), ylim=(-0.3, 3.7), title="one triangle by 4: 16 children, blue where the Jacobian is positive (%d), orange where not (%d)" % ((signs > 0).sum(), (signs < 0).sum()))
    frame.title.set_size(9)
    frame.set_aspect("equal")
    frame.set_axis_off()
    kept(figure, path)


def main(folder):
    seam(folder + "/seam.png")
    orientation(folder + "/orientation.png")
    refined(folder + "/refined.png")


if __name__ == "__main__":
    main(sys.argv[1])
