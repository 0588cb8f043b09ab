"""Refine where more passes are needed, and queue the children by parent.

A coast survey of 8 by 4 boxes: near the reef every triangle needs more passes than a boat makes in one go. Those triangles are taken out, each is cut into 9 children, and
the children stand in the queue beside each other, parent by parent. Usage: passes.py"""
import numpy as np
import pampilussa as pa

sheet = pa.Grid([(8, "O"), (4, "O")], sides=(8.0, 4.0))
words, places = sheet.words(), sheet.points()
middles = places[words].mean(axis=1)
needed = np.where(np.hypot(middles[:, 0] - 3.0, middles[:, 1] - 2.0) < 1.2, 9, 1)       # passes, more around the reef
near = words[needed > 1]

old, new = np.unique(near, return_inverse=True)                                        # the vertices of the part, numbered without gaps
part = pa.Complex(new.reshape(near.shape))
fine = part.refine(3)
queue = np.argsort(fine.parents, kind="stable")
signs = part.orientation()

print("triangles:", len(words), "of them near the reef:", part.ncells)
print("children:", len(fine), "new vertices:", len(fine.births.weights))
print("first parents in the queue:", fine.parents[queue][:10].tolist())
print("children of parent 0:", fine.cells[queue[:9]].tolist())
print("every parent has its 9:", bool((np.bincount(fine.parents) == 9).all()))

# the parts fill the whole: the areas of a parent's children add up to the parent's
where = fine.positions(places[old])
area = np.abs(np.linalg.det(where[fine.cells][:, 1:] - where[fine.cells][:, :1])) / 2
print("area near the reef:", round(float(area.sum()), 12), "of", round(part.ncells * 0.5, 12))

# a parent's sign and the sign of a child's Jacobian give the child's own direction: nothing is computed anew
turned = np.sign(np.linalg.det(fine.jacobians)).astype(int)
print("children's directions fit together:", fine.complex.orient_by(signs[fine.parents] * turned))
