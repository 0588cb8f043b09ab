"""Plain computations to hold the library's answers to, written from the definitions and slow."""
from itertools import combinations, permutations


def cells_of(words):
    """Sorted words, colex, without repeats."""
    return sorted({tuple(sorted(w)) for w in words}, key=lambda c: c[::-1])


def faces_of(cells, size):
    """All faces with so many vertices, colex."""
    return sorted({f for c in cells for f in combinations(c, size)}, key=lambda f: f[::-1])


def facet_cells(cells):
    """To each facet its cells and the positions dropped there."""
    found = {}
    for number, cell in enumerate(cells):
        for i in range(len(cell)) if len(cell) > 1 else ():
            found.setdefault(cell[:i] + cell[i + 1:], []).append((number, i))
    return {f: found[f] for f in sorted(found, key=lambda f: f[::-1])}


def coherent(cells, signs):
    """Whether the signs are opposite on each facet of two cells."""
    return all(signs[a] * (-1) ** i == -signs[b] * (-1) ** j for sides in facet_cells(cells).values() if len(sides) == 2 for (a, i), (b, j) in [sides])


def signs_of(cells):
    """Coherent signs, +1 at the lowest cell of each piece, or None."""
    table, signs = facet_cells(cells), [0] * len(cells)
    sides = [s for s in table.values() if len(s) == 2]
    for start in range(len(cells)):
        if signs[start]:
            continue
        signs[start], changed = 1, True
        while changed:
            changed = False
            for (a, i), (b, j) in sides:
                for (x, p), (y, q) in (((a, i), (b, j)), ((b, j), (a, i))):
                    if signs[x] and not signs[y]:
                        signs[y], changed = -signs[x] * (-1) ** p * (-1) ** q, True
    return signs if coherent(cells, signs) else None


def reduced(axes, point):
    """The glued number of a grid point, by the rule's own steps."""
    where, left = [], point
    for count, _ in axes:
        where.append(left % (count + 1))
        left //= count + 1
    if left:
        return 0xFFFFFFFF
    wrapped = [a for a, (count, glue) in enumerate(axes) if glue != "O" and where[a] == count]
    for a in wrapped:
        for j in axes[a][1][1:]:
            where[int(j)] = axes[int(j)][0] - where[int(j)]
    number, stride = 0, 1
    for (count, glue), c in zip(axes, where):
        size = count + (glue == "O")
        number += stride * (c % count if glue != "O" else c)
        stride *= size
    return number


def grid_words(axes):
    """The words of a grid's cells, in the order of the sorted grid cells."""
    strides = [1]
    for count, _ in axes:
        strides.append(strides[-1] * (count + 1))
    corners = [0]
    for (count, _), stride in zip(axes, strides):
        corners = [base + k * stride for k in range(count) for base in corners]
    made = []
    for base in corners:
        for order in permutations(range(len(axes))):
            cell = [base]
            for a in order:
                cell.append(cell[-1] + strides[a])
            made.append(tuple(cell))
    return [tuple(reduced(axes, v) for v in cell) for cell in sorted(made, key=lambda c: c[::-1])]
