"""Document 01's rules, written down once more and independently of the Rattle code: what is refused, in which order, and how long every list is.

Values come from the Rust wherever it answers; this model decides where the Rust has no limits, panics, or has no such list."""
import math
import struct
from functools import lru_cache
from itertools import combinations, permutations

CELLS, VERTICES, MOST_D, MOST_R, NO_VERTEX = 4096, 4096, 3, 64, 4294967295
LEAST_SIDE, MOST_SIDE = 2.0 ** -100, 2.0 ** 100
PERIODIC, TWISTED = 256, 512          # how an axis is glued, as one number; 0 is open


def bits(x):
    return struct.unpack("<Q", struct.pack("<d", x))[0]


def unbits(n):
    return struct.unpack("<d", struct.pack("<Q", n))[0]


# ---- cell lists

def chunks(ws, n):
    return [tuple(ws[i:i + n]) for i in range(0, len(ws), n)]


def colex(w):
    return tuple(reversed(w))


def check_cells(d, ws):
    """1, 2, 3, 4, 6, 5: the refusal, or None."""
    if d > MOST_D:
        return (1, 0)
    n = d + 1
    if not ws or len(ws) % n:
        return (2, 0)
    if len(ws) // n > CELLS:
        return (3, 0)
    for k, w in enumerate(chunks(ws, n)):
        if len(set(w)) < n:
            return (4, k)
    top = max(ws)
    if top >= VERTICES:
        return (6, 0)
    used = set(ws)
    for v in range(top):
        if v not in used:
            return (5, v)
    return None


def cells_of(d, ws):
    return sorted({tuple(sorted(w)) for w in chunks(ws, d + 1)}, key=colex)


def facet_rows(cells):
    """facet -> [(cell, dropped position)], the facets in colex order"""
    rows = {}
    for c, w in enumerate(cells):
        if len(w) > 1:
            for i in range(len(w)):
                rows.setdefault(w[:i] + w[i + 1:], []).append((c, i))
    return dict(sorted(rows.items(), key=lambda r: colex(r[0])))


def crowded(rows):
    return any(len(r) > 2 for r in rows.values())


def edges_of(cells):
    return sorted({(w[i], w[j]) for w in cells for j in range(len(w)) for i in range(j)}, key=colex)


def coherent(rows, signs):
    return all(len(r) < 2 or signs[r[0][0]] * (-1) ** r[0][1] == -signs[r[1][0]] * (-1) ** r[1][1] for r in rows.values())


def word_sign(w):
    return -1 if sum(w[i] > w[j] for j in range(len(w)) for i in range(j)) % 2 else 1


def order_of(d, cells, order):
    """The order's words by cell, or None where 16 is given."""
    if len(order) != len(cells) * (d + 1):
        return None
    by = {}
    for w in chunks(order, d + 1):
        by.setdefault(tuple(sorted(w)), []).append(w)
    if any(len(by.get(c, ())) != 1 for c in cells):
        return None
    return [by[c][0] for c in cells]


def agrees(cells, rows, words):
    def reading(c, i):
        return tuple(v for v in words[c] if v != cells[c][i])
    return all(len(r) < 2 or reading(*r[0]) == reading(*r[1]) for r in rows.values())


# ---- grids: d, axes as count and gluing in turn, sides as bit patterns

def kind(glue):
    return min(glue // 256, 2)


def mask(glue):
    """the set that a gluing reflects; from 256 on it names an axis that no grid has"""
    return glue - TWISTED if kind(glue) == 2 else 0


def axis(axes, i):
    """count and gluing of axis i; one that is not there is open and has no cell"""
    return (axes[2 * i] if 2 * i < len(axes) else 0, axes[2 * i + 1] if 2 * i + 1 < len(axes) else 0)


def side(sides, i):
    return unbits(sides[i]) if i < len(sides) else 0.0


def bad_side(d, sides):
    for i in range(d):
        s = side(sides, i)
        if not LEAST_SIDE <= s <= MOST_SIDE:
            return (10, i)
    return None


def check_grid(d, axes, sides=None, longest=None):
    """1, 10 (where there are sides), 9, 8, 3, 6; `longest` above 4,096 gives 3"""
    if not 1 <= d <= MOST_D:
        return (1, 0)
    if sides is not None:
        bad = bad_side(d, sides)
        if bad:
            return bad
    for i in range(d):
        m = mask(axis(axes, i)[1])
        if m >> i & 1 or m >> d:
            return (9, i)
    for i in range(d):
        n, g = axis(axes, i)
        if n < (3 if kind(g) else 1):
            return (8, i)
    boxes = vertices = 1
    for i in range(d):
        n, g = axis(axes, i)
        boxes *= n
        vertices *= n if kind(g) else n + 1
    if boxes * math.factorial(d) > CELLS or (longest is not None and longest > CELLS):
        return (3, 0)
    if vertices > VERTICES:
        return (6, 0)
    return None


def glued_count(d, axes):
    r = 1
    for i in range(d):
        n, g = axis(axes, i)
        r *= n if kind(g) else n + 1
    return r


def points(d, axes):
    r = 1
    for i in range(d):
        r *= axis(axes, i)[0] + 1
    return r


def reduce(d, axes, v):
    ns = [axis(axes, i)[0] for i in range(d)]
    gs = [axis(axes, i)[1] for i in range(d)]
    if v >= points(d, axes):
        return NO_VERTEX
    c = []
    for n in ns:
        c.append(v % (n + 1))
        v //= n + 1
    wrapped = [i for i in range(d) if kind(gs[i]) and c[i] == ns[i]]
    for i in wrapped:
        for j in range(d):
            if mask(gs[i]) >> j & 1:
                c[j] = ns[j] - c[j]
    r, unit = 0, 1
    for i in range(d):
        closed = kind(gs[i]) > 0
        r += unit * (c[i] % ns[i] if closed else c[i])
        unit *= ns[i] if closed else ns[i] + 1
    return r


def preserving(d, axes):
    return all(bin(mask(axis(axes, i)[1])).count("1") % 2 == 0 for i in range(d))


def grid_cells(d, axes):
    """the unglued cells, sorted"""
    ns = [axis(axes, i)[0] for i in range(d)]
    step = [1]
    for n in ns[:-1]:
        step.append(step[-1] * (n + 1))
    out = []

    def boxes(i, at):
        if i == d:
            for order in permutations(range(d)):
                w = [at]
                for a in order:
                    w.append(w[-1] + step[a])
                out.append(tuple(w))
            return
        for c in range(ns[i]):
            boxes(i + 1, at + c * step[i])
    boxes(0, 0)
    return sorted(out, key=colex)


def counts_from(sides, floors, longest):
    big = max(sides)
    out = []
    for s, floor in zip(sides, floors):
        x = s / big * float(longest)
        n = math.floor(x)
        n += 1 if x - n >= 0.5 else 0
        out.append(max(n, 1, floor))
    return out


def grid_text(d, axes, sides=None):
    """the grid as the oracle reads it"""
    def glue(g):
        return ("O", "P", "T" + "".join(str(j) for j in range(8) if mask(g) >> j & 1))[kind(g)]
    t = "%d " % d + " ".join("%d %s" % (axis(axes, i)[0], glue(axis(axes, i)[1])) for i in range(d))
    if sides is not None:
        t += " | " + " ".join("x%016x" % sides[i] for i in range(d))
    return t


def words_of(d, axes):
    """the glued words, in the order of the sorted grid cells"""
    table = [reduce(d, axes, v) for v in range(points(d, axes))]
    return [tuple(table[v] for v in w) for w in grid_cells(d, axes)]


def edge_values(d, axes, sides):
    """glued edge -> the squared lengths met for it, in visiting order"""
    ns = [axis(axes, i)[0] for i in range(d)]
    spacing = [side(sides, i) / float(ns[i]) for i in range(d)]
    table = [reduce(d, axes, v) for v in range(points(d, axes))]

    def place(v):
        out = []
        for n in ns:
            out.append(v % (n + 1))
            v //= n + 1
        return out
    met = {}
    for w in grid_cells(d, axes):
        for k in range(d + 1):
            for i in range(k):
                p, q = place(w[i]), place(w[k])
                total = 0.0
                for a in range(d):
                    x = float(abs(q[a] - p[a])) * spacing[a]
                    total = total + x * x if a else x * x
                u, v = table[w[i]], table[w[k]]
                met.setdefault((min(u, v), max(u, v)), []).append(total)
    return met


def length_of(values):
    """("length", x), or ("clash", earlier, later) of the first two that clash"""
    known = values[0]
    for later in values[1:]:
        if not abs(known - later) <= 1e-12 * later:
            return ("clash", known, later)
        known = later
    return ("length", known)


# ---- refinement

@lru_cache(maxsize=64)
def lattice_children(d, r):
    """for each child of a cell, for each of its corners, the weights over the places of the cell's word"""
    orders = [tuple(reversed(o)) for o in permutations(range(d))]       # the Rust's sequence
    out = []

    def weights(s):
        return tuple((r if i == 0 else s[i - 1]) - (s[i] if i < d else 0) for i in range(d + 1))

    for base in ([()] if d == 0 else product_axis_0_fastest(r + 1, d)):
        for order in orders:
            s, chain = list(base), [tuple(base)]
            for a in order:
                s[a] += 1
                chain.append(tuple(s))
            if all(r >= (p[0] if d else 0) and all(p[k] >= p[k + 1] for k in range(d - 1)) for p in chain):
                out.append([weights(p) for p in chain])
    return out


def product_axis_0_fastest(n, d):
    for k in range(n ** d):
        yield tuple(k // n ** i % n for i in range(d))


class Refined:
    """births: the supports of the new vertices, ((vertex, weight), ..) with the vertices rising. cells, words, parents, jacobians stand in the colex order of
    the refined cells; a whole-number Jacobian is d*d numbers by column."""

    def __init__(self, d, cells, words, r):
        coarse = max(v for w in cells for v in w) + 1
        number, self.births, rows = {}, [], []
        pattern = lattice_children(d, r)
        for parent, word in enumerate(words):
            for child in pattern:
                corners = []
                for ws in child:
                    support = tuple(sorted((v, w) for v, w in zip(word, ws) if w))
                    if len(support) == 1:
                        v = support[0][0]
                    elif support in number:
                        v = number[support]
                    else:
                        v = number[support] = coarse + len(self.births)
                        self.births.append(support)
                    corners.append((v, dict(support)))
                sorted_corners = sorted(corners, key=lambda c: c[0])
                places = cells[parent][1:]
                jacobian = [sorted_corners[j + 1][1].get(p, 0) - sorted_corners[0][1].get(p, 0) for j in range(d) for p in places]
                shares = [(sorted_corners[j + 1][1].get(p, 0), sorted_corners[0][1].get(p, 0)) for j in range(d) for p in places]
                rows.append((tuple(c[0] for c in sorted_corners), tuple(c[0] for c in corners), parent, jacobian, shares))
        rows.sort(key=lambda row: colex(row[0]))
        self.coarse, self.r = coarse, r
        self.cells = [row[0] for row in rows]
        self.words = [row[1] for row in rows]
        self.parents = [row[2] for row in rows]
        self.jacobians = [row[3] for row in rows]
        self.floats = [[share(a, r) - share(b, r) for a, b in row[4]] for row in rows]


def share(weight, r):
    return float(weight) * (1.0 / float(r))


def refinement_count(d, cells, r):
    """how many new vertices a refinement has: supports with two or more vertices, over all faces"""
    total = 0
    for k in range(1, d + 1):
        faces = set()
        for w in cells:
            faces.update(combinations(w, k + 1))
        total += len(faces) * math.comb(r - 1, k)
    return total
