"""Inputs: small ones all of them, random ones of every kind, damaged copies, and ones around each limit."""
from itertools import combinations, permutations, product

import model as m


def small_lists():
    """every short word list over a few vertices: all words one at a time, words without repeats in twos and threes, every set of sorted cells"""
    for d, top in ((0, 4), (1, 4), (2, 4), (3, 4)):
        yield d, []
        for w in product(range(top), repeat=d + 1):
            yield d, list(w)
            yield d, list(w) + [v for v in range(d + 1)]
    for d, top, most in ((0, 3, 4), (1, 3, 3), (1, 4, 2), (2, 3, 3), (2, 4, 2), (3, 4, 2)):
        words = list(permutations(range(top), d + 1))
        for k in range(2, most + 1):
            for ws in product(words, repeat=k):
                yield d, [v for w in ws for v in w]
    for d, top in ((1, 5), (2, 5), (3, 5)):
        cells = list(combinations(range(top), d + 1))
        for chosen in range(1, 1 << len(cells)):
            yield d, [v for i, w in enumerate(cells) if chosen >> i & 1 for v in w]


def one_sided():
    """complexes without coherent signs: bands, a bottle, the projective plane, a solid bottle, and each beside a two-sided piece"""
    band = [0, 1, 2, 1, 2, 3, 0, 1, 4, 0, 3, 4, 2, 3, 4]
    plane = [v for w in ("012", "023", "034", "045", "015", "124", "235", "134", "245", "135") for v in map(int, w)]
    found = [(2, band), (2, plane), (2, band + [5, 6, 7]), (2, [0, 1, 2] + [v + 3 for v in band])]
    for d, axes in ((2, [3, 512 + 2, 3, 256]), (2, [4, 512 + 2, 2, 0]), (3, [3, 512 + 2, 3, 256, 1, 0]), (3, [4, 512 + 4, 3, 256, 3, 256]), (1, [3, 256])):
        found.append((d, [m.reduce(d, axes, v) for w in m.grid_cells(d, axes) for v in w]))
    return found


def limit_lists():
    """word lists at and around the limits of document 01's table"""
    path = [v for k in range(4095) for v in (k, k + 1)]
    for d in (0, 1, 2, 3, 4, 5, 7, 2 ** 31, 2 ** 32 - 1):
        yield d, [0, 1, 2, 3]
        yield d, []
        yield d, list(range(12))
    for n in (4094, 4095, 4096, 4097):
        yield 0, list(range(n))
        yield 0, [0] * n
        yield 1, path[:2 * (n - 1)] if n <= 4096 else path + [4095, 4096]
        yield 1, [0, 1] * n
        yield 2, [0, 1, 2] * n
        yield 3, [3, 1, 2, 0] * n
    yield 1, path + [4095, 0]                       # a ring of 4,096 edges
    yield 1, path + [0, 4096]
    yield 1, [0, 4095]
    yield 1, [0, 4096]
    yield 1, [4096, 4096]
    yield 0, [2 ** 32 - 1]
    yield 0, [4095] + list(range(4095))
    yield 2, [v for k in range(4094) for v in (k, k + 1, k + 2)]                     # a strip of 4,094 triangles
    yield 3, [v for k in range(4093) for v in (k, k + 1, k + 2, k + 3)]
    yield 2, [v for k in range(1365) for v in (3 * k, 3 * k + 1, 3 * k + 2)]       # apart from each other
    yield 1, [v for k in range(1366) for v in (2 * k, 2 * k + 1)]
    yield 3, [v for k in range(1024) for v in range(4 * k, 4 * k + 4)]
    yield 2, [v for k in range(1, 100) for v in (0, k, k + 1)]                       # a fan
    yield 2, [0, 1, 2, 0, 1, 3, 0, 1, 4]                                           # document 01: 7
    yield 1, [0, 1, 0, 2, 0, 3]
    yield 1, [0, 1, 1, 0, 0, 1]                                                    # one cell named three times
    yield 2, [0, 0, 1]
    yield 2, [0, 1, 3]
    yield from one_sided()


def random_axes(rnd, d, most):
    """axes of a grid that is taken, of at most so many boxes"""
    while True:
        axes, boxes = [], 1
        for i in range(d):
            g = rnd.choice((0, 0, m.PERIODIC, m.PERIODIC, m.TWISTED))
            if g == m.TWISTED:
                g += rnd.randrange(8) & (1 << d) - 1 & ~(1 << i)
            n = rnd.choice((1, 1, 2, 2, 3, 3, 3, 4, 5, 6, 9)) if not g else rnd.choice((3, 3, 3, 4, 4, 5, 7))
            axes += [n, g]
            boxes *= n
        if boxes <= most and m.check_grid(d, axes) is None:
            return axes


def sheet(rnd, most):
    """the glued words of a random grid: spheres no, but bands, tori, bottles, and solids that are crowded"""
    d = rnd.choice((1, 2, 2, 2, 3))
    axes = random_axes(rnd, d, most)
    return d, [m.reduce(d, axes, v) for w in m.grid_cells(d, axes) for v in w]


def grown(rnd, most):
    """a complex grown cell by cell across free facets, to a new vertex or back to an old one"""
    d = rnd.choice((1, 2, 2, 3, 3))
    cells, count = [tuple(range(d + 1))], d + 1
    uses = {f: 1 for f in m.facet_rows(cells)}
    for _ in range(rnd.randrange(most)):
        free = [f for f, k in uses.items() if k == 1]
        if not free or rnd.random() < 0.05:
            new = tuple(range(count, count + d + 1))
        else:
            f = rnd.choice(free)
            v = count if rnd.random() < 0.5 else rnd.randrange(count)
            new = tuple(sorted(set(f) | {v}))
        if len(new) == d + 1 and new not in cells:
            cells.append(new)
            count = max(count, new[-1] + 1)
            for f in m.facet_rows([new]):
                uses[f] = uses.get(f, 0) + 1
    return d, [v for w in cells for v in w]


def loose(rnd, most):
    d = rnd.randrange(4)
    top = rnd.choice((d + 1, d + 2, d + 3, d + 5, 9))
    n = rnd.randrange(1, most)
    return d, [v for _ in range(n) for v in rnd.sample(range(top), d + 1)]


def mixed(rnd, d, ws):
    """words in any order, each in any order, some twice, the vertices renamed"""
    words = m.chunks(ws, d + 1)
    names = list(range(max(ws) + 1))
    if rnd.random() < 0.7:
        rnd.shuffle(names)
    if rnd.random() < 0.3:
        words += rnd.choices(words, k=rnd.randrange(1, 4))
    if rnd.random() < 0.7:
        rnd.shuffle(words)
    out = []
    for w in words:
        w = [names[v] for v in w]
        if rnd.random() < 0.6:
            rnd.shuffle(w)
        out += w
    return d, out


def damaged(rnd, d, ws):
    """one thing wrong, as often as not"""
    ws = list(ws)
    k = rnd.randrange(9)
    if k == 0 and ws:
        ws.pop(rnd.randrange(len(ws)))
    elif k == 1:
        ws.insert(rnd.randrange(len(ws) + 1), rnd.randrange(6))
    elif k == 2 and ws:
        ws[rnd.randrange(len(ws))] = rnd.choice((0, 1, max(ws) + 1, max(ws) + 2, 4095, 4096, 2 ** 31, 2 ** 32 - 1))
    elif k == 3 and ws:
        ws[rnd.randrange(len(ws))] = rnd.choice(ws)
    elif k == 4:
        d = rnd.choice((0, 1, 2, 3, 4, 5, 2 ** 32 - 1))
    elif k == 5:
        at = rnd.randrange(len(ws) + 1) // (d + 1) * (d + 1) if d < 4 else 0
        ws = ws[:at] + ws[at + d + 1:]
    elif k == 6 and len(ws) > d and d < 4:
        ws += [v + 1 for v in ws[:d + 1]]
    elif k == 7:
        old = rnd.randrange(max(ws) + 1) if ws else 0
        new = rnd.randrange(max(ws) + 1) if ws else 0
        ws = [new if v == old else v for v in ws]
    return d, ws


def random_list(rnd, most=24):
    d, ws = rnd.choice(one_sided()) if rnd.random() < 0.1 else rnd.choice((sheet, grown, grown, loose))(rnd, most)
    d, ws = mixed(rnd, d, ws)
    if rnd.random() < 0.35:
        d, ws = damaged(rnd, d, ws)
    return d, ws


def accepted_list(rnd, most=24):
    """a list of cells that passes its checks"""
    while True:
        d, ws = random_list(rnd, most)
        if m.check_cells(d, ws) is None:
            return d, ws


def order_for(rnd, d, cells):
    """an order: agreeing on facets (by ranks of the vertices), loose, or with one thing wrong"""
    rank = list(range(max(v for w in cells for v in w) + 1))
    rnd.shuffle(rank)
    words = [sorted(w, key=lambda v: rank[v]) for w in cells]
    k = rnd.random()
    if k < 0.35:
        for w in words:
            if rnd.random() < 0.3:
                rnd.shuffle(w)
    elif k < 0.5 and d > 0:                       # one word read otherwise
        w = rnd.choice(words)
        i = rnd.randrange(d)
        w[i], w[i + 1] = w[i + 1], w[i]
    if rnd.random() < 0.7:
        rnd.shuffle(words)
    flat = [v for w in words for v in w]
    if rnd.random() < 0.3:
        k = rnd.randrange(8)
        if k == 0:
            flat = flat[:-(d + 1)]
        elif k == 1:
            flat += flat[:d + 1]
        elif k == 2:
            flat = flat[:-1]
        elif k == 3:
            flat = []
        elif k == 4:
            flat[:d + 1] = flat[-(d + 1):]
        elif k == 5:
            flat[rnd.randrange(len(flat))] = rnd.choice((0, 1, 4096, 2 ** 32 - 1, 4095))
        elif k == 6:
            flat = flat + [0] * (d + 1) * 4097
        else:
            at = rnd.randrange(len(flat))
            flat[at] = rnd.choice(flat)
    return flat


def signs_for(rnd, cells, signs):
    """a caller's signs: the coherent ones where there are any, turned over, with one wrong, or no signs at all"""
    n = len(cells)
    out = list(signs) if signs is not None else [rnd.choice((1, -1)) for _ in range(n)]
    k = rnd.randrange(10)
    if k < 2:
        out = [-s for s in out]
    elif k < 4:
        i = rnd.randrange(n)
        out[i] = -out[i]
    elif k == 4:
        out = [rnd.choice((1, -1)) for _ in range(n)]
    elif k == 5:
        out[rnd.randrange(n)] = rnd.choice((0, 2, -2, 2 ** 31 - 1, -2 ** 31, 3))
    elif k == 6:
        out = out[:-1]
    elif k == 7:
        out = out + [1]
    return out


def refinement_for(rnd, d, cells):
    """a refinement number: mostly small, or as large as the limit of children allows and one more, or outside 1 to 64"""
    k = rnd.random()
    if k < 0.7:
        return rnd.choice((1, 2, 2, 3, 3, 4))
    if k < 0.8:
        return rnd.choice((0, 65, 2 ** 32 - 1, 64))
    most = next((r for r in range(64, 0, -1) if cells * r ** min(d, 3) <= (4096 if k > 0.995 else 100)), 1)
    return rnd.choice((most, most, most + 1))


# ---- grids

def small_grids():
    """every grid with few cells, all gluings, masks that reflect too much as well"""
    glues = [0, m.PERIODIC] + [m.TWISTED + k for k in range(4)]
    for n in range(6):
        for g in glues:
            yield 1, [n, g]
    for a, b in product(range(1, 4), repeat=2):
        for g, h in product(glues, repeat=2):
            yield 2, [a, g, b, h]
    three = [0, m.PERIODIC] + [m.TWISTED + k for k in range(8)]
    for g, h, k in product(three, repeat=3):
        yield 3, [3 if g else 1, g, 3 if h else 2, h, 3 if k else 1, k]


def limit_grids():
    for n in (4094, 4095, 4096, 4097, 2 ** 31, 2 ** 32 - 1):
        for g in (0, m.PERIODIC, m.TWISTED):
            yield 1, [n, g]
    for a, b in ((64, 32), (32, 64), (1, 2048), (2048, 1), (1, 2049), (45, 45), (46, 45), (3, 682), (3, 683), (2 ** 16, 2 ** 16), (2 ** 32 - 1, 2 ** 32 - 1), (2 ** 31, 2)):
        for g, h in ((0, 0), (m.PERIODIC, 0), (0, m.PERIODIC), (m.PERIODIC, m.PERIODIC), (m.TWISTED + 2, 0), (m.TWISTED + 2, m.TWISTED + 1)):
            yield 2, [a, g, b, h]
    for a, b, c in ((5, 8, 17), (2, 11, 31), (682, 1, 1), (683, 1, 1), (1, 1, 682), (3, 3, 75), (3, 3, 76), (8, 8, 10), (9, 9, 9), (2 ** 32 - 1,) * 3, (2 ** 22, 2 ** 21, 2 ** 21)):
        for g, h, k in ((0, 0, 0), (m.PERIODIC,) * 3, (m.TWISTED + 2, m.TWISTED + 4, 0), (m.TWISTED + 6, m.PERIODIC, m.PERIODIC)):
            yield 3, [a, g, b, h, c, k]
    for d in (0, 4, 5, 2 ** 32 - 1):
        yield d, [3, 256, 3, 256, 3, 256]
        yield d, []
    yield 2, [3, 256]                              # an axis that is not there
    yield 2, [3, 256, 4]
    yield 3, [3, 512 + 128, 3, 256 + 255, 3, 255]   # masks that count, and masks that do not
    for code in (1, 255, 257, 511, 767, 768, 769, 770, 771, 1024, 1026, 65536 + 514, 2 ** 31 + 512, 2 ** 32 - 256, 2 ** 32 - 1):   # gluings that no macro gives
        yield 1, [3, code]
        yield 2, [3, code, 3, 512]
        yield 2, [3, 512 + 2, 3, code]
        yield 2, [3, 512 + 2, 1, 0, 3, code]            # past d, where it is not looked at
        yield 3, [3, 256, 3, 512 + 4, 3, code]
        yield 2, [2, 256, 3, code]                      # 9 before 8


def random_grid(rnd):
    if rnd.random() < 0.75:
        d = rnd.choice((1, 2, 2, 3, 3))
        axes = random_axes(rnd, d, rnd.choice((12, 30, 60)))
    else:
        d = rnd.randrange(6)
        axes = []
        for i in range(rnd.randrange(8) // 2):
            axes += [rnd.choice((0, 1, 2, 3, 4, 5, 70, 4096)), rnd.choice((0, 256, 512, 512 + rnd.randrange(256), rnd.randrange(2 ** 32)))]
        if rnd.random() < 0.1:
            axes = axes[:-1]
    if rnd.random() < 0.1:
        axes = axes + [rnd.randrange(5) for _ in range(rnd.randrange(4))]
    return d, axes


EDGE_SIDES = [2.0 ** -100, 2.0 ** 100, 2.0 ** -101, 2.0 ** 101, 0.0, -0.0, -1.0, float("inf"), float("-inf"), float("nan"), 5e-324,
              m.unbits(m.bits(2.0 ** -100) - 1), m.unbits(m.bits(2.0 ** 100) + 1), m.unbits(m.bits(2.0 ** -100) + 1), m.unbits(m.bits(2.0 ** 100) - 1)]


def random_side(rnd):
    k = rnd.random()
    if k < 0.3:
        return float(rnd.randrange(1, 9))
    if k < 0.5:
        return rnd.uniform(0.1, 4.0)
    if k < 0.7:
        return rnd.choice((0.1, 0.2, 0.3, 1 / 3, 0.7, 1.1, 3.3, 1e-3))
    return rnd.uniform(1.0, 2.0) * 2.0 ** rnd.randrange(-100, 100)


def random_sides(rnd, d):
    """bit patterns of sides: mostly fine, some at the limits, some outside, some missing"""
    out = [random_side(rnd) for _ in range(max(d, 0) if d < 4 else 3)]
    if out and rnd.random() < 0.3:
        out[rnd.randrange(len(out))] = rnd.choice(EDGE_SIDES)
    if rnd.random() < 0.2:
        out += [rnd.choice(EDGE_SIDES)]
    if rnd.random() < 0.05:
        out = out[:-1]
    return [m.bits(x) for x in out]
