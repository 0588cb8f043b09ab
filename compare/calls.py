"""For each call of the planner: what it must come to on an input, from the Rust where the Rust answers and from document 01 otherwise."""
import inputs
import model as m
from judge import Want


def need(d, n):
    """working lists of a call on a cell list with n corners"""
    return [max(1, d) * n, n, n, n]


def record_need(n):
    """working lists of a call that reads the facet records"""
    return [5 * n, n, n, n]


def text(ws, n):
    return ";".join(",".join(map(str, w)) for w in m.chunks(ws, n)) or "-"


def numbers(t):
    return [int(x) for x in t.split(",")] if t else []


def words(t):
    return [] if t == "-" else [v for w in t.split(";") for v in numbers(w)]


class Cells:
    """A cell list, its refusals, and the Rust's view of it."""

    def __init__(self, j, d, ws):
        self.d, self.ws = d, ws
        self.early = m.check_cells(d, ws)
        self.need = self.late = None
        if self.early is None:
            self.need = need(d, len(ws))
            self.cells = m.cells_of(d, ws)
            self.rows = m.facet_rows(self.cells)
            self.late = (7, 0) if m.crowded(self.rows) else None
            self.line = text(ws, d + 1)
            self.rust = j.rust.fields("cells " + self.line)
            j.agree("7 on " + self.line[:200], self.late is not None, self.rust is None)
            if self.late is None and self.rust is not None:
                j.agree("cells", [v for w in self.cells for v in w], words(self.rust["cells"]))

    def want(self, late=None, **more):
        if self.early or self.late:
            return Want(self.early, self.need, self.late)
        return Want(None, self.need, late, **more)

    def want_signs(self, late=None, **more):
        """the same of a call that reads the facet records"""
        want = self.want(late, **more)
        want.need = want.need and record_need(len(self.ws))
        return want

    @property
    def fine(self):
        return not self.early and not self.late


def signs_of(j, c):
    """the coherent signs as the Rust gives them, or None"""
    t = j.rust.fields("orient " + c.line)["signs"]
    return None if t == "none" else [1 if s == "+" else -1 for s in t]


def orientation(j, c):
    late, signs = None, []
    if c.fine:
        signs = signs_of(j, c)
        late = (13, 0) if signs is None else None
        if signs is not None:
            j.agree("coherent", m.coherent(c.rows, signs), True)
    j.call("planner_orientation", [c.d], [("u32", c.ws)], ["i32"], c.want_signs(late, value=len(signs or []), results=[("i32", signs or [])]))
    looks(j, c, late, signs or [])


def looks(j, c, late, signs):
    """the same with the facet looks of the walk, which the Rust's own walk counts"""
    if j.lacks("planner_orientation_looks"):
        return
    made = int(j.rust.fields("orient " + c.line)["looks"]) if c.fine else 0
    if c.fine and late is None:
        j.agree("looks", len(c.cells) * (c.d + 1 if c.d else 0), made)
    want = c.want_signs(late, value=len(signs), results=[("i32", signs)], tells=late == (13, 0))
    j.call("planner_orientation_looks", [c.d], [("u32", c.ws)], ["i32"], want, fixed=("u32", [made], 1))


def flat(words_):
    return [v for w in words_ for v in w]


def cells(j, c):
    out = flat(c.cells) if c.fine else []
    j.call("planner_cells", [c.d], [("u32", c.ws)], ["u32"], c.want(value=len(out) // (c.d + 1) if c.fine else 0, results=[("u32", out)]))


def edges(j, c):
    out = m.edges_of(c.cells) if c.fine else []
    if c.fine:
        j.agree("edges", str(len(out)), c.rust["edges"])
    w = c.want(value=len(out), results=[("u32", flat(out))])
    if c.need:
        w.need = edge_need(c.d, len(c.ws))
    j.call("planner_edges", [c.d], [("u32", c.ws)], ["u32"], w)


def edge_need(d, n):
    k = max(1, d) * n
    return [2 * k, k, k, k]


def facets(j, c):
    out, table = [], []
    if c.fine:
        for f, r in c.rows.items():
            out += f
            table += [x for row in r for x in row] + [m.NO_VERTEX] * (4 - 2 * len(r))
        told = ";".join("%s:%s" % (",".join(map(str, f)), ",".join(str(x[0]) for x in r)) for f, r in c.rows.items()) if c.d else "none"
        j.agree("facets", told, c.rust["facets"])
    j.call("planner_facets", [c.d], [("u32", c.ws)], ["u32", "u32"], c.want(value=len(table) // 4, results=[("u32", out), ("u32", table)]))


def border(j, c):
    out = [f for f, r in c.rows.items() if len(r) == 1] if c.fine else []
    if c.fine:
        j.agree("border", str(len(out)), c.rust["border"])
    j.call("planner_border", [c.d], [("u32", c.ws)], ["u32"], c.want(value=len(out), results=[("u32", flat(out))]))


def orient_by(j, c):
    """a caller's own signs"""
    if not c.fine:
        j.call("planner_orient_by", [c.d], [("u32", c.ws), ("i32", [1] * j.rnd.randrange(4))], [], c.want_signs())
        return
    signs = inputs.signs_for(j.rnd, c.cells, signs_of(j, c))
    late, yes = None, 0
    if len(signs) != len(c.cells) or any(x not in (1, -1) for x in signs):
        late = (14, 0)
    else:
        yes = int(c.d > 0 and m.coherent(c.rows, signs))
        j.agree("orient_by", "ok " + ("yes" if yes else "no"), j.rust.ask("orientby %s %s" % (c.line, "".join("+" if x == 1 else "-" for x in signs))))
    j.call("planner_orient_by", [c.d], [("u32", c.ws), ("i32", signs)], [], c.want_signs(late, value=yes))


YES = 1 << 31          # added to a count where the order agrees, or is handed out


def order_need(n):
    return [7 * n, n, n, n]


def triangulated_need(d, n):
    return [max(1, d) * n + 2 * n, n, n, n]


def ordering(j, c):
    if not c.fine:
        w = c.want()
        if c.need:
            w.need = order_need(len(c.ws))
        order = [j.rnd.randrange(5) for _ in range(j.rnd.randrange(9))]
        j.call("planner_ordering", [c.d], [("u32", c.ws), ("u32", order)], ["u32"], w)
        j.call("planner_induced_orientation", [c.d], [("u32", c.ws), ("u32", order)], [], w)
        return
    order = inputs.order_for(j.rnd, c.d, c.cells)
    by = m.order_of(c.d, c.cells, order)
    late, agree, induced = None, False, 0
    if by is None:
        late = (16, 0)
    else:
        agree = m.agrees(c.cells, c.rows, by)
        induced = int(c.d > 0 and m.coherent(c.rows, [m.word_sign(w) for w in by]))
        f = j.rust.fields("order %s %s" % (c.line, text(order, c.d + 1)))
        j.agree("order", [flat(by), agree, bool(induced)], [words(f["words"]), f["consistent"] == "yes", f["induced"] != "none"] if f and f["try"] == "yes" else None)
    w = c.want(late, value=len(c.cells) + (YES if agree else 0), results=[("u32", flat(by or []))])
    w.need = order_need(len(c.ws))
    j.call("planner_ordering", [c.d], [("u32", c.ws), ("u32", order)], ["u32"], w)
    w = c.want(late, value=induced)
    w.need = order_need(len(c.ws))
    j.call("planner_induced_orientation", [c.d], [("u32", c.ws), ("u32", order)], [], w)


# ---- refinement

REFINED = ["u32", "u32", "u32", "f64", "i32", "u32", "u32", "f64"]          # cells, words, parents, Jacobians twice, births: vertices, weights, shares


def refine_need(d, n, r):
    """the ten working lists of a refinement of words with n corners"""
    children = min(n // (d + 1) * (r if 1 <= r <= 64 else 1) ** d, 4096)
    corners = children * (d + 1)
    return [n, n, corners * (d + 1), 4 * n + 8 * corners, n + corners, n + corners, n + corners + 65, corners, children, n + corners]


def refined_lists(d, f):
    """the result lists of a refinement, from the model"""
    def wide(row, size, fill):
        return list(row) + [fill] * (size - len(row))
    jacobians = [m.bits(x) for row in f.floats for x in wide(row, 9, 0.0)]
    wholes = [x for row in f.jacobians for x in wide(row, 9, 0)]
    vertices = [x for b in f.births for x in wide([v for v, _ in b], d + 1, m.NO_VERTEX)]
    weights = [x for b in f.births for x in wide([w for _, w in b], d + 1, 0)]
    shares = [m.bits(x) for b in f.births for x in wide([m.share(w, f.r) for _, w in b], d + 1, 0.0)]
    return [flat(f.cells), flat(f.words), f.parents, jacobians, wholes, vertices, weights, shares]


def rust_lists(d, f):
    """the same from the Rust's answer, without the whole numbers"""
    births = [[p.split(":") for p in b.split(",")] for b in f["births"].split(";")] if f["births"] not in ("-", "") else []
    children = [c.split(":") for c in f["children"].split(";")]
    jacobians = [x for c in children for x in ([int(y, 16) for y in c[1].split(",")] if c[1] else []) + [0] * (9 - d * d)]
    vertices = [x for b in births for x in [int(v) for v, _ in b] + [m.NO_VERTEX] * (d + 1 - len(b))]
    shares = [x for b in births for x in [int(y, 16) for _, y in b] + [0] * (d + 1 - len(b))]
    return [words(f["cells"]), words(f["words"]), [int(c[0]) for c in children], jacobians, vertices, shares]


BOTH = ("", "_by_steps")                                                   # the pattern from the table where it has it, and by the stepping rule


def refinement(j, c, order, r, paths=BOTH[:1]):
    """one refinement, by the caller's words where there is an order"""
    name = "planner_refine" if order is None else "planner_refine_with"
    lists = [("u32", c.ws)] + ([] if order is None else [("u32", order)])
    need_ = refine_need(c.d, len(c.ws), r) if c.need else None
    late, results, vertices = c.late, [], 0
    if c.fine:
        by = c.cells if order is None else m.order_of(c.d, c.cells, order)
        if by is None:
            late = (16, 0)
        elif not 1 <= r <= 64:
            late = (11, 0)
        elif len(c.cells) * r ** c.d > 4096:
            late = (3, 0)
        elif m.refinement_count(c.d, c.cells, r) + max(c.ws) + 1 > 4096:
            late = (6, 0)
        else:
            f = m.Refined(c.d, c.cells, by, r)
            results, vertices = refined_lists(c.d, f), f.coarse + len(f.births)
            rust = j.rust.fields("refine %s %d" % (c.line, r) if order is None else "refinewith %s %s %d" % (c.line, text(order, c.d + 1), r))
            j.agree("refinement by %d of %s" % (r, c.line[:200]), [results[i] for i in (0, 1, 2, 3, 5, 7)] + [vertices],
                    rust_lists(c.d, rust) + [int(rust["nvertices"])] if rust else None)
    want = Want(c.early, need_, late, value=len(results[2]) if results else 0, results=list(zip(REFINED, results)))
    for path in paths:
        j.call(name + path, [c.d, r], lists, REFINED, want, fixed=("u32", [vertices] if results else [], 1))


def refine(j, c):
    """along the sorted vertices, and along an order"""
    if [name for name in ("planner_refine", "planner_refine_with") if j.lacks(name)]:
        return
    paths = BOTH if not [name for name in ("planner_refine_by_steps", "planner_refine_with_by_steps") if j.lacks(name)] else BOTH[:1]
    most = len(c.cells) if c.fine else 1
    r = inputs.refinement_for(j.rnd, c.d, most)
    refinement(j, c, None, r, paths)
    order = inputs.order_for(j.rnd, c.d, c.cells) if c.fine else [j.rnd.randrange(5) for _ in range(j.rnd.randrange(9))]
    refinement(j, c, order, r if j.rnd.random() < 0.5 else inputs.refinement_for(j.rnd, c.d, most), paths)


CELL_CALLS = [cells, edges, facets, border, orientation, orient_by, ordering]


# ---- grids

class Grid:
    """A grid with sides, its refusals, and the Rust's view of it."""

    def __init__(self, j, d, axes, sides):
        self.d, self.axes, self.sides = d, axes, sides
        self.early = m.check_grid(d, axes)
        self.early_with_sides = m.check_grid(d, axes, sides)
        self.text = self.rust = None
        if self.early is None:
            self.text = m.grid_text(d, axes, sides if self.early_with_sides is None else None)
            self.rust = j.rust.fields("grid " + self.text)
            self.words = m.words_of(d, axes)
            self.cells = m.cells_of(d, flat(self.words))
            self.rows = m.facet_rows(self.cells)
            self.late = (7, 0) if m.crowded(self.rows) else None
            j.agree("words of " + self.text, [flat(self.words), self.late is None], [words(self.rust["words"]), self.rust["pseudo"] == "yes"])


def reduce(j, g, v):
    value = 0
    if g.early is None:
        value = m.reduce(g.d, g.axes, v)
        if v < m.points(g.d, g.axes):
            j.agree("reduce %d of %s" % (v, g.text), value, numbers(g.rust["reduce"])[v])
    j.call("planner_reduce", [g.d, v], [("u32", g.axes)], [], Want(g.early, value=value))


def questions(j, g):
    count = parity = 0
    if g.early is None:
        count, parity = m.glued_count(g.d, g.axes), int(m.preserving(g.d, g.axes))
        j.agree("vertices of " + g.text, str(count), g.rust["nvertices"])
        j.agree("parity of " + g.text, parity, int(g.rust["preserving"] == "yes"))
    j.call("planner_nvertices", [g.d], [("u32", g.axes)], [], Want(g.early, value=count))
    j.call("planner_is_orientation_preserving", [g.d], [("u32", g.axes)], [], Want(g.early, value=parity))


def made(j, name, rust_line, d, n_or_longest, early, axes, numbers_, sides):
    """a maker: its grid against the Rust's, where it is taken"""
    if early is None and rust_line:
        f = j.rust.fields(rust_line)
        j.agree(rust_line, [",".join(str(a) for a in axes[::2][:d])], [f["counts"]] if f else None)
    full = (list(axes) + [0] * 6)[:6]
    j.call(name, numbers_, [("f64", sides)] if sides is not None else [], [], Want(early), fixed=("u32", full, 6))


def makers(j, d, sides, n, glues):
    x = " ".join("x%016x" % s for s in sides[:d])
    torus = [v for _ in range(min(d, 3)) for v in (n, m.PERIODIC)]
    made(j, "planner_torus", "maker torus %d %s" % (n, x), d, n, m.check_grid(d, torus, sides), torus, [d, n], sides)
    klein = [n, m.TWISTED + 2, n, m.PERIODIC]
    early = m.check_grid(2, klein, sides) if d == 2 else (1, 0)
    made(j, "planner_klein", "maker klein %d %s" % (n, x), 2, n, early, klein, [d, n], sides)
    c, w = (list(sides) + [m.bits(1.0)] * 2)[:2]
    early = m.bad_side(2, [c, w])
    band = [0] * 6
    if early is None:
        counts = m.counts_from([m.unbits(c), m.unbits(w)], [3, 1], n)
        band = [counts[0], m.TWISTED + 2, counts[1], 0]
        early = m.check_grid(2, band, [c, w], longest=n)
    made(j, "planner_moebius", "maker moebius x%016x x%016x %d" % (c, w, n), 2, n, early, band, [n, m.unbits(c), m.unbits(w)], None)
    early = (1, 0) if not 1 <= d <= 3 else m.bad_side(d, sides)
    quasi = [0] * 6
    if early is None:
        floors = [3 if m.kind(g) else 1 for g in glues[:d]]
        counts = m.counts_from([m.unbits(s) for s in sides[:d]], floors + [1] * (d - len(floors)), n)
        gs = (list(glues) + [0] * 3)[:3]
        quasi = [v for i in range(d) for v in (counts[i], gs[i])]
        early = m.check_grid(d, quasi, sides, longest=n)
        if early is None:
            quasi = [v for i in range(d) for v in (counts[i], canonical(gs[i]))]
    ids = " ".join(m.grid_text(d, quasi).split()[2::2]) if early is None else ""
    if early is None:
        f = j.rust.fields("maker quasi %d %d %s %s" % (n, d, ids, x))
        j.agree("quasi", ",".join(str(a) for a in quasi[::2]), f["counts"] if f else None)
    j.call("planner_quasi_uniform", [d, n], [("u32", glues), ("f64", sides)], [], Want(early), fixed=("u32", (quasi + [0] * 6)[:6], 6))


def canonical(g):
    """a gluing as it is handed out: the mask only where it counts"""
    return (0, m.PERIODIC, m.TWISTED + m.mask(g))[m.kind(g)]


def cell_words(j, g):
    if g.early is not None:
        want = Want(g.early)
    else:
        want = Want(None, need(g.d, len(g.words) * (g.d + 1)), g.late, value=len(g.words), results=[("u32", flat(g.words))])
    j.call("planner_cell_words", [g.d], [("u32", g.axes)], ["u32"], want)


def triangulate_ordered(j, g):
    want = Want(g.early)
    if g.early is None:
        order = []
        if g.late is None:
            by = m.order_of(g.d, g.cells, flat(g.words)) if len(g.words) == len(g.cells) else None
            order = flat(by) if by is not None and m.agrees(g.cells, g.rows, by) else []
            j.agree("order of " + g.text, bool(order), g.rust["ordering"] == "yes")
            if not g.rust["tri"].startswith("panic"):
                j.agree("triangulate_ordered of " + g.text, order, [] if g.rust["tri"] == "none" else words(g.rust["tri"]))
        want = Want(None, triangulated_need(g.d, len(g.words) * (g.d + 1)), g.late, value=len(g.cells) + (YES if order else 0),
                    results=[("u32", flat(g.cells)), ("u32", order)])
    j.call("planner_triangulate_ordered", [g.d], [("u32", g.axes)], ["u32", "u32"], want)


def lengths_need(g):
    n = len(g.words) * (g.d + 1) * g.d
    return [n, n, n, n]


def lengths(j, g):
    early = g.early_with_sides
    late, need_, out, settled = None, None, [], {}
    if early is None:
        met = m.edge_values(g.d, g.axes, g.sides)
        settled = {e: m.length_of(met[e]) for e in sorted(met, key=m.colex)}
        need_ = lengths_need(g)
        clash = any(s[0] == "clash" for s in settled.values())
        late = (15, 0) if clash else None
        out = [] if clash else [m.bits(s[1]) for s in settled.values()]
        j.agree("lengths of " + g.text, "clash" if clash else ",".join("%016x" % x for x in out),
                "clash" if g.rust["lengths"].startswith("panic") else g.rust["lengths"])
    lists = [("u32", g.axes), ("f64", g.sides)]
    j.call("planner_edge_lengths_sq", [g.d], lists, ["f64"], Want(early, need_, late, value=len(out), results=[("f64", out)]))
    asked = [(0, 0), (0, 1), (j.rnd.randrange(9), j.rnd.randrange(9)), (m.NO_VERTEX, 0)]
    asked += [e if j.rnd.random() < 0.5 else e[::-1] for e in j.rnd.sample(list(settled), min(3, len(settled)))]
    asked += [e for e, s in settled.items() if s[0] == "clash"][:2]
    for a, b in asked:
        value, squares = 0, []
        s = settled.get((min(a, b), max(a, b)))
        if s is not None:
            value, squares = (1, [m.bits(s[1])]) if s[0] == "length" else (2, [m.bits(s[1]), m.bits(s[2])])
        j.call("planner_edge_length_sq", [g.d, a, b], lists, [], Want(early, value=value), fixed=("f64", squares, 2))
