"""bench.py OURS RUST [count]: the same calls on the same inputs in the planner, in C written by hand (bench/peer.c) and in the Rust, at the limits, at a quarter and at a
sixteenth of their size. Prints a table for docs/PERFORMANCE.md, one line a call: the best of many runs of each, ours over the C's, the Rust's over ours, and how our time grows
from the sixteenth to the quarter and from the quarter to the whole, set to four times the cells (linear: about 4). With `count` instructions are counted instead, by valgrind:
the same whatever else the machine does."""
import re
import subprocess
import sys

sys.path.insert(0, sys.path[0] + "/../compare")
import model as m

P, O, T = m.PERIODIC, 0, m.TWISTED


def grid(*axes):
    return ("grid", len(axes) // 2, list(axes))


def listed(d, words):
    return ("words", d, [v for w in words for v in w])


def words_of(*axes):
    d = len(axes) // 2
    return listed(d, m.words_of(d, list(axes)))


def fan(n):
    return listed(2, [(0, k, k + 1) for k in range(1, n + 1)])


# name, and the input at the limit, at a quarter and at a sixteenth of it
GRIDS = [("2-D torus 64 x 32", grid(64, P, 32, P), grid(32, P, 16, P), grid(16, P, 8, P)),
         ("3-D torus 5 x 8 x 17", grid(5, P, 8, P, 17, P), grid(4, P, 6, P, 7, P), grid(3, P, 4, P, 4, P))]
LISTS = [("2-D torus 64 x 32", words_of(64, P, 32, P), words_of(32, P, 16, P), words_of(16, P, 8, P)),
         ("3-D torus 5 x 8 x 17", words_of(5, P, 8, P, 17, P), words_of(4, P, 6, P, 7, P), words_of(3, P, 4, P, 4, P)),
         ("fan of 4,094 triangles", fan(4094), fan(1023), fan(256))]
TRIANGLE, SOLID = listed(2, [(0, 1, 2)]), listed(3, [(0, 1, 2, 3)])
# the same, each with its R
REFINED = [("1-D, 2,047 edges, R 2", (words_of(2047, O), 2), (words_of(511, O), 2), (words_of(127, O), 2)),
           ("1-D, 63 edges, R 64", (words_of(63, O), 64), (words_of(63, O), 16), (words_of(63, O), 4)),
           ("2-D torus 32 x 16, R 2", (words_of(32, P, 16, P), 2), (words_of(16, P, 8, P), 2), (words_of(8, P, 4, P), 2)),
           ("one triangle, R 64", (TRIANGLE, 64), (TRIANGLE, 32), (TRIANGLE, 16)),
           ("3-D torus 3 x 4 x 7, R 2", (words_of(3, P, 4, P, 7, P), 2), (words_of(3, P, 7, P, 1, O), 2), (words_of(5, P, 1, O, 1, O), 2)),
           ("one tetrahedron, R 16", (SOLID, 16), (SOLID, 10), (SOLID, 6))]
GRID_CALLS = ["reduce", "crossing", "swath", "nvertices", "is_orientation_preserving", "cell_words", "triangulate_ordered", "edge_lengths_sq", "edge_length_sq",
              "chained_nvertices", "chained_classes", "chained_closed_classes", "chained_cell_words"]
LIST_CALLS = ["cells", "edges", "facets", "facet_records", "border", "orientation", "orientation_looks", "orient_by", "ordering", "facet_records_with", "induced_orientation", "drop_cells", "incidence", "faces", "boundary", "matrix_market"]
REFINE_CALLS = ["refine", "refine_with"]
NOT_IN_RUST = {"chained_nvertices", "chained_classes", "chained_closed_classes", "chained_cell_words", "facet_records", "facet_records_with", "crossing", "edge_length_sq", "orientation_looks", "drop_cells", "incidence", "faces", "boundary", "matrix_market", "corners", "corners_stepping", "refine_by_steps", "geojson", "need_refine"}
BY_STEPS = [("one triangle, R 4", (TRIANGLE, 4), (TRIANGLE, 2), (TRIANGLE, 1)), ("one tetrahedron, R 4", (SOLID, 4), (SOLID, 2), (SOLID, 1))]
STEP_CALLS = ["corners", "corners_stepping", "refine", "refine_by_steps", "need_refine"]
BANDS = [("band 2048 x 1", grid(2048, P, 1, O), grid(512, P, 1, O), grid(128, P, 1, O)), ("band 64 x 32", grid(64, P, 32, O), grid(32, P, 16, O), grid(16, P, 8, O))]
RUST_CALL = {"swath": "reduce"}                                 # all points in a loop
CONSTANT = {"nvertices", "is_orientation_preserving", "need_refine"}          # made a thousand times in one run: they do not grow


def coherent(d, ws):
    """the coherent signs, for the call that tests a caller's"""
    cells = m.cells_of(d, ws)
    rows, signs = m.facet_rows(cells), {0: 1}
    near = {}
    for row in rows.values():
        if len(row) == 2:
            (a, i), (b, k) = row[0][:2], row[1][:2]
            near.setdefault(a, []).append((b, i, k))
            near.setdefault(b, []).append((a, k, i))
    for start in range(len(cells)):
        signs.setdefault(start, 1)
        stack = [start]
        while stack:
            a = stack.pop()
            for b, i, k in near.get(a, []):
                if b not in signs:
                    signs[b] = -signs[a] * (-1) ** (i + k)
                    stack.append(b)
    return [signs[c] for c in range(len(cells))]


class Case:
    """a call on an input: the line for our program and the one for the Rust, and how many cells there are"""

    def __init__(self, call, value, r=0):
        kind, d, data = value
        signs = coherent(d, data) if call == "orient_by" else []
        grid_, words = (data, []) if kind == "grid" else ([], data)
        lists = [grid_, [1, 2, 3][:d] if kind == "grid" else [], words, words, [int(s > 0) for s in signs]]
        self.ours = " ".join([call, str(d), str(r)] + [" ".join(map(str, [len(x)] + x)) for x in lists])
        if kind == "grid":
            self.rust = "grid %s %s" % (RUST_CALL.get(call, call), m.grid_text(d, data, [m.bits(float(x)) for x in lists[1]]))
            self.cells = len(m.words_of(d, data))
        else:
            self.rust = "words %s %s" % (call, ";".join(",".join(map(str, w)) for w in m.chunks(words, d + 1)))
            self.rust += (" " + "".join("+" if s > 0 else "-" for s in signs) if signs else "") + (" %d" % r if r else "")
            self.cells = len(words) // (d + 1) * max(r, 1) ** d


def cases():
    """each call, its input's name, and its cases from the whole down"""
    for inputs, calls in ((GRIDS, GRID_CALLS), (BANDS, ["geojson"]), (LISTS, LIST_CALLS)):
        for name, *sizes in inputs:
            for call in calls:
                yield call, name, [Case(call, value) for value in sizes]
    for inputs, calls in ((REFINED, REFINE_CALLS), (BY_STEPS, STEP_CALLS)):
        for name, *sizes in inputs:
            for call in calls:
                yield call, name, [Case(call, value, r) for value, r in sizes]


def run(program, lines):
    p = subprocess.run([program], input="\n".join(lines) + "\n", capture_output=True, text=True)
    if p.returncode:
        sys.exit(program + ": " + p.stderr)
    return [[float(x) for x in line.split()] for line in p.stdout.splitlines()]


def counted(program, function, lines):
    """the instructions of one run of each line, in the function alone"""
    out = []
    for line in lines:
        tool = ["valgrind", "--tool=callgrind", "--callgrind-out-file=/dev/null", "--toggle-collect=" + function, program, "1"]
        p = subprocess.run(tool, input=line + "\n", capture_output=True, text=True)
        found = re.search(r"Collected : (\d+)", p.stderr)
        if p.returncode or not found:
            sys.exit(program + ": " + p.stderr)
        out.append([float(found[1]) / (1000 if CONSTANT & set(line.split()[:2]) else 1), 0])
    return out


def shown(ns):
    if "count" in sys.argv:
        return format(round(ns), ",")
    return "%.0f ns" % ns if ns < 1e3 else "%.1f us" % (ns / 1e3) if ns < 1e6 else "%.2f ms" % (ns / 1e6)


def growths(call, sizes, times):
    if call in CONSTANT:
        return "-"
    return ", ".join("%.1f" % (times[k] / times[k + 1] * 4 * sizes[k + 1].cells / sizes[k].cells) for k in (1, 0))


def main():
    table = list(cases())
    lines = [c.ours for _, _, sizes in table for c in sizes]
    asked = [sizes[0].rust for call, _, sizes in table if call not in NOT_IN_RUST]
    if "count" in sys.argv:
        ours = counted(sys.argv[1], "clocked", lines)
        rust = iter(counted(sys.argv[2], "bench::timed*", asked))
    else:
        ours = run(sys.argv[1], lines)
        rust = iter(run(sys.argv[2], asked))
    print("| Call | Input | ours | C by hand | ours / C | Rust, from words or grid on | Rust / ours | growth |")
    print("|---|---|---|---|---|---|---|---|")
    for i, (call, name, sizes) in enumerate(table):
        here = ours[3 * i:3 * i + 3]
        mine, peer = here[0]
        whole = 0 if call in NOT_IN_RUST else next(rust)[0]
        row = [shown(mine), shown(peer) if peer else "-", "%.1f" % (mine / peer) if peer else "-", shown(whole) if whole else "-", "%.1f" % (whole / mine) if whole else "-"]
        print("| `%s` | %s | %s | %s |" % (call, name, " | ".join(row), growths(call, sizes, [t for t, _ in here])))


if __name__ == "__main__":
    main()
