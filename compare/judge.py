"""One call on lent lists, held to what it must give: the answer, every result list, every working list and every input list afterwards."""
import subprocess


class Rust:
    """The oracle: one request a line (oracle/FORMAT.md)."""

    def __init__(self, program):
        self.p = subprocess.Popen([program], stdin=subprocess.PIPE, stdout=subprocess.PIPE, stderr=subprocess.DEVNULL, text=True, bufsize=1 << 16)
        self.last = (None, None)
        self.asked = 0

    def ask(self, line):
        if self.last[0] != line:
            self.asked += 1
            self.p.stdin.write(line + "\n")
            self.p.stdin.flush()
            self.last = (line, self.p.stdout.readline().rstrip("\n"))
        return self.last[1]

    def fields(self, line):
        """the answer's fields, or None where the Rust panicked"""
        a = self.ask(line)
        return dict(f.split("=", 1) for f in a[3:].split(" ")) if a.startswith("ok ") else None


class Want:
    """What a call must come to. early: a refusal before the room is tested. need: lengths of the four working lists (None: the call has none). late: a refusal after
    that. results: (kind, values) of each result list. value: the answer. tells: the result of fixed length is handed out beside the late refusal too. A refusal is
    (number, place)."""

    def __init__(self, early=None, need=None, late=None, value=0, results=(), tells=False):
        self.early, self.need, self.late, self.value, self.results, self.tells = early, need, late, value, list(results), tells


PATTERN = {"u8": 0x81, "u32": 0xA5A5A500, "i32": -0x5A5A5B00, "f64": 0x7FF8DEADBEEF0000}     # none of these is a result: a file's bytes are below 128


FILLED = {}


def filled(kind, n):
    kept = FILLED.setdefault(kind, [])
    if len(kept) < n:
        kept += [PATTERN[kind] + i % 101 for i in range(len(kept), n)]
    return kept[:n]


class Judge:
    def __init__(self, port, rust, rnd):
        self.port, self.rust, self.rnd = port, rust, rnd
        self.requests = self.differences = 0
        self.by_call, self.by_answer = {}, {}
        self.missing = set()
        self.shown = {}

    def differs(self, *what):
        self.differences += 1
        self.shown[what[0]] = self.shown.get(what[0], 0) + 1
        if self.shown[what[0]] <= 4:
            print("DIFFERENCE", *what)

    def agree(self, what, ours, theirs):
        """what document 01 says against what the Rust says"""
        if ours != theirs:
            self.differs("document 01 and the Rust:", what, "document", str(ours)[:300], "Rust", str(theirs)[:300])

    def lengths(self, exact, kinds, refused):
        """lengths to lend: exact, longer, or one short"""
        rnd = self.rnd
        if refused:
            return [rnd.randrange(8) for _ in kinds]
        out = [n + rnd.choice((0, 0, 1, 3)) for n in exact]
        if rnd.random() < 0.15:
            able = [i for i, n in enumerate(exact) if n]
            if able:
                i = rnd.choice(able)
                out[i] = rnd.choice((exact[i] - 1, exact[i] - 1, 0))
        return out

    def lacks(self, name):
        """whether the library has no such call, which is an error in the end"""
        if not self.port.has(name):
            self.missing.add(name)
        return name in self.missing

    def call(self, name, numbers, inputs, kinds, want, fixed=None):
        """kinds: the kinds of the result lists. fixed: kind and values of a result of fixed length, and what it is filled with first."""
        if self.lacks(name):
            return
        rnd = self.rnd
        refused = want.early or want.late
        lens = self.lengths([len(v) for _, v in want.results], kinds, refused)
        outs = [(k, filled(k, n)) for k, n in zip(kinds, lens)]
        room = []
        if want.need is not None or (want.early and self.LISTS.get(name, 4)):
            have = self.lengths(want.need, want.need, False) if want.need is not None else [rnd.randrange(9) for _ in range(self.LISTS.get(name, 4))]
            room = [("u32", filled("u32", n)) for n in have]
        arrays = [] if fixed is None else [(fixed[0], filled(fixed[0], fixed[2]))]
        answer, after = self.port.call(name, numbers, list(inputs) + outs + room, arrays)
        # what must come
        cleared, results, code = False, None, None
        if want.early:
            code = want.early
        elif room and any(len(r[1]) < n for r, n in zip(room, want.need)):
            code = (12, 0)
        else:
            cleared = bool(room)
            if want.late:
                code = want.late
            elif any(len(o[1]) < len(v) for o, (_, v) in zip(outs, want.results)):
                code = (12, 0)
            else:
                code, results = (0, want.value), [v for _, v in want.results]
        expect = [list(v) for _, v in inputs]
        for i, (_, old) in enumerate(outs):
            new = results[i] if results is not None else []
            expect.append(list(new) + old[len(new):])
        for i, (_, old) in enumerate(room):
            expect.append([0] * want.need[i] + old[want.need[i]:] if cleared else old)
        if fixed is not None:
            new = list(fixed[1]) if results is not None or (want.tells and cleared and want.late) else []
            expect.append(new + arrays[0][1][len(new):])
        self.requests += 1
        self.by_call[name] = self.by_call.get(name, 0) + 1
        self.by_answer[code[0]] = self.by_answer.get(code[0], 0) + 1
        if (answer >> 32, answer & 0xFFFFFFFF) != code or after != expect:
            shown = [(i, a[:40], e[:40]) for i, (a, e) in enumerate(zip(after, expect)) if a != e]
            self.differs(name, "numbers", numbers, "lists", [(k, v[:40], len(v)) for k, v in inputs], "lent", [len(v) for _, v in outs + room],
                         "said", (answer >> 32, answer & 0xFFFFFFFF), "must be", code, "lists", shown)

    # how many working lists a call has, where it is not four
    LISTS = {name: 0 for name in ("planner_torus", "planner_klein", "planner_moebius", "planner_quasi_uniform", "planner_reduce", "planner_nvertices",
                                  "planner_is_orientation_preserving", "planner_edge_length_sq")}
    LISTS.update(planner_refine=10, planner_refine_with=10, planner_refine_by_steps=10, planner_refine_with_by_steps=10)
    LISTS.update(planner_corners=0, planner_corners_stepping=0)
