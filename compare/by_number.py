"""by_number.py LIBRARY SEED COUNT: COUNT refinements worked out from document 01 (model.py), and every child and birth of each asked for by its number; also past the last, of lists that are
cut, and of numbers that no refinement made. The last line is 'compared N requests, 0 differences'."""
import random
import sys

import calls
import inputs
import model as m
from judge import filled
from port import Port


class Asked:
    def __init__(self, port):
        self.port = port
        self.requests = self.wrong = 0
        self.by_answer = {}

    def ask(self, name, numbers, lists, code, wanted):
        """one call; wanted: kind, length and values of each array of fixed length, which keeps its values where the call is refused"""
        before = [(kind, filled(kind, size)) for kind, size, _ in wanted]
        said, after = self.port.call(name, numbers, lists, before)
        fixed = [old if code >> 32 else new for (_, old), (_, _, new) in zip(before, wanted)]
        self.requests += 1
        self.by_answer[name, code >> 32] = self.by_answer.get((name, code >> 32), 0) + 1
        if said != code or after != [list(v) for _, v in lists] + fixed:
            self.wrong += 1
            if self.wrong < 5:
                print("DIFFERENCE", name, numbers, "said", hex(said), "must be", hex(code), after[len(lists):], "must be", fixed)

    def child(self, number, lists):
        """Child `number` as the lists have it: its parent, and nine numbers of each of the two forms."""
        parents, floats, wholes = (v for _, v in lists)
        have = number < len(parents) and 9 * number + 9 <= min(len(floats), len(wholes))
        form = [[x for i, x in enumerate(v) if i // 9 == number] for v in (floats, wholes)] if have else [[], []]
        self.ask("planner_child_of", [number], lists, parents[number] if have else 12 << 32, [("f64", 9, form[0]), ("i32", 9, form[1])])

    def birth(self, d, number, lists):
        """Birth `number`: as many vertices as stand before the first mark of none."""
        if d > 3:
            return self.ask("planner_birth_of", [d, number], lists, 1 << 32, [("u32", 4, []), ("u32", 4, []), ("f64", 4, [])])
        rows = [m.chunks(v, d + 1) for _, v in lists]
        have = all(number < len(r) and len(r[number]) == d + 1 for r in rows)
        wide = [list(r[number]) + [past] * (3 - d) for r, past in zip(rows, (m.NO_VERTEX, 0, 0))] if have else [[]] * 3
        count = (list(rows[0][number]) + [m.NO_VERTEX]).index(m.NO_VERTEX) if have else 0
        self.ask("planner_birth_of", [d, number], lists, count if have else 12 << 32, [("u32", 4, wide[0]), ("u32", 4, wide[1]), ("f64", 4, wide[2])])


def cut(rnd, lists):
    """the lists as they are, or one of them shorter, or with numbers of no refinement"""
    out = [(k, list(v)) for k, v in lists]
    chance = rnd.random()
    if chance < 0.2:
        k, v = rnd.choice(out)
        del v[rnd.randrange(len(v) + 1):]
    elif chance < 0.3:
        for k, v in out:
            v[:] = [rnd.choice((0, 1, 2 ** 31 - 1)) if k == "i32" else rnd.choice((0, 1, m.NO_VERTEX)) for _ in v]
    return out


def numbers_of(rnd, count):
    return list(range(min(count, 12))) + [count - 1] * (count > 0) + [count, count + 1, rnd.randrange(2 ** 32), 2 ** 32 - 1]


def main():
    port, rnd, count = Port(sys.argv[1]), random.Random(int(sys.argv[2])), int(sys.argv[3])
    asked, done = Asked(port), 0
    while done < count:
        d, words = inputs.random_list(rnd, rnd.choice((2, 3, 4, 9)))
        if m.check_cells(d, words) is not None:
            continue
        cells = m.cells_of(d, words)
        if m.crowded(m.facet_rows(cells)):
            continue
        r = rnd.choice((1, 2, 2, 3, 4, 5))
        if len(cells) * r ** d > 600:
            continue
        made = m.Refined(d, cells, cells, r)
        lists = list(zip(calls.REFINED, calls.refined_lists(d, made)))
        done += 1
        for number in numbers_of(rnd, len(made.parents)):
            asked.child(number, cut(rnd, lists[2:5]))
        for number in numbers_of(rnd, len(made.births)):
            asked.birth(rnd.choice((d, d, d, d, 4, 2 ** 32 - 1)), number, cut(rnd, lists[5:8]))
    print("answers: " + ", ".join("%s %d: %d" % (name, code, n) for (name, code), n in sorted(asked.by_answer.items())))
    print("compared %d requests, %d differences" % (asked.requests, asked.wrong))
    sys.exit(1 if asked.wrong else 0)


if __name__ == "__main__":
    main()
