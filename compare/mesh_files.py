"""mesh_files.py LIBRARY SEED COUNT: mesh files read and written by the planner and by the reader and writer below, which are made from the text of the request with `struct`
and share nothing with it. Each call stands on fenced lists; its answer and every list afterwards are compared. Besides COUNT random rounds it takes every prefix and every
one-byte change of the three figures, lengths and counts at their limits, and the largest files. The last line is 'compared N requests, 0 differences'.

mesh_files.py sample SEED COUNT FOLDER: writes the figures, their damaged copies and COUNT random files as the program `figures_mesh_file` reads them, and what it must say."""
import os
import random
import struct
import sys

import inputs
import judge
import model as m
import port
from calls import need
from judge import Judge, Want

port.CODES.setdefault("u8", ("B", 1))
judge.PATTERN.setdefault("u8", 1)
LAST = 2**32 - 1
# a point, an edge halved, a triangle refined by 2
FIGURES = ["0600000001000000010006000000020000000000020000000400",
           "060000000100010002000a000000020000000000020000000a000000020002000000010000001600000003000200000002000200000000000100010000000100020000000400",
           "060000000100020004000e00000002000000000003000000040000000e00000002000300000001000000050000000e00000002000400000005000000020000000e00"
           "00000200030000000400000005000000160000000300030000000200020000000000010001000000010016000000030004000000020002000000000001000200000001001600000003000500000002000200010000000100020000000100020000000400"]


class Bad(Exception):
    """a file that is refused with this number"""


# ---- the reader and the writer


class Source:
    def __init__(self, data):
        self.data, self.at = data, 0

    def take(self, form):
        size = struct.calcsize(form)
        if len(self.data) - self.at < size:
            raise Bad(20)
        (n,) = struct.unpack_from(form, self.data, self.at)
        self.at += size
        return n

    def opening(self):
        length = self.take("<I")
        if length < 2:
            raise Bad(22)
        kind = self.take("<H")
        if kind not in (1, 2, 3, 4):
            raise Bad(21)
        return length, kind


def hold(test):
    if not test:
        raise Bad(22)


def cell(word):
    return tuple(reversed(sorted(word)))


def read(data):
    """the dimension, the words, and for each birth its number, R and pairs"""
    s = Source(data)
    hold(s.opening() == (6, 1))
    d, count = s.take("<H"), s.take("<H")
    words = []
    for _ in range(count):
        hold(s.opening() == (2 + 4 * (d + 1), 2))
        if len(s.data) - s.at < 4 * (d + 1):
            raise Bad(20)
        word = struct.unpack_from("<%dI" % (d + 1), s.data, s.at)
        s.at += 4 * (d + 1)
        hold(d > m.MOST_D or not words or cell(words[-1]) < cell(word))
        words.append(word)
    vertices = 1 + max((max(w) for w in words), default=-1)
    births = []
    while True:
        length, kind = s.opening()
        if kind == 4:
            hold(length == 2)
            hold(not births or births[-1][0] + 1 == vertices)
            hold(s.at == len(data))
            return d, words, births
        hold(kind == 3 and length >= 10 and (length - 10) % 6 == 0)
        number = s.take("<I")
        hold(number < vertices and (not births or number == births[-1][0] + 1))
        first = births[0][0] if births else number
        r = s.take("<H")
        hold(2 <= r <= 64 and (not births or r == births[0][1]))
        count = s.take("<H")
        hold(count >= 2 and length == 10 + 6 * count)
        pairs = []
        for _ in range(count):
            v = s.take("<I")
            hold(v < first and (not pairs or pairs[-1][0] < v))
            w = s.take("<H")
            hold(w > 0)
            pairs.append((v, w))
        hold(sum(w for _, w in pairs) == r)
        births.append((number, r, pairs))


def record(kind, payload):
    return struct.pack("<IH", 2 + len(payload), kind) + payload


def write(d, words, births):
    """the file of words and births that keep the rules"""
    out = [record(1, struct.pack("<HH", d, len(words)))]
    out += [record(2, struct.pack("<%dI" % (d + 1), *w)) for w in words]
    for number, r, pairs in births:
        out.append(record(3, struct.pack("<IHH", number, r, len(pairs)) + b"".join(struct.pack("<IH", v, w) for v, w in pairs)))
    return b"".join(out) + record(4, b"")


def flat(births):
    """births and pairs as flat lists"""
    return [x for n, r, ps in births for x in (n, r, len(ps))], [x for _, _, ps in births for p in ps for x in p]


def whole(births, pairs):
    """the births of flat lists, or None where a number or a pair is missing or left over"""
    out, at = [], 0
    if len(births) % 3:
        return None
    for n, r, c in m.chunks(births, 3):
        if len(pairs) - at < 2 * c:
            return None
        out.append((n, r, m.chunks(pairs[at:at + 2 * c], 2)))
        at += 2 * c
    return out if at == len(pairs) else None


def keeps(d, words, births, pairs):
    """whether lists whose cells are checked keep the rules of a mesh file"""
    ws = m.chunks(words, d + 1)
    if any(cell(a) >= cell(b) for a, b in zip(ws, ws[1:])):
        return False
    bs = whole(births, pairs)
    if bs is None:
        return False
    for k, (n, r, ps) in enumerate(bs):
        vs = [v for v, _ in ps]
        if n != bs[0][0] + k or r != bs[0][1] or not 2 <= r <= 64 or len(ps) < 2:
            return False
        if vs != sorted(set(vs)) or vs[-1] >= bs[0][0] or any(w < 1 for _, w in ps) or sum(w for _, w in ps) != r:
            return False
    return not bs or bs[-1][0] == max(words)


# ---- the calls


def cell_list(d, words):
    """the refusal before the room, the need, and the refusal after it"""
    early = m.check_cells(d, words)
    if early:
        return early, None, None
    return None, need(d, len(words)), (7, 0) if m.crowded(m.facet_rows(m.cells_of(d, words))) else None


def ask_read(j, data):
    """a file read, and where it is accepted written again"""
    try:
        d, words, births = read(data)
    except Bad as bad:
        j.call("planner_read_mesh", [], [("u8", list(data))], ["u32"] * 3, Want(early=(bad.args[0], 0)), ("u32", [], 3))
        return None
    words = [v for w in words for v in w]
    bs, ps = flat(births)
    early, lent, late = cell_list(d, words)
    want = Want(early, lent, late, len(words) // (d + 1), [("u32", words), ("u32", bs), ("u32", ps)])
    j.call("planner_read_mesh", [], [("u8", list(data))], ["u32"] * 3, want, ("u32", [d, len(births), len(ps) // 2], 3))
    if early or late:
        return None
    ask_write(j, d, words, bs, ps, bytes(data))
    return d, words, bs, ps


def ask_write(j, d, words, births, pairs, data=None):
    early, lent, late = cell_list(d, words)
    if not early and not late and not keeps(d, words, births, pairs):
        late = (22, 0)
    file = b""
    if not early and not late:
        file = write(d, m.chunks(words, d + 1), whole(births, pairs))
        if data is not None and file != data:
            j.differs("accepted and written otherwise", data.hex(), file.hex())
    lists = [("u32", words), ("u32", births), ("u32", pairs)]
    j.call("planner_write_mesh", [d], lists, ["u8"], Want(early, lent, late, len(file), [("u8", list(file))]))


# ---- inputs


def accepted(rnd, most=24):
    """a cell list to which none of 1 to 6 applies"""
    while True:
        d, ws = inputs.random_list(rnd, most)
        if m.check_cells(d, ws) is None:
            return d, ws


def made_up(rnd):
    """words in the order of their cells, the last of their vertices born of the others in any way"""
    d, ws = accepted(rnd)
    seen = {cell(w): w for w in m.chunks(ws, d + 1)}
    words = [seen[c] for c in sorted(seen)]
    vertices = max(ws) + 1
    first = rnd.randrange(2, vertices + 1) if vertices >= 2 else vertices
    r, births = rnd.randrange(2, 65), []
    for n in range(first, vertices):
        c = rnd.randrange(2, min(r, first) + 1)
        cuts = sorted(rnd.sample(range(1, r), c - 1))
        weights = [b - a for a, b in zip([0] + cuts, cuts + [r])]
        births.append((n, r, list(zip(sorted(rnd.sample(range(first), c)), weights))))
    return d, words, births


def refined(rnd):
    """what a refinement hands out"""
    d, ws = accepted(rnd, 8)
    cells = m.cells_of(d, ws)
    r = rnd.choice((2, 2, 2, 3, 4)) if d > 1 else rnd.choice((2, 3, 5, 64))
    got = m.Refined(d, cells, cells, r)
    return d, got.words, [(got.coarse + k, r, list(ps)) for k, ps in enumerate(got.births)]


def broken(rnd, d, words, births, pairs):
    """lists with one or two things wrong"""
    lists = [list(words), list(births), list(pairs)]
    for _ in range(rnd.choice((1, 1, 2))):
        which = rnd.choice((0, 1, 1, 2, 2))
        part = lists[which]
        how = rnd.randrange(6)
        if how == 0 and part:
            part[rnd.randrange(len(part))] = rnd.choice((0, 1, 2, 64, 65, 65535, 65536, 4095, 4096, LAST))
        elif how == 1 and part:
            i = rnd.randrange(len(part))
            part[i] = max(0, part[i] + rnd.choice((-1, 1)))
        elif how == 2 and part:
            i = rnd.randrange(len(part))
            del part[i:i + rnd.choice((1, 2, 3))]
        elif how == 3:
            part.append(rnd.choice((0, 1, 2)))
        elif how == 4:
            n = (d + 1, 3, 2)[which]
            rows = m.chunks(part, n) if len(part) % n == 0 else []
            if len(rows) > 1:
                i = rnd.randrange(len(rows) - 1)
                rows[i], rows[i + 1] = rows[i + 1], rows[i]
                lists[which] = [x for row in rows for x in row]
        elif len(part) > 1:
            i, k = rnd.sample(range(len(part)), 2)
            part[i], part[k] = part[k], part[i]
    return [d if rnd.random() < 0.97 else rnd.choice((4, 5, LAST))] + lists


def records_of(data):
    out, at = [], 0
    while at < len(data):
        n = 4 + struct.unpack_from("<I", data, at)[0]
        out.append(data[at:at + n])
        at += n
    return out


def damaged(rnd, data):
    """a file with one or two things wrong: bytes, fields, records, its end"""
    for _ in range(rnd.choice((1, 1, 1, 2))):
        if not data:
            break
        how = rnd.randrange(8)
        i = rnd.randrange(len(data))
        if how == 0:
            data = data[:i] + bytes([rnd.randrange(256)]) + data[i + 1:]
        elif how == 1:
            data = data[:i] + bytes([data[i] ^ 1 << rnd.randrange(8)]) + data[i + 1:]
        elif how == 2:
            data = data[:i]
        elif how == 3:
            data = data + bytes(rnd.randrange(256) for _ in range(rnd.choice((1, 2, 6))))
        elif how == 4:
            n = struct.pack("<I", rnd.choice((0, 1, 2, 3, 6, 10, 16, 22, 28, 65535, 65536, 2**31, LAST)))
            data = data[:i] + n[:rnd.choice((2, 4))] + data[i + 4:]
        else:
            try:
                rs = records_of(data)
            except struct.error:
                continue
            k = rnd.randrange(len(rs))
            if how == 5:
                del rs[k]
            elif how == 6:
                rs.insert(rnd.randrange(len(rs) + 1), rs[k])
            elif len(rs) > 1:
                x = rnd.randrange(len(rs) - 1)
                rs[x], rs[x + 1] = rs[x + 1], rs[x]
            data = b"".join(rs)
    return data


def at_the_limits():
    """headers, lengths and counts at their limits; cut after each field"""
    head = record(1, struct.pack("<HH", 1, 1)) + record(2, struct.pack("<II", 0, 1))
    for d in (0, 1, 3, 4, 255, 65535):
        for count in (0, 1, 2, 4096, 4097, 65535):
            yield record(1, struct.pack("<HH", d, count)) + record(4, b"")
            yield record(1, struct.pack("<HH", d, count))
    for kind in range(7):
        for length in (0, 1, 2, 3, 5, 6, 7, 8, 9, 10, 11, 16, 22, 28, 394, 400, 393220, 65535, LAST - 5, LAST):
            yield struct.pack("<IH", length, kind)
            yield head + struct.pack("<IH", length, kind)
            yield head + struct.pack("<IHIHH", length, kind, 1, 2, 65535)
            yield head + struct.pack("<IHIHHIH", length, kind, 1, 2, 2, 0, 1)
            yield head + struct.pack("<I", length)
    wide = record(1, struct.pack("<HH", 4, 2)) + record(2, struct.pack("<5I", 0, 1, 2, 3, 5)) + record(2, struct.pack("<5I", 0, 1, 2, 3, 4))
    yield wide + record(4, b"")
    yield wide
    yield record(1, struct.pack("<HH", 65535, 1)) + record(2, struct.pack("<65536I", *range(65536))) + record(4, b"")
    yield record(1, struct.pack("<HH", 0, 65535)) + b"".join(record(2, struct.pack("<I", v)) for v in range(65535)) + record(4, b"")
    for v in (4095, 4096, LAST - 1, LAST):
        yield record(1, struct.pack("<HH", 1, 1)) + record(2, struct.pack("<II", 0, v)) + record(4, b"")
        yield record(1, struct.pack("<HH", 1, 1)) + record(2, struct.pack("<II", 0, v)) + record(3, struct.pack("<IHHIHIH", v, 2, 2, 0, 1, 1, 1)) + record(4, b"")


def largest():
    """the most cells, the most vertices, the most births and the most pairs of a birth"""
    row = [(k, k + 1) for k in range(4095)]
    yield 1, row, []
    yield 1, row, [(n, 64, [(0, 1), (1, 63)]) for n in range(2, 4096)]
    yield 1, row, [(n, 64, [(v, 1) for v in range(64)]) for n in range(64, 4096)]
    yield 3, m.cells_of(3, [v for w in m.words_of(3, [8, 256, 8, 256, 10, 256]) for v in w]), []
    yield 0, [(k,) for k in range(4096)], [(n, 2, [(0, 1), (1, 1)]) for n in range(2, 4096)]


# ---- the run


def figures(j):
    for figure in FIGURES:
        data = bytes.fromhex(figure)
        if ask_read(j, data) is None:
            j.differs("a figure is refused", figure)
        for n in range(len(data)):
            ask_read(j, data[:n])
        for i in range(len(data)):
            for b in range(256):
                if b != data[i]:
                    ask_read(j, data[:i] + bytes([b]) + data[i + 1:])
        ask_read(j, data + b"\0")


def round_of(j, rnd):
    d, words, births = rnd.choice((made_up, refined))(rnd)
    lists = [v for w in words for v in w], *flat(births)
    data = write(d, words, births)
    if ask_read(j, data) != (d, *lists) and m.check_cells(d, lists[0]) is None:
        if not m.crowded(m.facet_rows(m.cells_of(d, lists[0]))):
            j.differs("written and read otherwise", d, lists)
    for _ in range(3):
        ask_read(j, damaged(rnd, data))
        ask_write(j, *broken(rnd, d, *lists))


def run(library, seed, count):
    rnd = random.Random(seed)
    j = Judge(port.Port(library), None, rnd)
    figures(j)
    for data in at_the_limits():
        ask_read(j, data)
    for d, words, births in largest():
        ask_read(j, write(d, words, births))
    for _ in range(count):
        round_of(j, rnd)
    print("by call", j.by_call)
    print("by answer", dict(sorted(j.by_answer.items())))
    print("missing", sorted(j.missing)) if j.missing else None
    print("compared %d requests, %d differences" % (j.requests, j.differences))
    return 1 if j.differences or j.missing else 0


# ---- the stored sample

MOST = 512                    # bytes of a file that `figures_mesh_file` reads
ALL = 65536                   # bytes of its input


def said(data):
    """the line of `figures_mesh_file`: the refusal's number and place, or 0, the dimension, how many cells, births and pairs, and the bytes written again"""
    try:
        d, words, births = read(data)
    except Bad as bad:
        return "%d 0" % bad.args[0]
    words = [v for w in words for v in w]
    early, _, late = cell_list(d, words)
    if early or late:
        return "%d %d" % (early or late)
    return "0 %d %d %d %d %s" % (d, len(words) // (d + 1), len(births), sum(len(ps) for _, _, ps in births), write(d, m.chunks(words, d + 1), births).hex())


def sample(seed, count, folder):
    rnd = random.Random(seed)
    files = [bytes.fromhex(f) for f in FIGURES]
    files += [bytes.fromhex(FIGURES[1])[:n] for n in range(70)] + [bytes.fromhex(FIGURES[1]) + b"\0"]
    files += [f for f in at_the_limits() if len(f) <= 64][:160]
    files += [record(1, struct.pack("<HH", 2, 3)) + b"".join(record(2, struct.pack("<3I", 0, 1, v)) for v in (2, 3, 4)) + record(4, b"")]
    while count:
        d, words, births = rnd.choice((made_up, refined))(rnd)
        data = write(d, words, births)
        if rnd.random() < 0.7:
            data = damaged(rnd, data)
        if 0 < len(data) <= MOST:
            files.append(data)
            count -= 1
    assert sum(2 * len(data) + 1 for data in files) <= ALL, "too many files"
    with open(os.path.join(folder, "stdin"), "w") as requests, open(os.path.join(folder, "stdout"), "w") as answers:
        for data in files:
            requests.write(data.hex() + "\n")
            answers.write(said(data) + "\n")


if __name__ == "__main__":
    if sys.argv[1] == "sample":
        sample(int(sys.argv[2]), int(sys.argv[3]), sys.argv[4])
    else:
        sys.exit(run(sys.argv[1], int(sys.argv[2]), int(sys.argv[3])))
