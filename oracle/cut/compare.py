"""compare.py WHAT COUNT SEED: puts pairs of outlines to the library and to others, says how many differ, and exits with
1 if any does. WHAT is one of the runs at the end of this file; run.sh says what each compares."""
import random
import struct
import sys
from collections import Counter

from geos import by_geos, version, wkt
import library as lib
import rule
import shapes
from spoil import SHARES, bad_pair, flat

SHOWN = 5


class Tally:
    def __init__(self):
        self.pairs = self.differ = 0
        self.seen, self.kinds, self.sizes = Counter(), Counter(), Counter()

    def take(self, fine, what, a, b, *shown):
        self.pairs += 1
        if not fine:
            self.differ += 1
            if self.differ <= SHOWN:
                print("DIFFERENT", what, a, b, *shown)

    def report(self, name):
        print(f"{name}: {self.pairs} pairs, {self.differ} differ")
        for one in (self.kinds, self.sizes, self.seen):
            if one:
                print("  " + ", ".join(f"{k}: {n}" for k, n in sorted(one.items(), key=lambda t: (-t[1], str(t[0])))))
        return self.differ


def transposed(letters):
    return "".join(letters[k] for k in (0, 3, 6, 1, 4, 7, 2, 5, 8))


def size_of(a, b):
    n = max(len(a), len(b))
    return next(f"up to {k} corners" for k in (4, 8, 16, 32, 48, 64) if n <= k)


def answers(a, b):
    """The letters, if the call accepted the pair and left the three numbers; else what it did."""
    word, cells, numbers = lib.related(flat(a), flat(b))
    return lib.letters(cells) if word == 0 and numbers == (7, 7, 7) else f"word {word:x}, {cells.hex()}, {numbers}"


def written_well(a, b, letters):
    """The records: as the rule has them, at an offset and in exact room, and poured they give the same letters."""
    known = rule.records(a, b)
    n, x, y = len(known), flat(a), flat(b)
    wrote = lib.commissioned(x, y, n + 8, 3) == (n, b"\5" * 3 + known + b"\5" * 5)
    exact = lib.commissioned(x, y, n) == (n, known)
    short = lib.commissioned(x, y, n - 1) == (lib.REFUSED + 256 * 12, b"\5" * (n - 1))
    return wrote and exact and short and lib.poured(known) == (0, letters, n, len(set(a) | set(b)))


def sound(count, seed):
    """Sound pairs beside GEOS; what the theorems say; the records. A line of each goes to standard error, for JTS."""
    rnd, t = random.Random(seed), Tally()
    for i in range(count):
        kind = rnd.choice(SHARES)
        a, b = shapes.pair(rnd, kind)
        ours = answers(a, b)
        fine = rule.fault(flat(a), flat(b)) is None and ours == by_geos(a, b)
        fine = fine and answers(b, a) == transposed(ours)
        fine = fine and answers(shapes.walked(rnd, a), shapes.walked(rnd, b)) == ours
        fine = fine and answers(a[::-1], b) == ours and answers(a, b[1:] + b[:1]) == ours
        fine = fine and written_well(a, b, ours)
        t.take(fine, kind, a, b, ours, by_geos(a, b))
        t.kinds[kind] += 1
        t.sizes[size_of(a, b)] += 1
        t.seen[ours] += 1
        print(ours, wkt(a), wkt(b), sep=";", file=sys.stderr)
    return t.report(f"sound pairs, seed {seed}")


# ---- Boxes ----


def stepped(x, y, u, v):
    """A corner at each whole number."""
    return ([(k, y) for k in range(x, u)] + [(u, k) for k in range(y, v)]
            + [(k, v) for k in range(u, x, -1)] + [(x, k) for k in range(v, y, -1)])


def four(x, y, u, v):
    return [(x, y), (u, y), (u, v), (x, v)]


def box_pair(rnd, a, b, how):
    if how == "stepped":
        c, d = stepped(*a), stepped(*b)
    else:
        c, d = shapes.cut_at(four(*a), four(*b)), shapes.cut_at(four(*b), four(*a))
        c, d = [[(int(x), int(y)) for x, y in one] for one in (c, d)]
    return shapes.walked(rnd, c), shapes.walked(rnd, d)


def boxes(count, seed):
    """Every pair of boxes with whole corners from 0 to 4, cut at each other: a corner at each whole number, or only
    where the other one needs it; beside document 01's rules, the library's boxes and GEOS. Both are put to the call
    uncut too: accepted or refused as the fractions say, and where accepted, by the same letters."""
    rnd, t = random.Random(seed), Tally()
    ends = [(p, q) for p in range(5) for q in range(p + 1, 5)]
    all_boxes = [(x, y, u, v) for x, u in ends for y, v in ends]
    for a in all_boxes:
        for b in all_boxes:
            known = rule.box_letters(a, b)
            for how in ("stepped", "cut"):
                c, d = box_pair(rnd, a, b, how)
                ours = answers(c, d)
                fine = ours == known == by_geos(c, d) and lib.boxes_related(a, b) == (0, known)
                t.take(fine, how, c, d, ours, known)
                t.kinds[how] += 1
                t.seen[known] += 1
            t.take(*judged(flat(four(*a)), flat(four(*b)), t, known))
            t.kinds["uncut"] += 1
    return t.report("boxes")


# ---- Bad pairs ----


def judged(a, b, t, letters=None):
    """Whether a pair is accepted or refused as the fractions say, with nothing written otherwise than that says."""
    due = rule.fault(a, b)
    word, cells, numbers = lib.related(a, b)
    wrote, buffer = lib.commissioned(a, b)
    t.seen["accepted" if due is None else f"{due[0]} of {'ABX'[due[1]]}"] += 1
    if due is None:
        said = lib.letters(cells)
        known = letters or by_geos(rule.corners_of(a), rule.corners_of(b))
        fine = (word, said, numbers) == (0, known, (7, 7, 7)) and lib.poured(buffer[:wrote])[:2] == (0, known)
    else:
        refusal = lib.REFUSED + 256 * due[0]
        fine = (word, cells, numbers) == (refusal, b"\t" * 9, due[1:])
        fine = fine and wrote == refusal and buffer == b"\5" * lib.MOST_BYTES
    return fine, due, a, b, hex(word), cells.hex(), numbers


def bad(count, seed):
    """Any pairs, beside the reading by fractions: which is refused, by what number, and with which pair of sides."""
    rnd, t = random.Random(seed), Tally()
    for _ in range(count):
        a, b = bad_pair(rnd)
        t.take(*judged(a, b, t))
    return t.report(f"any pairs, seed {seed}")


# ---- The inside lies where the label says ----


def sign(v):
    return (v > 0) - (v < 0)


def nodes(a, b):
    """The records of two outlines: of each corner its four positions, and of each end its direction and label."""
    word, buffer = lib.commissioned(flat(a), flat(b))
    assert word < lib.REFUSED
    at = 0
    for p in a + [q for q in b if q not in a]:
        length, ends = struct.unpack(">H", buffer[at : at + 2])[0], buffer[at + 8]
        yield p, buffer[at + 4 : at + 8], [buffer[at + 9 + 15 * k : at + 24 + 15 * k] for k in range(ends)]
        at += 2 + length
    assert at == word


def side_fine(p, end, outlines):
    """On the middle of a side, and next to it on its left and on its right, R-8 says what the label says."""
    dx, dy = struct.unpack(">ii", end[:8])
    which = 0 if end[9] else 1
    label, outline = end[9 + 3 * which : 12 + 3 * which], outlines[which]
    mx, my = p[0] + dx // 2, p[1] + dy // 2
    ox, oy = -sign(dy), sign(dx)
    said = [lib.position(outline, mx + k * ox, my + k * oy) for k in (0, 1, -1)]
    return end[8] == 1 and bytes(said) == label and not any(end[12 - 3 * which : 15 - 3 * which])


def labels(count, seed):
    """The coordinates are taken times an even number, so that middles are whole. With coordinates up to r in size the
    middle of a side is at least 1 / (6 r) from every side that it isn't on; times 8.6 r or more that is more than the
    step to a point beside it, so no other side lies between."""
    rnd, t = random.Random(seed), Tally()
    while t.pairs < count:
        kind = rnd.choice(SHARES[:-1])
        a, b = shapes.drawn(rnd, kind)
        r = max(abs(v) for c in a + b for v in c)
        by = (shapes.LIMIT - 1) // r // 2 * 2
        if by < 9 * r:
            continue
        a, b = [[(x * by, y * by) for x, y in shapes.walked(rnd, one)] for one in (a, b)]
        outlines, fine = [flat(a), flat(b)], True
        for p, positions, ends in nodes(a, b):
            at = bytes(lib.position(one, *p) for one in outlines)
            fine = fine and positions == at + at and all(side_fine(p, end, outlines) for end in ends)
            t.seen["ends"] += len(ends)
        t.take(fine, kind, a, b)
        t.kinds[kind] += 1
        t.seen["sides"] += len(a) + len(b)
    return t.report(f"labels, seed {seed}")


RUNS = {"sound": sound, "boxes": boxes, "bad": bad, "labels": labels}

if __name__ == "__main__":
    print("GEOS", version())
    sys.exit(1 if RUNS[sys.argv[1]](int(sys.argv[2]), int(sys.argv[3])) else 0)
