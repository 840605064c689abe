"""Prints lines for `replay`: the two calls on outlines, with GEOS's letters and the answers of rule.py. The library isn't
asked. crates/replay/stdin says the form of a line."""
import random
import struct
from collections import Counter

from geos import by_geos, version
import rule
import shapes
from spoil import bad_pair, flat

REFUSED = 1 << 31
MOST_NUMBERS = 150
BUFFER = 600
EACH = 40
REFUSALS = 12
HEAD = f"""\
# o misonkandi_relate_outlines, c misonkandi_commission: given are the numbers of A, as many as a says, then those of B, four
# bytes each. Of o the cells lent are nines; due are the nine cells, then the three numbers, eight bytes each, which were 9
# before. Of c due is a buffer of {BUFFER} bytes, all 9 before, and b is the offset.
# o, accepted: the letters of GEOS {version()}'s `relate`. Refused, and c: request R-10's sentences read once more, by
# exact fractions (oracle/cut/rule.py); GEOS refuses nothing and has no records. Made by: sh oracle/cut/run.sh --sample"""


def line(letter, cells, word, a, b, offset, due):
    head = bytes(cells) + struct.pack(">III", word, len(a), offset) + b"\0"
    given = struct.pack(f">{len(a) + len(b)}i", *a, *b)
    print(letter + (head + struct.pack(">H", len(given)) + given + due).rstrip(b"\0").hex())


def related(a, b):
    due = rule.fault(a, b)
    if due:
        line("o", [9] * 9, REFUSED + 256 * due[0], a, b, 0, b"\t" * 9 + struct.pack(">QQQ", *due[1:]))
        return
    letters = by_geos(rule.corners_of(a), rule.corners_of(b))
    line("o", [9] * 9, 0, a, b, 0, bytes("F012".index(c) for c in letters) + struct.pack(">QQQ", 9, 9, 9))


def commissioned(a, b, offset):
    due, buffer = rule.fault(a, b), b"\t" * BUFFER
    if due:
        line("c", [0] * 9, REFUSED + 256 * due[0], a, b, offset, buffer)
        return
    known = rule.records(rule.corners_of(a), rule.corners_of(b))
    if offset + len(known) > BUFFER:
        line("c", [0] * 9, REFUSED + 256 * 12, a, b, offset, buffer)
        return
    line("c", [0] * 9, len(known), a, b, offset, buffer[:offset] + known + buffer[offset + len(known) :])


def sound(rnd):
    for kind in shapes.KINDS:
        for k in range(EACH):
            a = b = None
            while a is None or len(a) + len(b) > MOST_NUMBERS:
                a, b = [flat(one) for one in shapes.pair(rnd, kind)]
            related(a, b)
            if k % 2:
                continue
            room = BUFFER - len(rule.records(rule.corners_of(a), rule.corners_of(b)))
            commissioned(a, b, rnd.choice([0, 3, max(room, 0), max(room + 1, 0), BUFFER, BUFFER + 1]))


def refused(rnd):
    """As many of each refusal of each outline."""
    seen = Counter()
    while len(seen) < 9 or min(seen.values()) < REFUSALS:
        a, b = bad_pair(rnd)
        due = rule.fault(a, b)
        if due is None or len(a) + len(b) > MOST_NUMBERS or seen[due[:2]] == REFUSALS:
            continue
        seen[due[:2]] += 1
        related(a, b)
        if seen[due[:2]] <= 2:
            commissioned(a, b, 0)


def main():
    rnd = random.Random(1)
    print(HEAD)
    sound(rnd)
    refused(rnd)


main()
